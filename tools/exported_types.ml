(* Prints the types that compiled interfaces export, in modules inside them too: lines of the interface's folder and a type,
   at `int` for its parameters. Standard input has the names of the .cmi files, one a line. *)

open Types

let print_type folder owner name declaration =
  let arguments = List.map (fun _ -> "int") declaration.type_params in
  let prefix =
    match arguments with
    | [] -> ""
    | [ argument ] -> argument ^ " "
    | arguments -> "(" ^ String.concat ", " arguments ^ ") "
  in
  Printf.printf "%s\t%s%s.%s\n" folder prefix owner name

(* A class has a type more, by a name that no program can write. *)
let is_written name = not (String.contains name '#')

let rec print_signature folder owner signature =
  let print_item = function
    | Sig_type (id, declaration, _, Exported) when is_written (Ident.name id) ->
        print_type folder owner (Ident.name id) declaration
    | Sig_module (id, Mp_present, { md_type = Mty_signature inner; _ }, _, Exported) ->
        print_signature folder (owner ^ "." ^ Ident.name id) inner
    | _ -> ()
  in
  List.iter print_item signature

let rec print_interfaces () =
  match read_line () with
  | exception End_of_file -> ()
  | file ->
      let { Cmi_format.cmi_name; cmi_sign; _ } = Cmi_format.read_cmi file in
      print_signature (Filename.dirname file) cmi_name cmi_sign;
      print_interfaces ()

let () = print_interfaces ()
