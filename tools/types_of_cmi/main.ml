(* Prints the type declarations that omarshal needs to check values of an OCaml type, read from compiled interfaces.

   The compiler's own library finds and reads the `.cmi` files, so a path means here what it means in a program:
   aliases of modules, inclusions and applied functors are followed. A type is reached from the requested one by its
   parts. Those whose representation omarshal cannot state are refused, each with the way to it; with --any nothing is
   asked of them, and each is reported.

   tools/build_types_of_cmi.sh builds it for OCaml 4.13 to 5.4. What differs between these is in compat/. It was tried
   with 4.13.1, 4.14.1, 5.3.0 and 5.4.1. *)

open Types
open Declarations
open Implementations
open Reading
open Groups
open Printing

let program = "types_of_cmi"

(* {1 Words} *)

let usage =
  "types_of_cmi [-I FOLDER].. [FOLDER/].. [FILE.cmi].. [--cmt] [--any] [--declare DECLARATION].. TYPE\n\n\
   Prints the declarations that omarshal needs to check values of TYPE, and on standard error\n\
   the type to give to omarshal. TYPE is an OCaml type without variables, as `int list Foo.t` or\n\
   `string Map.Make(String).t`. Its modules are looked for as .cmi files in the folders, in those\n\
   of the files, in the current folder and in the standard library.\n\n\
   DECLARATION says what a type is that its module hides, or that has no form, as\n\
   \"'a Foo.t = Nil | More of 'a * 'a Foo.t\". Its left side is the type's full name; types of its\n\
   own may follow with `and`. Of a part of type `_` nothing is asked: \"Foo.t = _\", or `Foo.t * _`.\n\n\
   A part that no value has is the variable 'none, and so TYPE for omarshal may have this variable.\n\n\
   With --any each part that has no form is `_`. Each part of which less is asked than OCaml has\n\
   is reported on standard error, with the way to it.\n\n\
   Status 0: done. 1: a type has no form in omarshal, each such type is reported with the way to it;\n\
   or nothing would be asked of TYPE.\n\
   2: wrong words.\n"

type words = {
  folders : string list;
  looks_inside : bool;
  lets_any : bool;
  by_hand : string list;
  requested : string;
}

let read_words arguments =
  let folders = ref [] and looks_inside = ref false and lets_any = ref false in
  let by_hand = ref [] and types = ref [] in
  let add list word = list := word :: !list in
  let add_file file =
    if Sys.file_exists file then add folders (Filename.dirname file) else wrong_words "no file %s" file
  in
  (* A type has no `/` in it, and a folder is given with one. *)
  let add_folder word = if Sys.file_exists word then add folders word else wrong_words "no folder %s" word in
  let add_included word =
    if not (Sys.file_exists (Misc.expand_directory Config.standard_library word)) then
      Printf.eprintf "%s: no folder %s, which -I gives\n" program word;
    add folders word
  in
  let other word =
    if Filename.check_suffix word ".cmi" then add_file word
    else if String.contains word '/' || word = "." || word = ".." then add_folder word
    else add types word
  in
  let specification =
    [
      ("-I", Arg.String add_included, "FOLDER  look for modules there; +x is folder x of the standard library");
      ("--cmt", Arg.Set looks_inside, " look in .cmt files for types that interfaces hide or do not have");
      ("--any", Arg.Set lets_any, " take _ for each part that has no form");
      ("--declare", Arg.String (add by_hand), "DECLARATION  take this for the type; may be repeated");
    ]
  in
  Arg.parse_argv arguments specification other usage;
  match !types with
  | [ requested ] ->
      let folders = List.rev !folders and by_hand = List.rev !by_hand in
      { folders; looks_inside = !looks_inside; lets_any = !lets_any; by_hand; requested }
  | [] -> wrong_words "TYPE is missing"
  | _ -> wrong_words "more than one TYPE"

(* A word as a shell reads it. *)
let quoted word =
  let is_plain = function 'a' .. 'z' | 'A' .. 'Z' | '0' .. '9' | '_' | '-' | '+' | '.' | '/' -> true | _ -> false in
  let is_special = function '"' | '$' | '`' | '\\' | '!' -> true | _ -> false in
  if word <> "" && String.for_all is_plain word then word
  else if String.contains word '\'' && not (String.exists is_special word) then "\"" ^ word ^ "\""
  else Filename.quote word

(* The words on lines of their own, each option with its argument. *)
let rec word_lines = function
  | (("-I" | "--declare") as option) :: argument :: rest -> (option ^ " " ^ quoted argument) :: word_lines rest
  | word :: rest -> quoted word :: word_lines rest
  | [] -> []

(* {1 The types that words name} *)

(* Runs `read`; what the compiler reports then is a fault of the word. *)
let in_word word read =
  try read () with
  | Wrong_words _ as error -> raise error
  | error -> wrong_words "%s: %s" word (Library.message error)

(* `_` is the name of a type that is abstract. *)
let add_any environment =
  let add environment (_, declaration) =
    Env.add_type ~check:false (Ident.create_scoped ~scope:Ident.lowest_scope any_name) declaration environment
  in
  List.fold_left add environment (Library.type_declarations environment (Library.signature "type t"))

let environment folders =
  Clflags.include_dirs := List.rev folders;
  Clflags.recursive_types := true;
  ignore (Warnings.parse_options false "-a");
  Warnings.parse_alert_option "--all";
  Compmisc.init_path ();
  add_any (Compmisc.initial_env ())

let rec longident_of_path path =
  match Compat.view path with
  | Ident id -> Longident.Lident (Ident.name id)
  | Dot (path, name) -> Compat.long_dot (longident_of_path path) name
  | Apply (path, argument) -> Compat.long_apply (longident_of_path path) (longident_of_path argument)
  | Extra path -> longident_of_path path

(* The name of a module, by the module that has it, of which the implementation is then in the environment. *)
let rec in_implementation reader name =
  match Env.find_module_by_name name reader.environment with
  | path, _ ->
      let path = Env.normalize_module_path None reader.environment path in
      ignore (path_inside reader path);
      longident_of_path path
  | exception Not_found -> (
      match Compat.name_view name with
      | Long_dot (outer, last) -> Compat.long_dot (in_implementation reader outer) last
      | Long_ident _ | Long_apply -> name)

(* The name of a type, by the implementation of its module where no interface has it. *)
let name_inside (reader : reader) name =
  match Env.find_type_by_name name reader.environment with
  | _ -> name
  | exception Not_found -> (
      match Compat.name_view name with
      | Long_dot (owner, last) when reader.looks_inside -> Compat.long_dot (in_implementation reader owner) last
      | _ -> name)

let names_inside reader =
  let typ mapper ty =
    match (Ast_mapper.default_mapper.typ mapper ty).Parsetree.ptyp_desc with
    | Ptyp_constr (name, arguments) ->
        { ty with ptyp_desc = Ptyp_constr ({ name with txt = name_inside reader name.txt }, arguments) }
    | Ptyp_any -> { ty with ptyp_desc = Ptyp_constr (Location.mknoloc (Longident.Lident any_name), []) }
    | ptyp_desc -> { ty with ptyp_desc }
  in
  { Ast_mapper.default_mapper with typ }

let requested_type reader word =
  in_word word (fun () ->
      let names = names_inside reader in
      let manifest = names.typ names (Parse.core_type (Lexing.from_string word)) in
      let declaration = Ast_helper.Type.mk ~manifest (Location.mknoloc "requested") in
      let signature = [ Ast_helper.Sig.type_ Asttypes.Nonrecursive [ declaration ] ] in
      match Library.type_declarations reader.environment signature with
      | [ (_, { type_manifest = Some ty; _ }) ] -> ty
      | _ -> wrong_words "%s: no type" word)

(* The left side of a declaration by hand: the path of a type, at variables. *)
let left_side reader word text =
  match (Parse.core_type (Lexing.from_string text)).Parsetree.ptyp_desc with
  | Ptyp_constr ({ txt; _ }, arguments) -> (
      let variable { Parsetree.ptyp_desc; _ } =
        match ptyp_desc with Ptyp_var name -> name | _ -> wrong_words "%s: its left side needs variables" word
      in
      let names = List.map variable arguments in
      let name = name_inside reader txt in
      match Env.find_type_by_name name reader.environment with
      | path, { type_arity; _ } when type_arity = List.length names -> (path, names)
      | _, { type_arity; _ } -> wrong_words "%s: the type has %d parameters" word type_arity
      | exception Not_found -> wrong_words "%s: there is no such type" word)
  | _ -> wrong_words "%s: its left side is no type with parameters" word

(* Reads `LEFT = BODY and OTHER = ..`: BODY is typed as the body of a type with a name of its own, which stands for the
   one on the left; the others are types of that declaration alone. *)
let add_by_hand reader word =
  in_word word (fun () ->
      let equals = try String.index word '=' with Not_found -> wrong_words "%s: there is no =" word in
      let path, names = left_side reader word (String.sub word 0 equals) in
      let path = canonical reader path in
      if predeclared path <> None then wrong_words "%s: omarshal has this type" word;
      if Path.Map.mem path reader.by_hand then wrong_words "%s: the type is declared before" word;
      let body = String.sub word equals (String.length word - equals) in
      let text = Printf.sprintf "type %sdeclared_by_hand %s" (print_parameters names) body in
      let inside = names_inside reader in
      let signature = inside.signature inside (Library.signature text) in
      match (signature, Library.type_declarations reader.environment signature) with
      | [ { psig_desc = Psig_type _; _ } ], (id, declaration) :: others ->
          let own_text = text_of_path reader path in
          let owner = try String.sub own_text 0 (String.rindex own_text '.' + 1) with Not_found -> "" in
          let add reader (id, declaration) =
            let texts = Path.Map.add (Path.Pident id) (owner ^ Ident.name id) reader.texts in
            { reader with by_hand = Path.Map.add (Path.Pident id) declaration reader.by_hand; texts }
          in
          let by_hand = Path.Map.add path declaration reader.by_hand in
          let synonyms = Path.Map.add (Path.Pident id) path reader.synonyms in
          List.fold_left add { reader with by_hand; synonyms } others
      | _ -> wrong_words "%s: this is not one declaration" word)

let new_reader environment ~looks_inside ~lets_any =
  {
    environment;
    looks_inside;
    lets_any;
    implementations = [];
    by_hand = Path.Map.empty;
    giving = Path.Set.empty;
    synonyms = Path.Map.empty;
    texts = Path.Map.empty;
    known = Path.Set.empty;
    declarations = [];
    faults = [];
    notes = [];
    instances = [];
    wanted = [];
    waiting = Queue.create ();
  }

(* {1 The program} *)

let print_fault { where; what } =
  let way = match where with [] -> "TYPE" | _ -> String.concat " -> " (List.rev where) in
  Printf.eprintf "%s: %s: %s\n" program way what

let fault_of_note { instead; why } = { why with what = instead ^ " " ^ why.what }

let print_wanted = function
  | [] -> ()
  | files -> Printf.eprintf "%s: not found, and may help: %s\n" program (String.concat ", " (List.sort_uniq compare files))

let print_file reader arguments groups root =
  let names = choose_names reader groups in
  let type_word = print_type names root in
  let made_by = String.concat " \\\n     " (program :: word_lines arguments) in
  let head = Printf.sprintf "Made with OCaml %s by\n   %s\n   TYPE: %s" Sys.ocaml_version made_by type_word in
  print_endline (print_comment head);
  List.iter (fun group -> print_string ("\n" ^ print_group reader names group)) groups;
  prerr_endline type_word

let run arguments =
  let words = read_words arguments in
  let environment = environment words.folders in
  let { looks_inside; lets_any; by_hand; _ } = words in
  let reader = List.fold_left add_by_hand (new_reader environment ~looks_inside ~lets_any) by_hand in
  let requested = requested_type reader words.requested in
  let scope = { variables = []; parameters = []; declared = None; parts = []; enclosing = []; way = []; owner = "requested" } in
  let read_once reader =
    let root = read_type reader scope requested in
    read_waiting reader;
    let declarations, root = with_nothing (if reader.faults = [] then List.rev reader.declarations else []) root in
    (settled_groups reader declarations, root)
  in
  let rec read first =
    let reader = { first with waiting = Queue.create () } in
    match read_once reader with
    | (table, groups), root -> (reader, table, groups, root)
    | exception Gives_index path ->
        let { environment; implementations; _ } = reader in
        read { first with environment; implementations; giving = Path.Set.add path first.giving }
  in
  let reader, table, groups, root = in_word words.requested (fun () -> read reader) in
  let faults = if reader.faults = [] then List.map fault_of_note reader.notes else reader.faults in
  List.iter print_fault (List.rev faults);
  print_wanted reader.wanted;
  if reader.faults <> [] then 1
  else if is_any table root then begin
    Printf.eprintf "%s: %s: nothing is asked of a value of this type\n" program words.requested;
    1
  end
  else begin
    print_file reader (List.tl (Array.to_list arguments)) groups root;
    0
  end

let () =
  let arguments = Array.append [| program |] (Array.sub Sys.argv 1 (Array.length Sys.argv - 1)) in
  let status =
    try run arguments with
    | Wrong_words text ->
        Printf.eprintf "%s: %s\n" program text;
        2
    | Arg.Bad text ->
        prerr_endline (List.hd (String.split_on_char '\n' text));
        2
    | Arg.Help text ->
        print_string text;
        0
  in
  exit status
