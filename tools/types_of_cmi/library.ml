(* Helpers over the compiler's library. What depends on its version is in compat.ml. *)

open Types

(* The rest of a text that begins with a prefix. *)
let without prefix text =
  let length = String.length prefix in
  if String.starts_with ~prefix text then Some (String.sub text length (String.length text - length)) else None

(* Whether a declaration shows no representation of its own. *)
let is_abstract declaration =
  match declaration.type_kind with Type_record _ | Type_variant _ | Type_open -> false | _ -> true

let signature text = Parse.interface (Lexing.from_string text)

(* The declarations of a signature, in order, as the compiler reads them. *)
let type_declarations environment signature =
  let declared = function Sig_type (id, declaration, _, _) -> Some (id, declaration) | _ -> None in
  List.filter_map declared (Typemod.type_interface environment signature).Typedtree.sig_type

let one_line text =
  let is_text line = line <> "" in
  String.concat " " (List.filter is_text (List.map String.trim (String.split_on_char '\n' text)))

(* The compiler's message for an error of its own, after the location. Other exceptions go on. *)
let message error =
  let rec after_location text =
    match without "Error: " text with
    | Some message -> message
    | None -> if text = "" then "" else after_location (String.sub text 1 (String.length text - 1))
  in
  after_location (one_line (Format.asprintf "%a" Location.report_exception error))
