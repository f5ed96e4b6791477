(* Declarations in omarshal's grammar, their names, and walks over them. *)

(* {1 Declarations in omarshal's grammar} *)

type name = Predeclared of string | Declared of Path.t

type expression =
  | Variable of string
  | Applied of name * expression list
  | Tuple of expression list
  | Polymorphic of (string * expression option) list
  | Nothing  (** the type without values *)

type field = { changes : bool; label : string; holds : expression }
type arguments = Separate of expression list | Inline of field list

type body =
  | Record of { is_flat : bool; fields : field list }
  | Variant of (string * arguments) list
  | Abbreviation of expression

(* The steps from the requested type to a part of it, the last one first. *)
type way = string list

(* Where a declaration was found: in an interface, in an implementation, in `known.ml`, or among the words. *)
type origin = Shown | Hidden | Known | By_hand

type declaration = {
  path : Path.t;
  parameters : string list;
  body : body;
  origin : origin;
  reached : way;  (** the way to the type, with its own name *)
}

type fault = { where : way; what : string }

(* The report on a part of which less is asked than OCaml has: what replaces it, and why. *)
type note = { instead : string; why : fault }

(* {1 Names} *)

let base_types =
  [ "int"; "char"; "bool"; "unit"; "string"; "bytes"; "float"; "int32"; "int64"; "nativeint"; "floatarray" ]

let predeclared_types = base_types @ [ "list"; "option"; "array"; "ref" ]

(* The type of which nothing is asked *)
let any_name = "_"
let any = Applied (Predeclared any_name, [])
let keywords = [ "type"; "and"; "of"; "mutable" ]

(* The module `Stdlib__Map` of the standard library is `Map` to its users. *)
let module_name id = Option.value (Library.without "Stdlib__" (Ident.name id)) ~default:(Ident.name id)

let rec path_text path =
  match Compat.view path with
  | Ident id -> module_name id
  | Dot (Path.Pident id, name) when Ident.name id = "Stdlib" -> name
  | Dot (path, name) -> path_text path ^ "." ^ name
  | Apply (functor_path, argument) -> path_text functor_path ^ "(" ^ path_text argument ^ ")"
  | Extra path -> path_text path

(* omarshal's predeclared type that a path names. *)
let predeclared path =
  match path with
  | Path.Pident id when Ident.is_predef id && List.mem (Ident.name id) predeclared_types -> Some (Ident.name id)
  | Path.Pident id when Ident.name id = any_name -> Some any_name
  | Path.Pdot (Path.Pident id, "ref") when Ident.name id = "Stdlib" -> Some "ref"
  | _ -> None

let is_letter_or_digit = function 'a' .. 'z' | 'A' .. 'Z' | '0' .. '9' | '_' | '\'' -> true | _ -> false
let is_identifier text = text <> "" && String.for_all is_letter_or_digit text

(* `text`, or `text` with the first of the ends _2, _3, .. that makes it new. *)
let rec fresh ?(count = 1) is_taken text =
  let candidate = if count = 1 then text else Printf.sprintf "%s_%d" text count in
  if is_taken candidate then fresh ~count:(count + 1) is_taken text else candidate

(* `Foo.Bar.t` becomes `foo_bar_t`, `Map.Make(String).t` becomes `map_make_string_t`. *)
let lower_name path_text =
  let plain = String.map (fun c -> if is_letter_or_digit c then c else '_') (String.lowercase_ascii path_text) in
  let words = List.filter (fun word -> word <> "") (String.split_on_char '_' plain) in
  match String.concat "_" words with
  | "" -> "t"
  | name -> ( match name.[0] with 'a' .. 'z' -> name | _ -> "t_" ^ name)

(* The constructors of which OCaml's names are no names for omarshal. *)
let constructor_name = function
  | "::" -> "Cons"
  | "[]" -> "Nil"
  | "()" -> "Unit"
  | "true" -> "True"
  | "false" -> "False"
  | name -> name

let constructor_names names =
  let add taken name =
    let written = constructor_name name in
    let is_taken word = List.mem word taken || (written <> name && List.mem word names) in
    fresh is_taken written :: taken
  in
  List.rev (List.fold_left add [] names)

let parameter_name index =
  let letter = String.make 1 (Char.chr (Char.code 'a' + (index mod 26))) in
  if index < 26 then letter else letter ^ string_of_int (index / 26)

(* The variable that stands for the type without values: no value matches a variable. The names of parameters are
   shorter. *)
let nothing_name = "none"

(* {1 Walks over declarations} *)

let rec iter_types ~inside_tags visit expression =
  visit expression;
  let iter = iter_types ~inside_tags visit in
  match expression with
  | Variable _ | Nothing -> ()
  | Applied (_, arguments) -> List.iter iter arguments
  | Tuple parts -> List.iter iter parts
  | Polymorphic tags -> if inside_tags then List.iter (fun (_, argument) -> Option.iter iter argument) tags

let iter_body ~inside_tags visit body =
  let iter = iter_types ~inside_tags visit in
  let iter_field { holds; _ } = iter holds in
  match body with
  | Abbreviation expression -> iter expression
  | Record { fields; _ } -> List.iter iter_field fields
  | Variant constructors ->
      let iter_arguments = function
        | Separate types -> List.iter iter types
        | Inline fields -> List.iter iter_field fields
      in
      List.iter (fun (_, arguments) -> iter_arguments arguments) constructors

(* The declared types that a body names, in the order of their first mention. *)
let names_in ~inside_tags body =
  let names = ref [] in
  let visit = function
    | Applied (Declared path, _) when not (List.exists (Path.same path) !names) -> names := path :: !names
    | Applied _ | Variable _ | Tuple _ | Polymorphic _ | Nothing -> ()
  in
  iter_body ~inside_tags visit body;
  List.rev !names

let map_parts f expression =
  match expression with
  | Variable _ | Nothing -> expression
  | Applied (name, arguments) -> Applied (name, List.map f arguments)
  | Tuple parts -> Tuple (List.map f parts)
  | Polymorphic tags -> Polymorphic (List.map (fun (tag, argument) -> (tag, Option.map f argument)) tags)

let rec substitute bindings = function
  | Variable name -> List.assoc name bindings
  | expression -> map_parts (substitute bindings) expression

let map_body f body =
  let field field = { field with holds = f field.holds } in
  let arguments = function
    | Separate types -> Separate (List.map f types)
    | Inline fields -> Inline (List.map field fields)
  in
  match body with
  | Abbreviation expression -> Abbreviation (f expression)
  | Record { is_flat; fields } -> Record { is_flat; fields = List.map field fields }
  | Variant constructors -> Variant (List.map (fun (name, held) -> (name, arguments held)) constructors)
