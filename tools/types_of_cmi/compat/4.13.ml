(* What differs between versions of the compiler's library, for OCaml 4.13. *)

open Types

let same ty other = Btype.repr ty == Btype.repr other
let shape ty = (Btype.repr ty).desc
let iter_parts visit ty = Btype.iter_type_expr visit (Btype.repr ty)
let tags row = (Btype.row_repr row).row_fields
let is_closed row = (Btype.row_repr row).row_closed
let presence field = Btype.row_field_repr field
let find_file name = Load_path.find_uncap name

(* The parts of a tuple with their labels, which are there from 5.4 on, and the tuple of such parts *)
let labeled_parts parts = List.map (fun part -> (None, part)) parts
let tuple parts = Ttuple (List.map snd parts)

(* A path. From 5.1 on the type of an inline record has one, inside that of its variant. *)
type path = Ident of Ident.t | Dot of Path.t * string | Apply of Path.t * Path.t | Extra of Path.t

let view = function
  | Path.Pident id -> Ident id
  | Path.Pdot (path, name) -> Dot (path, name)
  | Path.Papply (path, argument) -> Apply (path, argument)

(* The path of the same inline record inside another variant *)
let with_outer outer _ = outer

(* A name, the parts of which have locations from 5.4 on *)
type name = Long_ident of string | Long_dot of Longident.t * string | Long_apply

let name_view = function
  | Longident.Lident name -> Long_ident name
  | Longident.Ldot (outer, last) -> Long_dot (outer, last)
  | Longident.Lapply _ -> Long_apply

let long_dot outer last = Longident.Ldot (outer, last)
let long_apply name argument = Longident.Lapply (name, argument)

(* The functor that a module applies to `()`. From 5.1 on this has a form of its own. *)
let generative _ = None
