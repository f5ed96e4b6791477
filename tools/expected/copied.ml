(* Abbreviations that come back to themselves through the arguments of a record or variant (-rectypes). What is to be
   printed for them is in copied.types. *)

type ('term, 'types) kind = Var of int | Cast of 'term * 'types | Apply of { mutable parts : 'term array } | End
type term = (term, types) kind
and types = (term, types) kind

type ('value, 'node) node = { value : 'value; mutable below : 'node list }
type 'value tree = ('value, 'value tree) node
type again = term

(* OCaml does not know that these fields are floats, so the record is not flat. *)
type ('value, 'unused) point = { x : 'value; y : 'value }
type floats = (float, floats) point

type all = {
  term : term;
  types : types;
  tree : string tree;
  again : again;
  kind : (int, bool) kind;
  floats : floats;
}

(* The same object at an abbreviation and at the type of which that is a copy *)
type shared = { left : term; right : (term, types) kind }
