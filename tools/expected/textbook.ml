(* Generalized types (GADTs) with constructors that have arguments and are of other indices, before others; types that give
   an index on; and other types that are written at an index. What is to be printed for them is in textbook.types. *)

type _ expr =
  | Int : int -> int expr
  | Bool : bool -> bool expr
  | If : bool expr * 'a expr * 'a expr -> 'a expr
  | Add : int expr * int expr -> int expr

(* A type that gives its parameter to an index, and one that gives it to this type *)
type 'a program = { body : 'a expr; parts : 'a program list }
type 'a sum = Program of 'a program | Constant of 'a

(* A generalized type at some index that nothing else depends on *)
type _ kind = Number : int kind | List : 'a kind -> 'a list kind | Named : { name : string } -> 'a kind
type any_kind = Kind : string * 'a kind -> any_kind
type packed_kind = Packed : 'a kind -> packed_kind [@@unboxed]

(* A parameter with a constraint; types without values, and a field of every type *)
type 'a pairs = 'a list constraint 'a = int * 'b
type ('a, 'b) named_pairs = { pairs : (int * 'a) pairs; name : 'b }
type 'a opened = [> `A ] as 'a
type nothing = |
type 'a empty = { lists : 'b. 'b list; nothing : nothing option; held : 'a }

(* A type that its own group names at an argument that reaches the type without values *)
type 'a labeled = Labeled of 'a * tree list
and tree = Leaf of int expr | Tree of tree labeled

type all = {
  int : int expr;
  bool : bool expr;
  sum : bool sum;
  named : (bool, string) named_pairs;
  opened : [ `A | `B of int ] opened;
  empty : int empty;
  tree : tree;
  kinds : any_kind list * packed_kind;
}
