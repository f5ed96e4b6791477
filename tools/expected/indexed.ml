(* Generalized types (GADTs) at indices. What is to be printed for them with --cmt is in indexed.types. *)

type number = int

(* At int, the last of the constructors with arguments and of those without are of other indices. *)
type _ expr =
  | Int : int -> int expr
  | Zero : int expr
  | Add : int expr * number expr -> int expr
  | All : 'a list -> 'a expr
  | Pair : 'a expr * 'b expr -> ('a * 'b) expr
  | None_of_them : string expr

type number_expr = number expr
type 'a alias = 'a expr

(* Constructors with and without a result; an inline record *)
type 'a cell = Plain of 'a | Cell : { mutable held : 'a; name : string } -> 'a cell | Only_int : int cell

(* Two indices; declarations for each length *)
type zero = Zero_length
type 'n succ = Succ_length
type (_, 'a) vector = Nil : (zero, 'a) vector | Cons : 'a * ('n, 'a) vector -> ('n succ, 'a) vector

(* A variable that stands twice; functions, objects and polymorphic variants as indices; an existential not stored *)
type _ shape =
  | Same : 'a * 'a -> ('a * 'a) shape
  | Function : 'a -> ('a -> 'b) shape
  | Tag : int -> [ `A | `B of int ] shape
  | Object : < x : int > shape

(* Indices that an interface hides *)
type _ measure = Sealed : Hidden.Sealed.t list -> Hidden.Sealed.t measure | Whole : int -> Hidden.t measure
type _ length = Meters : { meters : float; count : int } -> float length | Other : int -> Hidden.t length

type _ unboxed = Unboxed : int -> int unboxed [@@unboxed]

type all = {
  expr : int expr;
  number : number_expr;
  alias : number alias;
  int_cell : int cell;
  bool_cell : bool cell;
  vector : (zero succ succ, string) vector;
  same : (int * int) shape;
  sealed : Hidden.Sealed.t measure;
  unboxed : int unboxed;
}
