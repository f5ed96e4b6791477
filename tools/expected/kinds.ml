(* One type of each kind that has a form in omarshal. What is to be printed for them is in kinds.types. *)

type number = int

type base = {
  i : int;
  c : char;
  b : bool;
  u : unit;
  s : string;
  mutable y : bytes;
  f : float;
  i32 : int32;
  i64 : int64;
  n : nativeint;
  a : floatarray;
}

type containers = int list * string option * (int * int) array * float array * bool ref
type variant =
  | Constant
  | One of int
  | Other
  | Two of int * string
  | Pair of (int * string)
  | Inline of { x : int; mutable next : variant }

type again = variant =
  | Constant
  | One of int
  | Other
  | Two of int * string
  | Pair of (int * string)
  | Inline of { x : int; mutable next : variant }

(* Floats: a flat record, one that is not flat, a parameter, and types that hold a float unboxed. *)
type flat = { re : float; mutable im : float }
type mixed = { label : string; weight : float }
type 'a point = { px : 'a; py : 'a }
type meters = Meters of float [@@unboxed]
type 'a wrapped = { inside : 'a list } [@@unboxed]
type length = { first : meters; mutable second : float }
type floats = float array * meters array

(* Polymorphic variants: alone, with one included, through a name, and through itself. *)
type color = [ `Red | `Rgb of int * int * int ]
type more = [ color | `Named of string ]
type steps = [ `Stop | `Step of steps ]
type 'a row = [ `End | `Next of 'a * 'r ] as 'r

(* Recursion. *)
type 'a tree = Leaf | Node of 'a * 'a forest
and 'a forest = 'a tree list

(* Private types are what they show. *)
type secret = private int
type closed = private { key : int }

(* Names of constructors and types that omarshal cannot have. *)
type listing = [] | ( :: ) of int * listing
type odd = ( :: ) of int * odd | Cons of odd | []
type truth = false | true

module Inner = struct
  type t = A | B
  type 'a list = Empty | Also of 'a Stdlib.List.t
end

module Alias = Inner

type inner_t = string

(* Constructors with a result that is the type at its variables. *)
type 'x plain = Box : 'y -> 'y plain | Nothing : 'z plain

type ('left, 'right) both = { left : 'left; right : 'right }
type 'a phantom = Phantom

type all = {
  all_base : number * base * containers;
  all_variants : again * variant;
  all_floats : flat * mixed * float point * int wrapped * length * floats;
  all_rows : color * more * steps * string row;
  all_trees : int tree * secret * closed;
  all_names : listing * odd * truth * Inner.t * int Inner.list * Alias.t * inner_t;
  all_others : bool plain * (int, string) both * (int, string) result * string phantom;
}
