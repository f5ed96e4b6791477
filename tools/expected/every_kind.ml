(* One type of each kind of the grammar of declarations. every_kind_values.ml writes values of each, and of near types. *)

(* Predeclared types *)
type an_int = int
type a_char = char
type a_bool = bool
type a_unit = unit
type a_string = string
type some_bytes = bytes
type a_float = float
type an_int32 = int32
type an_int64 = int64
type a_nativeint = nativeint
type a_floatarray = floatarray

(* Predeclared types with an argument, and tuples *)
type a_list = int list
type an_option = string option
type an_array = int array
type a_float_array = float array
type a_ref = int ref
type a_pair = int * string
type a_triple = int * (bool * char) * float

(* Records *)
type a_record = { number : int; name : string }
type a_mutable_record = { mutable count : int; label : string }
type a_float_record = { re : float; im : float }
type a_mutable_float_record = { mutable low : float; mutable high : float }
type a_mixed_record = { weight : float; pieces : int }

(* Variants *)
type constants = Red | Green | Blue
type a_variant = Empty | One of int | Full | Two of int * string | Paired of (int * string)
type inline_records = Point of { x : int; y : int } | Named of { label : string; mutable hits : int } | Nowhere
type constant_inline = Pointed of { x : int } | Counted of { label : string; hits : int }
type a_generalized = Whole : int -> a_generalized | Part : { of_it : string } -> a_generalized

(* Types that hold what they hold without a block *)
type an_unboxed_variant = Meters of float [@@unboxed]
type an_unboxed_record = { only : string list } [@@unboxed]
type an_unboxed_inline = Wrapped of { inside : int * int } [@@unboxed]
type unboxed_floats = { first : an_unboxed_variant; second : an_unboxed_variant }
type an_array_of_unboxed = an_unboxed_variant array

(* Polymorphic variants: of constant tags, with arguments, with one inside, and one that holds itself *)
type tags = [ `North | `South ]
type tags_with_arguments = [ `Dot | `Line of int | `Box of int * int ]
type inherited_tags = [ tags | `East of tags ]
type tags_of_itself = [ `End | `Next of 'a ] as 'a

(* Abbreviations and parameters *)
type an_abbreviation = a_list
type 'a box = { content : 'a }
type ('left, 'right) either = Left of 'left | Right of 'right
type 'a phantom = Phantom of int
type ('a, 'b) turned = ('b, 'a) either
type an_array_of_parameter = float box array
type a_private = private int
type a_private_record = private { key : int }
type a_copy = a_variant = Empty | One of int | Full | Two of int * string | Paired of (int * string)

(* Recursive types *)
type 'a tree = Leaf | Node of 'a tree * 'a * 'a tree
type even = Zero | After_odd of odd
and odd = After_even of even
type a_node = { value : int; mutable next : a_node option }
type 'a rose = Rose of 'a * 'a rose list

(* Modules: a nested one, the same type name again, recursive ones, and the result of a functor *)
module Inner = struct
  type t = { deep : int }

  module Innermost = struct
    type t = A | B of string
  end
end

type t = Inner.t * Inner.Innermost.t

module rec Yes : sig
  type t = Stop | Go of No.t
end =
  Yes

and No : sig
  type t = Back of Yes.t
end =
  No

module type Key = sig
  type t
end

module Make (Key : Key) = struct
  type entry = { key : Key.t; rest : entry list }
end

module String_key = struct
  type t = string
end

module Made = Make (String_key)
module Also_inner = Inner

type an_alias = Also_inner.Innermost.t
type a_made = Made.entry

(* Generalized types (GADTs) at indices, with constructors that no value has; a type that gives an index *)
type _ expr =
  | Int : int -> int expr
  | Bool : bool -> bool expr
  | If : bool expr * 'a expr * 'a expr -> 'a expr
  | Sum : int expr * int expr -> int expr

type 'a program = { body : 'a expr; parts : 'a program list }

(* What names all of these *)
type all = {
  a : an_int * a_char * a_bool * a_unit * a_string * some_bytes * a_float * an_int32 * an_int64 * a_nativeint;
  b : a_floatarray * a_list * an_option * an_array * a_float_array * a_ref * a_pair * a_triple;
  c : a_record * a_mutable_record * a_float_record * a_mutable_float_record * a_mixed_record;
  d : constants * a_variant * inline_records * constant_inline * a_generalized;
  e : an_unboxed_variant * an_unboxed_record * an_unboxed_inline * unboxed_floats * an_array_of_unboxed;
  f : tags * tags_with_arguments * inherited_tags * tags_of_itself;
  g : an_abbreviation * int box * (int, string) either * string phantom * (int, string) turned;
  h : an_array_of_parameter * a_private * a_private_record * a_copy;
  i : int tree * even * odd * a_node * int rose;
  j : t * Yes.t * No.t * an_alias * a_made;
  k : int expr * bool expr * int program;
}
