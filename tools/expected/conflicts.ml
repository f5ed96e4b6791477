(* Types whose names meet: with each other, with words of the grammar, and with predeclared types; and types by ways that a
   path takes. conflicts_values.ml writes values of them, and of near types. *)

(* Three types of which the plain name is `conflicts_a_b_t`. *)
module A = struct
  module B = struct
    type t = int * other
    and other = Other of t list
  end
end

module A_b = struct
  type t = string
end

type a_b_t = A.B.t * A_b.t

(* Names of few letters, and of none that a name may begin with. *)
type t' = int
type _t = string
type __ = bool
type t = { t : t'; _x : _t; y' : __ }

(* Words of the grammar, but for a capital or a sign. *)
type words = Of | And | Type | Mutable of { of_ : int; type' : string; and_ : bool }

(* Constructors that are no names. *)
type operators = ( :: ) of int * operators | [] | Cons of operators | Nil
type truth = true | false
type nothing = ()

(* Predeclared names, declared again. *)
module Shadow = struct
  type int = string
  type 'a list = End | More of 'a * int
  type option = float
  type string = bool
  type ref = { contents : option }
  type t = int * string list * option * ref
end

(* One name in two modules, with parameters of the same names and in the other order. *)
module P = struct
  type ('a, 'b) pair = { fst : 'a; snd : 'b }
  type ('b, 'a) swap = ('a, 'b) pair
end

module Q = struct
  type ('b, 'a) pair = Pair of 'a * 'b
end

type both = (int, string) P.pair * (int, string) P.swap * (int, string) Q.pair

(* Results of functors: of a module with a name, of one without, of two, and of the standard library. *)
module type Key = sig
  type t

  val compare : t -> t -> int
end

module Make (Key : Key) = struct
  type t = { key : Key.t; next : t option }
end

module Number = struct
  type t = int

  let compare = compare
end

module Numbers = Make (Number)

module Texts = Make (struct
  type t = string

  let compare = compare
end)

module Two (Left : Key) (Right : Key) = struct
  module Inner = struct
    type t = L of Left.t | R of Right.t
  end
end

module Number_and_text = Two (Number) (String)
module Library_map = Stdlib.Map
module Number_map = Library_map.Make (Number)

type functors = Numbers.t * Texts.t * Number_and_text.Inner.t * bool Number_map.t

(* A module of a signature that replaces a type, one that is included, one by its signature, and aliases of libraries. *)
module type With_t = sig
  type t
  type u = U of t
end

module Replaced : sig
  type t = int * int

  include With_t with type t := t
end = struct
  type t = int * int
  type u = U of t
end

module Included = struct
  include Replaced

  type w = { u : u; list : int Stdlib.List.t }
end

module type Of_replaced = module type of Replaced

module Lists = List

type ways = Replaced.u * Included.w * int Lists.t * string Stdlib.Option.t * Included.u

(* `nonrec`, and a type that another one of the same name is made of. *)
module Nonrec = struct
  type nonrec t = t list
  type u = t option
end

(* Tags of each form of name; a variant that says which tags it has in both ways. *)
type tags = [ `a | `b of int | `A' | `_x of string ]
type exact = [< `A | `B of int > `A `B ]

(* Parameters that are exchanged at each step, or stand for nothing. *)
type ('a, 'b) turning = Turn of 'a * ('b, 'a) turning | Stop
type ('a, _) unused = Unused of 'a

type all = {
  names : a_b_t * t * words * operators * truth * nothing * Shadow.t;
  modules : both * functors * ways * Nonrec.t * Nonrec.u;
  others : tags * exact * (int, string) turning * (int, bool) unused;
}
