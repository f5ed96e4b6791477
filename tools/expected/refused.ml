(* Types without a form in omarshal. What is to be reported of each is in refused.txt. *)

type job = { name : string; run : int -> int }
type queue = Empty | Jobs of { first : job list; rest : queue }

class counter = object method get = 0 end

type counted = { label : string; by : counter }
type structural = < x : int > option

module type S = sig type t end

type packed = (module S) list
type any = Any : 'a -> any
type _ numbered = Bool : bool numbered | Int : int numbered
type _ expr = Int : int -> int expr | Not : bool expr -> bool expr
type 'a of_expr = { expr : 'a expr }
type some_expr = Some_expr : 'a of_expr * 'a of_expr -> some_expr
type some_exprs = Some_exprs : 'a expr list -> some_exprs
type some_list = Some_list : 'a list expr -> some_list
type _ tagged = Hidden_one : hidden tagged | Int_one : int tagged

and hidden

type _ stored = Kept : 'a list * 'b -> 'b stored | Int_stored : int -> int stored
type _ endless = More : ('a * 'a) endless -> 'a endless | Last : int endless
type _ only_int = Only : int -> int only_int
type existential = { one : any }
type delayed = Now of int | Later of int Lazy.t
type failure = Failed of exn
type extensible = ..
type sum = [ `A | `B of hidden list ]
type 'a opened = [> `A ] as 'a
type private_open = private [> `A ]
type private_bounded = private [< `A | `B ]
type 'a nested = Flat of 'a | Nested of ('a * 'a) nested
type polymorphic = { id : 'a. 'a list }
type none = |
type nothing = Left of none
type loop = Loop of loop list [@@unboxed]
type 'a constrained = 'a list constraint 'a = int * 'b

module type Ordered = sig
  type t

  val compare : t -> t -> int
end

module Unpacked = Set.Make ((val (module String : Ordered)))

type two = { f : hidden; g : int -> int; h : hidden }
