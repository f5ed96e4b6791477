type shape = Square of int | Round
type t = { mutable shapes : shape list; name : string }

let whole = { shapes = [ Square 1; Round ]; name = "whole" }

type 'a stack = 'a list ref

let stack elements = ref elements

module Inner = struct
  type t = int

  let seven = 7
end

module Make (Key : sig
  type t
end) =
struct
  type cell = Cell of Key.t * cell | End
  type t = cell

  let one key = Cell (key, End)
end

type meters = float

let one = 1.

module Sealed : sig
  type t

  val value : t
end = struct
  type t = A | B of t

  let value = B (B A)
end

type public_name = { only : int }
type renamed = public_name

let renamed = { only = 1 }

module Local_key = struct
  type t = int

  let compare = compare
end

module Local_map = Map.Make (Local_key)

type counts = string Local_map.t

let counts = Local_map.singleton 1 "one"
