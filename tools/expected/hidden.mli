(* Types that an interface hides. *)

type t

val whole : t

type 'a stack

val stack : 'a list -> 'a stack

module Inner : sig
  type t

  val seven : t
end

module Make (Key : sig
  type t
end) : sig
  type t

  val one : Key.t -> t
end

type meters

val one : meters

module Sealed : sig
  type t

  val value : t
end

type renamed
type public_name = renamed

val renamed : renamed

type counts

val counts : counts
