(* Types that need declarations by hand. What is to be printed for them is in by_hand.types. *)

module Hidden : sig
  type t

  val one : t
end = struct
  type t = float

  let one = 1.
end

module Names = Map.Make (String)

(* OCaml does not know that these fields are floats, so the record is not flat. *)
type pair = { left : Hidden.t; mutable right : Hidden.t }
type all = { names : int Names.t; late : int Lazy.t; pair : pair; table : (string, bool) Hashtbl.t }
