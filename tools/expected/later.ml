(* Types that came with OCaml 5. What is to be printed for them with --cmt is in later.types. *)

type counts = { total : int Atomic.t; names : string Atomic.t list }
type key = { key : int Domain.DLS.key; name : string }
type 'a row = { cells : 'a Dynarray.t; label : string }
