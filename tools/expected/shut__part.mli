(* Shut_names.Part is another name of this module. *)

type t

val one : t
