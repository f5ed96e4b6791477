(* An interface without the types of its implementation *)

val saved : string
