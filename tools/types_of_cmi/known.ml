(* The declarations of types of OCaml's own libraries that no file shows: the runtime has them, or no `.cmt` of their module
   is installed. Each is the same in all versions from 4.13 to 5.4 in which the type is hidden, on Unix. *)

let declarations =
  [
    ("Stdlib__Atomic.t", "type 'a t = { mutable contents : 'a }");
    ( "Str.regexp",
      "type t = { prog : int array; cpool : string array; normtable : string; numgroups : int; numregisters : int; \
       startchars : int }" );
    ("Unix.file_descr", "type t = int");
    ("Unix.inet_addr", "type t = string");
  ]
