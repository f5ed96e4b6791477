(* Types that no interface has. What is to be printed for Shut.Inner.file with --cmt is in shut.types. *)

module Numbers = Map.Make (struct
  type t = int

  let compare = compare
end)

type entry = Entry of { name : string; parts : Shut__part.t list }
type 'a versions = { newest : 'a; older : 'a list }

module Inner = struct
  type file = { entries : entry Numbers.t; part : part versions }
  and part = Shut__part.t
end

let saved =
  let open Inner in
  let part = Shut__part.one in
  let entries = Numbers.singleton 5 (Entry { name = "five"; parts = [ part ] }) in
  Marshal.to_string { entries; part = { newest = part; older = [] } } []
