(* Writes values of Later.counts and of near types to the file that its argument names, as values.ml does. *)

open Later

let file = open_out_bin Sys.argv.(1)

let write verdict type_word value =
  Marshal.to_channel file value [];
  Printf.printf "%s\t%s\n" verdict type_word

let () =
  let counts = { total = Atomic.make 1; names = [ Atomic.make "one"; Atomic.make "two" ] } in
  write "yes" "later_counts" counts;
  write "no" "later_counts" { counts with total = Obj.magic "one" };
  write "no" "later_counts" { counts with total = Obj.magic (Atomic.make "one") };
  write "no" "later_counts" { counts with names = Obj.magic counts.total };
  close_out file
