(* A hash table from strings to integers. By `Hashtbl.hash` "tea" and "one" are in bucket 4 of 16, the later one first,
   "milk" is in bucket 6 and "salt" in bucket 11. *)
let () =
  let table = Hashtbl.create ~random:false 1 in
  List.iter (fun (key, data) -> Hashtbl.add table key data) [ ("tea", 2); ("one", 1); ("milk", 0); ("salt", 7) ];
  let out = open_out_bin (Filename.concat Sys.argv.(1) "table.stream") in
  Marshal.to_channel out table [];
  close_out out
