(* Writes a map, a set, a hash table and a queue, each in a file of its own, into the folder of the first argument. *)

module String_map = Map.Make (String)
module String_set = Set.Make (String)

let write name value =
  let file = open_out_bin (Filename.concat Sys.argv.(1) name) in
  Marshal.to_channel file value [];
  close_out file

let words = [ "one"; "two"; "three"; "four"; "five"; "six"; "seven" ]

let () =
  write "map.bin" (String_map.of_seq (List.to_seq (List.mapi (fun place word -> (word, place)) words)));
  write "set.bin" (String_set.of_list words);
  let table = Hashtbl.create 4 in
  List.iteri (fun place word -> Hashtbl.add table word place) words;
  write "hashtbl.bin" table;
  write "queue.bin" (Queue.of_seq (List.to_seq (List.map String.length words)))
