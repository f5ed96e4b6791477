(* Writes values of by_hand.ml, as values.ml does. *)

open By_hand

let file = open_out_bin Sys.argv.(1)

let write verdict type_word value =
  Marshal.to_channel file value [];
  Printf.printf "%s\t%s\n" verdict type_word

let pair = { left = Hidden.one; right = Hidden.one }

let table =
  let table = Hashtbl.create 1 in
  List.iter (fun word -> Hashtbl.add table word true) [ "one"; "two"; "three"; "one" ];
  table

let names = Names.add "two" 2 (Names.singleton "one" 1)

let () =
  write "yes" "by_hand_all" { names; late = Lazy.from_val 5; pair; table };
  write "no" "by_hand_all" { names; late = Obj.magic "five"; pair; table };
  write "yes" "by_hand_pair" pair;
  write "no" "by_hand_pair" [| 1.; 2. |];
  close_out file
