(* Writes values of Labels.all and of near types to the file that its argument names, as values.ml does. *)

open Labels

let file = open_out_bin Sys.argv.(1)

let write verdict type_word value =
  Marshal.to_channel file value [];
  Printf.printf "%s\t%s\n" verdict type_word

let () =
  let all =
    {
      point = ~x:1, ~y:1.5;
      named = [ (~name:"one", 1); (~name:"two", 2) ];
      counter = { count = 3; step = 1 };
      shape = Labeled "shape";
    }
  in
  write "yes" "'none labels_all" all;
  write "no" "'none labels_all" { all with point = Obj.magic (1.5, 1) };
  write "no" "'none labels_all" { all with named = Obj.magic [ (1, "one") ] };
  write "no" "'none labels_all" { all with counter = Obj.magic ("three", 1) };
  write "no" "'none labels_all" { all with shape = Obj.magic (Plain 1) };
  close_out file
