(* Writes values of uses_hidden.ml, as values.ml does. *)

open Uses_hidden

let file = open_out_bin Sys.argv.(1)

let write verdict type_word value =
  Marshal.to_channel file value [];
  Printf.printf "%s\t%s\n" verdict type_word

let pair = { left = Hidden.one; right = Hidden.one }

let all =
  {
    whole = Hidden.whole;
    stack = Hidden.stack [ 1; 2 ];
    inner = Hidden.Inner.seven;
    texts = Texts.one "key";
    pair;
    names = Names.add "two" 2 (Names.singleton "one" 1);
    sealed = Hidden.Sealed.value;
    renamed = (Hidden.renamed, Hidden.renamed);
    counts = Hidden.counts;
    resealed = Resealed.value;
  }

let () =
  write "yes" "uses_hidden_all" all;
  write "no" "uses_hidden_all" { all with whole = Obj.magic all.names };
  write "no" "uses_hidden_all" { all with texts = Obj.magic (Some 1) };
  write "no" "uses_hidden_all" { all with sealed = Obj.magic 1 };
  write "no" "uses_hidden_all" { all with counts = Obj.magic all.names };
  write "no" "uses_hidden_all" { all with resealed = Obj.magic 1 };
  write "yes" "uses_hidden_pair" pair;
  write "no" "uses_hidden_pair" [| 1.; 2. |];
  close_out file
