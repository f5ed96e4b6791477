(* Writes values of the types of conflicts.ml, and of near but other types, as every_kind_values.ml does. *)

(* Lists, before `::` and `[]` get another meaning. *)
let no_list = []
let list_of value = [ value ]
let values = Array.to_list

open Conflicts

let folder = Sys.argv.(1)
let written = ref 0

let write verdict word value =
  incr written;
  let name = Printf.sprintf "%03d" !written in
  let file = open_out_bin (Filename.concat folder name) in
  Marshal.to_channel file value [];
  close_out file;
  Printf.printf "%s\t%s\t%s\n" name verdict word

let kind ?(arguments = "") name values others =
  let word = arguments ^ "conflicts_" ^ name in
  List.iter (write "yes" word) values;
  List.iter (write "no" word) others

let any = Obj.repr

let _ =
  let other = A.B.Other no_list in
  kind "a_b_t" (values [| (1, other) |]) (values [| any ("one", other); any (1, A.B.Other (list_of (Obj.magic 1))) |]);
  kind "a_b_t_2" (values [| "text" |]) (values [| any 1; any (1, other) |]);
  kind "a_b_t_3" (values [| ((1, other), "text") |]) (values [| any (1, other); any ("text", (1, other)) |]);
  kind "a_b_other" (values [| other |]) (values [| any (1, other); any 1 |]);
  kind "t'" (values [| 1 |]) (values [| any "text" |]);
  kind "t" (values [| "text" |]) (values [| any 1; any { t = 1; _x = "x"; y' = Obj.magic 0 } |]);
  kind "t_2" (values [| any (1, "x", 0) |]) (values [| any (1, "x", 2); any ("x", 1, 0); any "text" |]);
  kind "words"
    (values [| Of; And; Type; Mutable { of_ = 1; type' = "one"; and_ = Obj.magic 1 } |])
    (values [| any 3; any (1, "one"); any (1, "one", 2) |]);
  kind "operators"
    (values [| []; Nil; 1 :: []; 1 :: Nil; Cons (1 :: []) |])
    (values [| any 2; any (Cons (Obj.magic 2)); any (Obj.magic "one" :: []) |]);
  kind "truth" (values [| true; false |]) (values [| any 2; any [||] |]);
  kind "nothing" (values [| () |]) (values [| any 1 |])

let _ =
  let shadow contents = any ("text", Shadow.More (Obj.magic 1, "more"), 1.5, contents) in
  kind "shadow_t"
    (values [| shadow { Shadow.contents = 0.5 } |])
    (values [| shadow (Obj.magic (Stdlib.ref 0.5)); any (1, Shadow.End, 1.5, { Shadow.contents = 0.5 }) |]);
  kind "both"
    (values
       [| ({ P.fst = 1; snd = "one" }, { P.fst = "one"; snd = 1 }, Q.Pair ("one", 1)) |])
    (values [| any ((1, "one"), (1, "one"), ("one", 1)); any ((1, "one"), ("one", 1), (1, "one")) |])

let _ =
  let numbers = { Numbers.key = 1; next = Some { Numbers.key = 2; next = None } } in
  let texts = { Texts.key = "one"; next = None } in
  let map = Number_map.add 1 (Obj.magic 1) (Number_map.singleton 2 (Obj.magic 0)) in
  let with_inner inner = any (numbers, texts, inner, map) in
  kind "functors"
    (values [| with_inner (Number_and_text.Inner.L 1); with_inner (Number_and_text.Inner.R "one") |])
    (values
       [|
         with_inner (Number_and_text.Inner.L (Obj.magic "one"));
         with_inner (Obj.magic 0);
         any (numbers, numbers, Number_and_text.Inner.L 1, map);
         any (numbers, texts, Number_and_text.Inner.L 1, Number_map.singleton 1 2);
       |]);
  let u = Replaced.U (1, 2) in
  let w = { Included.u; list = no_list } in
  kind "ways"
    (values [| (u, w, no_list, None, u); (u, w, list_of 1, Some "one", u) |])
    (values
       [|
         any (u, w, list_of "one", None, u);
         any (u, w, no_list, Some 1, u);
         any (Replaced.U (Obj.magic 1), w, no_list, None, u);
       |])

let _ =
  let record = (1, "x", 0) in
  kind "nonrec_t" (values [| no_list; Obj.magic (list_of record) |]) (values [| any record; any (list_of 1) |]);
  kind "nonrec_u"
    (values [| None; Some (Obj.magic (list_of record)) |])
    (values [| any (list_of record); any (Some record) |]);
  kind "tags" (values [| `a; `b 1; `A'; `_x "x" |]) (values [| any `A; any (`b "one"); any `b; any (`_x 1) |]);
  kind "exact" (values [| `A; `B 1 |]) (values [| any `B; any (`A 1); any `C |]);
  kind ~arguments:"(int, string) " "turning"
    (values [| Stop; Turn (1, Turn ("one", Turn (2, Stop))) |])
    (values [| any (Turn ("one", Stop)); any (Turn (1, Obj.magic (Turn (2, Stop)))); any 1 |]);
  kind ~arguments:"(int, bool) " "unused" (values [| Unused 1 |]) (values [| any (Unused "one"); any 0 |])
