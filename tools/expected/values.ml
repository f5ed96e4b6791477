(* Writes values of the types of kinds.ml, and of others, to the file of the first argument. On standard output there
   is a line for each: the type in omarshal's words, and whether the value has it. *)

open Kinds

let file = open_out_bin Sys.argv.(1)

let write verdict type_word value =
  Marshal.to_channel file value [];
  Printf.printf "%s\t%s\n" verdict type_word

(* Values of a type, at that type. *)
let all type_word values = List.iter (write "yes" type_word) values

(* Values of other types at it. *)
let others type_word values = List.iter (write "no" type_word) values

let any = Obj.repr
let variant = Inline { x = 1; next = Constant }

let base =
  {
    i = max_int;
    c = '\255';
    b = true;
    u = ();
    s = "text";
    y = Bytes.of_string "bytes";
    f = 1.5;
    i32 = -1l;
    i64 = Int64.min_int;
    n = 5n;
    a = Float.Array.make 3 0.5;
  }

let () =
  all "kinds_number" [ 0; -1; max_int ];
  others "kinds_number" [ any "text"; any 1.5 ];
  all "kinds_base" [ base; { base with a = Float.Array.create 0 } ];
  others "kinds_base" [ any (base, base); any 0 ];
  others "kinds_base" [ any { base with c = Obj.magic 256 }; any { base with s = Obj.magic 1l } ];
  (* The same bytes as a string and as what may be changed. *)
  let text = Bytes.of_string "one" in
  others "kinds_base" [ any { base with y = text; s = Bytes.unsafe_to_string text } ];
  all "kinds_containers" [ ([ 1; 2 ], Some "x", [| (1, 2); (3, 4) |], [| 0.5 |], ref true) ];
  all "kinds_containers" [ ([], None, [||], [||], ref false) ];
  others "kinds_containers" [ any ([ 1 ], None, [| (1, 2, 3) |], [| 0.5 |], ref true) ];
  others "kinds_containers" [ any ([], None, [||], [| 1 |], ref true) ]

(* Constructors *)
let () =
  let rec around = Inline { x = 2; next = around } in
  all "kinds_variant" [ Constant; Other; One 1; Two (2, "two"); Pair (3, "three"); variant; around ];
  all "kinds_again" [ Kinds.Other; Kinds.Two (2, "two") ];
  others "kinds_variant" [ any 2; any (Some "text"); any (Error ()); any (1, 2) ];
  all "kinds_variant * kinds_again" [ (variant, variant) ];
  all "int kinds_point * bool kinds_point" [ (let shared = { px = 1; py = 0 } in Obj.magic (shared, shared)) ];
  others "int ref * bool ref" [ any (let shared = ref 0 in (shared, shared)) ]

(* Floats *)
let () =
  all "kinds_flat" [ { re = 1.; im = 2. } ];
  others "kinds_flat" [ any (1., 2.); any { px = 1.; py = 2. }; any [| 1.; 2.; 3. |] ];
  all "kinds_mixed" [ { label = "one"; weight = 1. } ];
  all "float kinds_point" [ { px = 1.; py = 2. } ];
  others "float kinds_point" [ any { re = 1.; im = 2. } ];
  all "kinds_meters" [ Meters 1. ];
  others "kinds_meters" [ any (ref 1.) ];
  all "int kinds_wrapped" [ { inside = [ 1; 2 ] } ];
  all "kinds_length" [ { first = Meters 1.; second = 2. } ];
  others "kinds_length" [ any ("x", 2.) ];
  all "kinds_floats" [ ([| 1. |], [| Meters 2.; Meters 3. |]); ([||], [||]) ];
  others "kinds_floats" [ any ([| 1 |], [| 2. |]) ]

(* Polymorphic variants *)
let () =
  all "kinds_color" [ `Red; `Rgb (1, 2, 3) ];
  others "kinds_color" [ any `Blue; any (`Rgb (1, 2)); any (`Red 1); any 0 ];
  all "kinds_more" [ `Red; `Rgb (1, 2, 3); `Named "blue" ];
  others "kinds_more" [ any (`Named 1) ];
  all "kinds_steps" [ `Stop; `Step (`Step `Stop) ];
  others "kinds_steps" [ any (`Step `End) ];
  all "string kinds_row" [ `End; `Next ("a", `Next ("b", `End)) ];
  others "string kinds_row" [ any (`Next ("a", `Next (1, `End))) ];
  all "string kinds_row ref * string kinds_row_row ref" [ (let shared = ref `End in (shared, shared)) ]

(* Recursion, private types, names *)
let () =
  all "int kinds_tree" [ Leaf; Node (1, [ Leaf; Node (2, []) ]) ];
  others "int kinds_tree" [ any (Node ("a", [])) ];
  all "kinds_secret" [ (Obj.magic 5 : secret) ];
  all "kinds_closed" [ (Obj.magic (ref 1) : closed) ];
  all "kinds_listing" [ []; 1 :: 2 :: [] ];
  others "kinds_listing" [ any ("a", 0); any 1 ]

let () =
  all "kinds_odd" [ Kinds.( :: ) (1, Cons []); [] ];
  all "kinds_truth" [ false; true ];
  all "kinds_inner_t" [ Inner.A; Inner.B ];
  others "kinds_inner_t" [ any 2 ];
  all "int kinds_inner_list" [ Inner.Empty; Inner.Also [ 1 ] ];
  all "kinds_inner_t_2" [ "text" ];
  all "bool kinds_plain" [ Box true; Nothing ];
  others "bool kinds_plain" [ any (Box 2) ];
  all "(int, string) kinds_both" [ { left = 1; right = "one" } ];
  others "(int, string) kinds_both" [ any ("one", 1) ];
  all "(int, string) result" [ Ok 1; Error "e" ];
  others "(int, string) result" [ any (Ok "e") ];
  all "string kinds_phantom" [ Phantom ]

let () = close_out file
