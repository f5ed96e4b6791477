(* Writes values of the types of every_kind.ml, and of near but other types, each to a file of its own in the folder of
   the first argument. On standard output there is a line for each: the file, the verdict, and the type in omarshal's
   words. *)

open Every_kind

let folder = Sys.argv.(1)
let written = ref 0

let write verdict type_word value =
  incr written;
  let name = Printf.sprintf "%03d" !written in
  let file = open_out_bin (Filename.concat folder name) in
  Marshal.to_channel file value [];
  close_out file;
  Printf.printf "%s\t%s\t%s\n" name verdict type_word

(* Values of a type, by its OCaml name and arguments, and values that do not have it. *)
let kind ?(arguments = "") name values others =
  let word = arguments ^ "every_kind_" ^ name in
  List.iter (write "yes" word) values;
  List.iter (write "no" word) others

let any = Obj.repr
let integers : Obj.t list = [ any 0; any (-1); any max_int; any min_int ]

(* One object at two positions. *)
let twice value = (value, value)

let () =
  kind "an_int" integers [ any 1.; any "1"; any 1l ];
  kind "a_char" [ '\000'; 'a'; '\255' ] [ any 256; any (-1); any "a" ];
  kind "a_bool" [ true; false ] [ any 2; any (-1); any `True ];
  kind "a_unit" [ () ] [ any 1; any "" ];
  kind "a_string" [ ""; "text"; String.make 300 'x' ] [ any 'x'; any 1.; any [ "text" ] ];
  kind "some_bytes" [ Bytes.empty; Bytes.make 40 'y' ] [ any 0; any [| 'y' |] ];
  kind "a_float" [ 0.; -0.; nan; infinity; 1.5 ] [ any 1; any [| 1.5 |]; any (ref 1.5); any 1L ];
  kind "an_int32" [ 0l; Int32.min_int; Int32.max_int ] [ any 0; any 0L; any 0n ];
  kind "an_int64" [ 0L; Int64.min_int; Int64.max_int ] [ any 0; any 0l; any 0n; any 0. ];
  kind "a_nativeint" [ 0n; Nativeint.min_int; Nativeint.max_int ] [ any 0; any 0l; any 0L ];
  kind "a_floatarray" Float.Array.[ create 0; make 3 0.5 ] [ any [| 1 |]; any 0.5; any [ 0.5 ] ]

let () =
  let rec ones = 1 :: ones in
  kind "a_list" [ []; [ 1; 2; 3 ]; ones ] [ any 1; any [ "one" ]; any [| 1; 2; 3 |]; any (Some 1) ];
  kind "an_option" [ None; Some "x" ] [ any "x"; any (Some 1); any (Some (Some "x")); any 1 ];
  kind "an_array" [ [||]; [| 1; 2; 3 |] ] [ any [| 1. |]; any [| any 1; any "2" |]; any 1 ];
  kind "a_float_array" [ [||]; [| 1.; 2. |] ] [ any [| 1; 2 |]; any (1., 2.); any 1. ];
  kind "a_ref" [ ref 1 ] [ any 1; any (ref "one"); any (1, 2); any (ref 1.) ];
  kind "a_pair" [ (1, "one") ] [ any ("one", 1); any (1, "one", 1); any 1; any (Some 1) ];
  kind "a_triple" [ (1, (true, 'c'), 0.5) ] [ any (1, true, 0.5); any (1, (true, 'c')); any (1, (2, 'c'), 0.5) ]

let () =
  kind "a_record" [ { number = 1; name = "one" } ] [ any (1, 1); any (1, "one", 1); any [| 1.; 2. |] ];
  let counter = { count = 1; label = "one" } in
  kind "a_mutable_record" [ counter ] [ any (1, 1); any { re = 1.; im = 1. } ];
  kind "a_float_record" [ { re = 1.; im = 2. } ] [ any (1., 2.); any [| 1.; 2.; 3. |]; any { content = 1. } ];
  kind "a_mutable_float_record" [ { low = 1.; high = 2. } ] [ any (1., 2.); any (1, 2) ];
  kind "a_mixed_record" [ { weight = 1.; pieces = 2 } ] [ any [| 1.; 2. |]; any (1., 2.); any (1, 2) ]

let () =
  kind "constants" [ Red; Green; Blue ] [ any 3; any (-1); any (One 1) ];
  kind "a_variant"
    [ Empty; Full; One 1; Two (2, "two"); Paired (3, "three") ]
    [ any 2; any (ref "one"); any (1, "one"); any (Point { x = 1; y = 2 }); any (twice 1, twice 2) ];
  kind "inline_records"
    [ Point { x = 1; y = 2 }; Named { label = "one"; hits = 1 }; Nowhere ]
    [ any 1; any (ref (1, 2)); any (1., 2.); any (Two (1, "one")) ];
  kind "constant_inline"
    [ Pointed { x = 1 }; Counted { label = "one"; hits = 1 } ]
    [ any 0; any (ref "one"); any (Two (1, "one")); any { content = Pointed { x = 1 } } ];
  kind "a_generalized" [ Whole 1; Part { of_it = "it" } ] [ any 0; any (ref "it"); any (Part { of_it = Obj.magic 1 }) ]

let () =
  kind "an_unboxed_variant" [ Meters 1.5 ] [ any (ref 1.5); any 1; any [| 1.5 |] ];
  kind "an_unboxed_record" [ { only = [ "one" ] } ] [ any (ref [ "one" ]); any { only = [ Obj.magic 1 ] } ];
  kind "an_unboxed_inline" [ Wrapped { inside = (1, 2) } ] [ any (ref (1, 2)); any (1, 2, 3) ];
  kind "unboxed_floats" [ { first = Meters 1.; second = Meters 2. } ] [ any (1., 2.); any (1, 2) ];
  kind "an_array_of_unboxed" [ [||]; [| Meters 1. |] ] [ any [| 1 |]; any [| ref 1. |] ]

let () =
  let rec around = `Next around in
  kind "tags" [ `North; `South ] [ any `West; any 0; any (`North 1) ];
  kind "tags_with_arguments"
    [ `Dot; `Line 1; `Box (1, 2) ]
    [ any `Line; any (`Dot 1); any (`Line "one"); any (`Box (1, 2, 3)); any (`Other 1); any (1, 1) ];
  kind "inherited_tags" [ `North; `East `South ] [ any `East; any (`East (`East `South)); any (`North `North) ];
  kind "tags_of_itself_row" [ `End; around ] [ any `Next; any (`Next 1); any 0 ];
  kind "tags_of_itself" [ `End; `Next (`Next `End); around ] [ any `Next; any (`Next 1); any (`Next (`End, `End)) ]

let () =
  kind "an_abbreviation" [ [ 1 ] ] [ any [ "one" ]; any 2 ];
  kind ~arguments:"int " "box" [ { content = 1 } ] [ any 1; any { content = "one" } ];
  kind ~arguments:"float " "box" [ { content = 1. } ] [ any [| 1. |]; any 1.; any { content = 1 } ];
  kind ~arguments:"(int, string) " "either" [ Left 1; Right "one" ] [ any (Left "one"); any (Right 1); any 0 ];
  kind ~arguments:"string " "phantom" [ Phantom 1 ] [ any (Phantom (Obj.magic "one")); any 1 ];
  kind ~arguments:"(int, string) " "turned" [ Left "one"; Right 1 ] [ any (Left 1); any (Right "one") ];
  kind "an_array_of_parameter" [ [||]; [| { content = 1. } |] ] [ any [| 1. |]; any [| { content = 1 } |] ];
  kind "a_private" [ 1 ] [ any "one" ];
  kind "a_private_record" [ any { content = 1 } ] [ any { content = "one" }; any 1 ];
  kind "a_copy" [ Every_kind.Two (2, "two") ] [ any 2; any (Right 1) ]

let () =
  let rec endless = Node (Leaf, 1, endless) in
  kind ~arguments:"int " "tree"
    [ Leaf; Node (Leaf, 1, Node (Leaf, 2, Leaf)); endless ]
    [ any (Node (Leaf, "one", Leaf)); any (Node (Leaf, 1, Obj.magic 1)); any 1 ];
  kind "even" [ Zero; After_odd (After_even Zero) ] [ any (After_odd (Obj.magic Zero)); any 1 ];
  kind "odd" [ After_even Zero; After_even (After_odd (After_even Zero)) ] [ any Zero; any (After_even (Obj.magic 1)) ];
  let rec ring = { value = 1; next = Some ring } in
  kind "a_node" [ { value = 1; next = None }; ring ] [ any { value = 1; next = Some (Obj.magic 1) }; any 0 ];
  kind ~arguments:"int " "rose" [ Rose (1, [ Rose (2, []) ]) ] [ any (Rose (1, [ Obj.magic 1 ])); any (Rose ("x", [])) ]

let () =
  kind "inner_t" [ { Inner.deep = 1 } ] [ any { content = "one" }; any (1, 2) ];
  kind "inner_innermost_t" Inner.Innermost.[ A; B "b" ] [ any 1; any (Inner.Innermost.B (Obj.magic 1)) ];
  kind "t" [ ({ Inner.deep = 1 }, Inner.Innermost.A) ] [ any (Inner.Innermost.A, { Inner.deep = 1 }) ];
  kind "yes_t" Yes.[ Stop; Go (No.Back Stop) ] [ any 1; any (Yes.Go (Obj.magic Yes.Stop)) ];
  kind "no_t" No.[ Back Yes.Stop ] [ any 0; any (No.Back (Obj.magic 1)) ];
  kind "an_alias" Inner.Innermost.[ A; B "b" ] [ any 1; any (ref 1) ];
  kind "make_every_kind_string_key_entry"
    Made.[ { key = "one"; rest = [] }; { key = "one"; rest = [ { key = "two"; rest = [] } ] } ]
    [ any { Made.key = Obj.magic 1; rest = [] }; any 0 ];
  kind "string_key_t" [ "one" ] [ any 1 ];
  kind "made_entry" Made.[ { key = "one"; rest = [] } ] [ any "one"; any { Made.key = "one"; rest = Obj.magic 1 } ];
  kind "a_made" Made.[ { key = "one"; rest = [] } ] [ any { Made.key = "one"; rest = [ Obj.magic 1 ] } ]

let () =
  let one = Sum (Int 1, If (Bool true, Int 2, Int 3)) in
  let kind name = kind ~arguments:"'none " name in
  kind "expr_at_int" [ Int 1; one ] [ any (Bool true); any (Sum (Int 1, Obj.magic (Bool true))); any (If (Obj.magic one, one, one)) ];
  kind "expr_at_bool"
    [ Bool true; If (Bool true, Bool false, Bool true) ]
    [ any (Int 1); any one; any (If (Bool true, Bool false, Obj.magic one)) ];
  kind "program_at_int" [ { body = one; parts = [ { body = Int 1; parts = [] } ] } ]
    [ any { body = Bool true; parts = [] }; any { body = one; parts = [ Obj.magic { body = Bool true; parts = [] } ] } ]

(* What may be changed has one type, wherever it is; what may not may have two. *)
let pair ?(arguments = ("", "")) verdict first second value =
  let word arguments name = arguments ^ "every_kind_" ^ name in
  write verdict (word (fst arguments) first ^ " * " ^ word (snd arguments) second) (any value)

let () =
  pair "yes" "a_record" "a_pair" (twice { number = 1; name = "one" });
  pair "no" "a_mutable_record" "a_pair" (twice { count = 1; label = "one" });
  pair "yes" "a_mutable_record" "a_mutable_record" (twice { count = 1; label = "one" });
  pair "no" "a_mutable_float_record" "a_float_array" (twice { low = 1.; high = 2. });
  pair "no" "a_float_record" "a_float_array" (twice { re = 1.; im = 2. });
  pair "yes" "a_float_record" "unboxed_floats" (twice { re = 1.; im = 2. });
  pair "no" "a_string" "some_bytes" (twice "text");
  pair "no" "a_ref" "an_array" (twice (ref 1));
  pair "yes" "inline_records" "inline_records" (twice (Named { label = "one"; hits = 1 }));
  pair "no" "inline_records" "constant_inline" (twice (Named { label = "one"; hits = 1 }));
  pair ~arguments:("int ", "bool ") "yes" "box" "box" (twice { content = 1 });
  pair "yes" "a_list" "an_abbreviation" (twice [ 1; 2 ]);
  pair "no" "an_array_of_unboxed" "a_floatarray" (twice [| 1.; 2. |]);
  pair "yes" "an_array_of_unboxed" "a_float_array" (twice [| 1.; 2. |])
