(* Questions on literals of every form in scripts, on integers of every length in texts, and their answers: the bytes are what OCaml writes
   of the value that the script makes, the lines are worked out by hand. `ocaml literals.ml` prints the questions, `ocaml literals.ml
   --answers` each with its answer. *)

let with_answers = Array.length Sys.argv > 1 && Sys.argv.(1) = "--answers"

let hex bytes =
  String.concat ""
    (List.map
       (fun byte -> Printf.sprintf "%02x" (Char.code byte))
       (List.of_seq (String.to_seq bytes)))

let written value = hex (Marshal.to_string value [])

let ask settings value file words answer =
  Printf.printf "run %s\t%s\t=%s\t%s\n" settings (written value) file
    (String.concat "\t" words);
  if with_answers then List.iter print_endline answer

(* A line of a script makes a value of another. *)
let made before file ty line after =
  ask ("script=" ^ hex line) before file
    [ "edit"; "f.ml"; ty; "script" ]
    [ "values: " ^ written after; "status 0" ]

(* A line of a script is refused. *)
let refused before file ty line why =
  ask ("script=" ^ hex line) before file
    [ "edit"; "f.ml"; ty; "script" ]
    [ "err: omarshal: script line 1: " ^ why; "status 5" ]

let answer value file words lines = ask "" value file words (lines @ [ "status 0" ])

type r = { a : int; b : string }
type 'a box = { mutable content : 'a }
type t = [ `A | `B of int * string | `C of int ]

let () =
  let records = "type r = { a : int; b : string }" in
  let r = { a = 0; b = "" } in
  made r records "r" "0 set . = {a = 5; b = \"xy\"}" { a = 5; b = "xy" };
  made [ r ] records "r list" "0 set .0 = {a = -70; b = \"\"}" [ { a = -70; b = "" } ];
  made [] records "r list" "0 set . = ::({a = 1; b = \"z\"}, ::({a = 2; b = \"y\"}, []))"
    [ { a = 1; b = "z" }; { a = 2; b = "y" } ];
  refused r records "r" "0 set . = {b = \"xy\"; a = 5}" "Literal Misfit at 10: expected r";
  refused r records "r" "0 set . = {a = 5}" "Literal Misfit at 10: expected r";
  refused r records "r" "0 set . = {a = 5; b = 6}" "Literal Misfit at 22: expected string";
  made { content = None } "type 'a box = { mutable content : 'a }" "int option box"
    "0 set . = {content = Some(7)}"
    { content = Some 7 };
  made ((), 0) "" "unit * int" "0 set . = ((), 3)" ((), 3);
  made [ () ] "" "unit list" "0 set .1 = ::((), [])" [ (); () ];
  refused 1 "" "int" "0 set . = ()" "Literal Misfit at 10: expected int";
  made (0.5, 1) "" "float * int" "0 set .0 = $3ff8000000000000" (1.5, 1);
  refused 1 "" "int" "0 set . = $3ff8000000000000" "Literal Misfit at 10: expected int";
  let tags = "type t = [ `A | `B of int * string | `C of int ]" in
  made (`C 1 : t) tags "t" "0 set . = `A" (`A : t);
  made (`A : t) tags "t" "0 set . = `B((1, \"x\"))" (`B (1, "x") : t);
  made (`A : t) tags "t" "0 set . = `C(7)" (`C 7 : t);
  made ([ `A; `C 1 ] : t list) tags "t list" "0 set .1.0 = `A" ([ `A; `A ] : t list);
  let numbers =
    [ 10; 42; 123; 1234; 12345; 123456; 1234567; 12345678; 99999999; 100000000; -10 ]
  in
  answer numbers "" [ "show"; "f.ml"; "int list" ]
    [ "::(10, ::(42, ::(123, ::(1234, ::(12345, ::(123456, ::(1234567, ::(12345678, ::(99999999, "
      ^ "::(100000000, ::(-10, [])))))))))))" ];
  answer [ 12; 3456789 ] "" [ "dump" ]
    [ "root #0"; "#0 block 0: 12 #1"; "#1 block 0: 3456789 0" ]
