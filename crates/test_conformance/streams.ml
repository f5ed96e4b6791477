(* Writes the streams of data/ into the folder that its argument names. *)

let folder = Sys.argv.(1)

let write_values name write =
  let out = open_out_bin (Filename.concat folder (name ^ ".stream")) in
  write out;
  close_out out

(* A file of one value. *)
let write ?(flags = []) name value =
  write_values name (fun out -> Marshal.to_channel out value flags)

type point = { x : float; y : float }
type mixed = { number : int; weight : float; name : string }
type 'a cell = { mutable content : 'a }

(* Its constructors with arguments have the tags from 0 to 16. *)
type many =
  | C0 of int | C1 of int | C2 of int | C3 of int | C4 of int | C5 of int
  | C6 of int | C7 of int | C8 of int | C9 of int | C10 of int | C11 of int
  | C12 of int | C13 of int | C14 of int | C15 of int | C16 of int * int

let first_many =
  [ C0 0; C1 1; C2 2; C3 3; C4 4; C5 5; C6 6; C7 7; C8 8; C9 9; C10 10; C11 11;
    C12 12; C13 13; C14 14; C15 15 ]

type nested = Nothing | Again of nested

let rec nested depth inner =
  if depth = 0 then inner else nested (depth - 1) (Again inner)

(* Integers of each width, on both sides of each bound. *)
let bounds =
  List.concat_map
    (fun n -> [ n - 1; n; -n; -n - 1 ])
    [ 1; 1 lsl 6; 1 lsl 7; 1 lsl 15; 1 lsl 30; 1 lsl 31; 1 lsl 61 ]

(* A new string, which nothing else shares. *)
let text n = String.init n (fun k -> Char.chr (97 + (k mod 26)))

let () =
  (* Integers and strings. *)
  write "int" 42;
  write "negative" (-7);
  write "max_int" max_int;
  write "min_int" min_int;
  write "bounds" bounds;
  write "string" "hello";
  write "empty_string" "";
  write "bytes" (String.init 256 Char.chr);
  write "string_31" (text 31);
  write "string_32" (text 32);
  write "string_255" (text 255);
  write "string_256" (text 256);
  write "string_70000" (text 70000);
  (* Lists. *)
  write "nil" ([] : int list);
  write "ints" [ 1; 2; 3 ];
  write "lists" [ [ 1 ]; []; [ 2; 3 ] ];
  write "strings" [ text 3; ""; text 40 ];
  write "wrong_end" [ Obj.repr [ 1 ]; Obj.repr [ Obj.repr 2; Obj.repr "two" ] ];
  let rec cyclic = 1 :: 2 :: 3 :: cyclic in
  write "cyclic" cyclic;
  let twice = text 5 in
  write "shared" [ twice; twice; twice ];
  write ~flags:[ Marshal.No_sharing ] "no_sharing" [ twice; twice; twice ];
  write ~flags:[ Marshal.No_sharing ] "no_sharing_float" 1.5;
  write ~flags:[ Marshal.Compat_32 ] "compat_32" [ 1; 2; 3 ];
  (* Floats. *)
  write "float" 1.5;
  write "nan" nan;
  write "float_list" [ 0.5; 1.5 ];
  write "float_array" [| 1.0; 2.0; 3.0 |];
  write "float_array_300" (Array.init 300 float_of_int);
  write "float_record" { x = 1.0; y = -2.0 };
  write "mixed_record" { number = 1; weight = 2.0; name = text 4 };
  write "no_floats" ([||] : float array);
  (* Customs. *)
  write "int32" 0x12345678l;
  write "int32_min" Int32.min_int;
  write "int64" 0x123456789abcdef0L;
  write "int64_min" Int64.min_int;
  write "nativeint" 1n;
  write "nativeint_wide" 0x123456789abcdef0n;
  write "nativeint_negative" (-0x80000001n);
  write "customs" [ Obj.repr 1l; Obj.repr 2L; Obj.repr 3n ];
  (* Blocks. *)
  write "pair" (1, "one");
  write "block_of_7" (1, 2, 3, 4, 5, 6, 7);
  write "block_of_8" (1, 2, 3, 4, 5, 6, 7, 8);
  write "tag_16" (C16 (1, 2));
  write "tags" first_many;
  write "array_300" (Array.init 300 (fun k -> k));
  write "wide" (Array.init 65537 (fun k -> if k = 65536 then [ 2 ] else []));
  write "variant" (`Blue 3);
  let cell = { content = [] } in
  cell.content <- [ Obj.repr cell ];
  write "cell" cell;
  write "nested" (nested 1000 Nothing);
  write "exception" Not_found;
  write "forward" (Lazy.from_val 1.5);
  (* A reference of one, two or four bytes: it leads back over so many objects and some to an int32, whose neighbours
     are blocks of a list of integers. *)
  List.iter
    (fun (name, count) ->
      let zeros n = List.init n (fun _ -> Obj.repr 0) in
      let shared = Obj.repr 1l in
      write name
        [ Obj.repr (zeros 3 @ (shared :: zeros count)); shared ])
    [ ("offset_1", 10); ("offset_2", 300); ("offset_4", 70000) ];
  write "far_apart"
    (List.concat [ [ twice ]; List.init 300 (fun _ -> text 1); [ twice ] ]);
  (* Several values in one stream. *)
  write_values "three" (fun out ->
      Marshal.to_channel out 1 [];
      Marshal.to_channel out "two" [];
      Marshal.to_channel out 3 []);
  write_values "three_ints" (fun out ->
      List.iter (fun n -> Marshal.to_channel out n []) [ 1; -2; 300 ]);
  write_values "three_lists" (fun out ->
      List.iter (fun l -> Marshal.to_channel out l []) [ [ 1 ]; []; cyclic ]);
  write_values "none" (fun _ -> ());
  (* No whole value, or more behind it. *)
  let bytes = Marshal.to_bytes [ 1; 2; 3 ] [] in
  write_values "cut" (fun out -> output out bytes 0 (Bytes.length bytes - 1));
  write_values "half_header" (fun out ->
      output_bytes out bytes;
      output out bytes 0 10);
  (* A custom that is not read. *)
  let bigarray = Bigarray.Array1.create Bigarray.int Bigarray.c_layout 1 in
  bigarray.{0} <- 1;
  write "bigarray" bigarray
