(* Writes values of the types of shown.types, each in a file of its own into the folder of the first argument, and prints
   the file's name and the type of each. *)

open Shown

let count = ref 0

let write ty value =
  incr count;
  let name = Printf.sprintf "%d.bin" !count in
  let file = open_out_bin (Filename.concat Sys.argv.(1) name) in
  Marshal.to_channel file value [];
  close_out file;
  Printf.printf "%s\t%s\n" name ty

let every_byte = String.init 256 Char.chr

module Strings = Map.Make (String)

let rec tree from until =
  if from >= until then Leaf
  else
    let middle = (from + until) / 2 in
    Node (tree from middle, middle, tree (middle + 1) until)

let bases i =
  {
    c = Char.chr (i land 255);
    b = i land 1 = 0;
    u = ();
    i = i * 7919;
    s = String.sub every_byte 0 (i land 255);
    by = Bytes.of_string (String.make 3 (Char.chr (255 - (i land 255))));
    f = 1.0 /. float_of_int (i + 1);
    i32 = Int32.of_int (-i);
    i64 = Int64.mul 1000000007L (Int64.of_int (i - 5));
    n = Nativeint.of_int (i * i);
    fa = Float.Array.init (i land 3) float_of_int;
    d = Array.init (i land 3) (fun k -> float_of_int k *. 0.1);
  }

(* nodes in a ring, each of which shares its label with the one before the last *)
let ring size =
  let nodes = Array.init size (fun id -> { id; next = None; label = Printf.sprintf "node \"%d\"" (id / 2) }) in
  Array.iteri (fun i node -> node.next <- Some nodes.((i + 1) mod size)) nodes;
  Array.iteri (fun i node -> if i >= 2 then node.label <- nodes.(i - 2).label) nodes;
  nodes.(0)

(* cells that hold each other, all of them *)
let clique size =
  let shared = ref 5 in
  let cells = Array.init size (fun _ -> { cells = [||]; value = shared }) in
  Array.iter (fun cell -> cell.cells <- Array.copy cells) cells;
  cells.(0)

let rec expression depth =
  if depth = 0 then Number (-1)
  else
    let inner = expression (depth - 1) in
    Let ("x'", inner, Call { callee = Name "f\\\n\t\b\r"; arguments = [ inner; Number max_int; Number min_int ] })

let rec doubled depth = if depth = 0 then Leaf else let one = doubled (depth - 1) in Node (one, depth, one)

let () =
  for i = 0 to 255 do
    write "char" (Char.chr i)
  done;
  write "string" every_byte;
  write "bytes" (Bytes.of_string every_byte);
  write "unit" ();
  write "bool * bool" (true, false);
  List.iter (write "int") [ 0; 1; -1; max_int; min_int; 64; -129 ];
  List.iter (write "int32") [ 0l; Int32.max_int; Int32.min_int ];
  List.iter (write "int64") [ 0L; Int64.max_int; Int64.min_int ];
  List.iter (write "nativeint") [ 0n; Nativeint.max_int; Nativeint.min_int ];
  List.iter (write "float") [ 0.0; -0.0; 1.5; infinity; neg_infinity; nan; 4e-324; max_float ];
  List.iter (write "color") [ Red; Green; Custom 0 ];
  write "color list" [ Red; Custom (-3); Green ];
  write "point" { x = 1.0; y = nan };
  write "point array" (Array.init 20 (fun i -> { x = float_of_int i; y = -1.0 }));
  write "int array" [||];
  write "float array" [||];
  write "float array" [| 1.0; 2.5 |];
  write "floatarray" (Float.Array.of_list [ 0.5; -0.5 ]);
  write "int array array" [| [| 1 |]; [||]; [| 2; 3 |] |];
  write "int option option list" [ None; Some None; Some (Some 4) ];
  write "int ref * int ref" (let r = ref 0 in (r, r));
  write "string * string" (let s = "twice" in (s, s));
  write "int tree" (tree 0 1000);
  write "int tree" (doubled 40);
  write "expression" (expression 12);
  write "node" (ring 1);
  write "node" (ring 50);
  write "cell" (clique 30);
  write "shape list" [ `Dot; `Circle 2.0; `Path [ (1.0, 2.0); (3.0, 4.0) ] ];
  write "other list" [ `Text "a"; `Dot; `Nothing (); `Circle 0.25 ];
  write "bases array" (Array.init 300 bases);
  write "int map" (List.fold_left (fun map i -> Strings.add (string_of_int i) i map) Strings.empty (List.init 500 Fun.id));
  write "int list" (List.init 2000 Fun.id);
  write "(int * string) list" (List.init 100 (fun i -> (i, String.make (i mod 9) '\'')))
