(* The values that are read, and OCaml's own reader beside omarshal.

   `write FILE SHAPE COUNT` writes a value of a shape, or many small ones; `read FILE` reads all values of a file; `copy FILE`
   writes each value that it reads; `show FILE` and `part FILE` print each pair of an integer and a string, or the integer. *)

module Strings = Map.Make (String)
module Ints = Set.Make (Int)

type mixed = Leaf | Node of mixed * string * float * mixed

type json =
  | Null
  | Bool of bool
  | Number of float
  | Text of string
  | Items of json list
  | Fields of (string * json) list

type nested = Nothing | Again of nested
type doubling = End | Both of doubling * doubling
type block = Block of int
type node = { number : int; left : node option; right : node option }

(* The trees of a small language, each node with its line and column. *)
type location = { line : int; column : int; length : int }
type constant = Int of int | Text_constant of string | Unit

type expression = { kind : kind; location : location }

and kind =
  | Constant of constant
  | Variable of string
  | Let of string * expression * expression
  | Apply of expression * expression list
  | If of expression * expression * expression option
  | Record of (string * expression) list

(* The state of a small generator, so that each run of this program writes the same bytes. *)
let state = ref 1

let draw bound =
  state := ((!state * 1103515245) + 12345) land 0x7FFFFFFF;
  !state / 256 mod bound

let word () = String.init (1 + draw 12) (fun _ -> Char.chr (97 + draw 26))
let list count = List.init count Fun.id

let string_map count =
  let rec fill map k =
    if k = count then map
    else fill (Strings.add (Printf.sprintf "key %d" (k * 7919)) k map) (k + 1)
  in
  fill Strings.empty 0

let rec mixed count =
  if count = 0 then Leaf
  else
    let left = (count - 1) / 2 in
    let before = mixed left in
    let name = word () in
    let weight = float_of_int (draw 1000) in
    Node (before, name, weight, mixed (count - 1 - left))

let floats count = List.init count float_of_int

(* Records with a name, a list of numbers, a flag and nothing. *)
let json count =
  let record k =
    let numbers = List.init (k mod 5) (fun i -> Number (float_of_int i)) in
    Fields
      [
        ("name", Text (word ()));
        ("numbers", Items numbers);
        ("flag", Bool (k land 1 = 0));
        ("next", Null);
      ]
  in
  Items (List.init count record)

let nested depth =
  let rec around inner depth =
    if depth = 0 then inner else around (Again inner) (depth - 1)
  in
  around Nothing depth

(* Each node names two of those before it. *)
let graph count =
  let nodes = Array.make count { number = 0; left = None; right = None } in
  for k = 1 to count - 1 do
    let before () = Some nodes.(draw k) in
    nodes.(k) <- { number = k; left = before (); right = before () }
  done;
  nodes

(* Trees, in each of which one block is met at two types, as the compiler makes one of equal constants: `Int 0` is a block of
   one field 0, and so is `Constant Unit`. No two trees share a part. *)
let syntax count =
  let tree k =
    let twice = Obj.dup (Obj.repr (Int 0)) in
    let zero : constant = Obj.obj twice and unit : kind = Obj.obj twice in
    let next = ref 0 in
    let at kind =
      incr next;
      { kind; location = { line = k; column = !next; length = 1 + draw 9 } }
    in
    let rec expression depth =
      match if depth = 0 then draw 2 else draw 6 with
      | 0 -> at (Constant (Int (draw 100)))
      | 1 -> at (Variable (word ()))
      | 2 ->
          let bound = expression (depth - 1) in
          at (Let (word (), bound, expression (depth - 1)))
      | 3 ->
          let called = expression (depth - 1) in
          at (Apply (called, List.init 2 (fun _ -> expression (depth - 1))))
      | 4 -> at (If (at (Constant zero), expression (depth - 1), None))
      | _ -> at (Record (List.init 2 (fun _ -> (word (), expression (depth - 1)))))
    in
    let body = expression 5 in
    at (Apply (at (Constant zero), [ at unit; body; expression 5 ]))
  in
  List.init count tree

(* Integers, each with a word. *)
let hashtbl count =
  let table = Hashtbl.create 16 in
  List.iter (fun k -> Hashtbl.add table k (word ())) (list count);
  table

let set count = Ints.of_list (list count)

(* Sets of five integers. *)
let sets count =
  List.init count (fun k -> Ints.of_list (List.init 5 (fun i -> (7 * k) + i)))

(* One set, where two are asked for. *)
let twice count =
  let one = set count in
  (one, one)

(* Trees, and two integers where trees are asked for. *)
let strays count = syntax count @ Obj.magic [ 1; 2 ]

(* Blocks each of which has the next one twice. *)
let rec doubling count =
  if count = 0 then End
  else
    let inner = doubling (count - 1) in
    Both (inner, inner)

(* A thousand times one list of blocks. *)
let shared count = Array.make 1000 (List.init count (fun k -> Block k))

let write file shape count =
  let out = open_out_bin file in
  let output value = Marshal.to_channel out value [] in
  (match shape with
  | "list" -> output (list count)
  | "string_map" -> output (string_map count)
  | "mixed" -> output (mixed count)
  | "floats" -> output (floats count)
  | "json" -> output (json count)
  | "nested" -> output (nested count)
  | "graph" -> output (graph count)
  | "syntax" -> output (syntax count)
  | "doubling" -> output (doubling count)
  | "shared" -> output (shared count)
  | "hashtbl" -> output (hashtbl count)
  | "set" -> output (set count)
  | "sets" -> output (sets count)
  | "twice" -> output (twice count)
  | "strays" -> output (strays count)
  | "references" -> output (Array.make count (ref 0))
  | "values" ->
      for k = 1 to count do
        output (k, string_of_int k)
      done
  | "cells" ->
      for k = 1 to count do
        output [ k ]
      done
  | "clashes" ->
      for k = 1 to count do
        let cell = ref k in
        output (cell, cell)
      done
  | _ -> exit 2);
  close_out out

let read file =
  let input = open_in_bin file in
  let rec next () =
    match (input_value input : Obj.t) with
    | value ->
        print_string (if Obj.is_int value then "an integer\n" else "a block\n");
        next ()
    | exception End_of_file -> ()
  in
  next ()

let copy file =
  let input = open_in_bin file in
  set_binary_mode_out stdout true;
  let rec next () =
    match (input_value input : Obj.t) with
    | value ->
        output_value stdout value;
        next ()
    | exception End_of_file -> ()
  in
  next ()

(* Reads each pair of an integer and a string of a file, and calls `handle` with it. *)
let each file handle =
  let input = open_in_bin file in
  let rec next () =
    match (input_value input : int * string) with
    | value ->
        handle value;
        next ()
    | exception End_of_file -> ()
  in
  next ()

let show (number, text) = Printf.printf "(%d, %S)\n" number text
let part (number, _) = Printf.printf "%d\n" number

let () =
  match Sys.argv with
  | [| _; "write"; file; shape; count |] ->
      write file shape (int_of_string count)
  | [| _; "read"; file |] -> read file
  | [| _; "copy"; file |] -> copy file
  | [| _; "show"; file |] -> each file show
  | [| _; "part"; file |] -> each file part
  | _ -> exit 2
