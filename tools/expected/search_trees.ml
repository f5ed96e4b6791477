(* Writes sets and maps of OCaml's own, and judges such values by the definitions, walk by walk and path by path: what
   tools/check_search_trees.sh compares `omarshal trees` with.

     search_trees write FOLDER    values and scripts that change them at one path, and a line for each: FILE, types, TYPE, SCRIPT
     search_trees judge KIND      the verdict on the value of standard input: KIND is set_int, set_string, map_int or map_string *)

module Ints = Set.Make (Int)
module Strings = Set.Make (String)
module Int_map = Map.Make (Int)
module String_map = Map.Make (String)

(* A node as it lies in memory: a set's has l, v, r and h, a map's l, v, d, r and h. *)
type node = { left : Obj.t; element : Obj.t; right : Obj.t; height : int; right_step : int }

let node_of value =
  let field = Obj.field value in
  let map = Obj.size value = 5 in
  let right_step = if map then 3 else 2 in
  { left = field 0; element = field 1; right = field right_step; height = Obj.obj (field (right_step + 1)); right_step }

let height value = if Obj.is_int value then 0 else (node_of value).height

let compared a b = if Obj.is_int a then compare (Obj.obj a : int) (Obj.obj b) else compare (Obj.obj a : string) (Obj.obj b)

(* the elements at and below a value, from the left to the right *)
let rec elements value rest =
  if Obj.is_int value then rest
  else
    let node = node_of value in
    elements node.left (node.element :: elements node.right rest)

(* all nodes with their paths, the least path first: the shorter one, then the one with the lesser step *)
let nodes root =
  let rec level found = function
    | [] -> List.rev found
    | positions ->
        let found = List.rev_append positions found in
        let below found (path, value) =
          let node = node_of value in
          let add found ((_, part) as position) = if Obj.is_block part then position :: found else found in
          add (add found (0 :: path, node.left)) (node.right_step :: path, node.right)
        in
        level found (List.rev (List.fold_left below [] positions))
  in
  level [] (if Obj.is_block root then [ ([], root) ] else [])

let text_of path =
  if path = [] then "." else String.concat "" (List.rev_map (fun step -> "." ^ string_of_int step) path)

let is_miscounted (_, value) =
  let node = node_of value in
  node.height <> 1 + max (height node.left) (height node.right)

let is_unbalanced (_, value) =
  let node = node_of value in
  abs (height node.left - height node.right) > 2

let is_disordered (_, value) =
  let node = node_of value in
  List.exists (fun other -> compared other node.element >= 0) (elements node.left [])
  || List.exists (fun other -> compared other node.element <= 0) (elements node.right [])

(* a walk below each node is dear, so that it is left out where all elements increase *)
let increase root =
  let rec go = function a :: (b :: _ as rest) -> compared a b < 0 && go rest | _ -> true in
  go (elements root [])

let verdict root =
  let all = nodes root in
  let fault kind (path, _) = Printf.sprintf "fault %s at %s" kind (text_of path) in
  match List.find_opt is_miscounted all with
  | Some position -> fault "height" position
  | None -> (
      match List.find_opt is_unbalanced all with
      | Some position -> fault "balance" position
      | None -> (
          match if increase root then None else List.find_opt is_disordered all with
          | Some position -> fault "order" position
          | None -> Printf.sprintf "sound %d" (List.length all)))

(* ---- values and changes of them *)

let folder = if Array.length Sys.argv > 2 then Sys.argv.(2) else "."

let write name write_all =
  let file = open_out_bin (Filename.concat folder name) in
  write_all file;
  close_out file

(* the positions at which something is changed: the root, one reached by random steps, and one as deep as there is *)
let positions root =
  let rec down path value turns =
    let node = node_of value in
    let step, part = if Random.bool () then (0, node.left) else (node.right_step, node.right) in
    if turns = 0 || Obj.is_int part then (path, value) else down (step :: path) part (turns - 1)
  in
  if Obj.is_int root then [] else [ ([], root); down [] root (1 + Random.int 8); down [] root 64 ]

(* of a node: its height, its element, and one of its parts *)
let changes kind (path, value) =
  let at step = (if path = [] then "" else text_of path) ^ "." ^ string_of_int step in
  let node = node_of value in
  let element number = if kind = "set_string" || kind = "map_string" then Printf.sprintf "%S" (string_of_int number) else string_of_int number in
  let set step text = Printf.sprintf "0 set %s = %s" (at step) text in
  [ set (node.right_step + 1) (string_of_int (node.height + 1)); set (node.right_step + 1) (string_of_int (node.height - 1));
    set 1 (element (Random.int 2_000_000)); set 1 (element (-1)); set 0 "Empty"; set node.right_step "Empty";
    Printf.sprintf "0 link %s = %s" (at 0) (at node.right_step); Printf.sprintf "0 link %s = %s" (at node.right_step) (at 0) ]

let save kind size types name value =
  let root = Obj.repr value in
  let file = Printf.sprintf "%s_%d" kind size in
  write file (fun out -> Marshal.to_channel out value []);
  let print script = Printf.printf "%s\t%s\t%s\t%s\t%s\n" file kind types name script in
  print "-";
  List.iteri
    (fun i script ->
      let script_name = Printf.sprintf "%s_%d" file i in
      write script_name (fun out -> output_string out (script ^ "\n"));
      print script_name)
    (List.concat (List.map (changes kind) (positions root)))

let write_all () =
  Random.init 20261128;
  let one size =
    let numbers = List.init size (fun _ -> Random.int (4 * size)) in
    let pairs of_number = List.rev_map (fun n -> (of_number n, n)) numbers in
    save "set_int" size "sets.types" "int set" (Ints.of_list numbers);
    save "set_string" size "sets.types" "string set" (Strings.of_list (List.rev (List.rev_map string_of_int numbers)));
    save "map_int" size "maps.types" "(int, int) map" (Int_map.of_seq (List.to_seq (pairs (fun n -> n))));
    save "map_string" size "maps.types" "(string, int) map" (String_map.of_seq (List.to_seq (pairs string_of_int)))
  in
  List.iter one [ 0; 1; 1_000; 1_000_000 ]

let () =
  match Sys.argv.(1) with
  | "write" -> write_all ()
  | "judge" ->
      set_binary_mode_in stdin true;
      print_endline (verdict (Marshal.from_channel stdin))
  | _ -> exit 2
