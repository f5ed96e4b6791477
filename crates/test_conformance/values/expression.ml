(* A syntax tree with lines and columns, as a parser makes it; and the same tree, but for one column that is a string. *)
type place = { line : int; column : int }

type expression = { form : form; place : place }

and form =
  | Number of int
  | Name of string
  | Call of expression * expression list
  | Let of { name : string; recursive : bool; value : expression; body : expression }
  | If of expression * expression * expression option
  | Function of string list * expression
  | Nothing

(* let rec down = fun n -> if n then down (minus n 1) in down 5 *)
let tree last_column =
  let at form line column = { form; place = { line; column } } in
  let name text line column = at (Name text) line column in
  let minus = at (Call (name "minus" 1 35, [ name "n" 1 41; at (Number 1) 1 43 ])) 1 34 in
  let down = at (Call (name "down" 1 29, [ minus ])) 1 29 in
  let value = at (Function ([ "n" ], at (If (name "n" 1 22, down, None)) 1 19)) 1 11 in
  let condition = at (Number 5) 2 7 in
  let body = at (If (condition, at Nothing 2 14, Some (at (Call (name "down" 2 20, [])) 2 last_column))) 2 3 in
  at (Let { name = "down"; recursive = true; value; body }) 1 0

let write name value =
  let out = open_out_bin (Filename.concat Sys.argv.(1) name) in
  Marshal.to_channel out value [];
  close_out out

let () =
  write "expression.stream" (tree 20);
  write "expression_damaged.stream" (tree (Obj.magic "20"))
