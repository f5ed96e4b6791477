(* Types that came with OCaml 5.4. What is to be printed for them is in labels.types. *)

type point = x:int * y:float
type 'a named = (name:string * 'a) list
type counter = { mutable count : int [@atomic]; step : int }
type 'a frozen = { frozen : 'a iarray; at : int }

(* An index that is a tuple with labels is another one than that without. *)
type _ shape = Plain : int -> (int * int) shape | Labeled : string -> (x:int * y:int) shape

type all = { point : point; named : int named; counter : counter; shape : (x:int * y:int) shape }
