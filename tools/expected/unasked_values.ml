(* Writes values of Unasked.all and of near types to the file that its argument names, as values.ml does. What stands at
   a part of type `_` is what can be written at all: no function, object or exception. *)

open Unasked

let file = open_out_bin Sys.argv.(1)

let write verdict type_word value =
  Marshal.to_channel file value [];
  Printf.printf "%s\t%s\n" verdict type_word

let any value = Obj.magic value

let () =
  let cell = ref 5 in
  let rec bool_expr = Refused.Not bool_expr in
  let job = { Refused.name = "job"; run = any 1.5 } in
  let all =
    {
      queue = Jobs { first = [ job; { job with run = any [ "a"; "b" ] } ]; rest = Empty };
      counted = { label = "counted"; by = any cell };
      structural = Some (any "object");
      packed = [ any 1; any (2, 3) ];
      any = Any cell;
      bool_expr;
      of_expr = { expr = Int 3 };
      known = Whole { whole = 7 };
      mark = Third true;
      endless = More (More (More (More (More (any Refused.Last)))));
      only_int = [];
      delayed = Later (Lazy.from_val 3);
      failure = Failed (any 0);
      extensible = [ any 4 ];
      sum = `B [ any 5; any "hidden" ];
      opened = [ `A ];
      private_open = Some (any `Z);
      private_bounded = Some (any `A);
      nested = Nested (Flat (1, 2));
      nothing = [];
      loop = any 6;
      constrained = [ (1, true) ];
      record = { polymorphic = ([], Obj.repr 8); array = any [| 1.; 2. |] };
      measure = { size = 1.5; scale = any 2.5 };
      scaled = { scaled = 3.5; by = any 4.5 };
      some_expr = Some_expr ({ expr = Int 6 }, { expr = Int 7 });
      gone = 9;
      cell;
    }
  in
  write "yes" "'none unasked_all" all;
  write "yes" "'none unasked_all" { all with mark = Fourth; measure = { all.measure with scale = any [ "a" ] } };
  write "no" "'none unasked_all" { all with of_expr = { expr = any bool_expr } };
  write "yes" "'none unasked_all" { all with known = any (Sealed (1, "known", [ 2 ])); delayed = Now 1 };
  write "yes" "'none unasked_all" { all with record = { all.record with array = [| Obj.repr "a"; Obj.repr 1 |] } };
  write "no" "'none unasked_all" { all with queue = Jobs { first = [ { job with name = any 1 } ]; rest = Empty } };
  write "no" "'none unasked_all" { all with counted = { all.counted with label = any 1 } };
  write "no" "'none unasked_all" { all with packed = any 1.5 };
  write "no" "'none unasked_all" { all with any = any 1 };
  write "no" "'none unasked_all" { all with bool_expr = any 0 };
  write "no" "'none unasked_all" { all with bool_expr = Not (any 1) };
  write "no" "'none unasked_all" { all with of_expr = any 3 };
  write "no" "'none unasked_all" { all with known = any (Sealed (1, any 1, [ 2 ])) };
  write "no" "'none unasked_all" { all with known = Whole { whole = any "whole" } };
  write "no" "'none unasked_all" { all with mark = Third (any 2) };
  write "no" "'none unasked_all" { all with mark = any 3 };
  write "no" "'none unasked_all" { all with endless = More (any 1) };
  write "no" "'none unasked_all" { all with delayed = Now (any "now") };
  write "no" "'none unasked_all" { all with delayed = Later (any "later") };
  write "no" "'none unasked_all" { all with sum = any (`C [ 1 ]) };
  write "no" "'none unasked_all" { all with nested = Flat (any "flat") };
  write "no" "'none unasked_all" { all with nothing = any [ 1 ] };
  write "no" "'none unasked_all" { all with bool_expr = Not (any (Refused.Int 1)) };
  write "no" "'none unasked_all" { all with only_int = [ any 1 ] };
  write "no" "'none unasked_all" { all with only_int = [ any (Refused.Only 1) ] };
  write "no" "'none unasked_all" { all with opened = [ any `B ] };
  write "no" "'none unasked_all" { all with nothing = [ any (Some 1) ] };
  write "no" "'none unasked_all" { all with constrained = [ any (1, 2) ] };
  write "no" "'none unasked_all" { all with record = { all.record with polymorphic = (any [ 1 ], Obj.repr 8) } };
  write "no" "'none unasked_all" { all with measure = any [| 1.5; 2.5 |] };
  write "no" "'none unasked_all" { all with measure = any (1, 2) };
  write "no" "'none unasked_all" { all with scaled = any [| 1.5; 2.5 |] };
  write "no" "'none unasked_all" { all with some_expr = any 1 };
  write "no" "'none unasked_all" { all with record = { all.record with array = any "array" } };
  write "no" "'none unasked_all" { all with record = { all.record with polymorphic = any 1 } };
  write "no" "'none unasked_all" { all with cell = any (ref "cell") };
  close_out file
