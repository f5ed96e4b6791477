(* Writes values of the module that its first argument names to the file that its second one names, as values.ml
   does. *)

let file = open_out_bin Sys.argv.(2)

let write verdict type_word value =
  Marshal.to_channel file value [];
  Printf.printf "%s\t%s\n" verdict type_word

let applied () =
  let open Applied in
  let table = Table.create 3 and keyed = Keyed.create 1 in
  Table.add table 1 "one";
  Keyed.add keyed true ();
  let all =
    {
      names = Names.singleton { first = "Ada"; last = "Lovelace" } 1815;
      table;
      keyed;
      floats = Floats.of_list [ 1.5; -2. ];
      mixed = Mixed.value;
      nested = Nested.Several.many;
      one = One.value;
      two = Two.value;
      letters = { name = 'l'; members = Letters.Members.of_list [ ('x', 1); ('y', 2) ] };
    }
  in
  write "yes" "applied_all" all;
  write "no" "applied_all" { all with names = Obj.magic (Floats.singleton 1.) };
  write "no" "applied_all" { all with table = Obj.magic keyed };
  write "no" "applied_all" { all with keyed = Obj.magic table };
  write "no" "applied_all" { all with floats = Obj.magic [ 1.5 ] };
  write "no" "applied_all" { all with mixed = Obj.magic ('a', 2) };
  write "no" "applied_all" { all with nested = Obj.magic Mixed.Several.many };
  write "no" "applied_all" { all with two = Obj.magic 1 };
  write "no" "applied_all" { all with letters = Obj.magic { all.letters with members = Obj.magic all.floats } }

let copied () =
  let open Copied in
  let term = Cast (Var 1, Apply { parts = [| End; Var 2 |] }) in
  let tree = { value = "root"; below = [ { value = "leaf"; below = [] } ] } in
  let all = { term; types = Var 3; tree; again = End; kind = Cast (1, true); floats = { x = 1.; y = 2. } } in
  write "yes" "copied_all" all;
  write "no" "copied_all" { all with term = Obj.magic (Cast (1, End)) };
  write "no" "copied_all" { all with types = Obj.magic (Apply { parts = [| true; false |] }) };
  write "no" "copied_all" { all with tree = { tree with below = [ { value = Obj.magic 1; below = [] } ] } };
  write "no" "copied_all" { all with again = Obj.magic 1 };
  write "no" "copied_all" { all with floats = Obj.magic [| 1.; 2. |] };
  let apply () = Apply { parts = [| End |] } in
  let shared = apply () in
  write "yes" "copied_term * (copied_term, copied_types) copied_kind" { left = apply (); right = apply () };
  write "no" "copied_term * (copied_term, copied_types) copied_kind" { left = shared; right = shared }

let indexed () =
  let open Indexed in
  let all =
    {
      expr = Add (Int 3, Add (Zero, All [ 1; 2 ]));
      number = Int 4;
      alias = Zero;
      int_cell = Cell { held = 5; name = "cell" };
      bool_cell = Plain true;
      vector = Cons ("one", Cons ("two", Nil));
      same = Same (1, 2);
      sealed = Sealed [ Hidden.Sealed.value ];
      unboxed = Unboxed 6;
    }
  in
  write "yes" "indexed_all" all;
  write "yes" "indexed_all" { all with expr = Zero; int_cell = Only_int };
  write "yes" "indexed_all" { all with expr = All []; int_cell = Plain 1 };
  write "no" "indexed_all" { all with expr = Obj.magic (Pair (Int 1, Int 2)) };
  write "no" "indexed_all" { all with expr = Obj.magic None_of_them };
  write "no" "indexed_all" { all with expr = Obj.magic (All [ "one" ]) };
  write "no" "indexed_all" { all with int_cell = Obj.magic (Plain "text") };
  write "no" "indexed_all" { all with bool_cell = Obj.magic Only_int };
  write "no" "indexed_all" { all with vector = Obj.magic (Cons ("one", Nil)) };
  write "no" "indexed_all" { all with vector = Obj.magic (Cons ("one", Cons ("two", Cons ("three", Nil)))) };
  write "no" "indexed_all" { all with same = Obj.magic (Function 1) };
  write "no" "indexed_all" { all with sealed = Obj.magic (Whole 1) };
  write "no" "indexed_all" { all with unboxed = Obj.magic (Some 6) }

let textbook () =
  let open Textbook in
  let one = Add (Int 1, If (Bool true, Int 2, Int 3)) in
  let all =
    {
      int = one;
      bool = If (Bool true, Bool false, If (Bool true, Bool true, Bool false));
      sum = Program { body = Bool true; parts = [ { body = Bool false; parts = [] } ] };
      named = { pairs = [ (1, true) ]; name = "named" };
      opened = `B 4;
      empty = { lists = []; nothing = None; held = 5 };
      tree = Tree (Labeled (Leaf one, [ Leaf (Int 6) ]));
      kinds = ([ Kind ("one", List (List Number)); Kind ("two", Named { name = "two" }) ], Packed Number);
    }
  in
  write "yes" "'none textbook_expr_at_int" one;
  write "no" "'none textbook_expr_at_int" (Add (Int 1, Obj.magic (Bool true)));
  write "no" "'none textbook_expr_at_int" (Bool true);
  write "no" "'none textbook_expr_at_int" (If (Obj.magic (Int 1), Int 2, Int 3));
  write "no" "'none textbook_expr_at_bool" (Add (Int 1, Int 2));
  write "no" "'none textbook_expr_at_bool" (If (Bool true, Bool false, Obj.magic (Int 3)));
  write "yes" "'none textbook_all" all;
  write "yes" "'none textbook_all" { all with sum = Constant true; opened = `A };
  write "no" "'none textbook_all" { all with int = Obj.magic all.bool };
  write "no" "'none textbook_all" { all with sum = Program { body = Obj.magic one; parts = [] } };
  write "no" "'none textbook_all" { all with sum = Constant (Obj.magic 2) };
  write "no" "'none textbook_all" { all with tree = Leaf (Obj.magic all.bool) };
  write "no" "'none textbook_all" { all with kinds = ([], Packed (Named { name = Obj.magic 1 })) };
  write "no" "'none textbook_all" { all with kinds = ([ Kind ("one", Obj.magic 1) ], Packed Number) };
  write "no" "'none textbook_all" { all with tree = Tree (Labeled (Obj.magic 1, [])) };
  write "no" "'none textbook_all" { all with named = { all.named with pairs = [ Obj.magic (1, 2) ] } };
  write "no" "'none textbook_all" { all with opened = Obj.magic `C };
  write "no" "'none textbook_all" { all with empty = { all.empty with lists = Obj.magic [ 1 ] } };
  write "no" "'none textbook_all" { all with empty = { all.empty with nothing = Some (Obj.magic 0) } };
  write "no" "'none textbook_all" { all with empty = { all.empty with held = Obj.magic "five" } }

let shut () =
  output_string file Shut.saved;
  Printf.printf "yes\tshut_inner_file\n";
  write "no" "shut_inner_file" [ Shut.saved ]

let () =
  List.assoc Sys.argv.(1)
    [ ("applied", applied); ("copied", copied); ("indexed", indexed); ("shut", shut); ("textbook", textbook) ]
    ();
  close_out file
