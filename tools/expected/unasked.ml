(* Parts that have no form. What is to be printed for them with --cmt --any is in unasked.types, and what is to be reported
   in unasked.txt. *)

(* A generalized type (GADT) at an index of which a constructor may be, with a part that its result does not determine *)
type !'a sealed
type _ known = Sealed : 'a * string * 'b list -> 'a sealed known | Whole : { mutable whole : int } -> int known

(* Constant constructors of other indices, before one of this index *)
type _ mark = First : int mark | Second : bool mark | Third : 'a -> 'a mark | Fourth : bool mark

(* Records that OCaml lays out as blocks, as a function is no float *)
type measure = { size : float; scale : float -> float }
type scale = float -> float
type scaled = { scaled : float; by : scale }

type 'a record = { polymorphic : 'b. 'b list * 'a; array : 'a array }

type all = {
  queue : Refused.queue;
  counted : Refused.counted;
  structural : Refused.structural;
  packed : Refused.packed;
  any : Refused.any;
  bool_expr : bool Refused.expr;
  of_expr : int Refused.of_expr;
  known : int known;
  mark : bool mark;
  endless : int Refused.endless;
  only_int : string Refused.only_int list;
  delayed : Refused.delayed;
  failure : Refused.failure;
  extensible : Refused.extensible list;
  sum : Refused.sum;
  opened : [ `A ] Refused.opened list;
  private_open : Refused.private_open option;
  private_bounded : Refused.private_bounded option;
  nested : int Refused.nested;
  nothing : Refused.nothing list;
  loop : Refused.loop;
  constrained : (int * bool) Refused.constrained;
  record : Obj.t record;
  measure : measure;
  scaled : scaled;
  some_expr : Refused.some_expr;
  gone : Gone.t;
  cell : int ref;
}
