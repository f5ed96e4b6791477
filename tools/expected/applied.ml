(* Types of functors applied to structures that have no name. What is to be printed for them with --cmt is in
   applied.types. *)

type name = { first : string; last : string }

module Names = Map.Make (struct
  type t = name

  let compare = compare
end)

module Table = Hashtbl.Make (struct
  type t = int

  let equal = ( = )
  let hash = Hashtbl.hash
end)

module Key = struct
  type t = bool

  let equal = ( = )
  let hash = Hashtbl.hash
end

module Keyed = Hashtbl.Make (Key)

module Floats = struct
  include Set.Make (struct
    type t = float

    let compare = compare
  end)
end

module type Valued = sig
  type t

  val value : t
end

module Pair (Left : Valued) (Right : Valued) : sig
  include Valued

  module Several : sig
    type many

    val many : many
  end
end = struct
  type t = Left.t * Right.t

  let value = (Left.value, Right.value)

  module Several = struct
    type many = Many of t list

    let many = Many [ value; value ]
  end
end

module Letter = struct
  type t = char

  let value = 'a'
end

module Mixed =
  Pair
    (Letter)
    (struct
      type t = bool

      let value = true
    end)

module Nested =
  Pair
    (Pair
       (struct
         type t = int

         let value = 7
       end)
       (Letter))
    (struct
      type t = unit

      let value = ()
    end)

module Fresh () : Valued = struct
  type t = Fresh of int

  let value = Fresh 1
end

module One = Fresh ()
module Two = Fresh ()

(* A functor that applies another in its body *)
module Group (Name : Valued) = struct
  module Members = Set.Make (struct
    type t = Name.t * int

    let compare = compare
  end)

  type t = { name : Name.t; members : Members.t }
end

module Letters = Group (Letter)

type all = {
  names : int Names.t;
  table : string Table.t;
  keyed : unit Keyed.t;
  floats : Floats.t;
  mixed : Mixed.t;
  nested : Nested.Several.many;
  one : One.t;
  two : Two.t;
  letters : Letters.t;
}
