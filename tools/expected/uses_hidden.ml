(* Types made of those that hidden.mli hides. What is to be printed for them with --cmt is in uses_hidden.types. *)

module Text_key = struct
  type t = string
end

module Texts = Hidden.Make (Text_key)
module Names = Map.Make (String)

(* A module that is included behind a signature *)
module Resealed = struct
  include (
    Hidden.Sealed :
      sig
        type t

        val value : t
      end)
end

(* OCaml does not know that these fields are floats, so the record is not flat. *)
type pair = { left : Hidden.meters; mutable right : Hidden.meters }

type all = {
  whole : Hidden.t;
  stack : int Hidden.stack;
  inner : Hidden.Inner.t;
  texts : Texts.t;
  pair : pair;
  names : int Names.t;
  sealed : Hidden.Sealed.t;
  renamed : Hidden.renamed * Hidden.public_name;
  counts : Hidden.counts;
  resealed : Resealed.t;
}
