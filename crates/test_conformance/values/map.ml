(* A map from strings to integers. *)
module Strings = Map.Make (String)

let () =
  let entries = [ ("one", 1); ("two", 2); ("three", 3); ("four", 4) ] in
  let out = open_out_bin (Filename.concat Sys.argv.(1) "map.stream") in
  Marshal.to_channel out (Strings.of_seq (List.to_seq entries)) [];
  close_out out
