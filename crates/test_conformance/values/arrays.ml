(* A record of arrays. OCaml keeps an array of floats flat, and an empty one is the atom 0. *)
type 'count series = {
  name : string;
  times : float array;
  counts : 'count array;
  labels : string option array;
  matrix : float array array;
  rest : int array;
  scale : floatarray;
}

let () =
  let series =
    {
      name = "speed";
      times = [| 0.5; 1.5; 2.5 |];
      counts = [| 1; 0; 7 |];
      labels = [| Some "start"; None; Some "end" |];
      matrix = [| [| 1.; 0. |]; [| 0.; 1. |] |];
      rest = [||];
      scale = Float.Array.of_list [ 1.; 2. ];
    }
  in
  let out = open_out_bin (Filename.concat Sys.argv.(1) "arrays.stream") in
  Marshal.to_channel out series [];
  close_out out
