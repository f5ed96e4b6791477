(* Two nodes of a graph, each of which leads to the other. *)
type 'mark node = { name : string; mutable mark : 'mark; mutable edges : 'mark edge list }
and 'mark edge = { target : 'mark node; weight : float }

let () =
  let first = { name = "first"; mark = 0; edges = [] } in
  let second = { name = "second"; mark = 1; edges = [] } in
  first.edges <- [ { target = second; weight = 1.5 } ];
  second.edges <- [ { target = first; weight = 2. }; { target = second; weight = 0.5 } ];
  let out = open_out_bin (Filename.concat Sys.argv.(1) "graph.stream") in
  Marshal.to_channel out (first, second) [];
  close_out out
