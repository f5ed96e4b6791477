type size = Small | Large of int
type t = { size : size }

let one = { size = Large 3 }
