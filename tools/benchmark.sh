#!/bin/sh
# Measures how long omarshal takes, and how much memory, on files that OCaml wrote: beside OCaml's `input_value` and
# `output_value` on the same files where these do such work, else beside another command; and on declarations alone.
# It prints the tables of docs/BENCHMARKS.md.
#
#     tools/benchmark.sh [PROGRAM [PART ..]]
#
# PROGRAM is by default the one that `./omarshal --prove` built. PART is `inputs`, `reading`, `checking`, `real`, `missing`, `small`,
# `growing`, `hostile`, `showing`, `editing`, `building`, `certificates`, `trees`, `places` or `types`; by default it is each
# of them. RUNS=3 before the command makes three runs of each, not seven; LIMIT=60 lets one take 60 s, not 20.
set -eu
if ! command -v ocaml >/dev/null 2>&1; then
    echo "skipped: no ocaml"
    exit 0
fi
if ! command -v python3 >/dev/null 2>&1; then
    echo "skipped: no python3"
    exit 0
fi
here=$(cd "$(dirname "$0")" && pwd)
program=${1:-$here/../crates/omarshal/out/omarshal}
[ $# -eq 0 ] || shift
if [ ! -x "$program" ]; then
    echo "there is no program $program: ./omarshal --prove builds it"
    exit 2
fi
work=$(mktemp -d)
trap 'rm -rf "$work"' EXIT
cp "$program" "$work/omarshal"
cp "$here/benchmark.ml" "$here/benchmark.types" "$here/../examples"/*.types "$work"
cd "$work"
if command -v ocamlopt >/dev/null 2>&1; then
    ocamlopt -o reader benchmark.ml
    kind="native code (ocamlopt)"
else
    ocamlc -o reader benchmark.ml
    kind="bytecode (ocamlc)"
fi
echo "OCaml $(ocaml -version | sed 's/.* //'), $kind;$(uptime | sed 's/.*load/ load/')"
python3 "$here/benchmark.py" "$work" "$@"
