#!/bin/sh
# Compares `omarshal trees` with a plain program of OCaml (expected/search_trees.ml) on OCaml's own sets and maps of 0, 1, 1,000 and a
# million elements, and on each of them changed at one path by `omarshal edit`: a height, an element, a part. The argument is the
# program; with none it is the one that `./omarshal --prove` built.
set -eu
export LC_ALL=C
if ! command -v ocamlfind > /dev/null 2>&1 && ! command -v ocamlopt > /dev/null 2>&1; then
    echo "skipped: no ocamlopt"
    exit 0
fi
here=$(cd "$(dirname "$0")" && pwd)
program=${1:-$here/../crates/omarshal/out/omarshal}
if [ ! -x "$program" ]; then
    echo "there is no program $program: ./omarshal --prove builds it"
    exit 2
fi
program=$(cd "$(dirname "$program")" && pwd)/$(basename "$program")
work=$(mktemp -d)
trap 'rm -rf "$work"' EXIT
cp "$here/expected/search_trees.ml" "$work"
cd "$work"
ocamlopt -w -a -o search_trees search_trees.ml
echo "type 'a set = Empty | Node of {l : 'a set; v : 'a; r : 'a set; h : int}" > sets.types
echo "type ('k, 'd) map = Empty | Node of {l : ('k, 'd) map; v : 'k; d : 'd; r : ('k, 'd) map; h : int}" > maps.types
mkdir values
./search_trees write values > values.tsv
passed=0
failures=0
while IFS='	' read -r file kind types type script; do
    if [ "$script" = - ]; then
        cp "values/$file" value
    elif ! "$program" edit "$types" "$type" "values/$script" < "values/$file" > value 2> err; then
        # a part that is not there cannot be linked
        if grep -q -e NotBlock -e NoField err; then continue; fi
        echo "FAILED: edit of $file by $(cat "values/$script"): $(cat err)"
        failures=$((failures + 1))
        continue
    fi
    "$program" trees "$types" "$type" < value > said 2> err || true
    ./search_trees judge "$kind" < value > expected
    if cmp -s said expected; then
        passed=$((passed + 1))
    else
        echo "FAILED: $file, $script ($(cat "values/$script" 2> /dev/null)): prints $(cat said err), expected $(cat expected)"
        failures=$((failures + 1))
    fi
done < values.tsv
echo "$passed passed, $failures failed"
[ "$failures" -eq 0 ]
