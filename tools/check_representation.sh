#!/bin/sh
# Checks that the representation which types_of_cmi and omarshal take for a type is the compiler's. Two modules are
# compiled, one with a type of each kind that the grammar of declarations has, one with types whose names meet. Programs
# compiled with them write values of each type and of near but other types; the declarations are made from the .cmi files.
# Of the first omarshal says `yes`, of the others `no`. Each type that was declared is asked for, and gets both answers.
# The argument is the program; with none it is the one that `./omarshal --prove` built.
set -eu
export LC_ALL=C
if ! command -v ocamlc > /dev/null 2>&1; then
    echo 'skipped: no ocamlc'
    exit 0
fi
library=$(ocamlc -where)
if [ ! -f "$library/compiler-libs/ocamlcommon.cma" ]; then
    echo "skipped: no compiler-libs"
    exit 0
fi
if [ ! -f "$library/stdlib__Map.cmt" ]; then
    echo "skipped: no .cmt files of the standard library"
    exit 0
fi
case $(ocamlc -version) in
    4.13.* | 5.3.* | 5.4.*) ;;
    *) echo "skipped: OCaml is $(ocamlc -version), not 4.13, 5.3 or 5.4"; exit 0 ;;
esac
here=$(cd "$(dirname "$0")" && pwd)
program=${1:-$here/../crates/omarshal/out/omarshal}
if [ ! -x "$program" ]; then
    echo "there is no program $program: ./omarshal --prove builds it"
    exit 2
fi
program=$(cd "$(dirname "$program")" && pwd)/$(basename "$program")
work=$(mktemp -d)
trap 'rm -rf "$work"' EXIT
cp "$here/expected/every_kind.ml" "$here/expected/every_kind_values.ml" \
    "$here/expected/conflicts.ml" "$here/expected/conflicts_values.ml" "$work"
cd "$work"
sh "$here/build_types_of_cmi.sh" types_of_cmi
passed=0
failures=0

failed() {
    echo "FAILED: $1"
    failures=$((failures + 1))
}

# judged MODULE FOLDER: omarshal says of each value of a folder what MODULE.tsv says.
judged() {
    while IFS='	' read -r file verdict type; do
        status=0
        "$program" check "$1.types" "$type" < "$2/$file" > line 2> err || status=$?
        case $verdict$status$(cat line) in
            yes0yes | no1no\ *) passed=$((passed + 1)) ;;
            *) failed "$2/$file at $type is $verdict, and not $(cat line) $(cat err) (status $status)" ;;
        esac
    done < "$1.tsv"
}

# module MODULE WORD..: the values of a module, at the types that the tool makes by the words.
module() {
    module=$1
    shift
    ocamlc -w -a -bin-annot -c "$module.ml"
    ./types_of_cmi "$@" > "$module.types" 2> word || {
        failed "types_of_cmi: $(cat word)"
        return
    }
    for compiler in ocamlc ocamlopt; do
        if command -v $compiler > /dev/null 2>&1; then
            $compiler -w -a -o write_values "$module.ml" "${module}_values.ml"
            mkdir "$module.$compiler"
            ./write_values "$module.$compiler" > "$module.tsv"
            judged "$module" "$module.$compiler"
        fi
    done
    echo "$module: $(cut -f 2 "$module.tsv" | grep -c yes) values of the types, $(cut -f 2 "$module.tsv" | grep -c no) others"
}

# asked MODULE: each type of the type file but the last one was asked for, and got both verdicts.
asked() {
    sed -n 's/^\(type\|and\) \(.*\) =.*/\2/p' "$1.types" | sed 's/.* //' | sed '$d' | sort > declared
    for verdict in yes no; do
        sed -n "s/^[0-9]*	$verdict	//p" "$1.tsv" | grep -v ' \* ' | sed 's/.* //' | sort -u > asked
        comm -23 declared asked > missing
        [ ! -s missing ] || failed "no value gets $verdict at $(tr '\n' ' ' < missing)"
    done
    echo "$1: $(wc -l < declared) types"
}

module every_kind Every_kind.all
asked every_kind
module conflicts --cmt Conflicts.all
echo "$passed passed, $failures failed"
[ "$failures" -eq 0 ]
