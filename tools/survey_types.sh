#!/bin/sh
# Counts how many of the types that the installed OCaml libraries export get a type file by types_of_cmi, and what is
# reported of the others. Each type is asked for at `int` for its parameters, with --cmt; "wrong" are those of which `int` is
# no argument. With the word --any, "less" are the files in which less is asked than OCaml has.
#
#   sh tools/survey_types.sh [NUMBER [FILE [WORD..]]]
#
# Of a library with more than NUMBER types, by default 60, so many are taken, spread evenly over all. FILE gets a line for
# each type: its library, the type, the status, and what was reported. WORDs go to types_of_cmi.
set -eu
export LC_ALL=C
for needed in ocaml ocamlc; do
    if ! command -v "$needed" > /dev/null 2>&1; then
        echo "skipped: no $needed"
        exit 0
    fi
done
folder=$(ocamlc -where)
if [ ! -f "$folder/compiler-libs/ocamlcommon.cma" ]; then
    echo "skipped: no compiler-libs"
    exit 0
fi
here=$(cd "$(dirname "$0")" && pwd)
work=$(mktemp -d)
trap 'rm -rf "$work"' EXIT
number=${1:-60}
results=${2:-$work/results}
if [ $# -gt 2 ]; then shift 2; else set --; fi
sh "$here/build_types_of_cmi.sh" "$work/types_of_cmi"

# The types, as lines of a library, a folder and a type. A library is what lies below one folder of the standard library's
# folder, or in that itself.
find "$folder" -name '*.cmi' | sort > "$work/interfaces"
sed 's|/[^/]*$||' "$work/interfaces" | sort -u > "$work/folders"
ocaml -I +compiler-libs ocamlcommon.cma "$here/exported_types.ml" < "$work/interfaces" |
    awk -F '\t' -v root="$folder" '
        { library = substr($1, length(root) + 2); sub(/\/.*/, "", library) }
        { print (library == "" ? "stdlib" : library) "\t" $0 }
    ' | sort -s -t '	' -k 1,1 > "$work/all"
awk -F '\t' -v number="$number" '
    NR == FNR { count[$1]++; next }
    { index_of = seen[$1]++ }
    int((index_of + 1) * number / count[$1]) != int(index_of * number / count[$1])
' "$work/all" "$work/all" > "$work/taken"

# Each is looked for in the folder of its library first.
for word in "$@"; do echo "$word"; done > "$work/words"
while IFS='	' read -r library of type; do
    set -- --cmt -I "$of"
    while IFS= read -r other; do set -- "$@" -I "$other"; done < "$work/folders"
    while IFS= read -r word; do set -- "$@" "$word"; done < "$work/words"
    status=0
    "$work/types_of_cmi" "$@" "$type" > "$work/declarations" 2> "$work/lines" || status=$?
    reasons=$(sed -n '/: not found, and may help: /d; s/^types_of_cmi: .*: //p' "$work/lines" | sort -u | paste -sd ';' -)
    printf '%s\t%s\t%s\t%s\n' "$library" "$type" "$status" "$reasons"
done < "$work/taken" > "$results"

awk -F '\t' '
    BEGIN { form = "%-24s %8s %8s %8s %8s %8s\n"; printf form, "library", "types", "files", "less", "none", "wrong" }
    !($1 in types) { order[++libraries] = $1 }
    { types[$1]++; found[$1, $3]++; found["all", $3]++ }
    $3 == 0 && $4 != "" { less[$1]++; less["all"]++ }
    $3 == 1 {
        count = split($4, reasons, ";")
        for (i = 1; i <= count; i++) { with[reasons[i]]++; if (count == 1) alone[reasons[i]]++ }
    }
    END {
        for (i = 1; i <= libraries; i++) {
            name = order[i]
            printf form, name, types[name], found[name, 0] + 0, less[name] + 0, found[name, 1] + 0, found[name, 2] + 0
        }
        printf form, "all", NR, found["all", 0] + 0, less["all"] + 0, found["all", 1] + 0, found["all", 2] + 0
        if (NR > 0) printf "%d of 100 types have a file\n", int(100 * found["all", 0] / NR + 0.5)
        print ""
        print "what is reported of types without a file; how many have it; how many have it alone"
        for (reason in with) printf "%6d %6d  %s\n", with[reason], alone[reason] + 0, reason | "sort -rn"
    }
' "$results"
