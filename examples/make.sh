#!/bin/sh
# Makes the type files of the OCaml on PATH. Without an argument they go to the folder of its version: this folder for 4.13,
# 5.3/ for 5.3 and 5.4/ for 5.4. An argument is another folder.
set -eu
here=$(cd "$(dirname "$0")" && pwd)
case $(ocamlc -version) in
    4.13.*) folder=$here ;;
    *) folder=$here/$(ocamlc -version | cut -d . -f 1-2) ;;
esac
out=${1:-$folder}
mkdir -p "$out"

work=$(mktemp -d)
trap 'rm -rf "$work"' EXIT
sh "$here/../tools/build_types_of_cmi.sh" "$work/types_of_cmi"
types_of_cmi() { "$work/types_of_cmi" "$@"; }

# Two types that 4.13 can say and later versions cannot: the kind of a method, of which one constructor is a number that no
# value has, and the literal of a relocation, which may be any value.
case $(ocamlc -version) in
    4.13.*) any= literal= ;;
    *) any=--any literal='Obj.t = _' ;;
esac

echo "The types of the files, in omarshal's words:" >&2
types_of_cmi --cmt 'int Map.Make(String).t' > "$out/map.types"
types_of_cmi --cmt 'Set.Make(String).t' > "$out/set.types"
types_of_cmi --cmt '(string, int) Hashtbl.t' > "$out/hashtbl.types"
types_of_cmi --cmt 'int Queue.t' > "$out/queue.types"
types_of_cmi --cmt ${any:+"$any"} -I +compiler-libs \
    '(string * Types.signature) * Misc.crcs * Cmi_format.pers_flags list' > "$out/cmi.types"
types_of_cmi --cmt ${literal:+--declare "$literal"} -I +compiler-libs \
    'Cmo_format.compilation_unit * Cmo_format.library' > "$out/cmo.types"
types_of_cmi --cmt --any -I +compiler-libs Cmt_format.cmt_infos > "$out/cmt.types"
types_of_cmi --cmt -I +compiler-libs --declare 'Export_info.t = Written_by_flambda' \
    'Cmx_format.unit_infos * Cmx_format.library_infos' > "$out/cmx.types"

# Coq and Rocq have other segments in each version: of those that are made here the last one is not in 8.16, or the one
# before is not in later ones.
vo() { # FOLDER TYPE
    types_of_cmi --cmt --any -I "+$1/vernac" -I "+$1/library" -I "+$1/kernel" -I "+$1/clib" -I "+$1/lib" "$2" > "$out/vo.types"
}
if [ -f "$(ocamlc -where)/coq-core/vernac/library.cmt" ]; then
    case $(ocamlc -version) in
        4.*) vo coq-core 'Library.seg_sum * Library.seg_lib * Library.seg_univ option * Library.seg_proofs' ;;
        *) vo coq-core 'Library.seg_sum * Library.seg_lib * Library.seg_proofs' ;;
    esac
elif [ -f "$(ocamlc -where)/rocq-runtime/vernac/library.cmt" ]; then
    vo rocq-runtime 'Library.seg_sum * Library.seg_lib * Library.seg_proofs'
else
    echo "skipped: vo.types, as there is no libcoq-core-ocaml-dev" >&2
fi
