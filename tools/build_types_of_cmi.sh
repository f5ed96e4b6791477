#!/bin/sh
# Builds types_of_cmi from its modules in tools/types_of_cmi/, by ocamlopt, or by ocamlc where that is missing.
#
#   sh tools/build_types_of_cmi.sh PROGRAM [WORD..]    PROGRAM is the file to make; WORDs go to the compiler
#
# A file of tools/types_of_cmi/compat/ has what differs between versions of the compiler's library. Its name is the first
# version that it is for. Status 2: wrong words, or a version of OCaml that has no such file.
set -eu
[ $# -ge 1 ] || { echo 'usage: tools/build_types_of_cmi.sh PROGRAM [WORD..]' >&2; exit 2; }
here=$(cd "$(dirname "$0")" && pwd)
program=$1
shift
if command -v ocamlopt > /dev/null 2>&1; then
    compiler=ocamlopt library=ocamlcommon.cmxa
else
    compiler=ocamlc library=ocamlcommon.cma
fi
version=$("$compiler" -version)
case $version in
    4.13.*) compat=4.13 ;;
    4.14.* | 5.0.*) compat=4.14 ;;
    5.1.*) compat=5.1 ;;
    5.2.* | 5.3.*) compat=5.2 ;;
    5.4.*) compat=5.4 ;;
    *)
        echo "build_types_of_cmi: this is OCaml $version; types_of_cmi knows 4.13, 4.14, 5.0, 5.1, 5.2, 5.3 and 5.4" >&2
        exit 2
        ;;
esac
work=$(mktemp -d)
trap 'rm -rf "$work"' EXIT
cp "$here/types_of_cmi"/*.ml "$work"
cp "$here/types_of_cmi/compat/$compat.ml" "$work/compat.ml"
(
    cd "$work"
    "$compiler" "$@" -I +compiler-libs "$library" compat.ml library.ml known.ml declarations.ml implementations.ml \
        reading.ml groups.ml printing.ml main.ml -o types_of_cmi
)
mv "$work/types_of_cmi" "$program"
