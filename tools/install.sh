#!/usr/bin/env bash
# Installs omarshal below a folder:
#
#   tools/install.sh [--without-types-of-cmi] PREFIX [PROGRAM]
#
#   bin/omarshal          the launcher, which runs the program and answers --help and --version
#   libexec/omarshal/     the program, as `omarshal` if it is proved and as `omarshal-unproved` otherwise; the help texts
#   share/                the manual page, completions for bash and zsh, and the documents
#   bin/types_of_cmi      only with OCaml 4.13 to 5.4 and its library compiler-libs
#
# PROGRAM is by default the proved program if it is built and current. Otherwise it is the unproved program, which is built first
# if needed. Any PROGRAM but the current proved program of this repository is installed as unproved. With OMARSHAL_PROVED=1 only a
# proved program is installed.
set -eu
top=$(cd "$(dirname "$0")/.." && pwd)
. "$top/tools/program.sh"
say() { printf 'install: %s\n' "$*" >&2; }
left_out=
if [ "${1-}" = --without-types-of-cmi ]; then left_out='it is not wanted'; shift; fi
[ $# -ge 1 ] && [ $# -le 2 ] || { echo 'usage: tools/install.sh [--without-types-of-cmi] PREFIX [PROGRAM]' >&2; exit 2; }
program=${2-$proved}
[ $# -eq 2 ] || is_current "$proved" || program=$unproved
name=omarshal-unproved other=omarshal
if [ "$(readlink -f "$program")" = "$(readlink -f "$proved")" ] && is_current "$proved"; then name=omarshal other=omarshal-unproved; fi
if [ "$name" = omarshal-unproved ] && [ "${OMARSHAL_PROVED-}" = 1 ]; then
    say "OMARSHAL_PROVED=1, but there is no current proved program: tools/prove.sh builds it"
    exit 1
fi
if [ $# -eq 1 ] && [ "$program" = "$unproved" ]; then "$top/tools/quick_build.sh" --if-needed >/dev/null; fi
if [ ! -f "$program" ] || [ ! -x "$program" ]; then say "there is no program $program"; exit 2; fi
mkdir -p "$1"
prefix=$(cd "$1" && pwd)

copy() { install -D -m "$1" "$2" "$prefix/$3" && echo "$prefix/$3"; }
copy 755 "$top/omarshal" bin/omarshal
copy 755 "$program" "libexec/omarshal/$name"
rm -f "$prefix/libexec/omarshal/$other"
copy 644 "$top/tools/explain_usage.sh" libexec/omarshal/explain_usage.sh
for file in "$top/tools/help"/*; do copy 644 "$file" "libexec/omarshal/help/$(basename "$file")"; done
{ cat "$top/VERSION" && { git -C "$top" rev-parse --short HEAD 2>/dev/null || echo unknown; }; } >"$prefix/libexec/omarshal/VERSION"
copy 644 "$top/docs/omarshal.1" share/man/man1/omarshal.1
copy 644 "$top/tools/completion/omarshal.bash" share/bash-completion/completions/omarshal
copy 644 "$top/tools/completion/_omarshal" share/zsh/site-functions/_omarshal
for file in "$top/README.md" "$top/CHANGES.md"; do copy 644 "$file" "share/doc/omarshal/$(basename "$file")"; done
for file in "$top/docs"/*.md; do copy 644 "$file" "share/doc/omarshal/docs/$(basename "$file")"; done
for file in "$top/examples"/*.types "$top/examples"/*/*.types "$top/examples/README.md"; do
    copy 644 "$file" "share/doc/omarshal/examples/${file#"$top/examples/"}"
done

"$prefix/bin/omarshal" check /dev/null int </dev/null 2>/dev/null || { say "the installed program does not answer: $program"; exit 1; }

if [ -n "$left_out" ]; then
    :
elif ! command -v ocamlopt >/dev/null; then
    left_out='there is no ocamlopt'
elif [[ $(ocamlopt -version) != @(4.1[34]|5.[0-4]).* ]]; then
    left_out="it needs OCaml 4.13 to 5.4, and this is OCaml $(ocamlopt -version)"
elif [ ! -f "$(ocamlopt -where)/compiler-libs/ocamlcommon.cmxa" ]; then
    left_out='the library compiler-libs is missing'
fi
if [ -n "$left_out" ]; then
    say "bin/types_of_cmi is left out: $left_out"
else
    sh "$top/tools/build_types_of_cmi.sh" "$prefix/bin/types_of_cmi"
    echo "$prefix/bin/types_of_cmi"
fi
[ "$name" = omarshal ] || say "the installed program is not proved; tools/prove.sh builds the proved one"
