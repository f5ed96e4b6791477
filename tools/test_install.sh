#!/usr/bin/env bash
# Tries install.sh into an empty folder: each file is there, the program answers, and bash completes commands, options and files.
# The argument is the program; with none it is the one that `./omarshal --prove` built.
set -u
here=$(cd "$(dirname "$0")" && pwd)
program=$(readlink -f "${1:-$here/../crates/omarshal/out/omarshal}")
[ -x "$program" ] || { echo 'test_install: there is no program: ./omarshal --prove builds it' >&2; exit 2; }
work=$(mktemp -d)
trap 'rm -rf "$work"' EXIT
passed=0 failed=0
holds() { # holds WHAT COMMAND..
    local what=$1
    shift
    if "$@"; then passed=$((passed + 1)); else failed=$((failed + 1)); echo "not so: $what"; fi
}

# Each document that the manual page names stands in the folder of documents.
documents_are_there() {
    local name
    for name in $(grep -oE 'docs/[A-Z_]+\.md' "$here/../docs/omarshal.1" | sort -u); do
        [ -f "$work/prefix/share/doc/omarshal/$name" ] || return
    done
}

"$here/install.sh" "$work/prefix" "$program" >"$work/files-installed" 2>"$work/errors" || { cat "$work/errors"; exit 1; }
for file in bin/omarshal share/man/man1/omarshal.1 share/bash-completion/completions/omarshal share/zsh/site-functions/_omarshal \
    libexec/omarshal/help/omarshal.txt libexec/omarshal/VERSION share/doc/omarshal/README.md share/doc/omarshal/docs/FORMAT.md share/doc/omarshal/examples/cmi.types \
    share/doc/omarshal/examples/5.4/cmi.types; do
    holds "$file is installed" test -f "$work/prefix/$file"
done
holds 'the documents that the manual page names are installed' documents_are_there
answer=$(printf '\x84\x95\xa6\xbe\0\0\0\x01\0\0\0\0\0\0\0\0\0\0\0\0\x41' | "$work/prefix/bin/omarshal" check /dev/null int)
holds 'the program answers' test "$answer" = yes
"$work/prefix/bin/omarshal" check /dev/null int <<<'no value' 2>/dev/null
holds 'its status passes through the launcher' test $? -eq 4
holds 'the launcher answers --help' test "$("$work/prefix/bin/omarshal" --help)" = "$(cat "$here/help/omarshal.txt")"
if command -v ocamlopt >/dev/null && [[ $(ocamlopt -version) = @(4.1[34]|5.[0-4]).* ]] && [ -f "$(ocamlc -where)/compiler-libs/ocamlcommon.cmxa" ]; then
    holds 'types_of_cmi answers' test "$("$work/prefix/bin/types_of_cmi" 'int list' 2>&1 >/dev/null)" = 'int list'
else
    holds 'install.sh says that types_of_cmi is left out, and why' grep -q '^install: bin/types_of_cmi is left out: .' "$work/errors"
fi

# completes WANTED WORD..: what bash makes of the last word, in the order of their letters
completes() {
    local wanted=$1 got
    shift
    COMP_WORDS=(omarshal "$@")
    COMP_CWORD=$#
    _omarshal
    got=$(printf '%s\n' ${COMPREPLY[@]+"${COMPREPLY[@]}"} | LC_ALL=C sort | paste -sd ' ')
    holds "omarshal $* is completed by: $wanted" test "$got" = "$wanted"
}
. "$work/prefix/share/bash-completion/completions/omarshal"
mkdir "$work/files" && cd "$work/files" && : >shop.types && : >shop.script
completes 'same scan show' s
completes 'build check dump edit gen get help same scan show trees verify' ''
completes '--help --prove --version' -
completes 'edit' help e
completes 'shop.script shop.types' build ''
completes '--decimal --help --lines' build -
completes '--help' gen -
completes 'shop.script shop.types' check ''
completes 'shop.types' show shop.t
completes '' check shop.types ''
completes 'shop.script' edit --limit 5 shop.types int shop.s
completes 'shop.script' verify shop.types int shop.s
completes '--compat32 --decimal --help --limit --lines --skip' edit --
completes '--help --limit' scan --
completes '--cert --help --limit --lines --only --skip' check shop.types --
completes 'shop.types' check --cert shop.t
completes '--decimal --help --limit --lines --only --pretty --skip' show shop.types --
completes '--decimal' get shop.types --d
completes '--help --limit --lines --skip' trees shop.types --
completes '--help --limit --only --skip' dump --
completes '--help --limit --skip' same --
completes 'shop.types' get --pretty shop.t
completes 'shop.types' build --lines shop.t
completes 'shop.script' edit --decimal shop.types int shop.s
completes '' same ''
completes '' get shop.types --limit ''
completes '' dump --skip ''
completes 'shop.types' check --skip 12 shop.t
completes 'shop.types' show --only 3 shop.t
echo "$passed passed, $failed failed"
[ "$failed" -eq 0 ]
