#!/usr/bin/env bash
# Refuses each growth of memory of a run in turn, for every command. The run then ends with 9, the line `out of memory`, and a prefix of
# the whole answer on standard output; or, where nothing came of the growth, with the whole answer. Anything else is reported, and the
# status is 1. Each line says how many growths were refused so.
#
#   tools/fail_growths.sh [PROGRAM]      PROGRAM is by default the one that `./omarshal --prove` built
#
# Without a C compiler it says `skipped: no cc` and ends with 0.
set -u
here=$(cd "$(dirname "$0")" && pwd)
program=$(readlink -f "${1:-$here/../crates/omarshal/out/omarshal}")
[ -x "$program" ] || { echo 'fail_growths: there is no program: ./omarshal --prove builds it' >&2; exit 2; }
command -v cc >/dev/null || { echo 'skipped: no cc'; exit 0; }
work=$(mktemp -d) || exit 2
trap 'rm -rf "$work"' EXIT
cc -shared -fPIC -O2 -o "$work/shim.so" "$here/fail_growth.c" -ldl || exit 2
cd "$work" || exit 2

# Three times the list [1; 2].
for _ in 1 2 3; do
    printf '\x84\x95\xa6\xbe\0\0\0\x05\0\0\0\x02\0\0\0\x06\0\0\0\x06\xa0\x41\xa0\x42\x40'
done >input
cat >types <<'END'
type t = int list
type tree = Empty | Node of {l : tree; v : int; r : tree; h : int}
END
# The set of 1, 2 and 3, and one whose root states a height too great.
printf '\x84\x95\xa6\xbe\0\0\0\x0d\0\0\0\x03\0\0\0\x0f\0\0\0\x0f\xc0\xc0\x40\x41\x40\x41\x42\xc0\x40\x43\x40\x41\x42' >trees
printf '\x84\x95\xa6\xbe\0\0\0\x05\0\0\0\x01\0\0\0\x05\0\0\0\x05\xc0\x40\x41\x40\x42' >>trees
# A text of each kind of line: one with a comment, a blank one, one that has no line feed at its end.
printf '::(1, ::(2, [])) (* two *)\n\n#0=::(3, [])' >texts
# The list of 1.5 and a nan, twice; and texts and a script with decimals.
for _ in 1 2; do
    printf '\x84\x95\xa6\xbe\0\0\0\x15\0\0\0\x04\0\0\0\x0c\0\0\0\x0a\xa0\x0c\0\0\0\0\0\0\xf8\x3f\xa0\x0c\x01\0\0\0\0\0\xf8\x7f\x40'
done >doubles
printf '::(1.5, []) (* 2.5 *)\n\n::(-1e-7, ::(0.1, []))' >decimals
printf '0 set .0 = 0.1\n1 set . = ::(2.5, [])\n' >decimal_script
# A certificate of three times the list, whose last entry states a fault that is none.
cat >certificate <<'END'
value 0 yes
pair 0 0
pair 1 0
end
value 1 yes
pair 0 0
pair 1 0
end
value 2 misfit .0
end
END
printf '0 set .1 = ::(7, [])\n2 link .1.1 = .\n2 unshare .\n' >script
# A part of the first list in the second, and the second one in the third.
printf '1 graft .1 = 0 .\n2 graft .1.1 = 1 .1\n' >grafts

# Values among other bytes, behind a header that claims more than there is, and one that is cut.
{
    printf 'head\n\x84\x95\xa6\xbe\0\0\0\x64\0\0\0\x01\0\0\0\x1e\0\0\0\x14\x09\x50'
    cat input
    printf 'gap\n'
    head -c 22 input
} >offsets

wrong=0
input=input
refuse() {
    local name=$1 status want growth=0 refused=0 last=0
    shift
    "$program" "$@" <"$input" >whole 2>whole.err
    want=$?
    # Past the last growth of the run nothing is refused any more.
    while [ "$growth" -le $((last + 60)) ]; do
        growth=$((growth + 1))
        FAIL_GROWTH=$growth LD_PRELOAD=$work/shim.so "$program" "$@" <"$input" >out 2>err
        status=$?
        if [ "$status" -eq 9 ] && [ "$(cat err)" = 'omarshal: out of memory' ] &&
            cmp -s -n "$(stat -c %s out)" out whole; then
            refused=$((refused + 1))
            last=$growth
        elif [ "$status" -ne "$want" ] || ! cmp -s out whole || ! cmp -s err whole.err; then
            echo "$name: growth $growth: status $status, $(stat -c %s out) bytes, $(head -c 80 err)"
            wrong=1
        fi
    done
    echo "$name: $refused growths refused"
}

refuse check check types t
refuse 'check (no)' check types 'string list'
refuse show show types t
refuse 'show --pretty' show --pretty types t
refuse get get types t .1
refuse edit edit types t script
refuse 'edit (graft)' edit types t grafts
refuse 'check --cert' check --cert types t
refuse dump dump
refuse same same
refuse verify verify types t certificate
input=doubles
refuse 'show --decimal' show --decimal types 'float list'
refuse 'edit --decimal' edit --decimal types 'float list' decimal_script
input=decimals
refuse 'build --decimal' build --decimal types 'float list'
input=trees
refuse trees trees types tree
input=texts
refuse build build types t
refuse 'build (refused)' build types 'int option'
input=offsets
refuse scan scan
refuse gen gen 7 3 'int list'
exit "$wrong"
