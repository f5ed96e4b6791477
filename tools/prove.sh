#!/usr/bin/env bash
# Proves and builds the program, as `./omarshal --prove` does:
#
#   tools/prove.sh
#
# It proves a copy of the crates that the program needs, without mutants, on all processors, and writes
# crates/omarshal/out/omarshal. For each crate it prints how many are proved, and about how many minutes are left: the bytes of
# the crates that are not yet proved, at the rate of the crates that this run proved.
#
# It can be interrupted. `rt ci` keeps each crate that it proved on this machine, so the next run begins where this one ended.
set -u
top=$(cd "$(dirname "$0")/.." && pwd) || exit 2
. "$top/tools/program.sh"
say() { printf 'prove: %s\n' "$*" >&2; }
command -v rt >/dev/null || { say 'the command rt is missing: it is part of the Rattle toolchain (README.md, "Toolchain")'; exit 2; }
lock prove || exit 2
if is_current "$proved"; then
    say "the proved program is current: $proved"
    exit 0
fi

room=$(mktemp -d) || exit 2
process=
trap 'rm -rf "$room"' EXIT
# rt waits for its checks at an interrupt, and ends at once, with them, where it gets SIGTERM.
trap '[ -z "$process" ] || { kill "$process" 2>/dev/null; wait "$process"; }; say "interrupted; the next run goes on from here"; exit 130' INT TERM HUP
names=$(crates_of omarshal)
started=$(date '+@%s.%N')
mkdir "$room/crates" && cp "$top/HANDLES" "$room" && : >"$room/output" || exit 2
for name in $names; do
    mkdir "$room/crates/$name" && grep -E "^$name( [^:]*)?:" "$top/crates.txt" >>"$room/crates.txt" || exit 2
    (cd "$top/crates/$name" && for part in src specs proofs args stdin stdout status data; do
        [ ! -e "$part" ] || cp -r "$part" "$room/crates/$name"
    done) || exit 2
    echo "$(du -sb "$room/crates/$name" | cut -f 1) $name" >>"$room/sizes"
done
check_toolchain
say "proving $(wc -w <<<"$names") crates"
(cd "$room" && exec rt ci </dev/null) >>"$room/output" 2>&1 9>&- &
process=$!

# Prints a line for each crate that `rt ci` proved or found kept, until it ends.
follow() {
    local -A size=()
    local left=0 made=0 number=0 line name bytes minutes
    while read -r bytes name; do size[$name]=$bytes left=$((left + bytes)); done <"$room/sizes"
    local count=${#size[@]}
    while IFS= read -r line; do
        case $line in
        'rt: '*' its tests '*) continue ;;
        'rt: '*' proved' | 'rt: '*' is kept: '*) ;;
        *) continue ;;
        esac
        name=${line#rt: } name=${name%% *}
        bytes=${size[$name]-}
        [ -n "$bytes" ] || continue
        unset "size[$name]"
        number=$((number + 1)) left=$((left - bytes))
        [[ $line != *' proved' ]] || made=$((made + bytes))
        if [ "$number" -eq "$count" ]; then
            name+='; building the program'
        elif [ "$made" -gt 0 ] && [ "$SECONDS" -ge 60 ]; then
            minutes=$((left * SECONDS / made / 60 + 1))
            name+="; about $minutes minute$([ "$minutes" -eq 1 ] || echo s) left"
        fi
        say "$number of $count: $name"
    done
}
SECONDS=0
tail -f -s 0.2 --pid="$process" -n +1 "$room/output" 9>&- | follow 9>&- &
follower=$!
wait "$process"
status=$?
process=
wait "$follower"
if [ "$status" -ne 0 ] || [ ! -x "$room/crates/omarshal/out/omarshal" ]; then
    grep -E 'NOT PROVED|error|FAILED|rt: the disk|passed, ' "$room/output" | head -20 >&2
    say 'the program was not proved'
    exit 1
fi
mkdir -p "$(dirname "$proved")" && cp "$room/crates/omarshal/out/omarshal" "$proved.new" &&
    touch -d "$started" "$proved.new" && mv "$proved.new" "$proved" || exit 1
say "proved and built $proved"
