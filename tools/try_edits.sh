#!/usr/bin/env bash
# Tries every mutant: those of crates/*/must-fail, which the gate tries too, and those of crates/*/edits, which it does not.
# A mutant is a body that does not meet its contract. The prover of its own crate has to refuse it.
#
#   tools/try_edits.sh [CRATE ..]        all crates that have mutants, or these
#
# It works on a copy of what git tracks here, as it stands in the working tree, with the mutants of both folders in must-fail/,
# and begins with what `rt check` kept on this machine. The last line counts; the status is 1 where a mutant is not refused,
# was not tried or cannot be applied, and 2 where there is no such crate.
set -u
cd "$(dirname "$0")/.." || exit 2
command -v rt >/dev/null || { echo 'try_edits: the command rt is missing, so nothing was tried' >&2; exit 2; }
for name in "$@"; do
    [ -d "crates/$name" ] || { echo "try_edits: there is no crate $name" >&2; exit 2; }
done

copy=$(mktemp -d) || exit 2
trap 'rm -rf "$copy"' EXIT
trap 'exit 130' INT TERM
git ls-files -z -- crates crates.txt HANDLES | while IFS= read -r -d '' file; do
    [ -e "$file" ] && cp --parents "$file" "$copy"
done
cd "$copy" || exit 2
git init -q
for folder in crates/*/edits; do
    [ -d "$folder" ] || continue
    mkdir -p "${folder%edits}must-fail"
    mv -n "$folder"/*.edit "${folder%edits}must-fail/"
    rmdir "$folder" || { echo "try_edits: a mutant of $folder has the name of one of must-fail" >&2; exit 1; }
done

crates=("$@")
[ $# -gt 0 ] || mapfile -t crates < <(for folder in crates/*/must-fail; do basename "${folder%/must-fail}"; done)
rt must-fail "${crates[@]}" | tee "$copy/log"
status=${PIPESTATUS[0]}
refused=$(grep -c ': refused, as it must be' "$copy/log")
names=$(grep -c 'only because a proof file names' "$copy/log")
wrong=$(grep -cE ': (NOT REFUSED|NOT TRIED|BAD EDIT)' "$copy/log")
echo "$refused mutants refused ($names only since a name is gone), $wrong not"
[ "$status" -eq 0 ] && [ "$wrong" -eq 0 ]
