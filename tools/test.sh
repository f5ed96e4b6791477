#!/usr/bin/env bash
# Runs the tests that need no proof and no OCaml, in some minutes:
#
#   tools/test.sh [PROGRAM [CONFORMANCE]]
#
# PROGRAM is the program omarshal, by default the proved one if it is built and current, and otherwise the unproved one, which is
# built first if needed. CONFORMANCE is the program of crates/test_conformance, found or built in the same way. The last line is
# `N passed, N failed`: the sum of the same lines of all parts. What needs OCaml is skipped where there is none, which a line
# says. The comparisons with OCaml (tools/check_*.sh) are not among these tests.
set -u
top=$(cd "$(dirname "$0")/.." && pwd) || exit 2
. "$top/tools/program.sh"
say() { printf 'test: %s\n' "$*" >&2; }

# program_of CRATE UNPROVED: the proved program of a crate, or else the unproved one.
program_of() {
    local of_gate=$top/crates/$1/out/$1
    if is_current "$of_gate" "$1"; then
        echo "$of_gate"
    else
        "$top/tools/quick_build.sh" --if-needed "$2" "$1" >/dev/null && echo "$2"
    fi
}
program=${1:-$(program_of omarshal "$unproved")}
[ -x "$program" ] || { say 'there is no program to test'; exit 2; }
conformance=${2:-$(program_of test_conformance "$top/out/test_conformance-unproved")}
say "testing $program"
# So that the program has enough memory refused as the proved one would.
export ASAN_OPTIONS="${ASAN_OPTIONS-allocator_may_return_null=1:detect_leaks=0}"
unset OMARSHAL_PROVED

passed=0 failed=0
output=$(mktemp)
trap 'rm -f "$output"' EXIT

# part WHAT COMMAND..: runs a part, which ends with `N passed, N failed`, or passes or fails as a whole.
part() {
    local what=$1 status counts
    shift
    echo "== $what"
    "$@" 2>&1 | tee "$output"
    status=${PIPESTATUS[0]}
    counts=$(tail -n 1 "$output")
    if [[ $counts =~ ^([0-9]+)\ passed,\ ([0-9]+)\ failed$ ]]; then
        passed=$((passed + BASH_REMATCH[1])) failed=$((failed + BASH_REMATCH[2]))
        [ "$status" -eq 0 ] || [ "${BASH_REMATCH[2]}" -ne 0 ] || failed=$((failed + 1))
    elif [ "$status" -ne 0 ]; then
        failed=$((failed + 1))
        echo "failed, with status $status"
    elif [[ $counts != skipped:* ]]; then
        passed=$((passed + 1))
    fi
}

part 'stored questions' "$top/tools/test_questions.py" "$program" ${conformance:+"$conformance"}
[ -n "$conformance" ] || failed=$((failed + 1))
part 'examples of the documents' "$top/tools/check_examples.py" "$program"
part 'certificates and damaged streams, by an independent verifier' "$top/tools/check_certificates.py" "$program"
part 'list of commands and options' "$top/tools/make_help.py" --check
part 'launcher, builds, installation and release' "$top/tools/test_launcher.py" "$program"
part 'installed files and completion' "$top/tools/test_install.sh" "$program"
part 'types_of_cmi' sh "$top/tools/test_types_of_cmi.sh"
echo "$passed passed, $failed failed"
[ "$failed" -eq 0 ]
