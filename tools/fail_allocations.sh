#!/usr/bin/env bash
# Runs the tests of test_units once for each of some numbers N, with the N-th allocation of each test failing. A test either never
# asks for so many, and passes, or returns the error that memory ran out. One that fails by an assertion, a fault or another error
# answered wrongly: it is printed, and the status is then 1.
#
#   tools/fail_allocations.sh [N ..]      by default 1 2 3 5 8 13 21 34 55 100 200 300 1000 3000 10000
#
# A line for each N counts the tests. It ends at the first N at which every test passes, since the greater ones say no more; where
# there is none, it says so, and the status is 1 where the numbers are not given. Each N is one build by `rt try`, which proves
# nothing: a minute or so.
set -u
cd "$(dirname "$0")/../crates/test_units" || exit 2
command -v rt >/dev/null || { echo 'fail_allocations: the command rt is missing, so nothing was tried' >&2; exit 2; }
numbers=("$@")
[ $# -gt 0 ] || numbers=(1 2 3 5 8 13 21 34 55 100 200 300 1000 3000 10000)
log=$(mktemp) || exit 2
trap 'rm -f "$log"' EXIT
trap 'exit 130' INT TERM

# Each test has a line `test NAME ... ok` or `.. FAILED`, and after the latter what it wrote, indented.
count() {
    awk -v number="$1" '
        function judge() {
            if (name == "") return
            if (said ~ /^ *error: (Memory|AllocError|Kind\(OutOfMemory\))\n *the test failed: its result gives status 1\n/) memory++
            else { wrong++; printf "N = %s: %s\n%s", number, name, said }
            name = ""
        }
        /^test .* \.\.\. / { judge(); if ($NF == "ok") passed++; else { name = $2; said = "" }; next }
        /^test result: / { judge(); ended = 1 }
        { said = said $0 "\n" }
        END {
            if (!ended) { printf "N = %s: the tests were not run\n%s", number, said; exit 2 }
            printf "N = %s: %d pass, %d run out of memory, %d wrong\n", number, passed, memory, wrong
            exit wrong ? 1 : memory ? 0 : 3
        }' "$log"
}

status=0
for number in "${numbers[@]}"; do
    rt try --test --seconds 600 --fail-alloc "$number" >"$log" 2>&1
    count "$number"
    case $? in
        0) ;;
        1) status=1 ;;
        3) exit "$status" ;;
        *) exit 2 ;;
    esac
done
[ $# -gt 0 ] || { echo 'some test still allocates: give greater numbers'; status=1; }
exit "$status"
