# Shared by the scripts of the repository, which source this file with `top` set: where the two programs stand, and whether a
# program is current.
proved=$top/crates/omarshal/out/omarshal
unproved=$top/out/omarshal-unproved

# The crates that a program needs, and its own, by crates.txt. The argument is the program's crate.
crates_of() {
    awk -F: -v program="$1" '
        /^[a-z]/ { split($1, head, " "); uses[head[1]] = $2 }
        END {
            wanted = program
            while (wanted != "") {
                count = split(wanted, names, " "); wanted = ""
                for (i = 1; i <= count; i++) if (names[i] in uses && !(names[i] in seen)) {
                    seen[names[i]] = 1; wanted = wanted " " uses[names[i]]
                }
            }
            for (name in seen) print name
        }' "$top/crates.txt" | sort
}

# newer_source PROGRAM [CRATE]: prints a source of the crate, by default omarshal, that is newer than the program; nothing if
# the program is current.
newer_source() {
    local name folders=() newer
    for name in $(crates_of "${2-omarshal}"); do folders+=("$top/crates/$name"/{src,specs,proofs}); done
    newer=$(find "$top/crates.txt" "${folders[@]}" -newer "$1" -print -quit 2>/dev/null)
    [ -z "$newer" ] || printf '%s\n' "${newer#"$top/"}"
}

# is_current PROGRAM [CRATE]: the program is there, and no source of the crate is newer.
is_current() { [ -x "$1" ] && [ -z "$(newer_source "$@")" ]; }

# One build at a time: waits until no other one runs. The lock is held until this script ends; a child gets it closed by `9>&-`.
lock() {
    mkdir -p "$top/out" || return 1
    command -v flock >/dev/null || return 0
    exec 9>"$top/out/$1.lock" || return 1
    flock -n 9 || { say 'waiting for another build to end'; flock 9; }
}

# Warns if the toolchain is another one than that with which this repository is proved.
toolchain='rattle-kit-13f logic dac8208d650f15bf'
check_toolchain() {
    local found
    found=$(rt version 2>/dev/null)
    [ "$found" = "$toolchain" ] || say "this repository is proved with '$toolchain', and 'rt version' prints '$found'"
}
