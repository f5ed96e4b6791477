#!/usr/bin/env bash
# Packs a release, which runs without Rattle and without this repository:
#
#   tools/release.sh [--unproved] FOLDER
#
# It writes FOLDER/omarshal-VERSION-x86_64-linux.tar.gz and, beside it, a file .sha256 with its checksum. The archive has what
# tools/install.sh installs, and a file SHA256SUMS for its own files. The program is the proved one. With --unproved it is the
# unproved one, and the archive's name says so.
set -eu
top=$(cd "$(dirname "$0")/.." && pwd)
. "$top/tools/program.sh"
say() { printf 'release: %s\n' "$*" >&2; }
program=$proved
suffix=
if [ "${1-}" = --unproved ]; then program=$unproved suffix=-unproved; shift; fi
[ $# -eq 1 ] || { echo 'usage: tools/release.sh [--unproved] FOLDER' >&2; exit 2; }
is_current "$program" || { say "there is no current program $program: $([ -z "$suffix" ] && echo tools/prove.sh || echo tools/quick_build.sh) builds it"; exit 1; }
mkdir -p "$1"
folder=$(cd "$1" && pwd)
name=omarshal-$(cat "$top/VERSION")-x86_64-linux$suffix
room=$(mktemp -d)
trap 'rm -rf "$room"' EXIT
# types_of_cmi belongs to one version of OCaml, so a release does not have it.
"$top/tools/install.sh" --without-types-of-cmi "$room/$name" "$program" >/dev/null 2>"$room/errors" || { cat "$room/errors" >&2; exit 1; }
(cd "$room/$name" && find . -type f ! -name SHA256SUMS -print0 | LC_ALL=C sort -z | xargs -0 sha256sum >SHA256SUMS)
tar -C "$room" --sort=name --owner=0 --group=0 --numeric-owner -czf "$folder/$name.tar.gz.new" "$name"
mv "$folder/$name.tar.gz.new" "$folder/$name.tar.gz"
(cd "$folder" && sha256sum "$name.tar.gz" >"$name.tar.gz.sha256")
echo "$folder/$name.tar.gz"
