#!/bin/sh
# Has OCaml write the streams anew, those of streams.ml and of the programs in values/, and compares them with those that
# stand in data/.
# With the word --keep it replaces them by the new ones.
# Each stream is read and written again, and comes back byte for byte, up to where no whole value begins: all of bigarray,
# cut, exception and forward, and the end of half_header. no_sharing and no_sharing_float alone come back otherwise:
# with No_sharing OCaml counts no objects in the header, and the canonical header counts them.
set -eu
cd "$(dirname "$0")"
for file in data/*.stream; do
    name=$(basename "$file" .stream)
    if ! grep -Eq "^(stream|value) $name at " stdin || ! grep -qx "again $name" stdin; then
        echo "a question on $name is missing"
        exit 1
    fi
done
if ! command -v ocaml >/dev/null 2>&1; then
    echo "skipped: no ocaml"
    exit 0
fi
new=$(mktemp -d)
trap 'rm -rf "$new"' EXIT
ocaml streams.ml "$new"
for file in values/*.ml; do
    ocaml "$file" "$new"
done
if [ "${1:-}" = --keep ]; then
    rm -f data/*.stream
    cp "$new"/*.stream data/
fi
diff -rq --exclude=empty.ml --exclude='*.types' "$new" data
echo "$(find data -name '*.stream' | wc -l) streams are what OCaml $(ocaml -version | sed 's/.* //') writes"
