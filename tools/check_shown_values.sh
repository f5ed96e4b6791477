#!/bin/sh
# Reads what `omarshal show` prints back by OCaml: values of every kind are written by OCaml and shown, each text is turned
# into an expression of OCaml (shown_to_ocaml.py), whose value OCaml writes again, and `omarshal same` says that both are the
# same, with all that they share. What `build` makes of the text are the bytes that `edit` writes with an empty script. The argument is the program; with none it is the one that `./omarshal --prove` built.
set -eu
export LC_ALL=C
for needed in ocaml ocamlc python3; do
    if ! command -v "$needed" > /dev/null 2>&1; then
        echo "skipped: no $needed"
        exit 0
    fi
done
here=$(cd "$(dirname "$0")" && pwd)
program=${1:-$here/../crates/omarshal/out/omarshal}
if [ ! -x "$program" ]; then
    echo "there is no program $program: ./omarshal --prove builds it"
    exit 2
fi
program=$(cd "$(dirname "$program")" && pwd)/$(basename "$program")
work=$(mktemp -d)
trap 'rm -rf "$work"' EXIT
cp "$here/expected/shown.types" "$work/shown.ml"
cp "$here/expected/shown_values.ml" "$work"
cd "$work"
ocamlc -w -a -c shown.ml
ocamlc -w -a -o write_values shown.cmo shown_values.ml
mkdir values
./write_values values > values.tsv

# one program binds all values again
{
    echo "open Shown"
    echo "let write name value = let file = open_out_bin name in Marshal.to_channel file value []; close_out file"
} > again.ml
failures=0
while IFS='	' read -r file type; do
    if ! "$program" show shown.ml "$type" < "values/$file" > text 2> err; then
        echo "FAILED: show $file at $type: $(head -c 200 text) $(cat err)"
        failures=$((failures + 1))
        continue
    fi
    if ! "$program" edit shown.ml "$type" /dev/null < "values/$file" > edited 2> err ||
        ! "$program" build shown.ml "$type" < text > built 2> err || ! cmp -s edited built; then
        echo "FAILED: build of the output of show for $file at $type: $(cat err)"
        failures=$((failures + 1))
    fi
    {
        printf 'let () = write "again_%s" (' "$file"
        python3 "$here/shown_to_ocaml.py" < text
        printf ' : %s)\n' "$type"
    } >> again.ml
done < values.tsv
ocamlc -w -a -o again shown.cmo again.ml
./again
passed=0
while IFS='	' read -r file type; do
    if [ -f "again_$file" ] && [ "$(cat "values/$file" "again_$file" | "$program" same)" = same ]; then
        passed=$((passed + 1))
    else
        echo "FAILED: $file at $type is another value when it is read back"
        failures=$((failures + 1))
    fi
done < values.tsv

# a list of a million numbers: a text of some 12 MB in one line, nested a million times, with little stack
ocaml -noprompt > /dev/null 2>&1 << 'END'
let () =
  let rec down n list = if n = 0 then list else down (n - 1) (n :: list) in
  let file = open_out_bin "long" in
  Marshal.to_channel file (down 1_000_000 []) [];
  close_out file;;
END
if (ulimit -s 128 && "$program" show /dev/null 'int list' < long > text && "$program" build /dev/null 'int list' < text > built &&
    "$program" edit /dev/null 'int list' /dev/null < long > edited) && cmp -s edited built; then
    passed=$((passed + 1))
else
    echo "FAILED: a list of a million numbers is another value when its text is built"
    failures=$((failures + 1))
fi
echo "$passed passed, $failures failed"
[ "$failures" -eq 0 ]
