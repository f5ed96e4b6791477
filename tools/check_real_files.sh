#!/bin/sh
# Checks files that OCaml itself wrote with omarshal, at the type files of examples/ for the version of the OCaml on PATH: each
# compiled interface of the standard library and of the compiler, each .cmo, .cma, .cmx, .cmxa and .cmt there, and a map, a
# set, a hash table and a queue; where Coq's standard library is installed (libcoq-stdlib), the segments summary, library,
# universes and opaques of each .vo. Each value is found in its file by `scan`, has its type and comes back byte for byte
# from `edit` with an empty script; where its type has no `_`, also from `build` of the output of `show`. With a byte of it
# damaged it is refused, or does not have the type, or is another value of it, and omarshal ends with 0, 1 or 4 all the same.
# The argument is the program; with none it is the one that `./omarshal --prove` built. Where KEEP is set, it names a folder
# in which each value is kept, and the table values.tsv with a line for each: its file, its type file and its type
# (tools/check_certificates.py).
#
# OCaml 5 compresses some values of .cmi and .cmt files, and sets bits 8 and 9 of header words. plain_values.c makes the values
# plain before they are checked, and clears the bits before a value is compared with what omarshal writes.
set -eu
export LC_ALL=C
for needed in ocaml ocamlc; do
    if ! command -v "$needed" > /dev/null 2>&1; then
        echo "skipped: no $needed"
        exit 0
    fi
done
here=$(cd "$(dirname "$0")" && pwd)
containers=$here/../examples/containers.ml
case $(ocamlc -version) in
    4.13.*) examples=$here/../examples coq=81601 ;;
    5.3.*) examples=$here/../examples/5.3 coq=82000 ;;
    5.4.*) examples=$here/../examples/5.4 coq=90299 ;;
    *) echo "skipped: OCaml is $(ocamlc -version), and the type files are those of 4.13, 5.3 and 5.4"; exit 0 ;;
esac
program=${1:-$here/../crates/omarshal/out/omarshal}
if [ ! -x "$program" ]; then
    echo "there is no program $program: ./omarshal --prove builds it"
    exit 2
fi
library=$(ocamlc -where)
work=$(mktemp -d)
trap 'rm -rf "$work"' EXIT
checked=0
failures=0
kept=0
if [ -n "${KEEP:-}" ]; then
    mkdir -p "$KEEP"
    : > "$KEEP/values.tsv"
fi

# plain FILE: the file with plain values in place of compressed ones. as_written FILE: the value as omarshal writes it.
plain() { cat "$1"; }
as_written() { cat "$1"; }
case $(ocamlc -version) in
    5.*)
        if ! cc -O1 -o "$work/plain_values" "$here/plain_values.c" -lzstd 2> "$work/err"; then
            echo "skipped: files of OCaml 5, as plain_values.c is not built without cc and libzstd"
            exit 0
        fi
        plain() { "$work/plain_values" < "$1"; }
        as_written() { "$work/plain_values" clear < "$1"; }
        ;;
esac

# Twelve bytes of magic come before the first value of a .cmi, .cmx or .cmxa, and 16 bytes of a checksum after that of a
# .cmx; a .cmo or .cma has its value at the offset that the four bytes after the magic give.
after_magic() { tail -c +13 "$1"; }
before_checksum() { tail -c +13 "$1" | head -c -16; }
descriptor() {
    offset=$(($(head -c 16 "$1" | tail -c 4 | od -An -tu1 | awk '{ print (($1 * 256 + $2) * 256 + $3) * 256 + $4 }')))
    tail -c "+$((offset + 1))" "$1"
}

# The length of the value that begins a file: its header has 20 bytes, of which four give the number of bytes that follow. No value here is
# so large that it has the other header.
length_of() {
    # shellcheck disable=SC2046
    set -- $(head -c 8 "$1" | tail -c 4 | od -An -tu1)
    echo $((20 + (($1 * 256 + $2) * 256 + $3) * 256 + $4))
}

# nth N FILE: the N-th value of a file, the first of which is the first.
nth() {
    cp "$2" "$work/rest"
    left=$1
    while [ "$left" -gt 1 ]; do
        tail -c "+$(($(length_of "$work/rest") + 1))" "$work/rest" > "$work/cut"
        mv "$work/cut" "$work/rest"
        left=$((left - 1))
    done
    head -c "$(length_of "$work/rest")" "$work/rest"
}

# offsets FILE: writes the offsets of the values in it.
offsets() {
    whole=$1
    "$program" scan < "$1" > "$work/offsets" 2> "$work/err" || {
        echo "FAILED: scan of $1: $(cat "$work/err")"
        failures=$((failures + 1))
    }
}

# The value in $work/one is at one of the offsets.
stands() {
    size=$(($(wc -c < "$work/one")))
    while read -r offset length _; do
        [ "$length" -eq "$size" ] || continue
        ! tail -c "+$((offset + 1))" "$whole" | head -c "$length" | cmp -s - "$work/one" || return 0
    done < "$work/offsets"
    return 1
}

# hidden WHAT TYPES TYPE LINE: line LINE of the check of $work/values at a type is yes, `scan` prints where the value
# stands in its file, and `edit` writes it as it is. The type may have parts of which nothing is asked.
hidden() {
    checked=$((checked + 1))
    "$program" check "$examples/$2" "$3" < "$work/values" > "$work/lines" 2> "$work/err" || true
    found=$(sed -n "$4p" "$work/lines")
    if [ "$found" != yes ]; then
        echo "FAILED: $1 at $3: $found $(cat "$work/err")"
        failures=$((failures + 1))
    fi
    checked=$((checked + 1))
    nth "$4" "$work/values" > "$work/one"
    checked=$((checked + 1))
    if ! stands; then
        echo "FAILED: scan does not find $1"
        failures=$((failures + 1))
    fi
    if [ -n "${KEEP:-}" ]; then
        kept=$((kept + 1))
        cp "$work/one" "$KEEP/$kept.bin"
        printf '%s\t%s\t%s\n' "$kept.bin" "$(realpath "$examples/$2")" "$3" >> "$KEEP/values.tsv"
    fi
    as_written "$work/one" > "$work/wanted"
    if ! "$program" edit "$examples/$2" "$3" /dev/null < "$work/one" > "$work/written" 2> "$work/err" ||
        ! cmp -s "$work/wanted" "$work/written"; then
        echo "FAILED: edit of $1 at $3 with an empty script: $(cat "$work/err")"
        failures=$((failures + 1))
    fi
}

# value WHAT TYPES TYPE LINE: the same, and `build` makes the same bytes of its text.
value() {
    hidden "$@"
    checked=$((checked + 1))
    if ! "$program" show "$examples/$2" "$3" < "$work/one" > "$work/text" 2> "$work/err" ||
        ! "$program" build "$examples/$2" "$3" < "$work/text" > "$work/built" 2> "$work/err" ||
        ! cmp -s "$work/written" "$work/built"; then
        echo "FAILED: build of the output of show for $1 at $3: $(cat "$work/err")"
        failures=$((failures + 1))
    fi
}

# From 5.0 on two types have a part of type `_`: the kind of a method in a .cmi, and the literal of a relocation in a .cmo or
# .cma.
case $(ocamlc -version) in
    4.*) methods=value literals=value ;;
    *) methods=hidden literals=hidden ;;
esac
for file in "$library"/*.cmi "$library"/compiler-libs/*.cmi; do
    [ -f "$file" ] || continue
    plain "$file" > "$work/file"
    offsets "$work/file"
    after_magic "$work/file" > "$work/values"
    $methods "$file" cmi.types 'string * types_signature' 1
    value "$file" cmi.types misc_crcs 2
    value "$file" cmi.types 'cmi_format_pers_flags list' 3
done
for file in "$library"/*.cmo "$library"/compiler-libs/*.cmo; do
    [ -f "$file" ] || continue
    offsets "$file"
    descriptor "$file" > "$work/values"
    $literals "$file" cmo.types cmo_format_compilation_unit 1
done
for file in "$library"/*.cma "$library"/compiler-libs/*.cma; do
    [ -f "$file" ] || continue
    offsets "$file"
    descriptor "$file" > "$work/values"
    $literals "$file" cmo.types cmo_format_library 1
done
for file in "$library"/*.cmx "$library"/compiler-libs/*.cmx; do
    [ -f "$file" ] || continue
    offsets "$file"
    before_checksum "$file" > "$work/values"
    value "$file" cmx.types cmx_format_unit_infos 1
done
for file in "$library"/*.cmxa "$library"/compiler-libs/*.cmxa; do
    [ -f "$file" ] || continue
    offsets "$file"
    after_magic "$file" > "$work/values"
    value "$file" cmx.types cmx_format_library_infos 1
done

# A .cmt of a module without an .mli has the three values of its interface first, after the magic of these.
for file in "$library"/*.cmt "$library"/compiler-libs/*.cmt; do
    [ -f "$file" ] || continue
    plain "$file" > "$work/file"
    offsets "$work/file"
    after_magic "$work/file" > "$work/values"
    case $(head -c 9 "$file") in
        Caml1999I)
            for _ in 1 2 3; do
                tail -c "+$(($(length_of "$work/values") + 1))" "$work/values" > "$work/cut"
                mv "$work/cut" "$work/values"
            done
            tail -c +13 "$work/values" > "$work/cut"
            mv "$work/cut" "$work/values"
            ;;
    esac
    hidden "$file" cmt.types "'none cmt_format_cmt_infos" 1
done

# A .vo has the offset of its table after the magic and the version, in 8 bytes. The table is a number of segments in 4
# bytes, and for each the length of its name in 4, its name, its offset and its length in 8 each, and a checksum of 16.
vo_version() { head -c 8 "$1" | tail -c 4 | od -An -v -tu1 | awk '{ print (($1 * 256 + $2) * 256 + $3) * 256 + $4 }'; }
segments() {
    offset=$(head -c 16 "$1" | tail -c 8 | od -An -v -tu1 | awk '{ for (i = 1; i <= 8; i++) n = n * 256 + $i; print n }')
    tail -c "+$((offset + 1))" "$1" | od -An -v -tu1 | awk '
        function number(size,  n) { for (n = 0; size > 0; size--) n = n * 256 + byte[++at]; return n }
        function text(size,  s) { for (s = ""; size > 0; size--) s = s sprintf("%c", byte[++at]); return s }
        { for (i = 1; i <= NF; i++) byte[++count] = $i }
        END { for (left = number(4); left > 0; left--) { print text(number(4)), number(8), number(8); at += 16 } }'
}

# segment KIND FILE NAME TYPE: the value of a segment has the type, as `hidden` or `value` tries it.
segment() {
    kind=$1
    shift
    offset=$(sed -n "s/^$2 \([0-9]*\) .*/\1/p" "$work/table")
    length=$(sed -n "s/^$2 [0-9]* //p" "$work/table")
    tail -c "+$((offset + 1))" "$1" | head -c "$length" > "$work/values"
    "$kind" "$2 of $1" vo.types "$3" 1
}

find "$library/coq" -name '*.vo' 2> "$work/err" | sort > "$work/vo"
[ -s "$work/vo" ] || echo "skipped: .vo files, as there is no libcoq-stdlib"
while IFS= read -r file; do
    if [ "$(vo_version "$file")" -ne "$coq" ]; then
        echo "skipped: .vo files, as they are of version $(vo_version "$file"), not $coq"
        break
    fi
    offsets "$file"
    segments "$file" > "$work/table"
    segment value "$file" summary library_seg_sum
    segment hidden "$file" library library_seg_lib
    ! grep -q '^universes ' "$work/table" || segment value "$file" universes 'library_seg_univ option'
    segment value "$file" opaques library_seg_proofs
done < "$work/vo"

ocaml "$containers" "$work"
cp "$work/map.bin" "$work/values" && offsets "$work/map.bin" && value 'a map' map.types 'int map_make_string_t' 1
cp "$work/set.bin" "$work/values" && offsets "$work/set.bin" && value 'a set' set.types set_make_string_t 1
cp "$work/hashtbl.bin" "$work/values" && offsets "$work/hashtbl.bin" && value 'a hash table' hashtbl.types '(string, int) hashtbl_t' 1
cp "$work/queue.bin" "$work/values" && offsets "$work/queue.bin" && value 'a queue' queue.types 'int queue_t' 1

# A map is no set.
"$program" check "$examples/set.types" set_make_string_t < "$work/map.bin" > "$work/lines" || true
checked=$((checked + 1))
grep -q '^no ' "$work/lines" || { echo "FAILED: a map is taken for a set"; failures=$((failures + 1)); }

# The first value of an interface with one byte changed, each byte in turn. In the header's 20 bytes it is refused, and
# in the code of the root it is refused or `no`. A later byte may be one of a name or a number, which is another value of
# the type: of these many are still refused or `no`, and the run ends in order.
plain "$library/stdlib__Unit.cmi" | tail -c +13 > "$work/whole"
length=$(length_of "$work/whole")
nth 1 "$work/whole" > "$work/first"
offset=0
seen=0
for byte in $(od -An -v -tu1 "$work/first"); do
    checked=$((checked + 1))
    # shellcheck disable=SC2059
    { head -c "$offset" "$work/first"; printf "\\$(printf %03o $((255 - byte)))"; tail -c "+$((offset + 2))" "$work/first"; } \
        > "$work/values"
    status=0
    "$program" check "$examples/cmi.types" 'string * types_signature' < "$work/values" > "$work/lines" 2> "$work/err" ||
        status=$?
    case $status in
        1 | 4) seen=$((seen + 1)) ;;
    esac
    case $offset:$status in
        ?:4 | 1?:4 | 20:[14]) ;;
        ?:* | 1?:* | 20:*) echo "FAILED: byte $offset damaged: status $status"; failures=$((failures + 1)) ;;
        *:[014]) ;;
        *) echo "FAILED: byte $offset damaged: status $status"; failures=$((failures + 1)) ;;
    esac
    offset=$((offset + 1))
done
echo "$seen of $length damaged bytes are refused or no"

echo "$((checked - failures)) passed, $failures failed"
[ "$failures" -eq 0 ]
