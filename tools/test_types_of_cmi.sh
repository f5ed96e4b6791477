#!/bin/sh
# Tries types_of_cmi with the OCaml on PATH: what it prints on standard output and standard error, beside texts that were written by hand, and
# whether values that OCaml writes have the types that it prints, by the judgement of value_has_type.py. Of the versions 4.13, 5.3 and 5.4, for
# which examples/ has type files, the script names those that it did not try.
set -eu
export LC_ALL=C
here=$(cd "$(dirname "$0")" && pwd)
work=$(mktemp -d)
trap 'rm -rf "$work"' EXIT

# The build knows the versions that it names, and no other: a compiler that only says its version ends with 3 when it is to
# compile.
mkdir "$work/bin"
for known in 4.13.1:3 4.14.2:3 5.0.0:3 5.1.1:3 5.2.1:3 5.3.0:3 5.4.1:3 5.4.0~rc1:3 4.12.1:2 5.5.0:2 5.40.0:2 6.4.0:2; do
    printf '#!/bin/sh\n[ "$*" != -version ] || { echo %s; exit; }\nexit 3\n' "${known%:*}" > "$work/bin/ocamlopt"
    chmod +x "$work/bin/ocamlopt"
    status=0
    PATH=$work/bin:$PATH sh "$here/build_types_of_cmi.sh" "$work/program" > "$work/out" 2>&1 || status=$?
    : > "$work/wanted"
    [ "$status" -ne 2 ] ||
        echo "build_types_of_cmi: this is OCaml ${known%:*}; types_of_cmi knows 4.13, 4.14, 5.0, 5.1, 5.2, 5.3 and 5.4" > "$work/wanted"
    if [ "$status" -ne "${known#*:}" ] || ! cmp -s "$work/wanted" "$work/out"; then
        echo "FAILED: the build with OCaml ${known%:*}: status $status"
        cat "$work/out"
        exit 1
    fi
done

for program in ocaml ocamlc python3; do
    if ! command -v "$program" > /dev/null 2>&1; then
        echo "skipped: no $program"
        exit 0
    fi
done
library=$(ocamlc -where)
if [ ! -f "$library/compiler-libs/ocamlcommon.cma" ]; then
    echo "skipped: no compiler-libs"
    exit 0
fi
if [ ! -f "$library/stdlib__Map.cmt" ]; then
    echo "skipped: no .cmt files of the standard library"
    exit 0
fi
version=$(ocamlc -version)

expected=$here/expected
examples=$here/../examples
case $version in
    4.13.*) typed=$examples ;;
    4.14.* | 5.[0-4].*) typed=$examples/$(echo "$version" | cut -d . -f 1-2) ;;
    *) echo "skipped: OCaml is $version, which types_of_cmi does not know"; exit 0 ;;
esac
cd "$work"
failures=0

# same WHAT WANTED FOUND: two files are the same.
same() {
    if ! diff "$2" "$3" > difference.txt; then
        echo "FAILED: $1"
        head -20 difference.txt
        failures=$((failures + 1))
    fi
}

# made FILE WORD..: the tool prints declarations to the file.
made() {
    printed=$1
    shift
    if ! ./types_of_cmi "$@" > "$printed" 2> word.txt; then
        echo "FAILED: types_of_cmi $*"
        cat word.txt
        failures=$((failures + 1))
    fi
}

# The declarations of a type file, without the comment at its head.
declarations() { sed '1,/^$/d' "$1"; }

# judged DECLARATIONS VALUES WANTED: each value has its type, or has not, as WANTED says in lines of a verdict and a
# type.
judged() {
    cut -f 1 "$3" > wanted.txt
    cut -f 2 "$3" > words.txt
    set -- "$1" "$2"
    while IFS= read -r word; do set -- "$@" "$word"; done < words.txt
    declared=$1 values=$2
    shift 2
    python3 "$here/value_has_type.py" "$declared" "$@" < "$values" > judged.txt || true
    sed 's/ .*//' judged.txt > found.txt
    same "values of $declared" wanted.txt found.txt
    echo "$declared: yes $(grep -c yes wanted.txt || true), no $(grep -c no wanted.txt || true)"
}

# Twelve bytes of magic come before the first value of a .cmi, .cmx or .cmxa; a .cmo or .cma has its value at the offset
# that the four bytes after the magic give.
after_magic() { tail -c +13 "$1"; }
descriptor() {
    offset=$(($(head -c 16 "$1" | tail -c 4 | od -An -tu1 | awk '{ print (($1 * 256 + $2) * 256 + $3) * 256 + $4 }')))
    tail -c "+$((offset + 1))" "$1"
}

# The compiler of OCaml 5 may compress the first value of a .cmi. plain_values.c makes it plain.
plain=cat
case $version in
    5.*)
        plain=./plain_values
        if ! cc -O1 -o plain_values "$here/plain_values.c" -lzstd 2> /dev/null; then
            plain=
            echo "skipped: values of .cmi files, as plain_values.c is not built without cc and libzstd"
        fi
        ;;
esac

cp "$expected"/*.ml "$expected"/*.mli .
sh "$here/build_types_of_cmi.sh" types_of_cmi -w +a-4-40-41-42-44-45-70 -warn-error +a -strict-sequence
echo 'type t = int' > gone.ml
ocamlc -w -a -bin-annot -c gone.ml kinds.ml refused.ml unasked.ml by_hand.ml hidden.mli hidden.ml uses_hidden.ml applied.ml indexed.ml \
    shut__part.mli shut__part.ml shut_names.ml shut.mli shut.ml textbook.ml
ocamlc -w -a -rectypes -c copied.ml
head -c 60 kinds.cmi > broken.cmi

# The reader that judges is itself tried, on values and declarations that were written by hand: a line of vectors.tsv is
# a verdict or the refusal of a declaration, a type, declarations, and a value in hexadecimal.
python3 -B - "$here" "$expected/vectors.tsv" << 'END' > found.txt
import sys

sys.path.insert(0, sys.argv[1])
from value_has_type import Declarations, Input, Refused, check, read_type, read_value

for line in open(sys.argv[2]):
    wanted, word, declared, value = line.rstrip("\n").split("\t")
    try:
        form, types = read_type(Declarations(declared), word)
        fault = check(types, form, *read_value(Input(bytes.fromhex(value))))
        found = "no" if fault else "yes"
    except Refused as refusal:
        found = "no value" if refusal.status == 4 else str(refusal).split(":")[0]
    print(found, word, declared, value, sep="\t")
END
same "the judging reader" "$expected/vectors.tsv" found.txt

# What is printed
made kinds.types ./ Kinds.all
declarations kinds.types > found.types
same "declarations of kinds.ml" "$expected/kinds.types" found.types
echo kinds_all > wanted.txt
same "the type of kinds.ml" wanted.txt word.txt
cp found.types kinds_again.ml
ocamlc -w -a -c kinds_again.ml

made found.types kinds.cmi 'Kinds.secret list * (int * int) list'
echo 'kinds_secret list * (int * int) list' > wanted.txt
same "a type that is no name" wanted.txt word.txt

made by_hand.types \
    --declare "'a Map.Make(String).t = Empty
       | Node of { l : 'a Map.Make(String).t; v : string; d : 'a; r : 'a Map.Make(String).t; h : int }" \
    --declare "'a lazy_t = 'a" \
    --declare 'By_hand.Hidden.t = float' \
    --declare "('key, 'data) Hashtbl.t = { mutable size : int; mutable data : ('key, 'data) bucketlist array;
       seed : int; mutable initial_size : int }
       and ('key, 'data) bucketlist = Empty
       | Cons of { mutable key : 'key; mutable data : 'data; mutable next : ('key, 'data) bucketlist }" \
    By_hand.all
declarations by_hand.types > found.types
same "declarations of by_hand.ml" "$expected/by_hand.types" found.types

made uses_hidden.types --cmt Uses_hidden.all
declarations uses_hidden.types > found.types
same "declarations of uses_hidden.ml" "$expected/uses_hidden.types" found.types

# by_words WHAT WORD..: the tool prints the declarations of WHAT.types.
by_words() {
    what=$1
    shift
    made "$what.types" "$@"
    declarations "$what.types" > found.types
    same "declarations of $what.ml" "$expected/$what.types" found.types
}
by_words applied --cmt Applied.all
by_words copied Copied.all
by_words indexed --cmt Indexed.all
by_words shut --cmt Shut.Inner.file
by_words textbook Textbook.all

# Types of later versions. From 5.4 on Atomic.t is a record in its .cmt.
case $version in
    5.3.*) cp "$expected/later.types" later.wanted ;;
    5.*) sed 's/as types_of_cmi knows it/from its .cmt/' "$expected/later.types" > later.wanted ;;
esac
case $version in
    5.3.* | 5.4.*)
        ocamlc -w -a -bin-annot -c later.ml
        made later.types --cmt Later.counts
        declarations later.types > found.types
        same "declarations of later.ml" later.wanted found.types
        ;;
esac
case $version in
    5.4.*)
        ocamlc -w -a -c labels.ml
        by_words labels Labels.all
        ;;
esac

# Parts that have no form, of which nothing is asked. The last line on standard error is the type.
mv gone.cmi gone.saved
by_words unasked --cmt --any Unasked.all
mv gone.saved gone.cmi
cp "$expected/unasked.txt" wanted.txt
same "what is reported of unasked.ml" wanted.txt word.txt

# `_` by hand: without --any, for a type, in a body, and in TYPE
made found.types --declare 'Refused.job = _' Refused.queue
cat > wanted.types << 'END'
(* Refused.job, by hand *)
type refused_job = _

(* Refused.queue *)
type refused_queue =
  | Empty
  | Jobs of { first : refused_job list; rest : refused_queue }
END
printf '%s\n' 'types_of_cmi: Refused.queue -> constructor Jobs -> field first -> Refused.job: _ by hand' refused_queue > wanted.txt
declarations found.types > cut.types
same "a type that is _ by hand" wanted.types cut.types
same "what is reported of a type that is _ by hand" wanted.txt word.txt

made found.types --declare 'Refused.job = { name : string; run : _ }' '_ list * Refused.job'
cat > wanted.types << 'END'
(* Refused.job, by hand *)
type refused_job = {
  name : string;
  run : _;
}
END
printf '%s\n' 'types_of_cmi: TYPE: _ by hand' 'types_of_cmi: Refused.job -> field run: _ by hand' '_ list * refused_job' > wanted.txt
declarations found.types > cut.types
same "parts that are _ by hand" wanted.types cut.types
same "what is reported of parts that are _ by hand" wanted.txt word.txt

# A record of floats and of `_` by hand: nothing says whether it is flat, so it is refused, or is `_`, and so is what it then leaves mixed
made found.types --any --declare 'Refused.job = { rate : float; run : _ } and outer = { scale : float; job : Refused.job }' \
    --declare 'Refused.counter = { factor : float; by : Refused.job }' 'Refused.counter list * Refused.queue'
cat > wanted.types << 'END'
(* Refused.job, by hand *)
type refused_job = _

(* Refused.counter, by hand *)
type refused_counter = _

(* Refused.queue *)
type refused_queue =
  | Empty
  | Jobs of { first : refused_job list; rest : refused_queue }
END
declarations found.types > cut.types
same "records of floats and of _ by hand" wanted.types cut.types
if ./types_of_cmi --declare 'Refused.job = { rate : float; run : _ }' Refused.job > found.types 2> word.txt; then
    echo "FAILED: a record of floats and of _ by hand is not refused"
    failures=$((failures + 1))
fi
echo 'types_of_cmi: Refused.job: a record of floats and _, which OCaml may lay out flat' > wanted.txt
same "what is reported of a record of floats and of _ by hand" wanted.txt word.txt

# A type that stands in an implementation alone, by another name of its module; an index that is hidden
made found.types --cmt 'Shut_names.Part.size * Hidden.meters Indexed.length'
cat > wanted.types << 'END'
(* Shut__part.size, from its .cmt *)
type shut_part_size =
  | Small
  | Large of int

(* Indexed.length at float *)
type indexed_length_at_float =
  | Meters of { meters : float; count : int }
END
declarations found.types > cut.types
same "a size and a length" wanted.types cut.types

# Declarations by hand of types that stand in an implementation alone, and with such a type
made found.types --cmt --declare "'a Shut.Numbers.t = 'a list" --declare 'Shut.entry = Hidden.Local_key.t' \
    --declare 'Shut.Inner.part = bool' Shut.Inner.file
cat > wanted.types << 'END'
(* Shut.Numbers.t, by hand *)
type 'a shut_numbers_t = 'a list

(* Hidden.Local_key.t, from its .cmt *)
type hidden_local_key_t = int

(* Shut.entry, by hand *)
type shut_entry = hidden_local_key_t

(* Shut.versions, from its .cmt *)
type 'a shut_versions = {
  newest : 'a;
  older : 'a list;
}

(* Shut.Inner.part, by hand *)
type shut_inner_part = bool

(* Shut.Inner.file, from its .cmt *)
type shut_inner_file = {
  entries : shut_entry shut_numbers_t;
  part : shut_inner_part shut_versions;
}
END
declarations found.types > cut.types
same "declarations by hand of types without an interface" wanted.types cut.types

# A folder that is not there is reported, and the type comes after that.
made found.types -I nowhere -I +nowhere -I +compiler-libs int
cat > wanted.txt << 'END'
types_of_cmi: no folder nowhere, which -I gives
types_of_cmi: no folder +nowhere, which -I gives
int
END
same "a folder that is not there" wanted.txt word.txt

# fails STATUS ARGUMENT..: the tool ends with the status, prints nothing, and reports what standard input has.
fails() {
    wanted_status=$1
    shift
    cat > wanted.txt
    status=0
    ./types_of_cmi "$@" > printed.txt 2> err.txt || status=$?
    same "types_of_cmi $*" wanted.txt err.txt
    if [ "$status" -ne "$wanted_status" ] || [ -s printed.txt ]; then
        echo "FAILED: types_of_cmi $*: status $status"
        failures=$((failures + 1))
    fi
}

# Types of which nothing would be asked; a `_` by hand is no --any
fails 1 --any 'int -> int' << 'END'
types_of_cmi: TYPE: _ for a function
types_of_cmi: int -> int: nothing is asked of a value of this type
END
fails 1 --any 'int Seq.t' << 'END'
types_of_cmi: Seq.t: _ for a function
types_of_cmi: int Seq.t: nothing is asked of a value of this type
END
fails 1 --any Refused.loop << 'END'
types_of_cmi: Refused.loop: _ for a type that is only another name of itself
types_of_cmi: Refused.loop: nothing is asked of a value of this type
END
fails 1 --declare 'Refused.job = _' Refused.job << 'END'
types_of_cmi: Refused.job: _ by hand
types_of_cmi: Refused.job: nothing is asked of a value of this type
END
fails 1 _ << 'END'
types_of_cmi: TYPE: _ by hand
types_of_cmi: _: nothing is asked of a value of this type
END
fails 1 --declare 'Refused.hidden = _' Refused.two << 'END'
types_of_cmi: Refused.two -> field g: a function
END

# A record by hand, which OCaml lays out flat if the part of type `_` is a float
fails 1 --declare 'Refused.job = { size : float; scale : _ }' Refused.queue << 'END'
types_of_cmi: Refused.queue -> constructor Jobs -> field first -> Refused.job: a record of floats and _, which OCaml may lay out flat
END
fails 1 --any --declare 'Refused.hidden = _' --declare 'Refused.job = { size : float; scale : Refused.hidden }' Refused.job << 'END'
types_of_cmi: Refused.job -> field scale -> Refused.hidden: _ by hand
types_of_cmi: Refused.job: _ for a record of floats and _, which OCaml may lay out flat
types_of_cmi: Refused.job: nothing is asked of a value of this type
END

# More constructors with arguments than a block has tags. From 5.0 on the compiler refuses the type.
case $version in
    4.*)
        {
            printf 'type t ='
            for number in $(seq 245); do printf ' | C%d of int' "$number"; done
            echo
        } > wide.ml
        ocamlc -c wide.ml
        fails 1 Wide.t << 'END'
types_of_cmi: Wide.t: a variant of more than 244 constructors with arguments
END
        ;;
esac

# Types of later versions without a form, by their names. A Dynarray.t has an object in it.
case $version in
    5.3.* | 5.4.*)
        fails 1 --cmt Later.key << 'END'
types_of_cmi: Later.key -> field key -> Domain.DLS.key: a key of domain-local storage (Domain.DLS)
END
        fails 1 --cmt 'int Later.row' << 'END'
types_of_cmi: Later.row -> field cells -> Dynarray.t -> constructor Pack: an existential type
types_of_cmi: Later.row -> field cells -> Dynarray.t -> constructor Pack -> Dynarray.t_ -> field dummy -> Dynarray.Dummy.dummy: an object
END
        made found.types --cmt --any 'int Later.row'
        cat > wanted.types << 'END'
(* Dynarray.Dummy.with_dummy, from its .cmt *)
type ('a, 'b) dynarray_dummy_with_dummy = 'a

(* Dynarray.Dummy.dummy, from its .cmt *)
type 'a dynarray_dummy_dummy = _

(* Dynarray.t_, from its .cmt *)
type ('a, 'b) dynarray_t = {
  mutable length : int;
  mutable arr : ('a, 'b) dynarray_dummy_with_dummy array;
  dummy : 'b dynarray_dummy_dummy;
}

(* Dynarray.t, from its .cmt *)
type 'a dynarray_t_2 = ('a, _) dynarray_t

(* Later.row *)
type 'a later_row = {
  cells : 'a dynarray_t_2;
  label : string;
}
END
        declarations found.types > cut.types
        same "a Dynarray.t" wanted.types cut.types
        ;;
esac
case $version in
    5.4.*)
        fails 1 --cmt 'int Labels.frozen' << 'END'
types_of_cmi: Labels.frozen -> field frozen -> iarray: an immutable array (iarray)
END
        fails 1 --cmt 'int Atomic.Loc.t' << 'END'
types_of_cmi: Atomic.Loc.t -> atomic_loc: an atomic location
END
        ;;
esac

# Types that stay abstract with --cmt; an index that may be another, or is none of the first constructors
mkdir alone
echo 'type t' > alone/bare.mli
ocamlc -c alone/bare.mli
fails 1 --cmt alone/ Bare.t << 'END'
types_of_cmi: Bare.t: an abstract type (no .cmt was found)
types_of_cmi: not found, and may help: bare.cmt
END
fails 1 --cmt in_channel << 'END'
types_of_cmi: in_channel: an abstract type
END
fails 1 --cmt Refused.Unpacked.t << 'END'
types_of_cmi: Refused.Unpacked.t: an abstract type
END
fails 1 'Hidden.meters Indexed.length' << 'END'
types_of_cmi: Indexed.length at Hidden.meters -> constructor Meters: a generalized constructor (GADT) that may be of another index
types_of_cmi: Indexed.length at Hidden.meters -> constructor Other: a generalized constructor (GADT) that may be of another index
END

# All files that are not there and may help are named at once: also of a module by another name, of an argument of a
# functor, and a .cmt where --cmt was not given.
mkdir lacking
cat > lacking/absent.ml << 'END'
type t = int
type _ indexed = Int : int indexed

module Key = String
END
echo 'type t' > lacking/apart__absent.ml
echo 'module Absent = Apart__absent' > lacking/apart.ml
cat > lacking/lacking.ml << 'END'
type all = {
  bare : Bare.t;
  absent : Absent.t list;
  indexed : int Absent.indexed;
  apart : Apart.Absent.t;
  again : Absent.t;
  map : int Map.Make(Absent.Key).t;
}
END
(
    cd lacking
    ocamlc -w -a -I ../alone -c absent.ml apart__absent.ml apart.ml lacking.ml
    rm absent.cm* apart__absent.cm*
)
fails 1 --cmt alone/ lacking/ Lacking.all << 'END'
types_of_cmi: Lacking.all -> field bare -> Bare.t: an abstract type (no .cmt was found)
types_of_cmi: Lacking.all -> field absent -> Absent.t: a type of which no .cmi was found
types_of_cmi: Lacking.all -> field indexed -> Absent.indexed: a type of which no .cmi was found
types_of_cmi: Lacking.all -> field apart -> Apart__absent.t: a type of which no .cmi was found
types_of_cmi: Lacking.all -> field map -> Map.Make(Absent.Key).t -> constructor Node -> field v -> Map.Make(Absent.Key).key -> Absent.Key.t: a type of which no .cmi was found
types_of_cmi: not found, and may help: absent.cmi, apart__absent.cmi, bare.cmt
END
fails 1 alone/ 'Bare.t * Hidden.t' << 'END'
types_of_cmi: Bare.t: an abstract type (--cmt was not given)
types_of_cmi: Hidden.t: an abstract type (--cmt was not given)
types_of_cmi: not found, and may help: bare.cmt
END

# A .cmt that was not made with the .cmi beside it
mkdir stale
cp hidden.cmt stale
echo 'type t' > stale/hidden.mli
ocamlc -c stale/hidden.mli
status=0
(cd stale && ../types_of_cmi --cmt Hidden.t) 2> found.txt || status=$?
echo "types_of_cmi: the .cmt of Hidden is of another interface than its .cmi: 2" > wanted.txt
echo "$(cat found.txt): $status" > err.txt
same "a .cmt of another interface" wanted.txt err.txt

# What has no form, each with status 1
while IFS= read -r line; do
    case $line in
        "  "*) ;;
        *)
            echo "$line"
            status=0
            ./types_of_cmi "$line" > printed.txt 2> err.txt || status=$?
            [ "$status" -eq 1 ] || echo "  status $status"
            [ ! -s printed.txt ] || echo "  something is printed"
            sed 's/^types_of_cmi: /  /' err.txt
            ;;
    esac
done < "$expected/refused.txt" > found.txt
same "types without a form" "$expected/refused.txt" found.txt

# Wrong words, each with status 2: a line of wrong.txt is what is reported of the words below it.
wrong() {
    status=0
    ./types_of_cmi "$@" > printed.txt 2> err.txt || status=$?
    [ "$status" -eq 2 ] || echo "status $status"
    sed 's/^types_of_cmi: //' err.txt
    for word in "$@"; do echo "  $word"; done
}
set --
while IFS= read -r line; do
    case $line in
        "  "*) set -- "$@" "${line#  }" ;;
        *)
            [ -z "${message:-}" ] || wrong "$@"
            message=$line
            set --
            ;;
    esac
done < "$expected/wrong.txt" > found.txt
wrong "$@" >> found.txt
same "wrong words" "$expected/wrong.txt" found.txt

./types_of_cmi --help > help.txt
grep -q 'Status 0: done' help.txt || { echo "FAILED: help"; failures=$((failures + 1)); }

# Values
ocamlc -w -a kinds.ml values.ml -o values
./values values.bin > wanted.tsv
judged kinds.types values.bin wanted.tsv
ocamlc -w -a by_hand.ml by_hand_values.ml -o by_hand_values
./by_hand_values values.bin > wanted.tsv
judged by_hand.types values.bin wanted.tsv

ocamlc -w -a gone.ml refused.ml unasked.ml unasked_values.ml -o unasked_values
./unasked_values values.bin > wanted.tsv
judged unasked.types values.bin wanted.tsv

ocamlc -w -a hidden.ml uses_hidden.ml uses_hidden_values.ml -o uses_hidden_values
./uses_hidden_values values.bin > wanted.tsv
judged uses_hidden.types values.bin wanted.tsv

ocamlc -w -a -rectypes hidden.ml applied.ml copied.ml indexed.ml shut__part.ml shut.ml textbook.ml more_values.ml -o more_values
for module in applied copied indexed shut textbook; do
    ./more_values $module values.bin > wanted.tsv
    judged $module.types values.bin wanted.tsv
done

case $version in
    5.3.* | 5.4.*)
        ocamlc -w -a later.ml later_values.ml -o later_values
        ./later_values values.bin > wanted.tsv
        judged later.types values.bin wanted.tsv
        ;;
esac
case $version in
    5.4.*)
        ocamlc -w -a labels.ml labels_values.ml -o labels_values
        ./labels_values values.bin > wanted.tsv
        judged labels.types values.bin wanted.tsv
        ;;
esac

# Types that no file of OCaml shows
unix=$(dirname "$(find "$library" -name unix.cma | head -n 1)")
str=$(dirname "$(find "$library" -name str.cma | head -n 1)")
made known.types --cmt -I "$unix" -I "$str" 'Unix.inet_addr * Unix.file_descr * Str.regexp'
cat > known.ml << 'END'
let () =
  let file = open_out_bin "values.bin" in
  let write value = Marshal.to_channel file value [] in
  write (Unix.inet_addr_of_string "127.0.0.1");
  write (Unix.inet_addr_of_string "::1");
  write (Str.regexp_case_fold "a\\(b*\\)[^c-d]?\\1");
  write Unix.stdout;
  write (Unix.gettimeofday ());
  write (Unix.gettimeofday ());
  write (Unix.inet_addr_of_string "127.0.0.1");
  close_out file
END
ocamlc -w -a -I "$unix" -I "$str" unix.cma str.cma known.ml -o known
./known
printf '%s\n' 'yes	unix_inet_addr' 'yes	unix_inet_addr' 'yes	str_regexp' 'yes	unix_file_descr' 'no	unix_inet_addr' \
    'no	unix_file_descr' 'no	str_regexp' > wanted.tsv
judged known.types values.bin wanted.tsv

# The examples are what make.sh makes, and what OCaml writes has their types.
mkdir made
sh "$examples/make.sh" made 2> err.txt || cat err.txt
if [ -d "$typed" ]; then
    if grep '^skipped: ' err.txt; then cp "$typed/vo.types" made; fi
    for file in "$typed"/*.types; do
        same "$file" "$file" "made/$(basename "$file")"
    done
else
    echo "skipped: the files of examples/, as none are for OCaml $version"
fi

ocaml "$examples/containers.ml" .
cat map.bin map.bin > values.bin
printf 'yes\tint map_make_string_t\nno\tbool map_make_string_t\n' > wanted.tsv
judged made/map.types values.bin wanted.tsv
cat set.bin map.bin > values.bin
printf 'yes\tset_make_string_t\nno\tset_make_string_t\n' > wanted.tsv
judged made/set.types values.bin wanted.tsv
cat hashtbl.bin hashtbl.bin > values.bin
printf 'yes\t(string, int) hashtbl_t\nno\t(int, int) hashtbl_t\n' > wanted.tsv
judged made/hashtbl.types values.bin wanted.tsv
cat queue.bin queue.bin > values.bin
printf 'yes\tint queue_t\nno\tstring queue_t\n' > wanted.tsv
judged made/queue.types values.bin wanted.tsv

# What the compiler writes: each .cmi has three values, the others one; sixteen bytes follow that of a .cmx.
begin() { : > values.bin; : > wanted.tsv; }
wanted() { printf '%s\t%s\n' "$1" "$2" >> wanted.tsv; }

if [ -n "$plain" ]; then
    begin
    for file in "$library"/*.cmi kinds.cmi refused.cmi; do
        $plain < "$file" | tail -c +13 >> values.bin
        wanted yes 'string * types_signature'
        wanted yes misc_crcs
        wanted yes 'cmi_format_pers_flags list'
    done
    $plain < kinds.cmi | tail -c +13 >> values.bin
    wanted no misc_crcs
    judged made/cmi.types values.bin wanted.tsv
fi

begin
for file in "$library"/*.cmo kinds.cmo by_hand.cmo; do
    descriptor "$file" >> values.bin
    wanted yes cmo_format_compilation_unit
done
for file in "$library"/*.cma; do
    descriptor "$file" >> values.bin
    wanted yes cmo_format_library
done
descriptor kinds.cmo >> values.bin
wanted no cmo_format_library
judged made/cmo.types values.bin wanted.tsv

begin
for file in "$library"/*.cmx; do
    after_magic "$file" | head -c -16 >> values.bin
    wanted yes cmx_format_unit_infos
done
for file in "$library"/*.cmxa; do
    after_magic "$file" >> values.bin
    wanted yes cmx_format_library_infos
done
descriptor kinds.cmo >> values.bin
wanted no cmx_format_unit_infos
judged made/cmx.types values.bin wanted.tsv

if [ "$failures" -gt 0 ]; then
    echo "$failures failed"
    exit 1
fi
for other in 4.13 5.3 5.4; do
    case $version in
        $other.*) ;;
        *) echo "skipped: OCaml $other, as this is $version" ;;
    esac
done
echo "all is as expected"
