"""Declarations of each size, which the scripts benchmark.py and find_growth.py measure, and headers that claim more than there is.

Each function takes a size, and returns the declarations and a type over them. DECLARED lists the functions with a description and
the size of the benchmark.
"""

import struct


def chain(size):
    """Records that name each the one before."""
    return ["type t0 = { f : int }", *(f"type t{k} = {{ f : t{k - 1} }}" for k in range(1, size))], f"t{size - 1}"


def constructors(size):
    """250 variants that have so many constructors together, each of the next variant or of an integer."""
    types = 250
    each = size // types

    def variant(k):
        inside = f"t{k + 1}" if k + 1 < types else "int"
        return f"t{k} = " + " | ".join(f"C{k}_{c} of {inside if c == 0 else 'int'}" for c in range(each))

    return [("and " if k else "type ") + variant(k) for k in range(types)], "t0"


def bracket(size):
    """One polymorphic variant, half of whose tags have an argument."""
    return ["type t = [ " + " | ".join(f"`T{k}" + (" of int" if k % 2 else "") for k in range(size)) + " ]"], "t"


def twice_over(size, body):
    """Two families of so many types, in each of which one leads to the next."""
    declared = []
    for family in "tu":
        names = [f"{family}{k}" for k in range(size)]
        for k, name in enumerate(names):
            declared.append(("and " if k else "type ") + f"{name} = " + body(family, k, names[(k + 1) % size]))
    return declared, "t0 * u0"


def variants(size):
    """Two families of variants."""
    return twice_over(size, lambda family, k, after: f"{family.upper()}{k} of {after} | {family.upper()}Stop{k}")


def brackets(size):
    """Two families of polymorphic variants, which are equal one by one."""
    return twice_over(size, lambda family, k, after: f"[ `Next of {after} | `T{k} ]")


def families(size):
    """Two families of polymorphic variants with the same tags, all of which are equal."""
    return twice_over(size, lambda family, k, after: f"[ `Next of {after} | `Stop ]")


def pairs(size):
    """Abbreviations of pairs of the one before."""
    return ["type t0 = int", *(f"type t{k} = t{k - 1} * t{k - 1}" for k in range(1, size + 1))], f"t{size}"


def applied(size):
    """Abbreviations of the one before, applied twice; each is its argument."""
    return ["type 'a t0 = 'a", *(f"type 'a t{k} = 'a t{k - 1} t{k - 1}" for k in range(1, size + 1))], f"int t{size}"


def included(size):
    """Polymorphic variants that include the one before twice."""
    return ["type t0 = [ `A ]", *(f"type t{k} = [ t{k - 1} | t{k - 1} ]" for k in range(1, size + 1))], f"t{size}"


def differing(size):
    """Polymorphic variants that include the one before at two arguments, which differ."""
    two = "[ ('a * int) t{0} | ('a * string) t{0} ]"
    return ["type 'a t0 = [ `A ]", *(f"type 'a t{k} = {two.format(k - 1)}" for k in range(1, size + 1))], f"int t{size}"


def extended(size):
    """Polymorphic variants that have the tags of the one before and one more."""
    return ["type t0 = [ `T0 ]", *(f"type t{k} = [ t{k - 1} | `T{k} ]" for k in range(1, size))], f"t{size - 1}"


def all_extended(size):
    """The same, and a record that reaches each."""
    declared, _ = extended(size)
    return [*declared, "type all = { " + "; ".join(f"f{k} : t{k}" for k in range(size)) + " }"], "all"


def extended_with(size):
    """The same, where the first one has a tag with a variable."""
    included = (f"type 'a t{k} = [ 'a t{k - 1} | `T{k} ]" for k in range(1, size))
    return ["type 'a t0 = [ `T0 of 'a ]", *included], f"int t{size - 1}"


def kilobytes(size):
    """So many kilobytes of records of some thirty fields."""
    fields = "; ".join(f"field_number_{k} : {'(int * string) list' if k % 2 else 'float option'}" for k in range(27))
    return [f"type record_{k:04} = {{ {fields} }}" for k in range(size)], f"record_{size - 1:04}"


def declarations(size):
    """So many declarations of one line, of which the type names one."""
    return [f"type t{k} = A{k} of int * string | B{k}" for k in range(size)], f"t{size - 1}"


def many_lists(size):
    """So many types of one representation, and a record with a list of each."""
    declared = [f"type t{k} = A{k} of int" for k in range(size)]
    return [*declared, "type record = {" + "; ".join(f"f{k} : t{k} list" for k in range(size)) + "}"], "record"


DECLARED = [
    ("a chain of N records", chain, 30_000),
    ("N constructors of 250 variants", constructors, 30_000),
    ("one polymorphic variant of N tags", bracket, 5_000),
    ("two groups of N variants", variants, 500),
    ("two groups of N polymorphic variants, each with one tag of its own", brackets, 500),
    ("two groups of N polymorphic variants, all equal", families, 500),
    ("N pairs of the one before", pairs, 20),
    ("N abbreviations of the one before, applied twice", applied, 20),
    ("N polymorphic variants that include the one before twice", included, 20),
    ("N that include the one before at two arguments", differing, 20),
    ("N that include the one before and have one tag more", extended, 1_000),
    ("the same, where TYPE reaches each", all_extended, 1_000),
    ("the same, where the first tag has a variable", extended_with, 1_000),
    ("N kilobytes of records", kilobytes, 500),
    ("N declarations", declarations, 5_000),
]


def headers(count, words, fields):
    """The bytes of so many headers, each of a value of so many words that begins with a block of so many fields, which are the
    headers that follow: its other numbers are integers when they are read as fields."""
    integers = 0x40404040
    return struct.pack(">5IBI", 0x8495A6BE, integers, integers, integers, words, 8, fields << 10) * count
