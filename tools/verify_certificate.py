"""Verifies a certificate of marshalled values (docs/CERTIFICATES.md): an independent verifier, which searches nothing.

    python3 verify_certificate.py FILE TYPE CERT < stream

Entry k of CERT has to show that value k has TYPE over the declarations of FILE, or that it has not. A line for each
value says `yes`, or `no` and the stated fault. Status 0: each is `yes`; 1: some is `no`; 2: FILE or TYPE is refused;
4: the stream is; 8: a file cannot be opened; 12: CERT is no certificate, an entry is rejected, or there are not as many
entries as values. It shares nothing with omarshal: values and types are read by value_has_type.py beside it.

It checks

- CERT: the format, the rules for pairs and for paths, and the number of entries;
- the stream: all that docs/FORMAT.md asks for, with the limit 2^27 words. A header that states a wrong number, a damaged
  token, a truncated value and bytes left over are refused with the same text and status as by `omarshal verify`;
- FILE and TYPE: all that docs/TYPE_FILES.md asks for. TYPE may have variables, which no value has.

It does not check

- whose certificate CERT is. CERT names neither FILE, TYPE nor the stream: what is verified is what CERT shows of the FILE,
  the TYPE and the stream that are given here;
- that a fault is the first one, that all pairs are needed, or that a type has the least number of its class;
- where FILE or TYPE is refused: its refusals have no position. If several rules are broken, it may name another one;
- what the options `--skip`, `--limit` and `--lines` ask for: it has none.
"""
import re
import sys

from value_has_type import (Declarations, Input, Refused, Types, fit, parts_of, read_type, read_value, refuse_if,
                            text_of)

NUMBER = r"(0|[1-9][0-9]*)"
PATH = r"(\.|(?:\.(?:0|[1-9][0-9]*))+)"


class Table:
    """The types that a type reaches, numbered in the order in which they are met; equal ones have one class."""

    def __init__(self, root, known):
        self.types, self.numbers, self.shapes = [root], {root: 0}, known.shapes
        for form in self.types:
            for part in Types.named_by(known.shapes[form]) + parts_of(known.heads[form]):
                if part not in self.numbers:
                    self.numbers[part] = len(self.types)
                    self.types.append(part)
        self.classes = [known.classes[form] for form in self.types]

    def fit(self, value, t, objects):
        """Whether the value fits type t, whether it is mutable there, and the types of its fields by number, but `_`."""
        good, mutable, needs = fit(self.shapes[self.types[t]], value, objects)
        asked = {i: form for i, form in sorted(needs.items()) if good and self.shapes[form][0] != "any"}
        return good, good and mutable, {i: self.numbers[form] for i, form in asked.items()}


def read_entries(data):
    """The entries: a list of pairs, or a tuple of the paths of a fault."""
    lines = data.decode("latin-1").split("\n")
    rest, entries, begun = lines.pop(), [], None
    for at, line in enumerate(lines, 1):
        good = all(len(number) < 20 and int(number) < 2 ** 63 for number in re.findall("[0-9]+", line))
        if begun is None:
            head = re.fullmatch(rf"value {len(entries)} (?:(yes)|misfit {PATH}|clash {PATH} {PATH})", line)
            if good and head:
                paths = [path.split(".") for path in head.groups()[1:] if path]
                begun = [] if head[1] else tuple(tuple(int(step) for step in path if step) for path in paths)
            good = good and head
        elif line == "end":
            entries.append(begun)
            begun = None
        else:
            pair = re.fullmatch(rf"pair {NUMBER} {NUMBER}", line)
            pair = good and pair and isinstance(begun, list) and (int(pair[1]), int(pair[2]))
            good = pair and begun[-1:] < [pair]
            if good:
                begun.append(pair)
        refuse_if(not good, f"certificate line {at}: Syntax", 12)
    refuse_if(begun is not None or rest, f"certificate line {len(lines) + 1}: Syntax", 12)
    return entries


def rejected(table, root, objects, pairs):
    """The first reason why the pairs do not justify one another, or do not hold the root."""
    classes = {}
    for i, (o, t) in enumerate(pairs):
        if o >= len(objects) or t >= len(table.types):
            return f"Range({i})"
        classes.setdefault(o, set()).add(table.classes[t])

    def holds(value, t):
        listed = value[0] != "ref" or table.classes[t] in classes.get(value[1], ())
        return listed and table.fit(value, t, objects)[0]

    for i, (o, t) in enumerate(pairs):
        good, mutable, needs = table.fit(("ref", o), t, objects)
        if not good:
            return f"Unfit({i})"
        for field, u in needs.items():
            if not holds(objects[o][2][field], u):
                return f"Need({i}, {field})"
        if mutable and len(classes[o]) > 1:
            return f"TwoTypes({i})"
    return None if holds(root, 0) else "Root"


def reached(table, root, objects, path):
    """The value and its type at the end of a path, if it leads anywhere."""
    value, t = root, 0
    for step in path:
        needs = table.fit(value, t, objects)[2] if value[0] == "ref" else {}
        if step not in needs:
            return None
        value, t = objects[value[1]][2][step], needs[step]
    return value, t


def fault_text(table, root, objects, paths):
    """The text of the stated fault, or None where the paths are none."""
    ends = [reached(table, root, objects, path) for path in paths]
    if None in ends:
        return None
    (value, t), (other, u) = ends[0], ends[-1]
    where = " and ".join("." + ".".join(map(str, path)) for path in paths)
    if len(paths) == 1:
        thing = objects[value[1]] if value[0] == "ref" else value
        number = {"block": f" {thing[1]} of {len(thing[-1])}" if thing[0] == "block" else "",
                  "floats": f" array of {thing[1]}", "int": f" {thing[1]}", "atom": f" {thing[1]}"}.get(thing[0], "")
        found = thing[0].replace("floats", "float") + number
        return None if table.fit(value, t, objects)[0] else f"{where}: expected {text_of(table.types[t])}, found {found}"
    in_order = (len(paths[0]), paths[0]) < (len(paths[1]), paths[1])
    clash = value[0] == "ref" and value == other and table.classes[t] != table.classes[u]
    types = " and ".join(text_of(table.types[s]) for s in (t, u))
    mutable = clash and any(table.fit(value, s, objects)[1] for s in (t, u))
    return f"{where}: {types} share a mutable object" if in_order and mutable else None


def verify(table, certificate, data, read=read_value):
    """Prints the line of each value. Returns 1 if one of the lines says `no`."""
    entries, stream, status, k = read_entries(certificate), Input(data), 0, 0
    while stream.at < len(data):
        try:
            root, objects = read(stream)
        except Refused as refusal:
            raise Refused(refusal.status, f"value {k}: {refusal}") from None
        refuse_if(k == len(entries), f"value {k}: no section", 12)
        if isinstance(entries[k], list):
            text, why = "yes", rejected(table, root, objects, entries[k])
        else:
            fault = fault_text(table, root, objects, entries[k])
            text, why, status = f"no {fault}", None if fault else "NotFault", 1
        refuse_if(why, f"value {k}: certificate {why}", 12)
        print(text)
        k += 1
    refuse_if(k < len(entries), "sections left", 12)
    return status


def main(words):
    refuse_if(len(words) != 3, "usage")
    with open(words[0], encoding="latin-1") as file:
        table = Table(*read_type(Declarations(file.read()), words[1]))
    with open(words[2], "rb") as certificate:
        return verify(table, certificate.read(), sys.stdin.buffer.read())


if __name__ == "__main__":
    try:
        sys.exit(main(sys.argv[1:]))
    except Refused as refusal:
        print(f"omarshal: {refusal}", file=sys.stderr)
        sys.exit(refusal.status)
    except OSError as error:
        print(f"omarshal: cannot open {error.filename}", file=sys.stderr)
        sys.exit(8)
