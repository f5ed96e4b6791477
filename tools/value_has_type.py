"""Says of marshalled values whether they have a type: an independent reader of omarshal's type files.

    python3 value_has_type.py FILE TYPE [TYPE ..] < stream

FILE holds type declarations. The first value of the stream is checked at the first TYPE, and so on; bytes after the
last of these values are not read. A line for each value says `yes`, or `no` and a fault. Status 0: each is `yes`;
1: some is `no`; 2: FILE or a TYPE is refused; 4: the stream is.

It shares nothing with omarshal but the format: codes, grammar of declarations, and the representation of types. It is
written to be compared with, not to be fast, and reports some fault, not the least one.

Of a stream it checks what docs/FORMAT.md asks for, in the same order, and refuses it with the same text: each row of
the table "All refusals", and `Truncated`. The limit is always 2^27 words.

Of FILE and TYPE it checks the lexemes, the grammar and the scope rules of docs/TYPE_FILES.md. Its refusals have no
position. If several rules are broken, it may name another one than omarshal.
"""
import re
import sys

sys.setrecursionlimit(5000)  # for deep types


class Refused(Exception):
    def __init__(self, status, text):
        super().__init__(text)
        self.status = status


# --- Marshalled values. A value is ("int", n), ("atom", tag) or ("ref", number of an object).

MOST_WORDS = 2 ** 27
MOST_BYTES = 2 ** 48 - 1
MOST_TAG = 243

# The number of bytes of a number after a code, and the number of fixed bytes after each code from 00 to 19.
INTEGERS = {0x00: 1, 0x01: 2, 0x02: 4, 0x03: 8}
REFERENCES = {0x04: 1, 0x05: 2, 0x06: 4, 0x14: 8}
BLOCKS = {0x08: 4, 0x13: 8}
STRINGS = {0x09: 1, 0x0A: 4, 0x15: 8}
DOUBLES = {0x0B: 8, 0x0C: 8}
ARRAYS = {0x0D: 1, 0x0F: 4, 0x16: 8, 0x0E: 1, 0x07: 4, 0x17: 8}
CUSTOMS = {0x12: 3, 0x19: 3}
FIXED = {**INTEGERS, **REFERENCES, **BLOCKS, **STRINGS, **DOUBLES, **ARRAYS, **CUSTOMS}

# The kind of a custom block, the bytes of its number (of a nativeint they come after a kind byte), and its words on 32 and
# on 64 bits.
IDENTIFIERS = {b"_i\0": ("int32", 4, 3, 3), b"_j\0": ("int64", 8, 4, 3), b"_n\0": ("nativeint", None, 3, 3)}


class Input:
    """A stream, how much of it is read, and where its last value begins."""

    def __init__(self, data):
        self.data, self.at, self.start = data, 0, 0

    def take(self, count):
        part = self.data[self.at:self.at + count]
        if len(part) < count:
            raise Refused(4, f"Truncated({len(self.data) - self.start})")
        self.at += count
        return part

    def number(self, count, signed=False):
        return int.from_bytes(self.take(count), "big", signed=signed)


class Reader:
    """Reads a value: its header, and then token by token. Beside each test is its row in docs/FORMAT.md. A token is tested as
    soon as its fields are read, before its content is: content that is not there makes a value `Truncated`."""

    def __init__(self, stream):
        self.stream, self.objects = stream, []
        self.pending, self.found32, self.found64 = 1, 0, 0
        stream.start = stream.at
        magic = stream.number(4)
        refuse_if(magic == 0x8495A6BD, "Compressed", 4)  # H1
        refuse_if(magic not in (0x8495A6BE, 0x8495A6BF), f"BadMagic({magic:08x})", 4)
        if magic == 0x8495A6BE:
            length, self.stated, self.stated32, self.stated64 = (stream.number(4) for _ in range(4))
        else:
            stream.take(4)
            length, self.stated, self.stated64 = (stream.number(8) for _ in range(3))
            self.stated32 = None
        refuse_if(self.stated64 > MOST_WORDS, f"TooLarge(words, {self.stated64}, {MOST_WORDS})", 4)  # H2
        refuse_if(length > MOST_BYTES, f"TooLarge(length, {length}, {MOST_BYTES})", 4)  # H3
        self.token, self.end = stream.at, stream.at + length
        self.test_room(1)  # H4

    def refuse(self, text):
        raise Refused(4, f"{text} at {self.token - self.stream.start}")

    def test_room(self, needed, behind=0):
        """That so many bytes, or values, have room in the data after the bytes read and the `behind` ones after these."""
        left = self.end - self.stream.at - behind
        if needed > left:
            self.refuse(f"Overlong({needed}, {left})")

    def content(self, count, fields=0, words32=0, words64=0):
        """The content of a token, with so many bytes. The token has so many fields and takes so many words."""
        self.pending += fields - 1
        self.found32 += words32
        self.found64 += words64
        self.test_room(self.pending, count)  # T5
        if self.stated32 is not None and self.found32 > self.stated32:  # T6
            self.refuse(f"SizeMismatch(w32, {self.stated32}, {self.found32})")
        if self.found64 > self.stated64:
            self.refuse(f"SizeMismatch(w64, {self.stated64}, {self.found64})")
        return self.stream.take(count)

    def read_token(self):
        """The value that the next token begins, and for a block with fields the list for them and their number."""
        stream = self.stream
        self.token = stream.at
        code = stream.number(1)
        if code >= 0x80:
            return self.block(code & 15, code >> 4 & 7)
        if code >= 0x40:
            self.content(0)
            return ("int", code & 63), None
        if code >= 0x20:
            return self.string(code & 31)
        if code >= 0x1A:  # T1
            self.refuse(f"BadCode({code:02x})")
        if code in (0x10, 0x11):
            self.refuse(f"PointerCode({code:02x})")
        if code == 0x18:
            self.refuse("OtherCustom(18)")
        self.test_room(FIXED[code])  # T2
        if code == 0x03:
            number = stream.number(8, signed=True)
            if not -2 ** 62 <= number < 2 ** 62:  # T3
                self.refuse(f"IntRange({number})")
            self.content(0)
            return ("int", number), None
        if code in INTEGERS:
            return ("int", int.from_bytes(self.content(INTEGERS[code]), "big", signed=True)), None
        if code in REFERENCES:
            return self.reference(stream.number(REFERENCES[code]))
        if code in BLOCKS:
            word = stream.number(BLOCKS[code])
            return self.block(word & 255, word >> 10)
        if code in STRINGS:
            return self.string(stream.number(STRINGS[code]))
        if code in DOUBLES:
            return self.new("float", self.content(8, 0, 3, 2))
        if code in ARRAYS:
            return self.doubles(stream.number(ARRAYS[code]))
        return self.custom(code, stream.take(3))

    def new(self, *thing):
        self.objects.append(thing)
        return ("ref", len(self.objects) - 1), None

    def reference(self, distance):
        count = len(self.objects)
        if not 1 <= distance <= count:  # T3
            self.refuse(f"BadShared({distance}, {count})")
        if self.stated == 0:
            self.refuse("NoTable")
        self.content(0)
        return ("ref", count - distance), None

    def block(self, tag, size):
        if tag > MOST_TAG:  # T3
            self.refuse(f"BadTag({tag})")
        words = 1 + size if size else 0
        self.content(0, size, words, words)
        if size == 0:
            return ("atom", tag), None
        fields = []
        return self.new("block", tag, fields)[0], (fields, size)

    def string(self, length):
        self.test_room(length)  # T4
        return self.new("string", self.content(length, 0, 1 + (length + 4) // 4, 1 + (length + 8) // 8))

    def doubles(self, length):
        if length == 0:  # T3
            self.refuse("ZeroArray")
        self.test_room(8 * length)  # T4
        return self.new("floats", length, self.content(8 * length, 0, 1 + 2 * length, 1 + length))

    def custom(self, code, identifier):
        if identifier not in IDENTIFIERS:  # T3
            self.refuse(f"OtherCustom({code:02x})")
        name, size, words32, words64 = IDENTIFIERS[identifier]
        if size is None:
            self.test_room(1)  # T4a
            kind = self.stream.number(1)
            if kind not in (1, 2):  # T4b
                self.refuse(f"BadNative({kind})")
            size = 4 * kind
        self.test_room(size)  # T4, T4c
        return self.new(name, int.from_bytes(self.content(size, 0, words32, words64), "big", signed=True))

    def test_end(self):
        """That what the header states is so, after the last token."""
        self.token, count = self.stream.at, len(self.objects)
        if self.end > self.stream.at:  # E1
            self.refuse(f"LengthMismatch({self.end - self.stream.at})")
        if self.stated32 not in (None, self.found32):  # E2
            self.refuse(f"SizeMismatch(w32, {self.stated32}, {self.found32})")
        if self.stated64 != self.found64:  # E3
            self.refuse(f"SizeMismatch(w64, {self.stated64}, {self.found64})")
        if self.stated not in (0, count):  # E4
            self.refuse(f"CountMismatch({self.stated}, {count})")


def read_value(stream):
    """The next value of a stream, and its objects."""
    reader = Reader(stream)
    open_blocks = []
    root, opened = reader.read_token()
    while opened or open_blocks:
        if opened:
            open_blocks.append(opened)
        fields, size = open_blocks[-1]
        if len(fields) == size:
            open_blocks.pop()
            opened = None
        else:
            value, opened = reader.read_token()
            fields.append(value)
    reader.test_end()
    return root, reader.objects


# --- Declarations. A type is ("var", name), ("app", name, arguments), ("tuple", parts) or ("poly", items); an item is
# (tag, argument or None) or (None, the included type).

LEXEME = re.compile(r"(?P<name>[A-Za-z_][A-Za-z0-9_']*)|(?P<tag>`[A-Za-z_][A-Za-z0-9_']*)"
                    r"|(?P<var>'(?!.')[a-z_][A-Za-z0-9_']*)|(?P<symbol>;;|\[\||[(){}\[\]|,;:=*])")
KEYWORDS = {"type", "and", "of", "mutable"}
ARITIES = dict.fromkeys("int char bool unit string bytes float int32 int64 nativeint floatarray _".split(), 0)
ARITIES.update(list=1, option=1, array=1, ref=1)


def lexemes(text):
    found, at = [], 0
    while at < len(text):
        if text[at] in " \t\r\n\f":
            at += 1
        elif text.startswith("(*", at):
            depth, at = 1, at + 2
            while depth:
                if at >= len(text):
                    raise Refused(2, "a comment does not end")
                step = {"(*": 1, "*)": -1}.get(text[at:at + 2], 0)
                depth += step
                at += 2 if step else 1
        else:
            match = LEXEME.match(text, at)
            if not match:
                raise Refused(2, f"byte {text[at]!r} at {at}")
            found.append((match.lastgroup, match.group()))
            at = match.end()
    return found


MOST_DEPTH = 200


class Parser:
    """Parses lexemes. `open` is the number of open brackets, `depth` that of the last type that ended."""

    def __init__(self, text):
        self.rest, self.open, self.depth = lexemes(text)[::-1], 0, 0

    def pop(self):
        text = self.rest.pop()[1]
        self.open += (text in ("(", "[", "{")) - (text in (")", "]", "}"))
        refuse_if(self.open > MOST_DEPTH, "TooDeep")
        return text

    def deeper(self):
        self.depth += 1
        refuse_if(self.depth > MOST_DEPTH, "TooDeep")

    def peek(self):
        return self.rest[-1][1] if self.rest else None

    def kind(self):
        if not self.rest:
            return None
        kind, text = self.rest[-1]
        if kind == "name":
            return "keyword" if text in KEYWORDS else "upper" if text[0].isupper() else "lower"
        return kind

    def take(self, text):
        refuse_if(self.peek() != text, f"{self.peek()!r} where {text} is wanted")
        return self.pop()

    def take_kind(self, kind):
        refuse_if(self.kind() != kind, f"{self.peek()!r} where a lexeme {kind} is wanted")
        return self.pop()

    def skip(self, text):
        if self.peek() == text:
            self.pop()
            return True
        return False

    def separated(self, by, part):
        """The parts. The depth is then that of the deepest one."""
        parts, deepest = [part()], self.depth
        while self.skip(by):
            parts.append(part())
            deepest = max(deepest, self.depth)
        self.depth = deepest
        return parts

    def file(self):
        groups = []
        while self.rest:
            self.take("type")
            groups.append(self.separated("and", self.declaration))
            self.skip(";;")
        return groups

    def declaration(self):
        params = []
        if self.kind() == "var":
            params = [self.take_kind("var")]
        elif self.skip("("):
            params = self.separated(",", lambda: self.take_kind("var"))
            self.take(")")
        name = self.take_kind("lower")
        self.take("=")
        return name, params, self.body()

    def body(self):
        if self.peek() == "{":
            return ("record", self.record())
        if self.peek() == "|" or self.kind() == "upper":
            self.skip("|")
            return ("variant", self.separated("|", self.constructor))
        return ("abbreviation", self.type())

    def record(self):
        self.take("{")
        fields = [self.field()]
        while self.skip(";") and self.peek() != "}":
            fields.append(self.field())
        self.take("}")
        return fields

    def field(self):
        mutable = self.skip("mutable")
        name = self.take_kind("lower")
        self.take(":")
        return name, mutable, self.type()

    def constructor(self):
        name = self.take_kind("upper")
        if not self.skip("of"):
            return name, []
        if self.peek() == "{":
            return name, self.record()
        return name, [(None, False, part) for part in self.separated("*", self.application)]

    def type(self):
        parts = self.separated("*", self.application)
        if len(parts) == 1:
            return parts[0]
        self.deeper()
        return ("tuple", tuple(parts))

    def application(self):
        found = self.simple()
        while self.kind() == "lower":
            found = ("app", self.take_kind("lower"), (found,))
            self.deeper()
        return found

    def simple(self):
        self.depth = 1
        if self.kind() == "var":
            return ("var", self.take_kind("var"))
        if self.kind() == "lower":
            return ("app", self.take_kind("lower"), ())
        if self.skip("["):
            self.skip("|")
            items = self.separated("|", self.item)
            self.take("]")
            self.deeper()
            return ("poly", tuple(items))
        self.take("(")
        parts = self.separated(",", self.type)
        self.take(")")
        self.deeper()
        return parts[0] if len(parts) == 1 else ("app", self.take_kind("lower"), tuple(parts))

    def item(self):
        if self.kind() != "tag":
            return None, self.application()
        self.depth = 0
        tag = self.take_kind("tag")[1:]
        return tag, self.type() if self.skip("of") else None


def hash_of(tag):
    h = 0
    for byte in tag.encode():
        h = (223 * h + byte) & 0x7FFFFFFF
    return h - (1 << 31) if h > 0x3FFFFFFF else h


def parts_of(form):
    if form[0] == "poly":
        return [argument for _, argument in form[1] if argument is not None]
    return [] if form[0] == "var" else list(form[-1])


def all_types(form, inside_tags=True):
    yield form
    inner = parts_of(form)
    if form[0] == "poly" and not inside_tags:
        inner = [included for tag, included in form[1] if tag is None]
    for part in inner:
        yield from all_types(part, inside_tags)


def types_of_body(body):
    kind, content = body
    if kind == "abbreviation":
        return [content]
    if kind == "record":
        return [form for _, _, form in content]
    return [form for _, fields in content for _, _, form in fields]


def refuse_if(wrong, text, status=2):
    if wrong:
        raise Refused(status, text)


def refuse_twice(words, what):
    words = [word for word in words if word is not None]
    refuse_if(len(set(words)) < len(words), f"Twice: {what}")


class Declarations:
    def __init__(self, text):
        self.table, self.group = {}, {}
        for number, group in enumerate(Parser(text).file()):
            for name, params, body in group:
                refuse_if(name in ARITIES or name in self.table, f"Twice: {name}")
                refuse_twice(params, name)
                self.table[name], self.group[name] = (params, body), number
        for name, (params, body) in self.table.items():
            self.check_names(name, body)
            for form in types_of_body(body):
                self.check_type(form, params, name)
        for name in self.table:
            refuse_if(name in self.abbreviations_below(name), f"Cyclic: {name}")
        for name, (params, body) in self.table.items():
            self.check_float_in_group(name, body)
            self.check_mixed_record(name, body)
            for form in types_of_body(body):
                self.check_tags(form)

    def check_names(self, name, body):
        kind, content = body
        if kind == "record":
            refuse_twice([field[0] for field in content], name)
        if kind == "variant":
            refuse_twice([constructor[0] for constructor in content], name)
            refuse_if(sum(1 for _, fields in content if fields) > 244, f"TooManyConstructors: {name}")
            for constructor, fields in content:
                refuse_twice([field[0] for field in fields], constructor)

    def check_type(self, form, params, owner=None):
        for inner in all_types(form):
            if inner[0] == "var":
                refuse_if(inner[1] not in params, f"UnboundVar: {inner[1]}")
            elif inner[0] == "app":
                self.check_use(inner, owner)
            elif inner[0] == "poly":
                refuse_twice([tag for tag, _ in inner[1]], "a tag")

    def check_tags(self, form):
        """That the included types of polymorphic variants have tags, which agree with the others."""
        for inner in all_types(form):
            if inner[0] == "poly":
                tags = [tag for tag, _ in self.expand(inner)[1]]
                refuse_if(len(set(map(hash_of, tags))) < len(tags), "HashClash")

    def check_use(self, form, owner):
        _, name, arguments = form
        known = name in ARITIES or name in self.table
        if known and owner is not None and name in self.group:
            known = self.group[name] <= self.group[owner]
        refuse_if(not known, f"UnknownName: {name}")
        arity = ARITIES[name] if name in ARITIES else len(self.table[name][0])
        refuse_if(arity != len(arguments), f"Arity: {name}")
        if owner is not None and self.group.get(name) == self.group[owner]:
            for argument in arguments:
                has_variable = any(inner[0] == "var" for inner in all_types(argument))
                refuse_if(argument[0] != "var" and has_variable, f"Irregular: {name} in {owner}")

    def abbreviations_below(self, name):
        """The abbreviations of its group to which an abbreviation comes by one or more steps."""
        reached, waiting = set(), [name]
        while waiting:
            kind, content = self.table[waiting.pop()][1]
            if kind == "abbreviation":
                for inner in all_types(content, inside_tags=False):
                    other = inner[1] if inner[0] == "app" else None
                    if self.group.get(other) == self.group[name] and self.table[other][1][0] == "abbreviation":
                        if other not in reached:
                            reached.add(other)
                            waiting.append(other)
        return reached

    def check_float_in_group(self, name, body):
        if body[0] != "record" or not self.is_flat(body[1]):
            return
        for form in types_of_body(body):
            while form[0] == "app" and form[1] in self.table:
                refuse_if(self.group[form[1]] == self.group[name], f"FloatInGroup: {name}")
                form = self.expand_once(form)

    def check_mixed_record(self, name, body):
        if body[0] == "record":
            floats = [self.is_float(form) for _, _, form in body[1]]
            hidden = [self.expand(form)[:2] == ("app", "_") for _, _, form in body[1]]
            refuse_if(any(floats) and any(hidden) and all(map(max, floats, hidden)), f"MixedRecord: {name}")

    def expand_once(self, form):
        params, (_, content) = self.table[form[1]]
        return substitute(content, dict(zip(params, form[2])))

    def expand(self, form):
        """The type after the abbreviations at its head; of a polymorphic variant, included types too."""
        while form[0] == "app" and form[1] in self.table and self.table[form[1]][1][0] == "abbreviation":
            form = self.expand_once(form)
        if form[0] == "poly":
            tags = {}
            for tag, argument in form[1]:
                items = ((tag, argument),)
                if tag is None:
                    head = self.expand(argument)
                    refuse_if(head[0] != "poly", "NotVariant")
                    items = head[1]
                for name, inner in items:
                    refuse_if(tags.setdefault(name, inner) != inner, f"TagClash: {name}")
            form = ("poly", tuple(tags.items()))
        return form

    def is_float(self, form):
        return self.expand(form)[:2] == ("app", "float")

    def is_flat(self, fields):
        return all(self.is_float(form) for _, _, form in fields)

    def shape(self, form):
        """What a type says of a value: kind, whether it is mutable, and what its parts are."""
        head = self.expand(form)
        if head[0] == "var":
            return ("none", False)
        if head[0] == "tuple":
            return ("product", False, head[1])
        if head[0] == "poly":
            return ("poly", False, {hash_of(tag): argument for tag, argument in head[1]})
        _, name, arguments = head
        if name in self.table:
            return self.shape_of_declared(name, arguments)
        if name == "list":
            return ("sum", 1, [(False, (arguments[0], head))])
        if name == "option":
            return ("sum", 1, [(False, (arguments[0],))])
        if name == "ref":
            return ("product", True, arguments)
        if name == "_":
            return ("any", False)
        if name == "array" and self.expand(arguments[0])[:2] == ("app", "_"):
            return ("any array", True, arguments[0])
        if name == "array" and self.expand(arguments[0])[0] == "var":
            return ("empty array", False)
        if name == "array" and not self.is_float(arguments[0]):
            return ("array", True, arguments[0])
        return ("floatarray", True) if name in ("array", "floatarray") else ("base", name == "bytes", name)

    def shape_of_declared(self, name, arguments):
        params, (kind, content) = self.table[name]
        bindings = dict(zip(params, arguments))

        def holds(fields):
            return tuple(substitute(form, bindings) for _, _, form in fields)

        def changes(fields):
            return any(mutable for _, mutable, _ in fields)

        if kind == "record" and self.is_flat(content):
            return ("floats", changes(content), len(content))
        if kind == "record":
            return ("product", changes(content), holds(content))
        constants = sum(1 for _, fields in content if not fields)
        return ("sum", constants, [(changes(fields), holds(fields)) for _, fields in content if fields])


def substitute(form, bindings):
    if form[0] == "var":
        return bindings.get(form[1], form)
    if form[0] == "app":
        return ("app", form[1], tuple(substitute(part, bindings) for part in form[2]))
    if form[0] == "tuple":
        return ("tuple", tuple(substitute(part, bindings) for part in form[1]))
    return ("poly", tuple((tag, argument and substitute(argument, bindings)) for tag, argument in form[1]))


# --- The check.

class Types:
    """The types that a type leads to, sorted into classes of equal ones."""

    def __init__(self, declarations, root):
        self.declarations = declarations
        self.heads = {}
        waiting = [root]
        while waiting:
            form = waiting.pop()
            if form not in self.heads:
                refuse_if(len(self.heads) == 65536, "TooManyTypes")
                self.heads[form] = declarations.expand(form)
                waiting += parts_of(self.heads[form]) + self.named_by(declarations.shape(form))
        self.shapes = {form: declarations.shape(form) for form in self.heads}
        self.classes = self.sort()

    @staticmethod
    def named_by(shape):
        if shape[0] == "sum":
            return [form for _, forms in shape[2] for form in forms]
        if shape[0] == "product":
            return list(shape[2])
        if shape[0] == "poly":
            return [argument for argument in shape[2].values() if argument is not None]
        return [shape[2]] if shape[0] in ("array", "any array") else []

    def sort(self):
        """Classes are split until equal types have equal heads at parts of equal classes."""
        classes, count = dict.fromkeys(self.heads, 0), 1
        while True:
            numbers = {}
            split = {form: numbers.setdefault(self.signature(head, classes), len(numbers))
                     for form, head in self.heads.items()}
            if len(numbers) == count:
                return split
            classes, count = split, len(numbers)

    @staticmethod
    def signature(head, classes):
        if head[0] == "poly":
            return tuple(sorted((tag, -1 if argument is None else classes[argument]) for tag, argument in head[1]))
        name = head[1] if head[0] in ("app", "var") else None
        return (head[0], name, tuple(classes[part] for part in parts_of(head)))


def fit(shape, value, objects):
    """Whether a value fits a shape, whether its object is mutable there, and the types of its fields by number."""
    kind, thing = shape[0], objects[value[1]] if value[0] == "ref" else value
    if kind in ("any", "none"):
        return kind == "any", False, {}
    if kind == "empty array":
        return thing == ("atom", 0), False, {}
    if kind == "any array" and thing[0] == "floats":
        return True, True, {}
    if kind == "base":
        below = {"char": 256, "bool": 2, "unit": 1}
        if shape[2] in below:
            return thing[0] == "int" and 0 <= thing[1] < below[shape[2]], False, {}
        return thing[0] == {"bytes": "string"}.get(shape[2], shape[2]), shape[1], {}
    if kind in ("array", "any array", "floatarray") and thing == ("atom", 0):
        return True, False, {}
    if kind == "floatarray":
        return thing[0] == "floats", True, {}
    if kind == "floats":
        return thing[:2] == ("floats", shape[2]), shape[1], {}
    if kind in ("array", "any array"):
        good = thing[:2] == ("block", 0)
        return good, True, {i: shape[2] for i in range(len(thing[2]))} if good else {}
    if kind == "product":
        good = thing[:2] == ("block", 0) and len(thing[2]) == len(shape[2])
        return good, shape[1], dict(enumerate(shape[2]))
    if kind == "poly" and thing[0] == "int":
        return thing[1] in shape[2] and shape[2][thing[1]] is None, False, {}
    if kind == "poly":
        good = thing[:2] == ("block", 0) and len(thing[2]) == 2 and thing[2][0][0] == "int"
        argument = shape[2].get(thing[2][0][1]) if good else None
        return argument is not None, False, {1: argument}
    if thing[0] == "int":
        return 0 <= thing[1] < shape[1], False, {}
    good = thing[0] == "block" and thing[1] < len(shape[2]) and len(thing[2]) == len(shape[2][thing[1]][1])
    mutable, forms = shape[2][thing[1]] if good else (False, ())
    return good, mutable, dict(enumerate(forms))


def text_of(form):
    if form[0] == "var":
        return form[1]
    if form[0] == "tuple":
        return " * ".join("(" + text_of(part) + ")" if part[0] == "tuple" else text_of(part) for part in form[1])
    if form[0] == "poly":
        return "[ " + " | ".join("`" + tag + (" of " + text_of(argument) if argument else "")
                                 if tag else text_of(argument) for tag, argument in form[1]) + " ]"
    if len(form[2]) == 1 and form[2][0][0] != "tuple":
        return text_of(form[2][0]) + " " + form[1]
    return ("(" + ", ".join(map(text_of, form[2])) + ") " if form[2] else "") + form[1]


def check(types, root_type, root, objects):
    """A fault of the value, or None: breadth first over the pairs of an object and a class of types."""
    uses = {}
    waiting = [(root, root_type, ".")]
    for value, form, path in waiting:
        number = types.classes[form]
        if types.shapes[form][0] == "any":
            continue  # nothing is asked of it, and what it shares is no conflict
        if value[0] == "ref" and number in uses.get(value[1], {}):
            continue
        good, mutable, needs = fit(types.shapes[form], value, objects)
        if not good:
            found = value if value[0] != "ref" else objects[value[1]]
            return f"{path}: expected {text_of(form)}, found {found[0]} {found[1]}"
        if value[0] == "ref":
            others = uses.setdefault(value[1], {})
            others[number] = (mutable, form, path)
            if len(others) > 1 and any(use[0] for use in others.values()):
                shared = " and ".join(f"{use[2]} at {text_of(use[1])}" for use in others.values())
                return "a mutable object is shared: " + shared
            for field, inner in needs.items():
                step = f".{field}"
                waiting.append((objects[value[1]][2][field], inner, step if path == "." else path + step))
    return None


def read_type(declarations, word):
    parser = Parser(word)
    form = parser.type()
    refuse_if(parser.rest, f"more than a type: {word}")
    variables = [inner[1] for inner in all_types(form) if inner[0] == "var"]
    declarations.check_type(form, variables)
    declarations.check_tags(form)
    return form, Types(declarations, form)


def main(words):
    if len(words) < 2:
        raise Refused(2, "FILE TYPE [TYPE ..]")
    with open(words[0], encoding="latin-1") as file:
        declarations = Declarations(file.read())
    stream, status, tables = Input(sys.stdin.buffer.read()), 0, {}
    for word in words[1:]:
        if word not in tables:
            tables[word] = read_type(declarations, word)
        form, types = tables[word]
        root, objects = read_value(stream)
        fault = check(types, form, root, objects)
        print("yes" if fault is None else "no " + fault)
        status = max(status, 0 if fault is None else 1)
    return status


if __name__ == "__main__":
    try:
        sys.exit(main(sys.argv[1:]))
    except Refused as refusal:
        print(f"value_has_type: {refusal}", file=sys.stderr)
        sys.exit(refusal.status)
