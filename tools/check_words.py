#!/usr/bin/env python3
"""Searches for retired words: words that the repository once used in a sense of its own, and for which it now uses the
field's term. Prints each place with the term to write, and ends with 1 if there is one.

    tools/check_words.py            the names, file names and comments of crates/, and the tools
    tools/check_words.py --docs     these, and the documents
    tools/check_words.py --list     prints the retired words, and the words that are kept on purpose

In files *.rt and *.antt the script searches identifiers outside strings, and comments outside backticks. In tools it
searches all text. In documents it searches the text outside backticks and code blocks. `om_..`, the form of the crates'
old names, is searched in backticks, too."""
import fnmatch
import functools
import glob
import os
import re
import sys

TOP = os.path.dirname(os.path.dirname(os.path.abspath(__file__)))
NAMES, PROSE, BOTH = ("names",), ("prose",), ("names", "prose")

# Each retired word: a pattern of it, where it is retired, and what to write. Patterns match whole words of a name
# (`is_front`, `IsFront`) or of a text, whatever the case; those that begin with a capital letter match that case only.
RETIRED = [
    ("fronts?", BOTH, "prefix"),
    ("puts?|putting", BOTH, "write (to a sink), append, print"),
    ("tells?|telling|told|untold", BOTH, "report, print, known, inconclusive"),
    ("spell(?:s|ed|ing|ings)?|spelt", BOTH, "encode, encoding"),
    ("misfits?", BOTH, "mismatch"),
    ("clash(?:es|ed|ing)?", BOTH, "conflict"),
    ("in[ _]hand", BOTH, "current, buffered"),
    ("pieces?", BOTH, "chunk"),
    ("halt(?:s|ed|ing)?", BOTH, "end, error, exit"),
    ("Said|Sayings?|Speech|Speaks|Jobs?", NAMES, "output, query, report, task (in names of types)"),
    ("glanc(?:es?|ed|ing)", BOTH, "inspect, streaming check"),
    ("hasten(?:s|ed)?|in[ _]haste", BOTH, "fast path"),
    ("quick(?:ly)?", BOTH, "fast"),
    ("passers?", BOTH, "skip"),
    ("pickers?|picking", BOTH, "only"),
    ("alike", BOTH, "agree, equivalent"),
    ("lend(?:s|ing)?|lent", BOTH, "borrow, give access to"),
    ("leasts", BOTH, "least_faults"),
    ("crowds?", BOTH, "frequent"),
    ("sooner", BOTH, "earlier, first"),
    ("graver", BOTH, "more severe"),
    ("places?", BOTH, "offset, position, path, location"),
    ("sections?", PROSE, "certificate entry"),
    ("wrong (?:body|bodies)", PROSE, "mutant"),
    ("the house(?:'s)?", PROSE, "conventions, repository"),
]
OLD_CRATE = re.compile(r"(?<![A-Za-z0-9_])om_[a-z]\w*")

# What is no use of a retired word: files, a pattern that covers the word and what is beside it, and the reason.
EXCEPTIONS = [
    ("crates/*", r"eqb_tells|leb_tells|tells_digits", "lemmas of the toolchain"),
    ("*", r"(?i:hash_clash|tags?_clash(?:es)?)|(?:Hash|Tag)Clash", "the names of two refusals"),
    ("crates/marshal_heap/*", r"lent", "memory that is lent out, in contracts of raw pointers"),
    ("crates/marshal_heap/proofs/arena/*", r"\w*(?:Tells|told|said|place|lent|Lends|Lending|lends)\w*", "names of the toolchain's logic of raw pointers, and the steps of its proofs"),
    ("crates/marshal_heap/specs/arena/*", r"[Ll]ends", "memory that is lent, by the formula `Lends` of std"),
    ("crates/base_io/proofs/history/*", r"\w*Tells", "names of the toolchain's logic of raw pointers"),
    ("crates/types_lex/proofs/numbers/integer/*", r"front", "a clause of std's `split_at`"),
    ("*", r"quick_build|out/quick", "the script tools/quick_build.sh and its output"),
    ("*", r"in place|in_place|takes? place|took place", "everyday English: `in place of`, `takes place`"),
    ("crates/*", r"Places", "the verb, where a comment begins with it"),
    ("*certificate*", r"(?:misfit|clash)\b", "lines of a certificate"),
    ("*", r"Misfit|no section|sections left", "reasons that the program prints"),
    ("tools/benchmark.*", r"clashes|\bplaces\b", "an input and a part of the benchmark"),
    ("docs/BENCHMARKS.md", r"clashes_200000", "an input of the benchmark"),
    ("tools/fail_growths.sh", r"misfit", "a line of a certificate"),
    ("tools/expected/every_kind*", r"pieces", "a field of a record"),
    ("tools/test_types_of_cmi.sh", r"Refused\.job", "a type of the test"),
    ("*.py", r"\b(?:piece|put|put_out|put_err)(?==)|in pieces of", "settings and answers of test_conformance"),
    ("tools/test_questions.py", r"\"piece\"", "a setting of test_conformance"),
    ("tools/quick_build.sh", r"-?-?\w*-sections", "options of clang and of the linker"),
    ("*/expression*", r"\bplace\b", "a field of a declaration"),
    ("docs/*", r"[Ss]ections?", "a division of a page"),
    ("docs/BENCHMARKS.md", r"`places`", "a part of the benchmark"),
    ("docs/omarshal.1", r"\"(?:misfit|clash) \"", "lines of a certificate"),
    ("tools/check_words.py", r".*", "the list of the words"),
]

# Words that look like retired ones and are kept, with the reason.
KEPT = [
    ("fits, needs", "everyday words of the field; docs/TYPING.md defines them"),
    ("leaf", "a value without parts in a printed text; Atom is a kind of OCaml value"),
    ("class", "equivalence class"),
    ("site", "in types_resolve: an occurrence of a name in a text"),
    ("layout", "in text_pretty, trees, text_decimal: how a text is arranged on lines"),
    ("stop, well, apart", "plain English in the lower layers"),
    ("seen", "a node that a search has visited"),
    ("law, certified, generate, cause", "the field's terms"),
    ("hidden", "in marshal_heap: memory that a contract does not show"),
    ("section", "in names: the type `Section` of a certificate entry; prose says `certificate entry`"),
    ("place", "in prose only in `in place of` and `takes place`; names say `position` or `offset`"),
]

IDENTIFIER = re.compile(r"[A-Za-z_][\w'′]*")
WORD = re.compile(r"[A-Z]+(?![a-z])|[A-Z]?[a-z]+|\d+")
STRING = re.compile(r'"(?:[^"\\]|\\.)*"')
TOOLS = (".py", ".sh", ".ml", ".mli", ".c", ".types")


def compiled(kind):
    """(pattern, what to write) of each word that is retired in names or in prose."""
    for pattern, where, write in RETIRED:
        if kind in where:
            flags = 0 if pattern[0].isupper() else re.IGNORECASE
            yield re.compile(rf"(?<![A-Za-z])(?:{pattern})(?![A-Za-z])", flags), write


PATTERNS = {kind: list(compiled(kind)) for kind in BOTH}
# Parts of the retired words, in small letters. A line without any of them is not searched.
PARTS = ("front put tell told spel misfit clash hand piece halt glanc hast quick passer pick alike lend lent leasts crowd sooner "
         "graver place section wrong house said saying speech speaks job om_").split()


def covers(path):
    """The patterns of the exceptions that hold in a file."""
    return [re.compile(pattern) for files, pattern, _ in EXCEPTIONS if fnmatch.fnmatch(path, files)]


@functools.lru_cache(None)
def uses(text, kind):
    """(begin, end, what to write) of each retired word of a text."""
    return [(*found.span(), write) for pattern, write in PATTERNS[kind] for found in pattern.finditer(text)]


def retired_in(text, kind, covering):
    """(word, what to write) for each retired word of a text. A name comes with its words joined by `_`."""
    for begin, end, write in uses(text, kind):
        if not any(cover.start() <= begin and end <= cover.end() for excused in covering for cover in excused.finditer(text)):
            yield text[begin:end], write


@functools.lru_cache(None)
def joined(name):
    """The words of an identifier, joined by `_`."""
    return "_".join(WORD.findall(name))


def blank(found):
    return " " * len(found[0])


def halves(path, line):
    """The code and the comment of a line of Rattle or antt. Strings of the code are blank."""
    plain = STRING.sub(blank, line)
    at = re.search(r"//" if path.endswith(".rt") else r"(?:^|(?<=\s))--(?=\s|$)", plain)
    return (plain[:at.start()], line[at.start():]) if at else (plain, "")


def in_names(code, covering):
    for name in IDENTIFIER.findall(code):
        for word, write in retired_in(joined(name), "names", covering):
            yield f'the name {name} has "{word}"; write {write}'


def in_prose(text, covering):
    for word, write in retired_in(text, "prose", covering):
        yield f'"{word}"; write {write}'


def old_crates(text):
    return [f'"{name}" is the old name of a crate' for name in OLD_CRATE.findall(text)]


def lines_of(path):
    """(number, line) of each line of a file that has a part of a retired word."""
    with open(path, encoding="utf-8", errors="replace") as file:
        text = file.read()
    small = text.lower()
    parts = [part for part in PARTS if part in small]
    if parts:
        for number, (line, low) in enumerate(zip(text.split("\n"), small.split("\n")), 1):
            if any(part in low for part in parts):
                yield number, line


def in_source(path, covering):
    """Names and comments of a file of Rattle or antt."""
    for number, line in lines_of(path):
        code, comment = halves(path, line)
        found = [*in_names(code, covering), *in_prose(re.sub(r"`[^`]*`", blank, comment), covering)]
        for what in dict.fromkeys(found + old_crates(line)):
            yield f"{path}:{number}: {what}"


def in_tool(path, covering):
    """All text of a script or a program: names, strings and comments."""
    for number, line in lines_of(path):
        camel = [name for name in IDENTIFIER.findall(line) if re.search(r"[a-z][A-Z]", name)]
        found = [*in_prose(line, covering), *in_names(" ".join(camel), covering)]
        for what in dict.fromkeys(found + old_crates(line)):
            yield f"{path}:{number}: {what}"


def in_document(path, covering):
    """The text of a document outside backticks and code blocks. Old names of crates are found in backticks, too."""
    with open(path, encoding="utf-8") as file:
        lines = file.read().split("\n")
    fenced = False
    for number, line in enumerate(lines, 1):
        if line.lstrip().startswith("```"):
            fenced = not fenced
        elif not fenced and (path.endswith(".1") or not re.match(r" {4}|\t", line)):
            for what in dict.fromkeys([*in_prose(re.sub(r"`[^`]*`", blank, line), covering), *old_crates(line)]):
                yield f"{path}:{number}: {what}"


def in_file_name(path, covering):
    name = joined(re.sub(r"\.\w+$", "", os.path.basename(path)))
    for word, write in retired_in(name, "names", covering):
        yield f'{path}: the file\'s name has "{word}"; write {write}'


def files(*patterns):
    found = {path for pattern in patterns for path in glob.glob(pattern, recursive=True) if os.path.isfile(path)}
    return sorted(path for path in found if not re.search(r"(^|/)(out|__pycache__)/", path))


def found(documents=False):
    """A line for each retired word. The current folder is the top of the repository."""
    for path in files("crates/**/*", "tools/**/*", "docs/*", "examples/*"):
        yield from in_file_name(path, covers(path))
        if path.endswith((".rt", ".antt")):
            yield from in_source(path, covers(path))
    for path in files("tools/**/*", "crates/test_conformance/**/*", "omarshal", ".ci/run", "crates.txt"):
        if path.endswith(TOOLS) or not path.startswith("crates/") and "." not in os.path.basename(path)[1:] or path == "crates.txt":
            yield from in_tool(path, covers(path))
    if documents:
        for path in files("*.md", "docs/*.md", "docs/*.1", "examples/*.md", "crates/**/*.md"):
            yield from in_document(path, covers(path))


def main():
    os.chdir(TOP)
    asked = sys.argv[1:]
    if asked == ["--list"]:
        for pattern, where, write in RETIRED:
            print(f"retired in {' and '.join(where)}: {pattern}: write {write}")
        for words, reason in KEPT:
            print(f"kept: {words}: {reason}")
        return 0
    if not set(asked) <= {"--docs"}:
        print(__doc__, file=sys.stderr)
        return 2
    lines = list(found(documents="--docs" in asked))
    print("\n".join(lines), end="\n" if lines else "")
    return 1 if lines else 0


if __name__ == "__main__":
    sys.exit(main())
