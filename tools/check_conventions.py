#!/usr/bin/env python3
"""Checks the repository's conventions that no prover checks. Prints each line that breaks one, and ends with 1 if there
is one.

- A line of specs/ and src/ has at most 100 columns, except attributes, ghost fields and imports of one name, which `rt fmt` does not break.
- No file of specs/ is called Rows or Answers.
- No two files of src/, of specs/ or of proofs/ have one name, and no two crates have types of one name. The exceptions
  are ROLES, a module's main file, the oracle test_oracles, and SHARED_TYPES. docs/DECISIONS.md explains them.
- specs/ and proofs/ import no name that they do not use, and proofs/ has no lemma that nothing uses.
- must-fail/ has at most 8 mutants a crate and 45 in all. A mutant is a file *.edit: a change of a body
  that the prover has to refuse.
- crates.txt: a crate is called `layer_subject`, or `layer` if it is the only one there. It uses crates of its own layer
  and of lower layers only. No chain of crates is longer than 14. The order of the layers is that of the lines
  `# layer: description`.
- docs/architecture.svg is what tools/draw_architecture.py draws.
- Names, comments, tools and documents do not use the words that tools/check_words.py lists."""
import collections
import glob
import os
import re
import sys

sys.dont_write_bytecode = True
import check_words
import draw_architecture

COLUMNS = 100
MOST_MUTANTS = 45
MUTANTS_OF_A_CRATE = collections.defaultdict(lambda: 8)
LONGEST_CHAIN = 14
IMPORT = re.compile(r"^ *(pub )?use ([^{\n]*)(?:\{([^}]*)\})?", re.M)
LEMMA = re.compile(r"^( *)(?:pub )?([A-Za-z_][^\s(){};,.\"=:`]*) :( |$)")
TOKEN = re.compile(r"[^\s(){};,.\"=:`]+")
ROLES = {
    "src": {"lib.rt", "main.rt", "laws.rt", "spec.rt", "command.rt"},
    "specs": {"Lib.antt", "Laws.antt", "ExitStatuses.antt"},
    "proofs": {"Lib.antt", "LawLemmas.antt", "Answers.antt", "Invariants.antt", "Proof.antt"},
}
COMMAND_ROLES = {"spec.rt", "command.rt", "ExitStatuses.antt"}
SHARED_TYPES = [
    ({"cli_spec", "cli_args"}, {"Argument", "Form", "Request"}),
    ({"cli_spec", "session"}, {"Query"}),
    ({"run_spec", "session"}, {"Act"}),
    ({"run_spec", "cmd_build", "cmd_certify", "cmd_verify"}, {"HoldBreak", "HoldRefusal", "OutputsOf", "RefusesTypes"}),
]
RUST_TYPE = re.compile(r"(?:pub(?:\(\w+\))? )?(?:struct|enum|trait|type) (?P<name>\w+)")
LOGIC_TYPE = re.compile(r" *(?:pub |opaque )*(?:(?:record|data) (?:pub )?(?P<name>[^\s(){};,:.-]+)(?=[ :(]|$)|abbrev (?:pub )?(?P<alias>[^\s(){};,:.-]+) : Type 0(?: → Type 0)*$)")
NO_LEMMAS = ("Answers.antt", "Invariants.antt", "Measures.antt", "Proof.antt", "Lib.antt", "Examples.antt")


def files_of(folder, kind):
    return sorted(glob.glob(f"crates/*/{folder}/**/*.{kind}", recursive=True))


def text_of(path):
    with open(path, encoding="utf-8") as file:
        return file.read()


def lines_of(path):
    return text_of(path).split("\n")


def line_at(text, offset):
    return text.count("\n", 0, offset) + 1


# Columns and names of files.

def wide_lines():
    for path in files_of("specs", "antt") + files_of("src", "rt"):
        for number, line in enumerate(lines_of(path), 1):
            unbreakable = re.match(r"\s*((ghost|pub) )*use [^{,]*(\{[^,]*\})?[^,]*;?$", line) or path.endswith(".rt") and re.match(r"\s*(#\[|(pub )?ghost \w+( =|: ))", line)
            if len(line) > COLUMNS and not unbreakable:
                yield f"{path}:{number}: {len(line)} columns, and at most {COLUMNS} are allowed"


def empty_names():
    for path in files_of("specs", "antt"):
        if os.path.basename(path) in ("Rows.antt", "Answers.antt"):
            yield f"{path}:1: the file's name does not say what the file holds"


# Names of files and types.

def owner_of(path):
    """The crate of a file, and its folder there."""
    return path.split(os.sep)[1], path.split(os.sep)[2]


def is_role(path):
    """Whether the name of a file stands for one role in each crate, or for the module whose files it lists."""
    crate, folder = owner_of(path)
    name = os.path.basename(path)
    if name in ROLES[folder]:
        return name not in COMMAND_ROLES or crate.startswith("cmd_")
    return folder != "src" and name[0].islower()


def repeated_files():
    for folder, kind in (("src", "rt"), ("specs", "antt"), ("proofs", "antt")):
        of_name = collections.defaultdict(list)
        for path in files_of(folder, kind):
            inner = os.path.dirname(path) + f".{kind}"
            main_file = os.path.basename(inner) == os.path.basename(path) and os.path.exists(inner)
            if not is_role(path) and not main_file and owner_of(path)[0] != "test_oracles":
                of_name[os.path.basename(path)].append(path)
        for paths in of_name.values():
            for path in paths[1:]:
                yield f"{path}:1: the file has the name of {paths[0]}"


def types_of(path):
    """(line, name) of each type of a file. Names that begin with `Is`, `Are`, `Has` or `Have` are relations."""
    form = RUST_TYPE if path.endswith(".rt") else LOGIC_TYPE
    for number, line in enumerate(lines_of(path), 1):
        found = form.match(re.sub(r"//.*", "", line) if path.endswith(".rt") else line)
        name = found and (found["name"] or found["alias"] if path.endswith(".antt") else found["name"])
        if name and name[0].isupper() and not re.match(r"(Is|Are|Has|Have)([A-Z]|$)", name):
            yield number, name


def means_the_same(name, crates):
    return len(crates - {"test_oracles"}) <= 1 or any(name in names and crates <= those for those, names in SHARED_TYPES)


def repeated_types():
    of_name = collections.defaultdict(list)
    for path in files_of("specs", "antt") + files_of("src", "rt"):
        for number, name in types_of(path):
            of_name[name].append((f"{path}:{number}", owner_of(path)[0]))
    for name, uses in of_name.items():
        first, crate = uses[0]
        if not means_the_same(name, {used for _, used in uses}):
            for here, used in uses[1:]:
                if used != crate:
                    yield f"{here}: {name} is also a type of {first}"


# Imports and lemmas that nothing uses.

def depth(line):
    return len(line) - len(line.lstrip())


def unused_imports(text):
    """(line, name) of each name that a file of antt imports and does not use."""
    rest = IMPORT.sub("", text)
    words = set(TOKEN.findall(rest))
    for found in IMPORT.finditer(text):
        public, path, names = found.groups()
        for name in [] if public else (names or path).split(","):
            name = re.split(r"\.| as ", name.strip())[-1].strip()
            if not name or name in words or "◌" in name and all(part in rest for part in name.split("◌")):
                continue
            if not re.search(rf"(?<![\w◌-]){re.escape(name)}(?![\w◌])", rest):
                yield line_at(text, found.start(3 if names and found[3] else 2)), name


def lemmas(lines):
    """(line, name, text) of each lemma of a file. Its text is its statement and its clauses: they begin with its name, or
    are indented further."""
    at = 0
    while at < len(lines):
        begin, is_lemma = at, LEMMA.match(lines[at])
        at += 1
        if not is_lemma or is_lemma[2] in ("where", "field"):
            continue
        inside, name = len(is_lemma[1]), is_lemma[2]
        above = next((line for line in reversed(lines[:begin]) if line.strip() and depth(line) < inside), "")
        if re.search(r"\brecord\b", above):
            continue
        while at < len(lines) and (not lines[at].strip() or depth(lines[at]) > inside
                                   or depth(lines[at]) == inside and re.match(rf" *(?:{re.escape(name)}(\s|$)|[}})])", lines[at])):
            at += 1
        yield begin + 1, name, "\n".join(lines[begin:at])


def names_in(text):
    return collections.Counter(TOKEN.findall(re.sub(r"(^|\s)--(\s.*)?$", "", text, flags=re.M)))


def unused_names():
    texts = {path: text_of(path) for path in files_of("specs", "antt") + files_of("proofs", "antt")}
    uses = collections.Counter()
    for text in [*texts.values(), *map(text_of, files_of("src", "rt"))]:
        uses.update(names_in(text))
    for path, text in texts.items():
        for number, name in unused_imports(text):
            yield f"{path}:{number}: the file does not use its import {name}"
        if "/proofs/" in path and not path.endswith(NO_LEMMAS):
            for number, name, lemma in lemmas(text.split("\n")):
                if uses[name] == names_in(lemma)[name]:
                    yield f"{path}:{number}: nothing uses the lemma {name}"


# Mutants.

def many_mutants():
    of_crate = collections.Counter(path.split(os.sep)[1] for path in glob.glob("crates/*/must-fail/*.edit"))
    for crate, many in sorted(of_crate.items()):
        most = MUTANTS_OF_A_CRATE[crate]
        if many > most:
            yield f"crates/{crate}/must-fail: {many} mutants, and at most {most} are allowed; move the others to edits/"
    if sum(of_crate.values()) > MOST_MUTANTS:
        yield f"crates/*/must-fail: {sum(of_crate.values())} mutants in all, and at most {MOST_MUTANTS} are allowed; move the others to edits/"


# The layers of crates.txt.

def wrong_layers():
    layers, crates = draw_architecture.read_crates()
    order = {layer.name: number for number, layer in enumerate(layers)}
    for crate in crates.values():
        here = f"crates.txt:{crate.line}: {crate.name}"
        if not os.path.isdir(f"crates/{crate.name}"):
            yield f"{here} has no folder in crates/"
        if not crate.layer:
            yield f"{here} is above the first line `# layer: description`"
            continue
        layer = crate.layer.name
        alone = len(crate.layer.crates) == 1 and crate.name == layer
        if not alone and not re.fullmatch(rf"{layer}_[a-z0-9_]+", crate.name):
            yield f"{here} is in the layer {layer}, so its name has to begin with {layer}_"
        for used in crate.uses:
            other = crates.get(used)
            if other and other.layer and order[other.layer.name] > order[layer]:
                yield f"{here} uses {used} of the higher layer {other.layer.name}"
    for folder in sorted(glob.glob("crates/*/")):
        if folder.split(os.sep)[1] not in crates:
            yield f"{folder}: has no row in crates.txt"
    yield from long_chains(crates)


def long_chains(crates):
    """The longest chain, if it is too long: crates of which each uses the next one."""
    longest = {}

    def chain(name, above=()):
        if name in above:
            return [name]
        if name not in longest:
            used = [chain(used, (*above, name)) for used in crates[name].uses if used in crates]
            longest[name] = [name] + max(used, key=len, default=[])
        return longest[name]

    worst = max(map(chain, crates), key=len, default=[])
    if len(worst) > LONGEST_CHAIN:
        yield f"crates.txt:{crates[worst[0]].line}: {worst[0]} begins a chain of {len(worst)} crates, and at most {LONGEST_CHAIN} are allowed: {' '.join(worst)}"


def old_picture():
    if not draw_architecture.is_current():
        yield f"{draw_architecture.PICTURE}:1: is not current; run tools/draw_architecture.py"


def main():
    os.chdir(os.path.join(os.path.dirname(os.path.abspath(__file__)), ".."))
    found = [*wide_lines(), *empty_names(), *repeated_files(), *repeated_types(), *unused_names(), *many_mutants(), *wrong_layers(), *old_picture(), *check_words.found(documents=True)]
    print("\n".join(found), end="\n" if found else "")
    return 1 if found else 0


if __name__ == "__main__":
    sys.exit(main())
