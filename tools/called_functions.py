#!/usr/bin/env python3
"""Which functions the gate's tests and programs call.

    tools/called_functions.py [--all] [--keep FOLDER]

A body that gives up with out of memory is still proved, so each public function has to be called once where there is memory. This
counts: in a copy of the crates each function's body begins with a call of a function in C, which notes its number. What the gate runs is
then run by `rt try`, which proves nothing: the tests of test_units, and test_conformance and omarshal on their stored input, whose
output has to be the stored one. It is no static analysis: a function counts as called only where it was.

Listed are the functions that are `pub`, methods among them, and the methods of `impl`s of traits and of traits themselves; with --all the
private ones too. A law does nothing: its body is empty, or it takes nothing and calls nothing but functions that take nothing. Laws are
counted apart. What is not called and is not named in EXCEPTIONS with a reason is printed, and then the status is 1; it is 2 where nothing
could be counted. What derives write is not counted.
--keep leaves the copy with its functions and numbers in FOLDER. It needs `rt`, Python and a C compiler, and takes some minutes."""
import argparse
import array
import fnmatch
import os
import re
import shutil
import subprocess
import sys
import tempfile

TOP = os.path.dirname(os.path.dirname(os.path.realpath(__file__)))
# The crate that notes calls, which stands in the copy alone.
NOTE = 'noted_calls'

# What is called only where an allocation fails. Where it is called, the runs had not ample memory.
OUT_OF_MEMORY = '*::<* as From<Alloc*>>::from'

# Functions that no run of the gate calls, by patterns of their names, and why that is so. A pattern that excuses nothing is reported.
EXCEPTIONS = [
    (OUT_OF_MEMORY, 'called only where an allocation fails'),
    ('*::<* as From<Memory>>::from', 'called only where memory runs out'),
    ('test_oracles::refusal::<Refusal as fmt::Debug>::fmt', 'prints a refusal with a number of more than 64 bits, and no answer has one'),
    ('test_units::environment_tests::edge::<FailsOnce as Write>::flush', 'the trait asks for it, and no test flushes'),
    (
        'cmd_gen::command::making::<Generating as Work>::feed',
        'the trait asks for it, the command reads nothing, and no other crate can name it',
    ),
    ('types_resolve::occurrences::text_occurrences::*', 'over a tree of the grammar that no caller can name: docs/DECISIONS.md, The gate'),
]

KINDS = {
    'pub': 'public functions and methods',
    'impl': 'methods of impls of traits',
    'trait': 'methods that traits give',
    'private': 'private functions',
    'law': 'laws, which do nothing',
}


class Function:
    def __init__(self, crate, name, file, line, kind):
        self.crate, self.name, self.file, self.line, self.kind = crate, name, file, line, kind
        self.is_law = self.is_test = False


def blanked(text):
    """The text with blanks in place of comments, strings and characters, and newlines as they were."""
    pattern = r'''//[^\n]*|/\*.*?\*/|b?r#*"|b?"(?:\\.|[^"\\])*"|b?'(?:\\x[0-9a-fA-F]{2}|\\u\{[0-9a-fA-F]+\}|\\.|[^'\\\n])\''''
    out, at = [], 0
    for found in re.finditer(pattern, text, re.S):
        if found.start() < at:
            continue
        word = found.group()
        if re.fullmatch(r'b?r#*"', word):
            sys.exit(f'called_functions: a raw string is not read: {text[found.start():found.start() + 40]!r}')
        # A name of the logic may end in a mark, as x'.
        if word.startswith("'") and found.start() and re.match(r"[\w']", text[found.start() - 1]):
            continue
        out.append(text[at:found.start()])
        out.append(re.sub(r'[^\n]', ' ', word))
        at = found.end()
    return ''.join(out) + text[at:]


def closing(text, at):
    """The index of the bracket that closes the one at this index."""
    pairs, depth = {'(': ')', '[': ']', '{': '}'}, []
    for index in range(at, len(text)):
        char = text[index]
        if char in pairs:
            depth.append(pairs[char])
        elif char in ')]}':
            if char != depth.pop():
                raise ValueError(f'brackets do not match at {text[at:at + 60]!r}')
            if not depth:
                return index
    raise ValueError(f'a bracket is open at {text[at:at + 60]!r}')


def end_of(text, at, ends=';'):
    """The index of the first of these characters outside brackets."""
    while text[at] not in ends:
        at = closing(text, at) + 1 if text[at] in '([{' else at + 1
    return at


def generics_end(text, at):
    depth = 0
    while True:
        if text[at] in '([{':
            at = closing(text, at)
        elif text[at] == '<':
            depth += 1
        elif text[at] == '>' and text[at - 1] not in '-=':
            depth -= 1
            if depth == 0:
                return at + 1
        at += 1


def head_name(text):
    """The last word of a type, without its arguments: `DiskFiles` for `base_io::DiskFiles<R>`."""
    plain, depth = '', 0
    for at, char in enumerate(text):
        if char == '<':
            depth += 1
        elif char == '>' and text[at - 1] not in '-=':
            depth -= 1
        elif depth == 0:
            plain += char
    words = re.findall(r'\w+', plain)
    return words[-1] if words else plain.strip()


def read_items(source, blank, at, end, owner_of, note):
    """Reads items from one index to another. `owner_of` is (module path, type or trait, kind of the members); `note` takes a function
    and where its body begins, or None."""
    path, owner, kind = owner_of
    is_public = is_test = False
    while at < end:
        found = re.compile(r"\s+|#!?\[|[\w*]+!?|.").match(blank, at)
        word = found.group()
        if word.isspace():
            at = found.end()
            continue
        if word in ('#[', '#!['):
            close = closing(blank, found.end() - 1)
            if re.search(r'\b(test|cfg\s*\(\s*test\s*\))', blank[found.end():close]):
                is_test = True
            at = close + 1
            continue
        if word == 'pub':
            is_public = True
            at = found.end()
            inner = re.compile(r'\s*\(').match(blank, at)
            if inner:
                is_public = False
                at = closing(blank, inner.end() - 1) + 1
            continue
        if word in ('final', 'unsafe') or (word == 'const' and re.compile(r'\s+fn\b').match(blank, found.end())):
            at = found.end()
            continue
        if word in ('use', 'ghost', 'const', 'static', 'type'):
            if word == 'ghost' and re.compile(r'\s+\w+').match(blank, found.end()) is None:
                raise ValueError('a ghost item is not read')
            at = end_of(blank, found.end()) + 1
        elif word == 'struct':
            at = end_of(blank, found.end(), ';{')
            at = (closing(blank, at) if blank[at] == '{' else at) + 1
        elif word in ('enum', 'macro_rules!'):
            at = closing(blank, blank.index('{', found.end())) + 1
        elif word == 'mod':
            name = re.compile(r'\s+(\w+)\s*').match(blank, found.end())
            if blank[name.end()] == ';':
                at = name.end() + 1
            else:
                close = closing(blank, name.end())
                read_items(source, blank, name.end() + 1, close, ([*path, name[1]], owner, kind), note)
                at = close + 1
        elif word in ('impl', 'trait'):
            begin = found.end()
            start = re.compile(r'\s*').match(blank, begin).end()
            if blank[start] == '<':
                start = generics_end(blank, start)
            open_at = end_of_head(blank, start)
            head = re.split(r'\bwhere\b', blank[start:open_at])[0]
            if word == 'trait':
                inner = (path, re.match(r'\s*(\w+)', head)[1], 'trait')
            elif re.search(r'\bfor\b', head):
                of, over = re.split(r'\bfor\b', head, maxsplit=1)
                inner = (path, f'<{head_name(over)} as {" ".join(of.split())}>', 'impl')
            else:
                inner = (path, head_name(head), None)
            close = closing(blank, open_at)
            read_items(source, blank, open_at + 1, close, inner, note)
            at = close + 1
        elif word == 'fn':
            name = re.compile(r'\s+(\w+)').match(blank, found.end())
            body, at = body_of(blank, name.end())
            how = kind or ('pub' if is_public else 'private')
            function = Function(path[0], '::'.join([*path, *([owner] if owner else []), name[1]]), '', blank.count('\n', 0, found.start()) + 1, how)
            function.is_test = is_test
            function.is_law = body is not None and is_law(blank[name.end():body], blank[body + 1:closing(blank, body)])
            note(function, body)
        else:
            raise ValueError(f'{word!r} begins no item, in {"::".join(path)} line {blank.count(chr(10), 0, at) + 1}')
        is_public = is_test = False


def is_law(head, body):
    """Whether a function of this head and this body does nothing: what takes no argument changes nothing."""
    if not body.strip():
        return True
    return re.match(r'(<[^(){}]*>)?\(\)', head) is not None and re.fullmatch(r'(\s*[\w:]+(<[^;()]*>)?\(\);)*\s*', body) is not None


def end_of_head(text, at):
    """Where the block of an `impl` or a `trait` begins."""
    while text[at] != '{':
        if text[at] == '<':
            at = generics_end(text, at)
        elif text[at] in '([':
            at = closing(text, at) + 1
        else:
            at += 1
    return at


def body_of(text, at):
    """Where a function's body begins, or None, and where the function ends."""
    is_clause = False
    while True:
        word = re.compile(r'requires\b|ensures\b|ghost\b|\w+|.', re.S).match(text, at)
        if word.group() in ('requires', 'ensures', 'ghost'):
            is_clause = True
            at = word.end()
        elif word.group() == '{':
            close = closing(text, at)
            if not is_clause:
                return at, close + 1
            is_clause = False
            at = close + 1
        elif word.group() == ';':
            return None, at + 1
        elif word.group() in '([':
            at = closing(text, at) + 1
        else:
            at = word.end()


def crates_of(text):
    """The names of crates.txt, each with the line of its entry."""
    return re.findall(r'(?m)^(\w+)\s*:', text)


def modules(folder):
    """The source files of a crate, each with its modules' names."""
    for at, _, names in sorted(os.walk(folder)):
        for name in sorted(names):
            if name.endswith('.rt'):
                file = os.path.join(at, name)
                path = os.path.relpath(file, folder)[:-3].split(os.sep)
                yield file, [] if path in (['lib'], ['main']) else path


def with_notes(copy, crate, functions):
    """Has each function of a crate note its number."""
    for file, path in modules(f'{copy}/crates/{crate}/src'):
        with open(file, encoding='utf-8') as it:
            source = it.read()
        bodies = []

        def note(function, body):
            function.file = os.path.relpath(file, copy)
            if body is None:
                return
            bodies.append((body + 1, len(functions)))
            functions.append(function)

        blank = blanked(source)
        read_items(source, blank, 0, len(blank.rstrip()), ([crate, *path], None, None), note)
        for body, number in reversed(bodies):
            source = f'{source[:body]} {NOTE}::call({number}); {source[body:]}'
        with open(file, 'w', encoding='utf-8') as it:
            it.write(source)


def add_note_crate(copy, listed, count):
    """Adds the crate that notes calls, below all others, and gives the file into which it notes them."""
    notes = f'{copy}/called'
    with open(f'{copy}/crates.txt', 'w', encoding='utf-8') as it:
        it.write(re.sub(r'(?m)^(\w+\s*:.*?)\s*$', rf'\1 {NOTE}', listed) + f'\n{NOTE}:\n')
    os.makedirs(f'{copy}/crates/{NOTE}/src')
    os.makedirs(f'{copy}/crates/{NOTE}/c')
    with open(f'{copy}/crates/{NOTE}/src/lib.rt', 'w', encoding='utf-8') as it:
        it.write(f"""//! Notes calls.
#![tactic(auto)]

unsafe extern "C" {{
    safe fn {NOTE}_call(number: u32);
}}

/// Notes a call of the function of this number.
pub fn call(number: u32) {{
    {NOTE}_call(number)
}}
""")
    with open(f'{copy}/crates/{NOTE}/c/called.c', 'w', encoding='utf-8') as it:
        it.write(f"""#include <fcntl.h>
#include <unistd.h>

static unsigned char is_noted[{count}];

/* A process appends each number once. */
void {NOTE}_call(unsigned number) {{
    int file;
    if (number >= {count} || is_noted[number])
        return;
    is_noted[number] = 1;
    file = open("{notes}", O_WRONLY | O_CREAT | O_APPEND, 0666);
    if (file < 0 || write(file, &number, sizeof number) != sizeof number)
        _exit(77);
    close(file);
}}
""")
    return notes


def run(copy, crate, *words, stdin=b''):
    """Runs a crate's program or tests by `rt try`, and gives its status and output."""
    data = []
    folder = f'{copy}/crates/{crate}/data'
    if os.path.isdir(folder):
        for name in sorted(os.listdir(folder)):
            data += ['--data', f'{name}=data/{name}']
    words = ['rt', 'try', '--steps', '1', '--seconds', '3600', *data, *words]
    print(f'called_functions: {crate}', file=sys.stderr, flush=True)
    return subprocess.run(
        words, cwd=f'{copy}/crates/{crate}', input=stdin, stdout=subprocess.PIPE, stderr=subprocess.PIPE,
        env={**os.environ, 'RT_ALLOW_C': NOTE}
    )


def stored(copy, crate, name):
    file = f'{copy}/crates/{crate}/{name}'
    if not os.path.isfile(file):
        return b''
    with open(file, 'rb') as it:
        return it.read()


def stop(why, ran):
    sys.stderr.buffer.write(ran.stdout[-2000:] + ran.stderr[-6000:])
    print(f'called_functions: {why}', file=sys.stderr)
    sys.exit(2)


def run_all(copy, crates, functions):
    """Runs what the gate runs: each crate's tests, and each program on its stored input."""
    for crate in crates:
        if any(it.crate == crate and it.is_test for it in functions):
            ran = run(copy, crate, '--test')
            if ran.returncode:
                stop(f'the tests of {crate} fail', ran)
        if os.path.isfile(f'{copy}/crates/{crate}/src/main.rt'):
            arguments = stored(copy, crate, 'args').decode().split('\n')[:-1]
            ran = run(copy, crate, '--', *arguments, stdin=stored(copy, crate, 'stdin'))
            if ran.stdout != stored(copy, crate, 'stdout'):
                stop(f'{crate} answers otherwise than it is stored', ran)


def exception_for(name):
    for pattern, _ in EXCEPTIONS:
        if fnmatch.fnmatchcase(name, pattern):
            return pattern
    return None


def report(functions, called, with_private):
    """Prints what is not called, and counts. Gives the status."""
    wrong, counts, excused = 0, {}, {}
    for number, it in enumerate(functions):
        if it.is_test or (it.kind == 'private' and not with_private):
            continue
        pattern = None if number in called else exception_for(it.name)
        if number in called:
            what = 'called'
            if fnmatch.fnmatchcase(it.name, OUT_OF_MEMORY):
                print(f'memory ran out: {it.name} was called')
                wrong += 1
        elif pattern:
            what = 'excepted'
            excused.setdefault(pattern, []).append(it.name)
        else:
            what = 'not called'
            if not it.is_law:
                print(f'not called: {it.name} ({it.file}:{it.line})')
                wrong += it.kind != 'private'
        by = counts.setdefault('law' if it.is_law else it.kind, {})
        by[what] = by.get(what, 0) + 1
    for pattern, reason in EXCEPTIONS:
        if pattern in excused:
            print(f'excepted: {len(excused[pattern])} {pattern}: {reason}')
        else:
            print(f'an exception excuses nothing: {pattern}')
            wrong += 1
    for kind, name in KINDS.items():
        if kind in counts:
            print(f'{name}: {sum(counts[kind].values())}, ' + ', '.join(f'{n} {what}' for what, n in sorted(counts[kind].items())))
    return 1 if wrong else 0


def main():
    parser = argparse.ArgumentParser(description=__doc__, formatter_class=argparse.RawDescriptionHelpFormatter)
    parser.add_argument('--all', action='store_true')
    parser.add_argument('--keep')
    asked = parser.parse_args()
    if not shutil.which('rt') or not shutil.which('cc'):
        print('called_functions: rt or a C compiler is missing', file=sys.stderr)
        return 2
    copy = os.path.abspath(asked.keep) if asked.keep else tempfile.mkdtemp()
    try:
        shutil.copytree(f'{TOP}/crates', f'{copy}/crates', ignore=shutil.ignore_patterns('out'))
        with open(f'{TOP}/crates.txt', encoding='utf-8') as it:
            listed = it.read()
        functions, crates = [], crates_of(listed)
        for crate in crates:
            with_notes(copy, crate, functions)
        notes = add_note_crate(copy, listed, len(functions))
        run_all(copy, crates, functions)
        with open(notes, 'rb') as it:
            called = set(array.array('I', it.read()))
        return report(functions, called, asked.all)
    finally:
        if not asked.keep:
            shutil.rmtree(copy)


if __name__ == '__main__':
    sys.exit(main())
