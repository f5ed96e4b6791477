#!/usr/bin/env python3
"""Asks a program the stored questions of crates/test_conformance, and compares its answers with the stored ones:

    tools/test_questions.py PROGRAM [CONFORMANCE]

A question `run` is a whole run: its arguments, its input and its files. It is replayed on PROGRAM, the program omarshal, in a
folder of its own, unless I/O calls fail in it or a sink has little room. So are the questions `stream` and `value`, which are
runs on a file of data/. All other questions go to CONFORMANCE, the program of that crate, if it is given. The README of the
crate describes the questions. The last line is `N passed, N failed`."""
import concurrent.futures
import os
import re
import shutil
import subprocess
import sys
import tempfile

top = os.path.dirname(os.path.dirname(os.path.realpath(__file__)))
crate = os.path.join(top, "crates/test_conformance")
KNOWN = {"piece", "chunk", "script", "file", "word"}
FAILING_CALLS = {"fetch", "read", "take", "open"}
workers = os.cpu_count() or 1
ENVIRONMENT = {**os.environ, "ASAN_OPTIONS": "allocator_may_return_null=1:detect_leaks=0"}


def stored():
    """Each stored question with its answer, in lines. The last answer has the closing lines of the program too."""
    with open(f"{crate}/stdin", "rb") as file:
        questions = file.read().splitlines(keepends=True)
    with open(f"{crate}/stdout", "rb") as file:
        return answers(questions, file.read().split(b"\n"))


def answers(questions, lines):
    """The questions with the lines behind each, up to the next question."""
    found, at = [], 0
    wanted = [question.rstrip(b"\n") for question in questions]
    for number, question in enumerate(wanted):
        if at >= len(lines) or lines[at] != question:
            raise ValueError(f"question {number + 1} is not there: {question[:80]!r}")
        following = wanted[number + 1] if number + 1 < len(wanted) else None
        end = at + 1
        while end < len(lines) and (following is None or lines[end] != following):
            end += 1
        found.append((question, b"\n".join(lines[at + 1:end]) + b"\n"))
        at = end
    return found


def settings_of(text):
    return dict(it.split("=", 1) for it in text.split(" ") if it)


def run_of(question, answer):
    """The arguments, the input and the files of a question that can be replayed, else None."""
    kind, _, rest = question.partition(b" ")
    if kind in (b"stream", b"value"):
        name, found, type_text = rest.partition(b" at ")
        if not found:
            return None
        name = os.fsdecode(name)
        with open(f"{crate}/data/{name}.stream", "rb") as file:
            given = file.read()
        types = "empty.ml" if kind == b"stream" else f"{name}.types"
        with open(f"{crate}/data/{types}", "rb") as file:
            return [b"check", os.fsencode(types), type_text], given, {types: file.read()}
    if kind != b"run":
        return None
    head, digits, declared, *words = rest.split(b"\t")
    settings = settings_of(os.fsdecode(head))
    others = set(settings) - KNOWN
    if others - FAILING_CALLS or b"\nfailed to " in b"\n" + answer or re.search(rb"^status 7$", answer, re.M):
        return None
    files = {"f.ml": declared[1:]} if declared.startswith(b"=") else {}
    if "file" in settings:
        files["f.ml"] = bytes.fromhex(settings["file"])
    if "script" in settings:
        files["script"] = bytes.fromhex(settings["script"])
    if "word" in settings:
        words.append(bytes.fromhex(settings["word"]))
    return words, bytes.fromhex(os.fsdecode(digits)), files


def answer_text(question, words, ran):
    """How a run ended, as the crate prints it."""
    ends = lambda text: text if text.endswith(b"\n") else text + b" (cut)\n"
    out = b""
    if ran.stdout:
        out = b"values: " + ran.stdout.hex().encode() + b"\n" if question.startswith(b"run") and words[:1] in ([b"edit"], [b"build"]) \
            else ends(ran.stdout)
    return out + (b"err: " + ends(ran.stderr) if ran.stderr else b"") + b"status %d\n" % ran.returncode


def replay(program, question, run):
    words, given, files = run
    with tempfile.TemporaryDirectory() as folder:
        for name, text in files.items():
            with open(os.path.join(folder, name), "wb") as file:
                file.write(text)
        ran = subprocess.run([program, *words], input=given, capture_output=True, cwd=folder, env=ENVIRONMENT)
    return answer_text(question, words, ran)


def ask(conformance, part):
    """The answers of the program of the crate to these questions. Its closing lines are behind the last one."""
    with tempfile.TemporaryDirectory() as folder:
        data = shutil.copytree(f"{crate}/data", os.path.join(folder, "data"))
        asked = [question + b"\n" for question, _ in part]
        ran = subprocess.run([conformance], input=b"".join(asked), capture_output=True, cwd=data, env=ENVIRONMENT)
    try:
        return answers(asked, ran.stdout.split(b"\n"))
    except ValueError as error:
        print(f"{conformance}: status {ran.returncode}, {error}\n{ran.stderr.decode(errors='replace')[-500:]}")
        return []


def shown(text):
    text = text.decode(errors="replace")
    return text if len(text) < 400 else text[:400] + ".."


def main():
    if not 2 <= len(sys.argv) <= 3:
        print("usage: tools/test_questions.py PROGRAM [CONFORMANCE]", file=sys.stderr)
        return 2
    program = os.path.abspath(sys.argv[1])
    conformance = os.path.abspath(sys.argv[2]) if len(sys.argv) == 3 else None
    all_questions = stored()
    last = all_questions[-1][0]
    runs, others = [], []
    for question, answer in all_questions:
        run = run_of(question, answer)
        if run is None:
            others.append((question, answer))
        else:
            runs.append((question, answer, run))
    passed = failed = 0

    def judge(question, wanted, found, is_whole):
        nonlocal passed, failed
        # The closing lines of the crate's program stand behind the last question alone.
        if question == last:
            good = wanted.startswith(found) or found.startswith(wanted)
        else:
            good = found == wanted if is_whole else found.startswith(wanted)
        passed, failed = passed + good, failed + (not good)
        if not good:
            print(f"question {shown(question)}\n  has the answer\n{shown(found)}  and not\n{shown(wanted)}")

    with concurrent.futures.ThreadPoolExecutor(workers) as pool:
        for (question, wanted, _), found in zip(runs, pool.map(lambda it: replay(program, it[0], it[2]), runs)):
            judge(question, wanted, found, True)
        print(f"whole runs: {len(runs)} replayed")
        if conformance is None:
            print(f"skipped: {len(others)} questions for the program of crates/test_conformance")
        else:
            # The question with the closing lines is not the last of its part.
            others = others[-1:] + others[:-1] if others[-1:] and others[-1][0] == last else others
            parts = [part for part in (others[number::workers] for number in range(workers)) if part]
            for part, found in zip(parts, pool.map(lambda it: ask(conformance, it), parts)):
                for number, (question, wanted) in enumerate(part):
                    judge(question, wanted, found[number][1] if found else b"(none)\n", number + 1 < len(part))
            print(f"other questions: {len(others)} asked")
    print(f"{passed} passed, {failed} failed")
    return failed != 0


if __name__ == "__main__":
    sys.exit(main())
