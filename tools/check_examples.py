#!/usr/bin/env python3
"""Runs the commands in the tables of README.md, docs/EXAMPLES.md and examples/README.md, and compares the
standard output, the standard error and the status of each with its row, byte by byte:

    tools/check_examples.py [PROGRAM]

PROGRAM is by default the one that `./omarshal --prove` built. Files that the commands read are made by the pages' own blocks. The
commands of examples/README.md are for OCaml 4.13, and left out where there is none."""
import json
import os
import re
import shutil
import subprocess
import sys
import tempfile

top = os.path.dirname(os.path.dirname(os.path.realpath(__file__)))
with open(os.path.join(top, "tools/commands.json"), encoding="utf-8") as file:
    NAMES = [command["name"] for command in json.load(file)["commands"]]
COMMAND = re.compile(rf"omarshal ({'|'.join(NAMES)})\b")


def page(name):
    with open(os.path.join(top, name), encoding="utf-8") as file:
        return file.read()


def cells(row):
    """The cells of a row of a table, in which `\\|` is a bar."""
    return [cell.strip().replace("\\|", "|") for cell in re.split(r"(?<!\\)\|", row)[1:-1]]


def rows(text):
    """The command, standard output, standard error and status of each row that has a command."""
    for line in text.split("\n"):
        command, *said = cells(line) if line.startswith("| `") else [""]
        if COMMAND.search(command) and said:
            lines = ["".join(text + "\n" for text in re.findall(r"`([^`]+)`", cell)) for cell in said]
            out, err = lines[0], lines[1] if len(said) == 3 else ""
            yield command.strip("`"), out, err, said[-1] if said[-1].isdigit() else None


def run(command, folder):
    return subprocess.run(["bash", "-o", "pipefail", "-c", command], cwd=folder, capture_output=True)


def wrong_rows(name, folder, known):
    """Prints the rows of a page that are not so; how many there are, and how many of them are wrong."""
    count = wrong = 0
    for command, out, err, status in rows(page(name)):
        for word, meaning in known.items():
            command = command.replace(word, meaning)
        ran = run(command, folder)
        written = ran.stdout.decode(errors="replace"), ran.stderr.decode(errors="replace")
        count += 1
        if written != (out, err) or status not in (None, str(ran.returncode)):
            wrong += 1
            print(f"{name}: {command}\n  writes {written!r}, {ran.returncode}\n  and not {(out, err)!r}, {status}")
    return count, wrong


def main():
    program = os.path.abspath(sys.argv[1] if len(sys.argv) > 1 else os.path.join(top, "crates/omarshal/out/omarshal"))
    if not os.access(program, os.X_OK):
        print(f"there is no program {program}: ./omarshal --prove builds it")
        return 2
    with tempfile.TemporaryDirectory() as folder:
        os.mkdir(os.path.join(folder, "bin"))
        os.symlink(program, os.path.join(folder, "bin/omarshal"))
        os.environ["PATH"] = os.path.join(folder, "bin") + ":" + os.environ["PATH"]
        shutil.copytree(os.path.join(top, "examples"), os.path.join(folder, "examples"))
        for name in ("docs/EXAMPLES.md", "README.md"):
            for block in re.findall(r"```bash\n(printf .*?)```", page(name), re.S):
                if not COMMAND.search(block):
                    run(block, folder)
        counts = [wrong_rows(name, folder, {"./omarshal": "omarshal"}) for name in ("README.md", "docs/EXAMPLES.md")]
        if shutil.which("ocamlc") and run("ocamlc -version", folder).stdout.startswith(b"4.13."):
            examples = os.path.join(folder, "examples")
            run("ocaml containers.ml .", examples)
            library = run("ocamlc -where", folder).stdout.decode().strip()
            counts.append(wrong_rows("examples/README.md", examples, {"LIB/": library + "/"}))
        else:
            print("skipped: examples/README.md, as there is no OCaml 4.13")
    count, wrong = (sum(number) for number in zip(*counts))
    print(f"{count - wrong} passed, {wrong} failed")
    return wrong != 0


if __name__ == "__main__":
    sys.exit(main())
