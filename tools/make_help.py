#!/usr/bin/env python3
"""Writes everything that lists the commands, their arguments and their options, from tools/commands.json:

    tools/make_help.py            writes the files
    tools/make_help.py --check    prints what is not current, and ends with status 1 if anything is not

It writes the help texts and the table of the launcher (tools/help/), the completions (tools/completion/), and the synopsis of
the manual page (docs/omarshal.1, between the two marks). --check also compares tools/commands.json with the table that the
program reads its arguments by (crates/cli_args/src/command_set.rt), and with the tables and the text of README.md and of the
manual page, which must name every command, argument and option."""
import json
import os
import re
import sys

top = os.path.dirname(os.path.dirname(os.path.realpath(__file__)))
HEAD = "is written by tools/make_help.py from tools/commands.json"
BEGIN, END = f'.\\" The synopsis {HEAD}.\n', '.\\" The synopsis ends here.\n'


def text_of(name):
    with open(os.path.join(top, name), encoding="utf-8") as file:
        return file.read()


DATA = json.loads(text_of("tools/commands.json"))
COMMANDS, OPTIONS, ARGUMENTS = DATA["commands"], DATA["options"], DATA["arguments"]
NAMES = [command["name"] for command in COMMANDS]
WIDTH = 22


def with_argument(option):
    value = OPTIONS[option].get("argument")
    return f"{option} {value}" if value else option


def usage(command):
    words = ["omarshal", command["name"], *(f"[{with_argument(it)}]" for it in command["options"]), *command["arguments"]]
    return " ".join(words) + (f" < {command['input']}" if command["input"] else "")


def filled(words, indent, width=100):
    """Lines of words, of which no bracket is broken over two lines; all lines but the first are indented."""
    lines = [""]
    for word in re.findall(r"\[[^]]*\]|\S+", words):
        if lines[-1].strip() and len(lines[-1]) + len(word) + 1 > width:
            lines.append(" " * (indent - 1))
        lines[-1] += (" " if lines[-1] else "") + word
    return "\n".join(lines) + "\n"


def rows(pairs):
    return "".join(f"  {name:{WIDTH}} {text}\n" for name, text in pairs)


def main_help():
    return ("""omarshal checks, prints, edits, builds and compares values in the format of OCaml's Marshal module.

Usage: omarshal COMMAND [OPTIONS] ARGUMENTS < INPUT

Commands:
"""
            + rows((" ".join([it["name"], *it["arguments"]]), it["text"]) for it in COMMANDS)
            + "\nArguments:\n" + rows((name, it["text"]) for name, it in ARGUMENTS.items())
            + "\nOptions, anywhere after the command:\n" + rows((with_argument(name), it["text"]) for name, it in OPTIONS.items())
            + """
Not a run of the program:
"""
            + rows([("help [COMMAND]", "print this text, or the help of one command; also --help and -h"),
                    ("--version", "print the version, the commit, and whether the program is proved"),
                    ("--prove", "prove and build the program (only in the repository)")])
            + """
Exit status: 0 no value is wrong; 1 a value does not have the type, or differs; 2 wrong arguments; 3 FILE or TYPE is
refused; 4 the input is refused; 5 a script or text is refused; 6 read error; 7 write error; 8 cannot open a file; 9 out of
memory; 10 input too long; 11 refused by --compat32; 12 CERT is refused; 125 there is no program.

Example: omarshal check /dev/null 'int list' < list.bin
""")


def command_help(command):
    text = filled("Usage: " + usage(command), 9) + "\n" + command["text"][0].upper() + command["text"][1:] + ".\n"
    if command["input"] is None:
        text += "It reads no input.\n"
    if command["arguments"]:
        text += "\nArguments:\n" + rows((name, ARGUMENTS[name]["text"]) for name in command["arguments"])
    if command["options"]:
        text += "\nOptions:\n" + rows((with_argument(name), OPTIONS[name]["text"]) for name in command["options"])
    return text + f"\nExample: {command['example']}\n"


def launcher_table():
    """Lines of fields between tabs: the commands, with their arguments, options and pairs of options that exclude each other;
    then the greatest number of each option and argument that is a number, or nothing."""
    lines = ["\t".join(["command", it["name"], " ".join(it["arguments"]), " ".join(it["options"]), " ".join(it.get("exclude", []))])
             for it in COMMANDS]
    lines += ["\t".join(["option", name, it.get("argument", ""), str(it.get("greatest", ""))]) for name, it in OPTIONS.items()]
    lines += ["\t".join(["number", name, str(it["greatest"])]) for name, it in ARGUMENTS.items() if "greatest" in it]
    return "\n".join(lines) + "\n"


def synopsis():
    bold = lambda text: text.replace("-", "\\-")
    out = BEGIN
    for number, command in enumerate(COMMANDS):
        out += ".br\n" * (number > 0) + f".B omarshal {command['name']}\n"
        for option in command["options"]:
            value = OPTIONS[option].get("argument")
            out += f".RB [ {bold(option)}\n.IR {value} ]\n" if value else f".RB [ {bold(option)} ]\n"
        out += f".I {' '.join(command['arguments'])}\n" if command["arguments"] else ""
        out += f'.RI < " {command["input"]}"\n' if command["input"] else ""
    return out + ".br\n.B omarshal help\n.RI [ COMMAND ]\n.br\n.B omarshal \\-\\-version\n.br\n.B omarshal \\-\\-prove\n" + END


def manual():
    page = text_of("docs/omarshal.1")
    before, mark, rest = page.partition(BEGIN)
    _, end, after = rest.partition(END)
    if not mark or not end:
        sys.exit("docs/omarshal.1 lacks the marks of its synopsis")
    return before + synopsis() + after


def bash_completion():
    by_options = "".join(f"    {it['name']}) options='{' '.join(it['options'])}' ;;\n" for it in COMMANDS)
    files = [f"{it['name']}-{at}" for it in COMMANDS for at, name in enumerate(it["arguments"]) if ARGUMENTS[name].get("is_file")]
    valued = " | ".join(name for name, it in OPTIONS.items() if "argument" in it)
    return f"""# Completion of omarshal for bash. This file {HEAD}.
_omarshal() {{
    local word=${{COMP_WORDS[COMP_CWORD]}} command=${{COMP_WORDS[1]-}} i position=0 value=0 options
    COMPREPLY=()
    if [ "$COMP_CWORD" -eq 1 ]; then
        case $word in
        -*) mapfile -t COMPREPLY < <(compgen -W '--help --version --prove' -- "$word") ;;
        *) mapfile -t COMPREPLY < <(compgen -W '{' '.join(sorted([*NAMES, 'help']))}' -- "$word") ;;
        esac
        return
    fi
    case $command in
    help) [ "$COMP_CWORD" -ne 2 ] || mapfile -t COMPREPLY < <(compgen -W '{' '.join(sorted(NAMES))}' -- "$word"); return ;;
{by_options}    *) return ;;
    esac
    # The number of the word among the arguments.
    for ((i = 2; i < COMP_CWORD; i++)); do
        if [ "$value" -eq 1 ]; then value=0; continue; fi
        case ${{COMP_WORDS[i]}} in {valued}) value=1 ;; -*) ;; *) position=$((position + 1)) ;; esac
    done
    [ "$value" -eq 0 ] || return
    case $word in
    -*) mapfile -t COMPREPLY < <(compgen -W "$options --help" -- "$word") ;;
    *)
        case $command-$position in
        {' | '.join(files)}) mapfile -t COMPREPLY < <(compgen -f -- "$word") ;;
        esac
        ;;
    esac
}}
complete -o filenames -F _omarshal omarshal
"""


def zsh_completion():
    quoted = lambda text: text.replace("'", "'\\''").replace("[", "\\[").replace("]", "\\]")
    described = "".join(f"    '{it['name']}:{quoted(it['text'])}'\n" for it in COMMANDS)
    cases = ""
    for command in COMMANDS:
        words = []
        for option in command["options"]:
            it = OPTIONS[option]
            value = f":{it['argument']}:" if "argument" in it else ""
            words.append(f"'{option}[{quoted(it['text'])}]{value}'")
        for at, name in enumerate(command["arguments"], 1):
            words.append(f"'{at}:{name}:{'_files' if ARGUMENTS[name].get('is_file') else ''}'")
        lines = " \\\n        ".join(words)
        cases += f"{command['name']})\n    _arguments {lines}\n    ;;\n" if words else ""
    return f"""#compdef omarshal
# Completion of omarshal for zsh. This file {HEAD}.
local -a commands
commands=(
{described}    'help:print the help, or that of a command'
)
if (( CURRENT == 2 )); then
    _describe command commands
    return
fi
local command=$words[2]
shift words
(( CURRENT-- ))
case $command in
help) _describe command commands ;;
{cases}esac
"""


def made():
    """Each file with its text."""
    files = {f"tools/help/{it['name']}.txt": command_help(it) for it in COMMANDS}
    files |= {"tools/help/omarshal.txt": main_help(), "tools/help/commands.tsv": launcher_table()}
    files |= {"tools/completion/omarshal.bash": bash_completion(), "tools/completion/_omarshal": zsh_completion()}
    files["docs/omarshal.1"] = manual()
    return files


def program_table():
    """The commands that the program reads, with their arguments in order and their options, and the greatest numbers, by its source."""
    source = text_of("crates/cli_args/src/command_set.rt")
    number = lambda text: eval(text, {"__builtins__": {}}, {})
    constants = {name: number(text) for name, text in re.findall(r"const (\w+): u64 = ([0-9<>()+\- ]+);", source)}
    parts = {}
    for name, kind, words in re.findall(r"const (\w+): Argument<'static> = Argument::(\w+)\(([^;]*?)\);", source):
        words = [it.strip() for it in words.split(",")]
        greatest = constants[words[1]] if kind in ("Option", "Optional", "Number") else None
        parts[name] = (words[0].strip('"'), kind in ("Word", "Number"), greatest)
    table = {}
    forms = source[source.index("static FORMS"):]
    for name, words in re.findall(r'\(\s*"(\w+)",\s*&\[([^]]*)\],?\s*\)', forms[:forms.index("];\n") + 3]):
        found = [parts[it.strip()] for it in words.split(",") if it.strip()]
        table[name] = ([it[0] for it in found if it[1]], {f"--{it[0]}" for it in found if not it[1]},
                       {(it[0] if it[1] else f"--{it[0]}"): it[2] for it in found if it[2] is not None})
    return table


def differences():
    for name, text in made().items():
        if not os.path.exists(os.path.join(top, name)) or text_of(name) != text:
            yield f"{name} is not what tools/commands.json makes: run tools/make_help.py"
    listed = {it["name"]: (it["arguments"], set(it["options"]), {
        name: word["greatest"] for words, names in ((ARGUMENTS, it["arguments"]), (OPTIONS, it["options"]))
        for name in names for word in [words[name]] if "greatest" in word}) for it in COMMANDS}
    program = program_table()
    for name in sorted({*listed, *program}):
        if listed.get(name) != program.get(name):
            yield f"command {name}: tools/commands.json has {listed.get(name)}, the program's source {program.get(name)}"
    readme, page = text_of("README.md"), text_of("docs/omarshal.1")
    for command in COMMANDS:
        row = " ".join([command["name"], *command["arguments"]])
        if f"| `{row}` |" not in readme:
            yield f"README.md: no row for the command `{row}`"
        if not re.search(rf'^\.(?:BI?) {command["name"]}\b', page, re.M):
            yield f"docs/omarshal.1: nothing on the command {command['name']}"
    for name in OPTIONS:
        if f"| `{with_argument(name)}` |" not in readme:
            yield f"README.md: no row for the option `{with_argument(name)}`"
        escaped = re.escape(name.replace("-", "\\-"))
        if not re.search(rf'^\.(?:BI?) "?{escaped}(?: "|$)', page, re.M):
            yield f"docs/omarshal.1: nothing on the option {name}"
    for name in ARGUMENTS:
        if f"`{name}`" not in readme or f".I {name}\n" not in page:
            yield f"README.md or docs/omarshal.1: nothing on the argument {name}"


def main():
    if sys.argv[1:] == ["--check"]:
        found = list(differences())
        print("\n".join(found), end="\n" if found else "")
        return bool(found)
    if sys.argv[1:]:
        print("usage: tools/make_help.py [--check]", file=sys.stderr)
        return 2
    for name, text in made().items():
        path = os.path.join(top, name)
        os.makedirs(os.path.dirname(path), exist_ok=True)
        with open(path, "w", encoding="utf-8") as file:
            file.write(text)
    return 0


if __name__ == "__main__":
    sys.exit(main())
