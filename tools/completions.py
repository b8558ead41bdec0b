#!/usr/bin/env python3
"""Makes the completions for zsh and fish from the program's pages of help: tools/completions.py PROGRAM [--check]

Writes completions/_refspec and completions/refspec.fish, or with --check says which of them isn't what it would write.
"""
import re
import subprocess
import sys
from pathlib import Path

sys.dont_write_bytecode = True
import kit  # beside this script

FOLDER = kit.ROOT / "completions"
COMMAND = re.compile(r"^  ([a-z][a-z-]*) {2,}(.*)$")
OPTION = re.compile(r"^ {2,6}(?:(-\w)(?:, )?)?(--[a-z][a-z-]*)?(?: <(\w+)>)? {2,}(.*)$")
REFS = "git for-each-ref --format='%(refname)' refs/remotes 2>/dev/null"
HEAD = "Made by tools/completions.py from the pages of help"


def page(program, *words):
    return subprocess.run([program, *words, "--help"], stdout=subprocess.PIPE, text=True, check=True).stdout


def part(text, title):
    """The lines below a title."""
    return re.search(rf"^{title}:\n((?:  .*\n?)*)", text, re.M)[1].splitlines()


def options(text):
    """Short name, long name, what follows, and what it does, of each option of a page."""
    return [OPTION.match(line).groups() for line in part(text, "Options")]


def pages(program):
    """The options of the program, and for each command what it does and its options."""
    first = page(program)
    commands = [COMMAND.match(line).groups() for line in part(first, "Commands")]
    return options(first), [(name, does, options(page(program, name))) for name, does in commands]


def zsh_option(short, long, value, does):
    says = re.sub(r"([\[\]:\\])", r"\\\1", does).replace("'", "'\\''")
    action = {None: "", "FILE": ":file:_files", "NAME": ":ref:_refspec_refs"}.get(value, f":{value}:")
    names = [name for name in (short, long) if name]
    tail = f"'[{says}]{action}'"
    if long and value:
        names[-1] += "="
    front = f"'({' '.join(names)})'{{{','.join(names)}}}" if len(names) > 1 else "'*'" * bool(value) + names[0]
    return front + tail


def zsh(own, commands):
    lines = ["#compdef refspec", f"# Completion of refspec, for zsh. {HEAD}.", "", "_refspec_refs() {",
             f"    compadd -- ${{(f)\"$({REFS})\"}}", "}", "", "_refspec() {", "    local -a commands=("]
    for name, does, _ in commands:
        says = does.replace("'", "'\\''").replace(":", "\\:")
        lines.append(f"        '{name}:{says}'")
    lines += ["    )", "    if (( CURRENT == 2 )); then", "        _arguments \\"]
    lines += [f"            {zsh_option(*option)} \\" for option in own]
    lines += ["            '1:command:{_describe command commands}'", "        return", "    fi",
              "    local command=$words[2]", "    (( CURRENT-- ))", "    shift words", "    case $command in"]
    for name, _, its in commands:
        lines += [f"    {name})", "        _arguments -s -S \\"]
        lines += [f"            {zsh_option(*option)} \\" for option in its]
        lines += ["            '*:spec:'", "        ;;"]
    return "\n".join([*lines, "    esac", "}", "", '_refspec "$@"', ""])


def fish_option(condition, short, long, value, does):
    says = does.replace("\\", "\\\\").replace("'", "\\'")
    words = [f"complete -c refspec -n '{condition}'", short and f"-s {short[1:]}", long and f"-l {long[2:]}"]
    words.append({None: None, "FILE": "-r -F", "NAME": f'-x -a "({REFS})"'}.get(value, "-x"))
    return " ".join([*filter(None, words), f"-d '{says}'"])


def fish(own, commands):
    lines = [f"# Completion of refspec, for fish. {HEAD}.", "", "complete -c refspec -f"]
    lines += [fish_option("__fish_use_subcommand", *option) for option in own]
    for name, does, _ in commands:
        says = does.replace("\\", "\\\\").replace("'", "\\'")
        lines.append(f"complete -c refspec -n __fish_use_subcommand -a {name} -d '{says}'")
    for name, _, its in commands:
        lines += ["", *(fish_option(f"__fish_seen_subcommand_from {name}", *option) for option in its)]
    return "\n".join([*lines, ""])


def main():
    arguments = kit.parser(__doc__)
    arguments.add_argument("program", metavar="PROGRAM", type=lambda path: Path(path).absolute())
    arguments.add_argument("--check", action="store_true")
    options = arguments.parse_args()
    made, status = pages(options.program), 0
    for name, write in (("_refspec", zsh), ("refspec.fish", fish)):
        path, text = FOLDER / name, write(*made)
        if not options.check:
            path.write_text(text, encoding="utf-8")
        elif path.read_text(encoding="utf-8") != text:
            print(f"completions/{name} isn't what the pages of help say: run tools/completions.py PROGRAM", file=sys.stderr)
            status = 1
    return status


if __name__ == "__main__":
    sys.exit(main())
