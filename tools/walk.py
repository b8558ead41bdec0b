#!/usr/bin/env python3
"""Checks the walk of a spec and a ref in docs/MAINTAINING.md: tools/walk.py

The walk names each function of the library that is entered, by its file, and those that aren't. Each one has to exist, and
what the entered ones call, as far as it is the library's, has to be named. So the walk stays whole, and as short as it says.
"""
import re
import sys

sys.dont_write_bytecode = True
import kit  # beside this script

PAGE = "docs/MAINTAINING.md"
LIBRARY = ("gix_refspec_text", "gix_refspec_match", "gix_refspec", "gix_refspec_plan", "gix_refspec_lint", "gix_refspec_why", "gix_refspec_remote")
FUNCTIONS, FILES = 32, 10
STEP = re.compile(r"\d+\. `(\w+)/([^`]+\.rt)`: (.*)")
ASIDE = "Not entered: "
NAME = re.compile(r"`(\w+)`")
DEFINED = re.compile(r"\s*(?:pub(?:\([a-z]+\))? )?fn (\w+)")
CALLED = re.compile(r"\b(\w+)\(")
# Methods of std; other types of the library have some of these names too.
STD = {"as_slice", "contains", "len", "new", "push"}


def walk(lines):
    """The functions of each file that are entered, and the names of those that aren't."""
    entered, aside, inside = [], set(), False
    for line in lines:
        step = STEP.fullmatch(line)
        inside = line.startswith(ASIDE) or inside and line != ""
        if step:
            entered.append((f"crates/{step[1]}/src/{step[2]}", NAME.findall(step[3])))
        elif inside:
            aside.update(NAME.findall(line))
    return entered, aside


def bodies(lines):
    """The text of each function's body by the function's name; the bodies of those with one name are joined."""
    found = {}
    name, indent, inside = None, "", False
    for line in lines:
        defined = DEFINED.match(line)
        if defined and not inside:
            name, indent = defined[1], line[:len(line) - len(line.lstrip())]
            found.setdefault(name, "")
        if name is None:
            continue
        if inside and line == indent + "}":
            name, inside = None, False
        elif inside:
            found[name] += line.split("//")[0] + "\n"
        elif line == indent + "{" or defined and line.endswith(" {"):
            inside = True
        elif defined and line.endswith("}"):
            found[name] += line[line.index("{"):] + "\n"
            name = None
    return found


def sources():
    for crate in LIBRARY:
        yield from (path for path in kit.files(f"crates/{crate}/src", without=("tests",)) if path.endswith(".rt"))


def main():
    kit.parser(__doc__).parse_args()
    entered, aside = walk(kit.read(PAGE).split("\n"))
    defined = {path: bodies(kit.read(path).split("\n")) for path in sources()}
    ours = {name for found in defined.values() for name in found}
    named = {name for _, names in entered for name in names}
    wrong = [f"there is no {name} in the library" for name in sorted(aside - ours)]
    wrong += [f"{name} is named as entered and as not entered" for name in sorted(aside & named)]
    for path, names in entered:
        for name in dict.fromkeys(names):
            if name not in defined.get(path, {}):
                wrong.append(f"there is no {name} in {path}")
                continue
            missing = set(CALLED.findall(defined[path][name])) & ours - STD - named - aside
            wrong += [f"{name} of {path} calls {other}, which isn't named" for other in sorted(missing)]
    functions, files = sum(len(names) for _, names in entered), len({path for path, _ in entered})
    if not 0 < functions <= FUNCTIONS or files > FILES:
        wrong.append(f"it has {functions} functions in {files} files, and may have {FUNCTIONS} in {FILES}")
    for line in wrong:
        print(f"{PAGE}: the walk of a ref: {line}", file=sys.stderr)
    if wrong:
        sys.exit(1)
    print(f"walk: {functions} functions in {files} files")


if __name__ == "__main__":
    main()
