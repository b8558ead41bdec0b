#!/usr/bin/env python3
"""Lists the blocks of the library in a program that is linked with it: tools/fuzz/blocks.py PROGRAM ARCHIVE [UNREACHED]

Prints the address and the function of each, by which blocks.c sets its traps. With the file that this wrote of those that weren't
reached, prints the functions that weren't entered at all.
"""
import re
import subprocess
import sys

FUNCTION = re.compile(r"^([0-9a-f]+) <(.*)>:$")
LINE = re.compile(r"^ *([0-9a-f]+):\t(\S+) *(\S*)")
TARGET = re.compile(r"^[0-9a-f]+$")


def functions(archive):
    """The names of the functions of an archive."""
    made = subprocess.run(["nm", "--defined-only", archive], capture_output=True, text=True, check=True)
    fields = [line.split() for line in made.stdout.splitlines()]
    return {name for _, kind, name in (one for one in fields if len(one) == 3) if kind in "tT"}


def blocks(program, names):
    """The addresses of blocks, each with its function: entries, targets of jumps, and what follows a jump."""
    made = subprocess.run(["objdump", "-d", "--no-show-raw-insn", program], capture_output=True, text=True, check=True)
    found, starts, name, follows = {}, set(), None, False
    for line in made.stdout.splitlines():
        entry, step = FUNCTION.match(line), LINE.match(line)
        if entry:
            name, follows = entry[2] if entry[2] in names else None, True
        elif step and name:
            address, word, operand = int(step[1], 16), step[2], step[3]
            found[address] = name
            if follows and not word.startswith(("nop", "int3", "xchg", "cs", "data16")):
                starts.add(address)
            follows = word.startswith("j") or follows and address not in starts
            if word.startswith("j") and TARGET.match(operand):
                starts.add(int(operand, 16))
    return {address: found[address] for address in sorted(starts) if address in found}


def main():
    if len(sys.argv) not in (3, 4):
        sys.exit(__doc__)
    found = blocks(sys.argv[1], functions(sys.argv[2]))
    if len(sys.argv) == 3:
        print("".join(f"{address:x} {name}\n" for address, name in found.items()), end="")
        return
    with open(sys.argv[3], encoding="ascii") as file:
        unreached = {int(line, 16) for line in file}
    entered = {name for address, name in found.items() if address not in unreached}
    print("".join(f"{name}\n" for name in sorted(set(found.values()) - entered)), end="")
    print(f"blocks: {len(found) - len(unreached)} of {len(found)} reached", file=sys.stderr)


if __name__ == "__main__":
    main()
