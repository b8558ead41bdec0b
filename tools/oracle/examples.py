#!/usr/bin/env python3
"""The examples of a crate's documentation as one file of tests: tools/oracle/examples.py FOLDER >tests/examples.rs

So what `cargo test` tries of one crate is tried of another with the same interface. FOLDER has the sources.
"""
import glob
import re
import sys

BLOCK = re.compile(r"^ *//[/!] ```\n((?: *//[/!].*\n)*?) *//[/!] ```$", re.M)


def examples(text):
    """The lines of each example, without the marks of a comment."""
    for block in BLOCK.finditer(text):
        yield [re.sub(r"^ *//[/!] ?(# )?", "", line) for line in block[1].splitlines()]


def main():
    print("//! The examples of the documentation.")
    for path in sorted(glob.glob(f"{sys.argv[1]}/**/*.rs", recursive=True)):
        name = re.sub(r"\W+", "_", path[len(sys.argv[1]):].removesuffix(".rs")).strip("_")
        with open(path, encoding="utf-8") as file:
            for number, lines in enumerate(examples(file.read())):
                print(f"\n#[test]\nfn {name}_{number}() {{", *(f"    {line}".rstrip() for line in lines), "}", sep="\n")


if __name__ == "__main__":
    main()
