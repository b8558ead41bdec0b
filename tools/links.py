#!/usr/bin/env python3
"""Checks the links of the documents: tools/links.py

Each relative link of a page has to lead to a file, and to a heading of it if it names one. Each page of docs/ that any file of
the repository names has to exist.
"""
import posixpath
import re
import sys

sys.dont_write_bytecode = True
import kit  # beside this script

FENCED = re.compile(r"^```.*?^```$", re.M | re.S)
LINK = re.compile(r"\]\(([^)\s]+)\)")
NAMED = re.compile(r"\bdocs/[\w.-]+\.(?:md|svg|json)\b")


def anchors(path):
    """The names of the headings, as links have them."""
    headings = re.findall(r"^#+ (.*)$", FENCED.sub("", kit.read(path)), re.M)
    return {re.sub(r"[^\w\- ]", "", heading.lower()).strip().replace(" ", "-") for heading in headings}


def wrong_links(path):
    for target in LINK.findall(FENCED.sub("", kit.read(path))):
        file, _, anchor = target.partition("#")
        leads_to = posixpath.normpath(posixpath.join(posixpath.dirname(path), file)) if file else path
        if re.match(r"\w+:", target):
            continue
        if not (kit.ROOT / leads_to).exists():
            yield f"{path}: no file {target}"
        elif anchor and anchor not in anchors(leads_to):
            yield f"{path}: no heading {target}"


def main():
    kit.parser(__doc__).parse_args()
    wrong, count = [], 0
    for path in kit.files(without=(".git", "out")):
        if path.endswith(".md"):
            count += len(LINK.findall(FENCED.sub("", kit.read(path))))
            wrong += wrong_links(path)
        named = set(NAMED.findall(kit.read(path)))
        wrong += [f"{path}: no file {name}" for name in sorted(named) if not (kit.ROOT / name).exists()]
    if wrong:
        sys.exit("\n".join(wrong))
    print(f"links: {count}")


if __name__ == "__main__":
    main()
