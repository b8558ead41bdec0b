#!/usr/bin/env python3
"""Lists the lemmas that nothing cites, those with equal statements, and lines that are too wide: tools/lemmas.py

A lemma is a name with a type at the margin of a file in crates/*/proofs/lemmas, or of a file *Lemmas.antt there. It is
cited if its name, imported from its file or from one that passes it on, or its whole path, is a word of a block of some
file of a crate, other than its own and `use` lines. Two statements are equal if they are after their variables are
numbered in the order in which they are bound, and each word of them comes from the same module. Statements of functions,
which return data, are not compared. A line of a definition or proof has at most 120 columns, unless it is a single literal or
one imported name.
"""
import re
import sys

sys.dont_write_bytecode = True
import kit  # beside this script

WORD = re.compile(r"[^\s(){}\[\],;.→×λ]+")
SIGNATURE = re.compile(r"^(?:opaque |abbrev )?(?:pub )?([^\s:(){}]+) : (.*)$")
WHOLE = re.compile(r"(Rattle\.[^\s(){}\[\],;→×λ]+)\.([^\s(){}\[\],;.→×λ]+)")
USE = re.compile(r"^\s*(?:ghost )?(?:pub )?use (Rattle\.[^\s{]+?)\.\{(.*)\}")
LEMMAS = re.compile(r"crates/[^/]+/proofs/(lemmas/.*|.*Lemmas)\.antt$")
WIDTH = 120
UNBROKEN = re.compile(r'^\s*("([^"\\]|\\.)*".{,16}|(pub )?use [^ ]+( as [^ ]+)?|Rattle\.[^ ]+)$')
DATA = re.compile(r"(^|→ )(Bool|Ordering|ℕ|List ℕ|List \(List ℕ\)|Option \(List ℕ\)|Type 0|Mapping|Reading)$")


def blocks(text):
    """The blocks of a file: a line at the margin, and the indented lines below it."""
    block = []
    for line in text.split("\n"):
        if line.startswith("--"):
            continue
        if block and line and not line[0].isspace() and line[0] not in ")]}":
            yield block
            block = []
        if line.strip():
            block.append(line.split(" -- ")[0])
    if block:
        yield block


def head_of(block):
    """The name that a block gives a type or an equation."""
    found = WORD.match(re.sub(r"^(opaque |abbrev )?(pub )?", "", block[0]))
    return found[0] if found else None


def definitions(text):
    """Each name that a file gives a type, with its statement; and the names that have equations."""
    found, equations = {}, set()
    for block in blocks(text):
        if USE.match(block[0]):
            continue
        signature = SIGNATURE.match(block[0])
        if signature:
            found[signature[1]] = " ".join("\n".join(block).split(" : ", 1)[1].split())
        else:
            equations.add(head_of(block))
    return found, equations


def items(path, text):
    """The names of a list between braces, `a.b, c.{d, e as f}`, each with the module that it is of."""
    depth, begin = 0, 0
    for at, letter in enumerate(text + ","):
        depth += (letter == "{") - (letter == "}")
        if letter != "," or depth:
            continue
        item, begin = text[begin:at].strip(), at + 1
        folder, brace, inner = item.partition(".{")
        if brace:
            yield from items(f"{path}.{folder}", inner[:-1])
        elif item:
            name, _, local = item.partition(" as ")
            *below, name = name.split(".")
            yield ".".join([path, *below]), name, local or name


def imports(text):
    """Where each imported name comes from: its module, and its name there."""
    known = {}
    for line in text.split("\n"):
        used = USE.match(line)
        if used:
            known.update((local, (module, name)) for module, name, local in items(used[1], used[2]))
    return known


def origin(module, name, uses):
    """The module that declares an imported name, and its name there, through those that pass it on."""
    while name in uses.get(module, {}):
        module, name = uses[module][name]
    return module, name


def grouped(statement):
    """The statement with a group of its own for each variable: `(x y : A)` as `(x : A) (y : A)`."""
    result, at = "", 0
    while at < len(statement):
        group = re.match(r"([({])([^(){}:]+?) : ", statement[at:])
        if not group:
            result, at = result + statement[at], at + 1
            continue
        depth, end = 0, at
        while True:
            depth += (statement[end] in "({[") - (statement[end] in ")}]")
            if depth == 0:
                break
            end += 1
        of = grouped(statement[at + group.end():end])
        result += " ".join(f"{group[1]}{name} : {of}{statement[end]}" for name in group[2].split())
        at = end + 1
    return result


def normal(statement, known):
    statement = grouped(statement)
    numbers = {}
    for name in re.findall(r"[({]([^\s(){}:]+) : ", statement):
        numbers.setdefault(name, f"#{len(numbers)}")
    return WORD.sub(lambda word: numbers.get(word[0], str(known.get(word[0], word[0]))), statement)


def module_of(path):
    return "Rattle." + path.removeprefix("crates/").removesuffix(".antt").replace("/", ".")


class Proofs:
    """The definitions, proofs and sources of all crates, and the lemmas among them."""

    def __init__(self):
        paths = (path for path in kit.files("crates", without=("out", "edits")) if path.endswith((".antt", ".rt")))
        self.texts = {path: kit.read(path) for path in paths}
        self.lemmas = {path: definitions(text) for path, text in self.texts.items() if LEMMAS.match(path)}
        self.modules = {module_of(path): path for path in self.lemmas}
        self.uses = {module_of(path): imports(text) for path, text in self.texts.items() if path.endswith(".antt")}
        self.origins = {path: {local: origin(*name, self.uses) for local, name in imports(text).items()}
                        for path, text in self.texts.items()}

    def words(self, path):
        """Each block of a file but `use` lines: its name, and the lemmas that its words may be."""
        known = {local: (self.modules.get(module), name) for local, (module, name) in self.origins[path].items()}
        known.update((name, (path, name)) for name in self.lemmas.get(path, ({},))[0])
        for block in blocks(self.texts[path]):
            if not USE.match(block[0]):
                text = "\n".join(block)
                whole = (origin(*path_of, self.uses) for path_of in WHOLE.findall(text))
                paths = [(self.modules.get(module), name) for module, name in whole]
                yield head_of(block), [*map(known.get, WORD.findall(text)), *paths]

    def cited(self):
        """Where each lemma is cited."""
        found = {(path, name): set() for path, (names, _) in self.lemmas.items() for name in names}
        for path in self.texts:
            for head, words in self.words(path):
                for lemma in words:
                    if lemma in found and lemma != (path, head):
                        found[lemma].add((path, head))
        return found

    def uncited(self):
        cited = self.cited()
        # What only uncited lemmas cite isn't cited.
        live = {lemma for lemma, places in cited.items() if any(place not in cited for place in places)}
        more = live
        while more:
            more = {lemma for lemma, places in cited.items() if lemma not in live and places & live}
            live |= more
        return [f"{path}: nothing cites {name}" for path, name in cited if (path, name) not in live]

    def equal(self):
        same = {}
        for path, (found, equations) in self.lemmas.items():
            for name, statement in found.items():
                if name in equations and not DATA.search(statement):
                    same.setdefault(normal(statement, self.origins[path]), []).append(f"{path}: {name}")
        return ["equal statements: " + ", ".join(places) for places in same.values() if len(places) > 1]

    def wide(self):
        return [f"{path}: a line of {len(line)} columns: {line.strip()[:40]}.."
                for path, text in self.texts.items() if path.endswith(".antt")
                for line in text.split("\n") if len(line) > WIDTH and not UNBROKEN.match(line)]


def main():
    kit.parser(__doc__).parse_args()
    proofs = Proofs()
    faults = [*proofs.uncited(), *proofs.equal(), *proofs.wide()]
    print(*faults, sep="\n", end="\n" if faults else "")
    return 1 if faults else 0


if __name__ == "__main__":
    sys.exit(main())
