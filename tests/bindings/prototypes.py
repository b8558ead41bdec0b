"""Holds what was installed below a folder against the sources and the bindings: prototypes.py FOLDER
Replays canon.sample, lhs.sample and rhs.sample over a program of the calls: prototypes.py --replay PROGRAM
"""
import ctypes
import re
import subprocess
import sys
from pathlib import Path

sys.path.insert(0, str(Path(__file__).resolve().parents[1]))
from helpers import PYTHON, ROOT, add_path, parser, samples

SOURCES, LIBRARY = (ROOT / "crates" / crate / "src" for crate in ("gix_refspec_c", "gix_refspec_text"))
RUST = ROOT / "bindings" / "rust"
MANUAL = ROOT / "docs" / "C.md"
MODULE = PYTHON / "gix_refspec" / "__init__.py"
# What each type of the exported functions is in C. A slice is a pointer and a length, and an allocator is nothing.
IN_C = {
    "Global": [],
    "u32": ["uint32_t"],
    "&[u8]": ["const uint8_t *", "size_t"],
    "&mut [u8]": ["uint8_t *", "size_t"],
    "&mut usize": ["size_t *"],
    "&mut i32": ["int32_t *"],
    "&[Text]": ["const gix_refspec_text *", "size_t"],
    "&[SpecIn]": ["const gix_refspec_spec *", "size_t"],
    "&[RefIn]": ["const gix_refspec_ref *", "size_t"],
    "&mut Text": ["gix_refspec_text *"],
    "&mut Parts": ["gix_refspec_instruction *"],
    "&Parts": ["const gix_refspec_instruction *"],
    "&mut Sides": ["gix_refspec_sides *"],
    "&Sides": ["const gix_refspec_sides *"],
    "&[PairIn]": ["const gix_refspec_pair *", "size_t"],
    "&mut [PairVerdictOut]": ["gix_refspec_pair_verdict *", "size_t"],
    "&mut UpstreamOut": ["gix_refspec_upstream_ref *"],
    "&mut Span": ["gix_refspec_span *"],
    "&mut Made": ["gix_refspec_made *"],
    "&mut [MappingOut]": ["gix_refspec_mapping *", "size_t"],
    "&WishIn": ["const gix_refspec_wish *"],
    "&mut [StaleOut]": ["gix_refspec_stale_ref *", "size_t"],
    "&mut [EffectOut]": ["gix_refspec_effect *", "size_t"],
}
# What each type of the crate gix-refspec-sys is in C.
RUST_IN_C = {
    "u32": "uint32_t",
    "usize": "size_t",
    "*const u8": "const uint8_t *",
    "*mut u8": "uint8_t *",
    "*mut usize": "size_t *",
    "*mut i32": "int32_t *",
    "*const Text": "const gix_refspec_text *",
    "*mut Text": "gix_refspec_text *",
    "*const Spec": "const gix_refspec_spec *",
    "*const Ref": "const gix_refspec_ref *",
    "*mut Parts": "gix_refspec_instruction *",
    "*const Parts": "const gix_refspec_instruction *",
    "*mut Sides": "gix_refspec_sides *",
    "*const Sides": "const gix_refspec_sides *",
    "*const Pair": "const gix_refspec_pair *",
    "*mut PairVerdict": "gix_refspec_pair_verdict *",
    "*mut UpstreamRef": "gix_refspec_upstream_ref *",
    "*mut Span": "gix_refspec_span *",
    "*mut Made": "gix_refspec_made *",
    "*mut Mapping": "gix_refspec_mapping *",
    "*const Wish": "const gix_refspec_wish *",
    "*mut StaleRef": "gix_refspec_stale_ref *",
    "*mut Effect": "gix_refspec_effect *",
}
# The sentences of outcomes that the library has none for.
OF_CALLS = {
    "OK": "The call has its answer.",
    "NO_LIST": "Only a request for all refs is safe.",
    "TOO_SMALL": "The buffer has no room for the answer.",
    "NO_MEMORY": "Memory ran out.",
    "NO_OPERATION": "There is no such operation, direction, kind, mode or outcome.",
    "NEEDS_IDS": "A destination is an object id, and names alone don't tell which refs have it.",
    "IN_CONFLICT": "Several refs would be written to one destination.",
    "MISSING_SOURCE": "The remote lacks the source of a refspec.",
    "INVALID_ID": "An object id has 40 or 64 hexadecimal digits.",
    "OTHER_PARTS": "The source begins with a sign, or the last part has a colon in it.",
}
# The verdicts and origins of the sources whose names in C aren't theirs.
IN_C_NAMED = {
    "Verdict::LeftOut(InvalidSide::Source)": "INVALID_SOURCE",
    "Verdict::LeftOut(InvalidSide::Destination)": "INVALID_DESTINATION",
    "Verdict::LeftOut(InvalidSide::Both)": "INVALID_SIDES",
    "Verdict::InConflict": "CONTESTED",
}


def read(path):
    return path.read_text(encoding="utf-8")


def screaming(name):
    """A name in camel case as C writes it."""
    return re.sub(r"(?<=[a-z])(?=[A-Z])", "_", name).upper()


def exported():
    """The exported functions and the types of their parameters."""
    found = {}
    for path in sorted(SOURCES.glob("*.rt")):
        text = re.sub(r"'(a|static) |<'[a-z_]+(, '[a-z_]+)*>", "", read(path))
        for function, parameters in re.findall(r'extern "C" fn (\w+)\s*\(([^)]*)\) -> u32', text):
            found[function] = [one.split(":")[1].strip() for one in parameters.split(",") if one.strip()]
    return found


def declared(header):
    """The prototypes of the header: names and types of their parameters."""
    found = {}
    for function, parameters in re.findall(r"uint32_t (gix_refspec_\w+)\(([^)]*)\);", re.sub(r"\s+", " ", header)):
        words = [re.fullmatch(r"(.*?)(\w+)", one.strip()) for one in parameters.split(",")]
        found[function] = [(one[2], one[1].strip()) for one in words]
    return found


def declared_in_rust():
    """Those of the crate gix-refspec-sys, in C's types."""
    found = {}
    crate = read(RUST / "gix-refspec-sys" / "src" / "lib.rs")
    for function, parameters in re.findall(r"pub fn (\w+)\(([^)]*)\) -> u32;", crate):
        words = [one.split(":") for one in parameters.split(",") if one.strip()]
        found[function] = [(name.strip(), RUST_IN_C[kind.strip()]) for name, kind in words]
    return found


def globals_of(archive):
    listed = subprocess.run(["nm", "-g", archive], stdout=subprocess.PIPE, check=True, text=True).stdout
    return ({line.split()[-1] for line in listed.splitlines() if " T " in line or " D " in line or " B " in line},
            {line.split()[-1] for line in listed.splitlines() if " U " in line})


def numbers_of(header):
    """The numbers of the header by their names."""
    return {name: int(number) for name, number in re.findall(r"GIX_REFSPEC_([A-Z_]+) = (\d+)", header)}


def numbers():
    """The numbers of sources and bindings, with where they are."""
    for name in ("failure.rt", "locating.rt", "planning.rt"):
        for one, number in re.findall(r"^ +(\w+::\w+(?:\([\w:]+\))?) => (\d+),$", read(SOURCES / name), re.M):
            plain = one.partition("::")[2].partition("(")[0]
            yield name, IN_C_NAMED.get(one, screaming(plain)), int(number)
        for one, number in re.findall(r"const (\w+): u32 = (\d+);", read(SOURCES / name)):
            yield name, one, int(number)
    for one, number in re.findall(r"pub const (\w+): u32 = (\d+);", read(RUST / "gix-refspec-sys" / "src" / "lib.rs")):
        yield "gix-refspec-sys", one, int(number)
    for one, number in re.findall(r"^(?:    |_)([A-Z_]+) = (\d+)$", read(MODULE), re.M):
        yield "the module in Python", one, int(number)


def sentences(in_header):
    """What is to be said of each outcome: the sentence of the library's reason or fault of this name, if it has one."""
    arm = re.compile(r'Error::(\w+)(?: \{ \.\. \})? =>\s*\{?\s*"((?:[^"\\]|\\.)*)"')
    said = {}
    for file, front in (("parsing.rt", ""), ("name.rt", "NAME_")):
        text = read(LIBRARY / file)
        said.update({front + screaming(name): text for name, text in arm.findall(text, text.index("fn explanation"))})
    said.update(OF_CALLS)
    return {number: said[name].replace("\\\\", "\\") for name, number in in_header.items()}


class Text(ctypes.Structure):
    _fields_ = [("bytes", ctypes.c_void_p), ("len", ctypes.c_size_t)]


def told_by(call, *words):
    """The text that a call of the library tells, and the byte behind it."""
    text = Text(ctypes.cast(b"", ctypes.c_void_p), 0)
    if call(*words, ctypes.byref(text)) != 0:
        return None
    told = ctypes.string_at(text.bytes, text.len + 1)
    return told[:-1].decode(), told[-1]


def found(pattern, text):
    """What the group of a pattern is in a text; None where the pattern isn't there."""
    place = re.search(pattern, text, re.M)
    return place and place[1]


def versions(folder, header):
    """The version of the library in each place that tells it."""
    shared = folder / "lib" / "libgix_refspec.so"
    config = read(folder / "lib" / "pkgconfig" / "gix_refspec.pc")
    python, manual = read(MODULE), read(MANUAL)
    parts = re.findall(r"^#define GIX_REFSPEC_VERSION_(?:MAJOR|MINOR|PATCH) (\d+)$", header, re.M)
    told = {
        "gix_refspec.h": found(r'^#define GIX_REFSPEC_VERSION "(.*)"$', header),
        "its numbers": ".".join(parts),
        "gix_refspec.pc": found(r"^Version: (.*)$", config),
        "the name of the file": shared.resolve().name.partition(".so.")[2],
        "docs/C.md": found(r"`libgix_refspec\.so\.(\d+\.\d+\.\d+)`", manual),
        "the module in Python": found(r'^__version__ = "(.*)"$', python),
        "pyproject.toml": found(r'^version = "(.*)"$', read(PYTHON / "pyproject.toml")),
        "the library": told_by(ctypes.CDLL(str(shared)).gix_refspec_version)[0],
    }
    for crate in ("gix-refspec-sys", "refspec"):
        told[f"the crate {crate}"] = found(r'^version = "(.*)"$', read(RUST / crate / "Cargo.toml"))
    told["what refspec depends on"] = found(r'^gix-refspec-sys = .*version = "(.*)"', read(RUST / "refspec" / "Cargo.toml"))
    # Before 1.0 every new minor version may break callers, afterwards every new major version.
    compatible = ".".join(parts[:2] if parts[0] == "0" else parts[:1])
    dynamic = subprocess.run(["readelf", "-d", shared], stdout=subprocess.PIPE, check=True, text=True).stdout
    sonames = {
        "readelf": found(r"\(SONAME\).*\[(.*)\]", dynamic),
        "gix_refspec.pc": found(r"^soname=(.*)$", config),
        "the link": str(shared.readlink()),
        "docs/C.md": found(r"`(libgix_refspec\.so[^`]*)`, which is its soname", manual),
        "the module in Python": found(r'"(libgix_refspec\.so[^"]*)"', python),
        "its README.md": found(r"`(libgix_refspec\.so[^`]*)`", read(PYTHON / "README.md")),
    }
    return told, sonames, f"libgix_refspec.so.{compatible}"


def compare(folder):
    header = read(folder / "include" / "gix_refspec.h")
    functions = {name: [c for one in types for c in IN_C[one]] for name, types in exported().items()}
    prototypes = declared(header)
    defined, wanted = globals_of(folder / "lib" / "libgix_refspec.a")
    if {name: [kind for _, kind in parameters] for name, parameters in prototypes.items()} != functions:
        sys.exit(f"bindings: the header has {prototypes}, not {functions}")
    if declared_in_rust() != prototypes:
        sys.exit(f"bindings: the crate gix-refspec-sys has {declared_in_rust()}, not {prototypes}")
    if defined != set(functions):
        sys.exit(f"bindings: the archive has the global names {defined}")
    if not wanted <= {"malloc", "realloc", "free", "memcpy", "memmove", "memset"}:
        sys.exit(f"bindings: the archive wants {wanted}")
    in_header = numbers_of(header)
    others = [(place, name) for place, name, number in numbers() if in_header.get(name) != number]
    if others:
        sys.exit(f"bindings: the header has other numbers for {others}")
    for binding in ("gix-refspec-sys", "the module in Python"):
        missing = set(in_header) - {name for place, name, _ in numbers() if place == binding}
        if missing:
            sys.exit(f"bindings: {binding} has no name for {sorted(missing)}")
    compare_manual(header, prototypes, in_header)
    print(f"bindings: {len(functions)} prototypes as the functions; the archive wants {', '.join(sorted(wanted))}")


def fields(text):
    """The fields of the structs, by their names."""
    told = {}
    for inner, name in re.findall(r"typedef struct \{(.*?)\} (\w+);", re.sub(r"/\*.*?\*/", "", text, flags=re.S), re.S):
        told[name] = " ".join(inner.split())
    return told


def compare_manual(header, prototypes, in_header):
    """docs/C.md has the prototypes, structs and numbers of the header. tools/claims.py compares the programs that it quotes."""
    manual = read(MANUAL)
    if declared(manual) != prototypes:
        sys.exit(f"bindings: docs/C.md has the prototypes {declared(manual)}, not {prototypes}")
    if fields(manual) != fields(header):
        sys.exit(f"bindings: docs/C.md has the structs {fields(manual)}, not {fields(header)}")
    told = numbers_of(manual)
    if told != in_header:
        sys.exit(f"bindings: docs/C.md has other numbers: {sorted(set(told.items()) ^ set(in_header.items()))}")


def compare_sentences(folder):
    header = read(folder / "include" / "gix_refspec.h")
    outcomes = re.search(r"enum \{\s*GIX_REFSPEC_OK = 0,.*?\}", header, re.S)[0]
    wanted = sentences(numbers_of(outcomes))
    library = ctypes.CDLL(str(folder / "lib" / "libgix_refspec.so"))
    for outcome, sentence in wanted.items():
        told = told_by(library.gix_refspec_explanation, ctypes.c_uint32(outcome))
        if told != (sentence, 0):
            sys.exit(f"bindings: outcome {outcome} is told as {told}, not {sentence!r} and a NUL")
    print(f"bindings: {len(wanted)} sentences, {len(wanted) - len(OF_CALLS)} of them those of gix_refspec_text")


def compare_versions(folder):
    told, sonames, soname = versions(folder, read(folder / "include" / "gix_refspec.h"))
    if len(set(told.values())) != 1:
        sys.exit(f"bindings: the version is told as {told}")
    if set(sonames.values()) != {soname}:
        sys.exit(f"bindings: the soname is told as {sonames}, not {soname}")
    print(f"bindings: version {told['gix_refspec.h']} in {len(told)} places, and soname {soname} in {len(sonames)}")


def replay(program):
    cases = list(samples.texts())
    for operation in ("fetch", "push"):
        alike = [case for case in cases if case.operation == operation]
        given = b"".join(case.given + b"\n" for case in alike)
        made = subprocess.run([program, "canon", operation], input=given, stdout=subprocess.PIPE, check=False)
        answers = made.stdout.split(b"\n")
        for case, told in zip(alike, answers):
            if told != case.answer:
                sys.exit(f"bindings: {operation} {case.given!r} is answered {told!r}, not {case.answer!r}")
        if len(answers) != len(alike) + 1:
            sys.exit(f"bindings: {len(answers) - 1} answers to {len(alike)} texts")
    print(f"bindings: {len(cases)} stored texts, answered as stored")
    for command in ("lhs", "rhs"):
        replay_groups(program, command)


def replay_groups(program, command):
    """Groups with a line that is refused are left out, and those that look back for an id."""
    count = left_out = 0
    for group in samples.groups(f"{command}.sample"):
        if not group.given:
            continue
        if group.answer.startswith(b"line "):
            left_out += 1
            continue
        made = subprocess.run([program, command], input=group.given, stdout=subprocess.PIPE, check=False).stdout
        if made == b"outcome 21\n" and command == "rhs":
            left_out += 1
        elif made != group.answer:
            sys.exit(f"bindings: {command} of {group.given!r} is answered {made!r}, not {group.answer!r}")
        else:
            count += 1
    print(f"bindings: {count} stored groups for {command}, answered as stored; left out are {left_out} that are refused,"
          " or ask back for an id")


def main():
    arguments = parser(__doc__)
    add_path(arguments, "folder", nargs="?")
    add_path(arguments, "--replay")
    options = arguments.parse_args()
    if options.replay:
        replay(options.replay)
    elif options.folder:
        for comparison in (compare, compare_versions, compare_sentences):
            comparison(options.folder)
    else:
        arguments.error("a folder, or --replay and a program")


if __name__ == "__main__":
    main()
