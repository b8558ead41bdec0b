#!/usr/bin/env python3
"""Measures this project and the original crate in turns, on the same inputs, and prints ratios: ours to the
original's. FOLDER is where the original was built by cargo: it has target/release/refspec_rust, a program with the
words of ours, and the crate beside it.

Of each run the two processor times (user and system) give a ratio. The median of these is printed, with the least and
the most, and then the median times. Peaks are the most memory that was held at once: what was resident for a program,
and for matching the bytes of the blocks, beyond the specs and the names.

With `--instructions`, and where valgrind is installed, callgrind counts the instructions of one run of a program, or of
one parsing or matching too, which doesn't depend on what else the machine does. That is some fifty times as slow as the run.

The inputs are made from a fixed seed. For `canon` they are 20,000 lines of some 40 bytes, of realistic specs, and for
`program`, which runs `lhs`, `rhs` and `plan`, one pattern and 10,000 refs with hashes as their ids. Parsing, printing,
matching and validation are timed within one process, which links the original and the archive of `gix_refspec_bench`, built
by `rt lib` there.

With `--plot FILE` the times that a validation adds are drawn over the number of sources, as SVG.

For `refspec`, `refspec plan` with three specs is measured against `sort` over the same 200,000 lines, as `git ls-remote`
prints refs; both run with LC_ALL=C. The original has no part in it.
"""
import argparse
import glob
import hashlib
import math
import os
import re
import shutil
import statistics
import subprocess
import sys
import tempfile

sys.dont_write_bytecode = True
HERE = os.path.dirname(os.path.abspath(__file__))
sys.path.insert(0, os.path.join(HERE, os.pardir, "oracle"))
import names  # beside this script
import original as programs  # in tools/oracle, as the next but one
import plot  # beside this script
import specs

CRATES = os.path.join(HERE, os.pardir, os.pardir, "crates")
PROGRAM = os.path.join(CRATES, "refspec_map", "out", "refspec_map")
REFSPEC = os.path.join(CRATES, "refspec", "out", "refspec")
ARCHIVE = os.path.join(CRATES, "gix_refspec_bench", "out", "libgix_refspec_bench.a")
KINDS = ("canon", "program", "parsing", "matching", "refspec")
PROGRAMS = {"canon", "program"}
IN_PROCESS = {"parsing", "matching"}
LIBRARIES = ("gix_refspec", "gix_hash", "bstr")
# How many specs are parsed in a turn, what kinds of them, and of how many bytes.
SPECS = 10_000
TEXTS = ("names", "patterns", "refused")
BYTES = (8, 41, 200, 1_000)
# As long as a spec can be expected to be at the most.
MEGABYTE = 1_000_000
# How many refs the program is given.
REFS = 10_000
# How many refs `refspec plan` and `sort` are given.
LISTED_REFS = 200_000
# How much is matched in a run, so that it takes long enough to be timed.
REFS_A_RUN = 400_000
# The same where the original takes long.
SLOW_REFS_A_RUN = 50_000
SIZES = (1_000, 2_000, 5_000, 10_000)
SOURCES = (2_000, 8_000, 32_000)
# How often the original is measured where it takes seconds.
SLOW_RUNS = 5
# How many full names are asked for, of ten times as many refs.
FULL_NAMES = (500, 1_000, 2_000, 4_000)


class Original:
    """What is needed of the folder in which the original was built."""

    def __init__(self, folder):
        self.release = os.path.join(folder, "target", "release")
        self.program = os.path.join(self.release, "refspec_rust")

    def library(self, name):
        """The file of a library: beside the programs, or among what they depend on."""
        found = glob.glob(os.path.join(self.release, f"lib{name}.rlib"))
        found += glob.glob(os.path.join(self.release, "deps", f"lib{name}-*.rlib"))
        return found[0] if found else None

    def missing(self, kinds):
        files = []
        if PROGRAMS & set(kinds) and not os.path.exists(self.program):
            files.append("refspec_rust")
        if IN_PROCESS & set(kinds):
            files += [f"lib{name}.rlib" for name in LIBRARIES if not self.library(name)]
        return [f"{name} in {self.release}" for name in files]


def kit_allocator():
    """The kit's archive of C functions, which has the three that allocate."""
    command = shutil.which("rt")
    return command and os.path.join(os.path.dirname(os.path.realpath(command)), "..", "c", "liblibc_c.a")


def all_missing(original, kinds, instructions):
    """What is missing for measures of these kinds."""
    missing = original.missing(kinds)
    if instructions and not shutil.which("valgrind"):
        missing.append("the command valgrind")
    if PROGRAMS & set(kinds) and not os.path.exists(PROGRAM):
        missing.append("crates/refspec_map/out/refspec_map, by `make build`")
    if "refspec" in kinds and not os.path.exists(REFSPEC):
        missing.append("crates/refspec/out/refspec, by `make build`")
    if IN_PROCESS & set(kinds):
        if not os.path.exists(ARCHIVE):
            missing.append("crates/gix_refspec_bench/out/libgix_refspec_bench.a, by `rt lib` in crates/gix_refspec_bench")
        if not shutil.which("rt"):
            missing.append("the command rt")
    if not shutil.which("rustc"):
        missing.append("the command rustc")
    return missing


def text_of(lines):
    return b"".join(line + b"\n" for line in lines)


def write(path, text):
    with open(path, "wb") as file:
        file.write(text)
    return path


def shown(ratio):
    """A ratio, with as many digits as it takes to tell it from none."""
    return f"{ratio:.2f}" if ratio >= 0.1 else f"{ratio:.5f}"


def instructions(words, text=None):
    """How many instructions callgrind counts in a run, which reads a file."""
    command = ["valgrind", "--tool=callgrind", "--callgrind-out-file=/dev/null", *words]
    with open(text or os.devnull, "rb") as given:
        made = subprocess.run(command, stdin=given, stdout=subprocess.DEVNULL, stderr=subprocess.PIPE, check=False)
    counted = re.search(rb"Collected : (\d+)", made.stderr)
    if not counted:
        sys.exit("bench: callgrind counted nothing: " + " ".join(words))
    return int(counted.group(1))


def report(name, times, peaks, unit, counts=None):
    """Prints the figures of a measure; times are in milliseconds. Returns the median of ours and of the original's."""
    ratios = sorted(ours / theirs for ours, theirs in times)
    our_time, their_time = (statistics.median(column) for column in zip(*times))
    ours, theirs = peaks
    peak = f"{ours / theirs:.2f}, " if theirs else ""
    print(f"{name}: time {shown(statistics.median(ratios))} ({shown(ratios[0])} to {shown(ratios[-1])}),"
          f" {our_time:.3f} ms to {their_time:.3f} ms; peak {peak}{ours} {unit} to {theirs} {unit}"
          + (f"; instructions {shown(counts[0] / counts[1])}, {counts[0]} to {counts[1]}" if counts else ""),
          flush=True)
    return our_time, their_time


def rustc(source, output, *words):
    """Builds a program of this folder."""
    command = ["rustc", "--edition", "2021", "-C", "opt-level=3", "-o", output, os.path.join(HERE, source)]
    subprocess.run([*command, *words], check=True)
    return output


def processor_time(program, words, path):
    """That of one run, in milliseconds; the start is part of it."""
    with open(path, "rb") as text:
        child = subprocess.Popen([program, *words], stdin=text, stdout=subprocess.DEVNULL)
        _, status, used = os.wait4(child.pid, 0)
    child.returncode = os.waitstatus_to_exitcode(status)
    if child.returncode not in (0, 1):
        sys.exit(f"bench: {program} {' '.join(words)}: status {child.returncode}")
    return (used.ru_utime + used.ru_stime) * 1000


def measure_program(original, folder, options, words, text):
    """Measures both programs with these words, in turns on one input."""
    commands = [[PROGRAM, *words], [original.program, *words]]
    measure_commands_on(folder, options, f"{' '.join(words)}, {len(text)} bytes", commands, text)


def measure_commands_on(folder, options, name, commands, text):
    """Measures two commands, in turns on one input."""
    peak = rustc("peak.rs", os.path.join(folder, "peak"))
    path = write(os.path.join(folder, "lines"), text)
    times, peaks = [], []
    for run in range(options.runs):
        turns = [0, 1] if run % 2 else [1, 0]
        done = {turn: processor_time(commands[turn][0], commands[turn][1:], path) for turn in turns}
        times.append([done[0], done[1]])
    for command in commands:
        with open(path, "rb") as given:
            peaks.append(int(subprocess.run([peak, *command], stdin=given, check=True, stdout=subprocess.PIPE).stdout))
    counts = [instructions(command, path) for command in commands] if options.instructions else None
    report(name, times, peaks, "KiB", counts)


def measure_listed(folder, options):
    """Measures `refspec plan` of refs as `git ls-remote` prints them, and `sort` over the same lines."""
    os.environ["LC_ALL"] = "C"
    listed = names.advertised(LISTED_REFS, options.seed)
    text = text_of(b"%s\t%s" % (hashlib.sha1(name).hexdigest().encode(), name) for name in listed)
    specs_of_plan = ["+refs/heads/*:refs/remotes/origin/*", "refs/tags/*:refs/tags/*", "^refs/heads/wip/*"]
    commands = [[REFSPEC, "plan", *specs_of_plan], [shutil.which("sort")]]
    measure_commands_on(folder, options, f"refspec plan to sort, {LISTED_REFS} refs, {len(text)} bytes", commands, text)


def measure_canon(original, folder, options):
    text = text_of(specs.realistic(options.lines, options.seed))
    for operation in ("fetch", "push"):
        measure_program(original, folder, options, ["canon", operation], text)


def measure_commands(original, folder, options):
    """Measures what matches in the program: the specs of `rhs` have their sides swapped, so that the same names match."""
    refs = [b"ref %s %s" % (hashlib.sha1(name).hexdigest().encode(), name) for name in names.advertised(REFS, options.seed)]
    swapped = names.swapped(names.ONE_PATTERN)
    for word, lines in (("lhs", names.ONE_PATTERN), ("rhs", swapped), ("plan", names.ONE_PATTERN)):
        text = text_of([b"spec " + spec for spec in lines] + refs)
        measure_program(original, folder, options, [word], text)


def build_matching(original, folder, counting):
    """Builds the program that times matching, or the one that counts its memory."""
    words = ["-L", "dependency=" + os.path.join(original.release, "deps"), "-C", "link-arg=" + ARCHIVE]
    for name in LIBRARIES:
        words += ["--extern", f"{name}={original.library(name)}"]
    words += ["--cfg", "counting"] if counting else ["-C", "link-arg=" + kit_allocator()]
    return rustc("matching.rs", os.path.join(folder, "counting" if counting else "matching"), *words)


def numbers(command):
    """The numbers in each line that a command writes."""
    output = subprocess.run(command, check=True, stdout=subprocess.PIPE, text=True).stdout
    return [[int(word) for word in line.split()] for line in output.splitlines()]


class Matching:
    """Measures of matching, whose inputs and programs are in a folder."""

    def __init__(self, original, folder, options):
        self.folder = folder
        self.runs = options.runs
        self.wanted = options.rows
        self.counts = options.instructions
        self.medians = {}  # of both, by the name of a measure
        self.timing = build_matching(original, folder, False)
        self.counting = build_matching(original, folder, True)

    def measure(self, name, spec_lines, ref_names, work="match", per_run=REFS_A_RUN, runs=None):
        """Returns the median of our times, or None where the measure isn't wanted."""
        if self.wanted and self.wanted not in name:
            return None
        runs = runs or self.runs
        files = [
            write(os.path.join(self.folder, "specs"), text_of(spec_lines)),
            write(os.path.join(self.folder, "names"), text_of(ref_names)),
        ]
        [[our_peak, our_count, peak, count]] = numbers([self.counting, work, *files, "1", "1"])
        if our_count != count:
            print(f"{name}: {our_count} results, but {count} of the original")
        times = max(1, per_run // max(len(ref_names), len(spec_lines)))
        taken = numbers([self.timing, work, *files, str(times), str(runs + 1)])[1:]  # the first one warms up
        counts = [self.counted(work, files, side) for side in ("ours", "theirs")] if self.counts else None
        self.medians[name] = report(name, [[ns / 1e6 for ns in run] for run in taken], (our_peak, peak), "bytes", counts)
        return self.medians[name][0]

    def measure_both(self, name, spec_lines, ref_names, **how):
        """The same, from left to right and then from right to left, with the sides of the specs swapped, so that the
        same names match."""
        taken = self.measure(name, spec_lines, ref_names, **how)
        self.measure(f"right to left: {name}", names.swapped(spec_lines), ref_names, "reverse", **how)
        return taken

    def counted(self, work, files, side):
        """The instructions of one time of the work, without the reading; of a validation what it adds to matching."""
        none, once = (instructions([self.timing, work, *files, times, side]) for times in ("0", "1"))
        return once - none - (self.counted("match", files, side) if work == "validate" else 0)


def measure_parsing(matching, seed):
    """Measures parsing, and parsing and printing: of specs as in configurations, and of others of several lengths."""
    realistic = list(specs.realistic(SPECS, seed))
    for operation in (b"fetch", b"push"):
        for work, what in (("parse", "parse"), ("print", "parse and print")):
            matching.measure(f"{what} for a {operation.decode()}, specs of some 40 bytes", realistic, [operation], work)
    for size in BYTES:
        for kind in TEXTS:
            texts = list(specs.sized(kind, size, SPECS, seed))
            matching.measure(f"parse, {kind} of {size} bytes", texts, [b"fetch"], "parse", per_run=20 * SPECS)
    stars = [b"*" * MEGABYTE]
    matching.measure("parse, a megabyte of stars", stars, [b"fetch"], "parse", per_run=20)
    matching.measure("parse, a pattern of a megabyte", [b"a" * MEGABYTE + b"/*"], [b"fetch"], "parse", per_run=20)


def measure_matching(matching, seed):
    for count in (10_000, 100_000):
        matching.measure_both(f"one pattern, {count} refs", names.ONE_PATTERN, names.advertised(count, seed))
    matching.measure_both("three patterns and two negative specs, 100000 refs", names.WITH_NEGATIVES,
                          names.advertised(100_000, seed))
    matching.measure_both("one pattern, 100000 refs, each ten times", names.ONE_PATTERN,
                          names.repeated(100_000, 10, seed))


def told_growth(what, growth):
    """Says how a time grows: each size comes with a time for each unit of work, or None where it wasn't taken."""
    growth = [(size, share) for size, share in growth if share]
    if not growth:
        return
    steps = ", ".join(f"{size} {share / growth[0][1]:.2f}" for size, share in growth)
    print(f"our time by {what}, as a part of the first: {steps}")


def measure_colliding(matching, path):
    """Measures more and more of the names, and how our time grows."""
    all_names = names.in_file(path)
    growth = []
    for count in [size for size in SIZES if size <= len(all_names)]:
        taken = matching.measure_both(f"{count} colliding names", names.UNFORCED, all_names[:count])
        growth.append((count, taken and taken / (count * math.log(count))))
    told_growth("n log n", growth)


def measure_lookups(matching, seed):
    """Measures full and partial names, for each of which the original goes through all refs, and how our time grows
    with the names and the refs."""
    many, few = names.advertised(100_000, seed), names.advertised(10_000, seed)
    matching.measure_both("one full name, 100000 refs", names.ONE_NAME, many)
    matching.measure_both("one pattern, three full names and a tag, 100000 refs", names.USUAL, many)
    matching.measure_both("100 full names, 10000 refs", names.full(few, 100, seed), few, per_run=SLOW_REFS_A_RUN)
    matching.measure_both("100 partial names, 10000 refs", names.partial(few, 100, seed), few, per_run=SLOW_REFS_A_RUN)
    half = many[:50_000]
    matching.measure_both("5000 full names, 50000 refs", names.full(half, 5_000, seed), half, per_run=1, runs=SLOW_RUNS)
    growth = []
    for count in FULL_NAMES:
        refs = many[:10 * count]
        taken = matching.measure(f"{count} full names, {10 * count} refs", names.full(refs, count, seed), refs,
                                 per_run=1, runs=SLOW_RUNS)
        growth.append((count, taken and taken / count))
    told_growth("n", growth)


def measure_many(matching, seed):
    """Measures many patterns, and many negative specs."""
    many, few = names.advertised(50_000, seed), names.advertised(10_000, seed)
    for count in (10, 100, 1_000):
        matching.measure_both(f"{count} patterns, 10000 refs", names.patterns(count), few,
                              per_run=10 * REFS_A_RUN // count)
    for count in (1_000, 5_000):
        matching.measure_both(f"{count} negative names, 50000 refs", names.without(many, count, seed), many, per_run=1,
                              runs=SLOW_RUNS)


def measure_hostile(matching, seed):
    """Measures what a server may list to make a client slow or large: names again and again, or as long as those that
    are asked for."""
    name = b"refs/heads/main"
    twenty = [b"refs/heads/*:refs/x/%d/*" % number for number in range(20)]
    matching.measure_both("20 patterns, one name 100000 times", twenty, [name] * 100_000, per_run=SLOW_REFS_A_RUN)
    each = [name + b":refs/x/%d" % number for number in range(100)]
    matching.measure_both("100 specs of one full name, 10000 times", each, [name] * 10_000, per_run=SLOW_REFS_A_RUN)
    matching.measure_both("2000 specs of one full name, 2000 times",
                          [name + b":refs/x/%d" % number for number in range(2_000)], [name] * 2_000, per_run=1,
                          runs=SLOW_RUNS)
    branches = [b"refs/heads/b%d" % number for number in range(1_000)]
    matching.measure_both("100 equal specs, 1000 refs", names.UNFORCED * 100, branches, per_run=SLOW_REFS_A_RUN)
    matching.measure_both("one full name, 100000 refs as long", names.ONE_NAME, names.as_long_as(name, 100_000, seed))
    matching.measure_both("10 full and 10 partial names of 100 kB, 1000 refs", names.long_names(10, 100_000, seed),
                          branches, per_run=1, runs=SLOW_RUNS)


def name_of_sources(count):
    return f"validation of {count} sources of one destination"


def measure_validation(matching, seed):
    """What a validation adds to matching: of many mappings that may stay, and of more and more sources of one
    destination, and how our time for these grows."""
    matching.measure("validation of 70000 mappings", names.ONE_PATTERN, names.advertised(100_000, seed), "validate")
    growth = []
    for count in SOURCES:
        taken = matching.measure(name_of_sources(count), names.to_one_destination(count),
                                 [b"refs/heads/main"], "validate", SOURCES[-1])
        growth.append((count, taken and taken / count ** 1.2))
    told_growth("n ** 1.2", growth)


def plot_validation(path, rows):
    """Draws rows of a number of sources, our time and the original's."""
    write(path, plot.svg("Time of a validation, on logarithmic axes", "sources of one destination", rows).encode())


def plot_measured(path, medians):
    rows = [(count, *medians[name_of_sources(count)]) for count in SOURCES if name_of_sources(count) in medians]
    if not rows:
        sys.exit("bench: nothing to plot: no validation was measured")
    plot_validation(path, rows)


def main():
    parser = argparse.ArgumentParser(description=__doc__, formatter_class=argparse.RawDescriptionHelpFormatter)
    parser.add_argument("folder", metavar="FOLDER")
    parser.add_argument("--runs", type=int, default=25)
    parser.add_argument("--lines", type=int, default=20_000, help="of the inputs of canon")
    parser.add_argument("--seed", type=int, default=1)
    parser.add_argument("--only", choices=KINDS)
    parser.add_argument("--rows", metavar="TEXT", help="only the measures within the process whose names have this text")
    parser.add_argument("--instructions", action="store_true", help="count instructions too, by callgrind")
    parser.add_argument("--plot", metavar="FILE", help="draw the times of a validation as SVG")
    parser.add_argument("--colliding", metavar="FILE", help="names of branches whose hashes collide, one in each line")
    options = parser.parse_args()

    kinds = [options.only] if options.only else KINDS
    original = Original(options.folder)
    missing = all_missing(original, kinds, options.instructions)
    if missing:
        sys.exit(f"bench: missing: {'; '.join(missing)}; {programs.HOW}")
    with tempfile.TemporaryDirectory() as folder:
        if "canon" in kinds:
            measure_canon(original, folder, options)
        if "program" in kinds:
            measure_commands(original, folder, options)
        if "refspec" in kinds:
            measure_listed(folder, options)
        if IN_PROCESS & set(kinds):
            matching = Matching(original, folder, options)
        if "parsing" in kinds:
            measure_parsing(matching, options.seed)
        if "matching" in kinds:
            measure_matching(matching, options.seed)
            measure_lookups(matching, options.seed)
            measure_many(matching, options.seed)
            measure_hostile(matching, options.seed)
            measure_validation(matching, options.seed)
            if options.colliding:
                measure_colliding(matching, options.colliding)
        if options.plot:
            plot_measured(options.plot, matching.medians if IN_PROCESS & set(kinds) else {})


if __name__ == "__main__":
    main()
