#!/usr/bin/env python3
"""Gives random bytes and mutations of good inputs to all five commands of a program, until something is wrong:

    tools/oracle/fuzz.py PROGRAM [--inputs N] [--seed S] [--jobs J] [--keep FOLDER]

Six inputs in ten are texts. Each is given to both canon commands, with others in one process. The rest are groups
of specs and refs. Each is given to `lhs`, `rhs` and `plan`, in a process of its own.

It stops at a signal; at a status other than 0, 1 and 3, or one that doesn't fit the input; at a run of more than a
second of processor time; at an answer without the form that man/refspec_map.1 states; and where a canonical text isn't
printed again as it is, or a plan isn't made of what `lhs` maps. It then keeps the input. It ends with counts. One seed and number of inputs always give the same inputs.
"""
import argparse
import collections
import glob
import multiprocessing
import os
import random
import re
import resource
import sys

sys.dont_write_bytecode = True
import groups  # beside this script, as the next four
import known
import original
import specs
from processes import Failed, Program

LIMIT = original.LIMIT
# Of processor time, and on the clock, where other programs may delay a run.
SECONDS = 1
SECONDS_ON_THE_CLOCK = 120
# An output may have so many bytes.
ROOM = 1 << 30
# A match call looks at each ref for each pattern. So a group whose pairs of a spec and a ref have more bytes may
# take a second by its size alone, and isn't given.
PAIRED = 16_000_000
# Inputs that are made from one chooser, and how many of these are texts.
SHARE, TEXTS = 500, 300
CANON = ("canon fetch", "canon push")
MATCHING = ("lhs", "rhs", "plan")
REASONS = b"""Empty NegativeWithDestination NegativeEmpty NegativeObjectHash NegativePartialName
    NegativeGlobPattern InvalidFetchDestination PushToEmpty PatternUnsupported PatternUnbalanced
    ReferenceName""".split()
# What is counted.
COUNTED = ("inputs", "lines", "runs of status 0", "runs of status 1", "runs of status 3", "refused", "mappings",
           "fixes", "conflicts")
ID = rb"(?:[0-9a-fA-F]{40}|[0-9a-fA-F]{64})"
FORM = re.compile(rb"(?s:spec (?P<spec>.*)|(?:ref|tag %s) %s (?P<name>.*))" % (ID, ID))
LOWER_ID = re.compile(rb"[0-9a-f]{40}|[0-9a-f]{64}")

# What random inputs are made of, and what is put into good ones: what often leaves them good, and what doesn't.
SYNTAX = b"+^:*@/.{}[]~?\\ -aAbH0189fF\t\r\x00\n"
WORDS = [b"spec ", b"ref ", b"tag ", b"\n", b" ", b"1" * 40, b"a" * 64, b"refs/heads/", b"refs/", b":", b"*", b"^",
         b"+", b"a"]
MILD = [b"a", b"b", b"x/", b"/", b"*", b"-", b"1", b"\xc3\xa9", b"\xff", b"HEAD", b"@", b"main", b"refs/heads/",
        b"refs/", b":", b"+"]
ODD = [b"\x00", b"\r", b"\r\n", b"\t", b"\n", b"\xff", b"\xc3", b"\xed\xa0\x80", b"\xf4\x90\x80\x80", b"\x7f",
       b" ", b"  "]
HEX = b"0123456789abcdefABCDEF"
# How many blanks part the fields of a line.
BLANKS = {b"spec": 1, b"ref ": 2, b"tag ": 3}


def lines_of(text):
    """The lines; a newline at the end begins no further one."""
    lines = text.split(b"\n")
    return lines[:-1] if lines[-1] == b"" else lines


# Random bytes and changes

def random_bytes(random_):
    size = int(2 ** random_.uniform(0, 9))
    kind = random_.randrange(4)
    if kind == 0:
        return random_.randbytes(size)
    if kind == 1:
        return bytes(random_.choices(SYNTAX, k=size))
    if kind == 2:
        most = random_.choice([0x7f, 0x7ff, 0xd7ff, 0x10ffff])
        return "".join(chr(random_.randint(0, most)) for _ in range(size)).encode("utf-8", "replace")
    return b"".join(random_.choices(WORDS, k=size // 4 + 1))


def span(random_, text):
    """The ends of a part, for the most part a short one."""
    start = random_.randint(0, len(text))
    return start, min(len(text), start + random_.choice([1, 1, 1, 2, 4, 16, len(text)]))


def part_of(random_, text):
    start, end = span(random_, text)
    return text[start:end]


def flipped(random_, part):
    return bytes(byte ^ 1 << random_.randrange(8) for byte in part)


def other_digits(random_, part):
    return bytes(random_.choice(HEX) if byte in HEX else byte for byte in part)


# What may stand in place of a part of a text: mild changes, which often leave it good, and others.
CHANGES = [
    lambda random_, part, other: b"",
    lambda random_, part, other: part + part,
    lambda random_, part, other: part[1:] + part[:1],
    lambda random_, part, other: part[len(part) // 2:] + part[:len(part) // 2],
    lambda random_, part, other: part + random_.choice(MILD),
    lambda random_, part, other: random_.choice(MILD),
    lambda random_, part, other: part_of(random_, other),
    lambda random_, part, other: other_digits(random_, part),
    lambda random_, part, other: part.swapcase(),
]
HARSH = CHANGES + [
    lambda random_, part, other: flipped(random_, part),
    lambda random_, part, other: part + random_.choice(ODD),
    lambda random_, part, other: random_.choice(ODD),
    lambda random_, part, other: part + random_.randbytes(random_.randint(1, 4)),
    lambda random_, part, other: part + random_bytes(random_),
    lambda random_, part, other: part * random_.choice([3, 50, 2000]),
]


def changed(random_, text, other, changes):
    """A text with one change."""
    start, end = span(random_, text)
    before, part, behind = text[:start], text[start:end], text[end:]
    if random_.random() < 0.08:
        return random_.choice([before, part + behind, text + other, before + part_of(random_, other)])
    return before + random_.choice(changes)(random_, part[:500], other) + part[500:] + behind


def sides_changed(random_, text, other):
    """A spec with its sides in another order, or with another's."""
    mine, others = text.split(b":"), other.split(b":")
    mine[random_.randrange(len(mine))] = random_.choice(mine + others)
    if random_.random() < 0.5:
        random_.shuffle(mine)
    return b":".join(mine)


def text_changed(random_, text, other):
    for _ in range(random_.randint(1, 3)):
        if random_.random() < 0.2:
            text = sides_changed(random_, text, other)
        else:
            text = changed(random_, text, other, random_.choice([CHANGES, HARSH]))
    return text


def field_changed(random_, group, other):
    """A group with another field in one of its lines, which for the most part keeps its form."""
    lines = group.split(b"\n")
    at = random_.randrange(len(lines))
    fields = lines[at].split(b" ", BLANKS.get(lines[at][:4], 0))
    place = random_.choice([-1, -1, -1, random_.randrange(len(fields))])
    lent = random_.choice((group + other).split(b"\n")).rsplit(b" ", 1)[-1]
    kind = random_.random()
    if kind < 0.3:
        new = lent
    elif kind < 0.5:
        new = random_.choice(groups.sides(lent) + groups.sides(fields[place]))
    elif kind < 0.6:
        new = sides_changed(random_, fields[place], lent)
    else:
        harsh = lines[at][:4] in (b"ref ", b"tag ") or kind > 0.95
        new = changed(random_, fields[place], lent, HARSH if harsh else CHANGES)
    fields[place] = new.replace(b"\n", b"\r")
    lines[at] = b" ".join(fields)
    return b"\n".join(lines)


def lines_changed(random_, group, other):
    """A group with its lines in another order, with some of them often, or with another's."""
    lines = group.split(b"\n")
    one, two = random_.randrange(len(lines)), random_.randrange(len(lines))
    kind = random_.randrange(6)
    if kind == 0:
        lines[one], lines[two] = lines[two], lines[one]
    elif kind == 1:
        del lines[one]
    elif kind == 2:
        lines[one:one] = [lines[two]] * random_.choice([1, 1, 2, 20, 300])
    elif kind == 3:
        lines[one:one] = [random_.choice(other.split(b"\n"))]
    elif kind == 4:
        lines[one:one] = other.split(b"\n")[:-1]
    else:
        return group.removesuffix(b"\n")
    return b"\n".join(lines)


def group_changed(random_, group, other):
    most = random_.choice([0.7, 0.7, 1.0])
    for _ in range(random_.randint(1, 5)):
        kind = random_.uniform(0, most)
        if kind < 0.5:
            group = field_changed(random_, group, other)
        elif kind < 0.7:
            group = lines_changed(random_, group, other)
        else:
            group = changed(random_, group, other, HARSH)
    return group


# Long inputs

def long_size(random_):
    return random_.choice([LIMIT - 1, LIMIT, LIMIT + 1, random_.randint(LIMIT // 10, LIMIT), LIMIT + 5000])


def long_text(random_, text):
    """The same again and again, in one line or in many."""
    unit = text[:4000] + random_.choice([b"", b"\n", b"/", b":"]) or b"a"
    size = long_size(random_)
    return (unit * (size // len(unit) + 1))[:size]


def long_group(random_, group):
    """A group with many equal lines, with many refs or specs, or with one long name."""
    size, more = long_size(random_), b""
    group = group[:size // 2] + b"\n" * (not group.endswith(b"\n"))
    room = size - len(group) - 100
    kind = random_.randrange(4)
    if kind == 0:
        line = random_.choice(lines_of(group)) + b"\n"
        more = line * (room // len(line))
    elif kind == 1:
        more = b"".join(b"ref %s refs/heads/%d\n" % (groups.ZERO, number) for number in range(room // 70))
    elif kind == 2:
        more = b"".join(b"spec refs/heads/%d:refs/x/%d\n" % (number, number) for number in range(room // 50))
    more += b"ref %s refs/heads/" % groups.ZERO
    text = group + more + b"a" * (size - len(group) - len(more))
    return text[:-1] + random_.choice([b"a", b"\n"])


# Inputs

def plain(field):
    return re.sub(rb"\\x([0-9a-f]{2})", lambda found: bytes([int(found[1], 16)]), field)


def stored_samples():
    """The texts and the groups of the samples of tests."""
    texts, blocks = [], []
    for path in sorted(glob.glob(os.path.join(specs.HERE, os.pardir, os.pardir, "tests", "samples", "*.sample"))):
        with open(path, "rb") as file:
            text = file.read()
        if os.path.basename(path) == "canon.sample":
            texts += [plain(line.split(b"\t")[1]) for line in lines_of(text) if not line.startswith(b"#")]
        else:
            given = [re.findall(rb"(?m)^< (.*\n)", block + b"\n") for block in text.split(b"\n\n")]
            blocks += [b"".join(map(plain, lines)) for lines in given if lines]
    return texts, blocks


def paired(text):
    """How many bytes all pairs of a spec and a ref have."""
    lines = text.split(b"\n")
    specs_ = [len(line) for line in lines if line.startswith(b"spec ")]
    refs = [len(line) for line in lines if line.startswith((b"ref ", b"tag "))]
    return sum(specs_) * len(refs) + len(specs_) * sum(refs)


class Inputs:
    """What inputs are made from."""

    def __init__(self):
        texts, blocks = stored_samples()
        self.texts, self.small_texts = [*specs.rows(), *texts, *specs.REAL], [*specs.generated(0, 0)]
        self.groups, self.small_groups = [*groups.rows(), *blocks], [*groups.small()]

    def good_text(self, random_):
        kind = random_.random()
        if kind < 0.4:
            return random_.choice(self.texts if kind < 0.3 else self.small_texts)
        return specs.built(random_) if kind < 0.7 else specs.mutated(random_)

    def good_group(self, random_):
        kind = random_.random()
        if kind < 0.3:
            return random_.choice(self.groups if kind < 0.25 else self.small_groups)
        return groups.group(random_)

    def text(self, random_):
        """A line, for the most part; with newlines it has several."""
        kind, text = random_.random(), self.good_text(random_)
        if kind < 0.0005:
            return long_text(random_, text)
        if kind < 0.15:
            return random_bytes(random_)
        if kind < 0.85:
            text = text_changed(random_, text, self.good_text(random_))
        return (text + b"\n") * random_.randint(2, 200) if kind > 0.995 else text

    def one_group(self, random_):
        kind, group = random_.random(), self.good_group(random_)
        if kind < 0.0007:
            return long_group(random_, group)
        if kind < 0.08:
            return random_bytes(random_)
        if kind < 0.14:
            return b"".join(b"spec %s\n" % self.text(random_) for _ in range(random_.randint(1, 3))) + group
        if kind < 0.85:
            group = group_changed(random_, group, self.good_group(random_))
        return group

    def group(self, random_):
        text = self.one_group(random_)
        while paired(text) > PAIRED:
            text = self.one_group(random_)
        return text

    def files(self, random_, count):
        """So many texts in files of lines, each with the number of its first text."""
        number, file = 0, []
        for at in range(count):
            text = self.text(random_)
            if file and (len(text) > 5000 or random_.random() < 0.02):
                yield number, b"\n".join(file) + random_.choice([b"\n", b""])
                file = []
            number = number if file else at
            file.append(text)
            if len(text) > 5000:
                yield number, text
                file = []
        if file:
            yield number, b"\n".join(file) + b"\n"


# Groups and their answers

class Group:
    """What the lines of a text say, up to the first that has no form."""

    def __init__(self, number, text):
        self.number, self.text = number, text
        self.specs, self.places, self.names, self.malformed = [], [], [], None
        for place, line in enumerate(lines_of(text), 1):
            found = FORM.fullmatch(line)
            if not found:
                self.malformed = place
                break
            if found["spec"] is None:
                self.names.append(found["name"])
            else:
                self.specs.append(found["spec"])
                self.places.append(place)

    def fault(self, canonical):
        """The fault of the first bad line, where there is one, by the answers of `canon fetch`."""
        for place, spec in zip(self.places, self.specs):
            if canonical[spec].startswith(b"err "):
                return b"line %d: %s\n" % (place, canonical[spec][4:])
        return b"line %d is malformed\n" % self.malformed if self.malformed else None

    def mapping(self, command, line, texts):
        """The fields of a line of `lhs` or `rhs`, but the first; a name may hold tabs. None if it has no form."""
        _, spec, item, rest = (line.split(b"\t", 3) + [b""] * 4)[:4]
        if not spec.isdigit() or int(spec) >= len(texts) or texts[int(spec)].startswith(b"^"):
            return None
        if item == b"-" and command == "lhs":
            source, _, destination = rest.partition(b"\t")
            is_good = LOWER_ID.fullmatch(source)
        elif item.isdigit() and int(item) < len(self.names):
            size = len(self.names[int(item)])
            middle = size if command == "lhs" else max(0, len(rest) - size - 1)
            source, destination = rest[:middle], rest[middle + 1:]
            is_good = (source if command == "lhs" else destination) == self.names[int(item)]
        else:
            return None
        ends = [source, destination] if command == "rhs" or b":" in texts[int(spec)] else [source]
        place = item if item == b"-" else b"%d" % int(item)
        has_form = line == b"\t".join([b"map", b"%d" % int(spec), place, *ends])
        return [spec, item, *ends] if is_good and has_form else None

    def mappings(self, command, output, texts):
        """The fields of all lines, which stand in order and once each; None otherwise."""
        if output and not output.endswith(b"\n"):
            return None
        found = [self.mapping(command, line, texts) for line in output.split(b"\n")[:-1]]
        if None in found:
            return None
        order = [(one[1] != b"-", int(one[0]), int(one[1]) if one[1] != b"-" else 0) for one in found]
        ends = {(one[1] == b"-", *one[2:]) for one in found}
        is_in_order = all(one < two for one, two in zip(order, order[1:]))
        return found if is_in_order and len(ends) == len(found) else None


class Fuzz:
    """Makes shares of the inputs, runs them, and counts."""

    def __init__(self, options):
        resource.setrlimit(resource.RLIMIT_FSIZE, (ROOM, ROOM))
        self.options = options
        self.inputs = Inputs()
        self.program = Program(options.program, SECONDS_ON_THE_CLOCK)
        self.counts, self.slowest = collections.Counter(), {}

    def share(self, number):
        """Counts and slowest runs of a share, and how it failed, if it did."""
        self.counts, self.slowest = collections.Counter(), {}
        random_ = random.Random(f"{self.options.seed} {number}")
        size = min(SHARE, self.options.inputs - number * SHARE)
        texts = size * TEXTS // SHARE
        try:
            self.give_texts(list(self.inputs.files(random_, texts)), texts, number * SHARE)
            for_groups = range(number * SHARE + texts, number * SHARE + size)
            self.give_groups([Group(at, self.inputs.group(random_)) for at in for_groups])
        except Failed as failed:
            return self.counts, self.slowest, failed.args
        return self.counts, self.slowest, None

    def count(self, words, what, count=1):
        self.counts[words, what] += count

    def run(self, words, text, number):
        """The answer, in time, with a status that there is and that fits the length of the text."""
        made = self.program.run(words, text, number)
        self.slowest[words] = max(self.slowest.get(words, (0, 0)), (made.seconds, number))
        if made.messages:
            raise Failed(number, words, text, f"it writes {made.messages[:60]!r} to the standard error")
        if made.status < 0:
            raise Failed(number, words, text, f"signal {-made.status}")
        if made.status not in (0, 1, 3):
            raise Failed(number, words, text, f"status {made.status}")
        if made.seconds > SECONDS:
            raise Failed(number, words, text, f"{made.seconds:.3f} seconds")
        if (len(text) > LIMIT) != (made.status == 3) or made.status == 3 and made.output != b"input too long\n":
            raise Failed(number, words, text, f"status {made.status}, {made.output[:60]!r}, for {len(text)} bytes")
        return made

    def canon(self, words, text, number):
        """The answers to the lines of a text; none if it is too long."""
        made = self.run(words, text, number)
        if made.status == 3:
            return None
        *answers, end = made.output.split(b"\n")
        good = [answer.startswith(b"ok ") for answer in answers]
        if end != b"" or len(answers) != len(lines_of(text)):
            raise Failed(number, words, text, f"{len(answers)} answers to {len(lines_of(text))} lines,"
                         f" and then {end[:60]!r}")
        for place, (is_good, answer) in enumerate(zip(good, answers), 1):
            if not is_good and (not answer.startswith(b"err ") or answer[4:] not in REASONS):
                raise Failed(number, words, text, f"line {place} is answered by {answer[:60]!r}")
        if made.status != (not all(good)):
            raise Failed(number, words, text, f"status {made.status}, but {good.count(False)} lines are refused")
        return answers

    def give_again(self, words, answers, number):
        """What was printed as canonical has to be printed again, but for texts that are too long."""
        texts = (answer[3:] for answer in answers if answer.startswith(b"ok "))
        for batch in original.batches(text for text in texts if len(text) < LIMIT):
            text = b"".join(one + b"\n" for one in batch)
            made = self.run(words, text, number)
            if (made.output, made.status) != (b"".join(b"ok %s\n" % one for one in batch), 0):
                raise Failed(number, words, text, "a canonical text is not printed again")

    def give_texts(self, files, count, first):
        """Files of lines, which have so many texts; the number of a file counts from the first one."""
        for words in CANON:
            self.count(words, "inputs", count)
            for place, text in files:
                answers = self.canon(words, text, first + place)
                refused = sum(answer.startswith(b"err ") for answer in answers or [])
                self.count(words, f"runs of status {3 if answers is None else int(refused > 0)}")
                if answers is None:
                    continue
                self.count(words, "lines", len(answers))
                self.count(words, "refused", refused)
                self.give_again(words, answers, first + place)

    def give_groups(self, given):
        """Groups, each to the three matching commands."""
        canonical = self.canonical([group for group in given if len(group.text) <= LIMIT])
        for group in given:
            answers = {command: self.run(command, group.text, group.number) for command in MATCHING}
            for command, made in answers.items():
                self.count(command, "inputs")
                self.count(command, f"runs of status {made.status}")
            if len(group.text) > LIMIT:
                continue
            fault = group.fault(canonical)
            for command in MATCHING if fault else ():
                self.count(command, "refused")
                self.expect(group, command, answers[command], (fault, 1))
            if not fault:
                self.matched(group, answers, [canonical[spec][3:] for spec in group.specs])

    def canonical(self, given):
        """The answers of `canon fetch` to the specs of groups."""
        answers = {}
        for batch in original.batches(dict.fromkeys(spec for group in given for spec in group.specs)):
            text = b"".join(one + b"\n" for one in batch)
            answers.update(zip(batch, self.canon("canon fetch", text, given[0].number)))
        return answers

    def expect(self, group, command, made, expected):
        if (made.output, made.status) != expected:
            raise Failed(group.number, command, group.text, f"status {made.status}, {made.output[:200]!r}, and not"
                         f" status {expected[1]}, {expected[0][:200]!r}")

    def matched(self, group, answers, texts):
        """The mappings of `lhs` and `rhs`; the plan is made of the former."""
        found = {}
        for command in ("lhs", "rhs"):
            made = answers[command]
            found[command] = group.mappings(command, made.output, texts)
            if found[command] is None or made.status != 0:
                raise Failed(group.number, command, group.text, f"status {made.status}, and no mappings in order:"
                             f" {made.output[:200]!r}")
            self.count(command, "mappings", len(found[command]))
        self.expect(group, "plan", answers["plan"], known.plan_of(found["lhs"], texts))
        lines = lines_of(answers["plan"].output)
        for word, what in ((b"map\t", "mappings"), (b"fix\t", "fixes"), (b"conflict\t", "conflicts")):
            self.count("plan", what, sum(line.startswith(word) for line in lines))


# All of it

def begin(options):
    global FUZZ
    FUZZ = Fuzz(options)


def share(number):
    return FUZZ.share(number)


def keep(failure, options):
    number, words, text, what = failure
    path = os.path.join(options.keep, f"fuzz-{options.seed}-{number}-{words.replace(' ', '-')}")
    with open(path, "wb") as file:
        file.write(text)
    return f"fuzz: input {number}, {words}: {what}; it is kept in {path}"


def report(counts, slowest):
    """Prints the counts of each command."""
    for words in slowest:
        shown = [f"{counts[words, what]} {what}" for what in COUNTED if counts[words, what]]
        seconds, number = slowest[words]
        print(f"fuzz: {words}: {', '.join(shown)}; the slowest run took {seconds * 1000:.0f} ms, for input {number}")


def main():
    parser = argparse.ArgumentParser(description=__doc__, formatter_class=argparse.RawDescriptionHelpFormatter)
    parser.add_argument("program", metavar="PROGRAM")
    parser.add_argument("--inputs", type=int, default=20_000, metavar="N")
    parser.add_argument("--seed", type=int, default=1, metavar="S")
    parser.add_argument("--jobs", type=int, default=2, metavar="J", help="how many programs run at a time")
    parser.add_argument("--keep", default=".", metavar="FOLDER", help="where an input goes at which it stops")
    options = parser.parse_args()
    original.need("fuzz", options.program)

    print(f"fuzz: {options.inputs} inputs of seed {options.seed}", flush=True)
    counts, slowest, failure, done = collections.Counter(), {}, None, 0
    with multiprocessing.Pool(options.jobs, begin, [options]) as pool:
        for made, slow, failure in pool.imap(share, range(-(-options.inputs // SHARE))):
            counts.update(made)
            for words, run in slow.items():
                slowest[words] = max(slowest.get(words, run), run)
            done = min(done + SHARE, options.inputs)
            if done % (40 * SHARE) == 0:
                print(f"fuzz: {done} inputs", file=sys.stderr, flush=True)
            if failure:
                break
    report(counts, slowest)
    if failure:
        sys.exit(keep(failure, options))


if __name__ == "__main__":
    main()
