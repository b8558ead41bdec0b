"""What cases of the tables are chosen among, by kind: the samples of tests, the rows and generated inputs of tools/oracle, and what
follows from them. A case is what is given, by column.
"""
import collections
import itertools
import os
import random
import re
import sys

HERE = os.path.dirname(os.path.abspath(__file__))
ROOT = os.path.normpath(os.path.join(HERE, os.pardir, os.pardir))
SAMPLES = os.path.join(ROOT, "tests", "samples")
sys.dont_write_bytecode = True
sys.path[:0] = [HERE, os.path.join(ROOT, "conformance"), os.path.join(ROOT, "tools", "oracle")]
import borders
import examples
import gitfetch
import gitknown
import gitlists
import groups
import reference
import remotevalues
import specs
import tables
from examples import advertised, plan_case, without_needless_ids

Ref = tables.Ref
SEED = 1
OPERATIONS = ("fetch", "push")


def plain(field):
    return re.sub(rb"\\x([0-9a-f]{2})", lambda found: bytes([int(found[1], 16)]), field)


def blocks(name):
    """The blocks of a sample, which empty lines part, as lines."""
    with open(os.path.join(SAMPLES, name + ".sample"), "rb") as file:
        text = b"".join(line for line in file if not line.startswith(b"#"))
    return [block.split(b"\n") for block in text.strip(b"\n").split(b"\n\n")]


def texts():
    """Texts, with those of the samples first."""
    found = [plain(line.split(b"\t")[1]) for block in blocks("canon") for line in block]
    return list(dict.fromkeys([*found, *specs.rows(), *specs.generated(2000, SEED)]))


def is_valid(operation, text):
    return reference.refusal(operation, text) is None


def is_valid_list(values):
    return all(is_valid("fetch", value) for value in values)


def sides():
    """The sides of texts: of each kind the smallest one of plain bytes."""
    found = {}
    every = dict.fromkeys(side for text in texts() for side in reference.parts_of(text)[1:] if side is not None and b":" not in side)
    for side in sorted(every, key=lambda side: (re.search(rb"[^a-zA-Z0-9/*.@{~]", side) is not None, len(side), side)):
        found.setdefault(borders.kind_of_side(side), side)
    return list(found.values())


def validity():
    """Texts of each sign and all kinds of sides."""
    signs, every = (b"", b"+", b"^"), sides()
    made = [sign + source for sign in signs for source in every]
    made += [sign + source + b":" + destination for sign in signs for source in every for destination in every]
    made += [text for text in texts() if text.count(b":") > 1 or text[:2].strip(b"+^") == b""]
    return [{"operation": operation, "text": text} for text in made for operation in OPERATIONS]


def names():
    """The sides of texts, and each byte but a newline between two letters."""
    sides = dict.fromkeys(side for text in texts() for side in reference.parts_of(text)[1:] if side is not None)
    sides.update(dict.fromkeys(b"x/a%cb" % byte for byte in range(256) if byte != 10))
    return [{"form": form, "name": side} for side in sides for form in ("name", "pattern")]


def canonical():
    found = [{"operation": operation, "text": text} for text in texts() for operation in OPERATIONS]
    return [case for case in found + validity() if is_valid(case["operation"], case["text"])]


def equality():
    """Pairs of texts: those with one canonical text, some with two that are nearly alike, and any."""
    random_, found = random.Random(SEED), []
    for operation in OPERATIONS:
        alike, valid = collections.defaultdict(list), [text for text in texts() if len(text) < 60 and is_valid(operation, text)]
        for text in valid:
            alike[reference.canonical(reference.read(operation, text))].append(text)
        pairs = [pair for same in alike.values() for pair in itertools.combinations(same[:6], 2)]
        for text in valid[:1500]:
            others = [b"+" + text, text + b":", text.lstrip(b"+"), text.rpartition(b":")[0], b"HEAD" + text, text.replace(b"@", b"HEAD"),
                      text + b":" + text, random_.choice(valid)]
            pairs += [(text, other) for other in others if other != text and is_valid(operation, other)]
        found += [{"operation": operation, "one": one, "other": other} for one, other in map(sorted, pairs)]
    return found


def group_of(lines):
    """The specs and refs of an input of refspec_map; None if a line is malformed or a spec refused."""
    values, refs = [], []
    for line in lines:
        word, *fields = line.split(b" ", 3 if line.startswith(b"tag ") else 2)
        if word == b"spec":
            values.append(line[5:])
        elif word == b"ref" and len(fields) == 2:
            refs.append(Ref(fields[1], fields[0], None))
        elif word == b"tag" and len(fields) == 3:
            refs.append(Ref(fields[2], *fields[:2]))
        else:
            return None
    well_formed = all(len(part) in (40, 64) and reference.is_hex(part) for ref in refs for part in ref[1:] if part is not None)
    return (values, refs) if well_formed and is_valid_list(values) else None


def some(random_, values, most):
    """Some of the values, in order."""
    count = random_.randint(1, min(most, len(values)))
    return [values[index] for index in sorted(random_.sample(range(len(values)), count))]


def some_names(random_, values, names_):
    """Names of refs: up to two that the specs map, and up to one more."""
    taken = {one.source for one in reference.forward(reference.specs_of(values), advertised(names_)) if one.item is not None}
    found = some(random_, sorted(taken), 2) if taken else []
    return found + random_.sample([name for name in names_ if name not in taken], random_.randint(0, 1) if len(taken) < len(names_) else 0)


def fetch_lists():
    """Specs and refs that a server can have, as tools/oracle/compare-git.py makes them."""
    for number in range(1000):
        random_ = random.Random(f"{SEED} {number}")
        names_ = gitlists.remote_names(random_)[0]
        for _ in range(3):
            values = some(random_, gitlists.fetch_specs(random_, advertised(names_)), 3)
            if is_valid_list(values):
                yield values, some_names(random_, values, names_)


def is_whole(specs, refs):
    return is_valid_list(specs) and all(b"\n" not in ref.name and b"\t" not in ref.name for ref in refs)


def matchings(samples):
    """Specs and refs: what Git can be asked first, then the groups of samples and of tools/oracle."""
    found = [examples.group_case(*one) for one in fetch_lists()]
    lines = [[line[2:] for line in block if line.startswith(b"< ")] for name in samples for block in blocks(name)]
    lines = [list(map(plain, block)) for block in lines]
    inputs = itertools.chain(groups.rows(), groups.small(), itertools.islice(groups.generated(6000, SEED), 1500, None))
    lines += [text.split(b"\n")[:-1] for text in inputs]
    made = [group_of(block) for block in lines]
    found += [{"specs": values, "refs": without_needless_ids(values, refs)} for values, refs in filter(None, made)
              if len(values) < 4 and len(refs) < 4]
    return [case for case in found if is_whole(**case)]


def forward():
    return matchings(["git", "lhs", "plan"])


def validation():
    return matchings(["git", "plan"])


def backward():
    """Specs and local refs, as tools/oracle/compare-git.py makes them to be tracked, and the groups of samples."""
    found = []
    for number in range(1000):
        random_ = random.Random(f"{SEED} {number}")
        refs = advertised(gitlists.remote_names(random_)[0])
        for _ in range(3):
            values, names_ = gitlists.track_list(random_, refs)
            found.append(examples.group_case(some(random_, values, 3), some(random_, names_, 2)))
    return [case for case in found if is_whole(**case)] + matchings(["git", "rhs"])


def candidates():
    """Partial sources, and names of refs that each may stand for."""
    found = []
    for source, forms in ((b"a", gitknown.CANDIDATES), (b"HEAD", gitknown.CANDIDATES), (b"heads/a", gitknown.CANDIDATES[1:]),
                          (b"tags/a", gitknown.CANDIDATES[1:]), (b"remotes/o", gitknown.CANDIDATES[1:]), (b"o", gitknown.CANDIDATES[1:]),
                          (b"@", gitknown.CANDIDATES[1:]), (b"refs/heads/a", gitknown.CANDIDATES[:2]), (b"", gitknown.CANDIDATES)):
        every = list(dict.fromkeys(form % gitknown.named(source) for form in forms))
        for size in range(len(every) + 1):
            found += [{"source": source, "refs": [Ref(name, None, None) for name in chosen]}
                      for chosen in itertools.combinations(every, size)]
    return found


def wishes():
    """What whole fetches are asked for, with the refs, as tools/oracle/compare-plans.py makes them."""
    for number in range(900):
        random_ = random.Random(f"{SEED} plan {number}")
        names_ = gitlists.remote_names(random_)[0]
        for _ in range(4):
            wish = gitlists.wish(random_, advertised(names_))
            lists = [some(random_, values, 2) if values else [] for values in (wish.given, wish.refmap or wish.configured)]
            if is_valid_list(sum(lists, [])):
                kept_ = some_names(random_, sum(lists, []), names_) + random_.sample(wish.merges, len(wish.merges[:1]))
                yield wish._replace(given=lists[0], configured=lists[1], merges=wish.merges[:2]), list(dict.fromkeys(kept_))


def plans():
    found = []
    for block in gitfetch.stored_lists(os.path.join(SAMPLES, "git-plans.sample")):
        lists = collections.defaultdict(list)
        for line in block.given:
            word, _, text = line.partition(b" ")
            lists[word].append(text.split(b" ")[-1] if word in (b"ref", b"tag") else text)
        if block.command == "plan" and b"refmap" not in lists:
            fewer = all(len(lists[word]) < 4 for word in lists)
            names_ = lists[b"ref"] + lists[b"tag"]
            found += [plan_case(lists[b"given"], lists[b"configured"], lists[b"merge"], b"tags" in lists, names_)] * fewer
    found += [plan_case(wish.given, wish.configured, wish.merges, wish.tags, names_) for wish, names_ in wishes()]
    return [case for case in found if is_valid_list(case["given"] + case["configured"])]


def is_stopped(case):
    """Whether a fetch by the specs fails, so that nothing is deleted."""
    planned = reference.answer_plan(case["specs"], [], [], "no", tables.with_ids(case)["remote"])
    return bool(planned["missing"] or planned["conflicts"])


def stale():
    found = []
    for number in range(900):
        random_ = random.Random(f"{SEED} stale {number}")
        names_ = gitlists.remote_names(random_)[0]
        refs = advertised(names_)
        for _ in range(5):
            values = some(random_, gitlists.fetch_specs(random_, refs), 3)
            if is_valid_list(values):
                local = gitlists.lost_names(random_, refs, values)
                found.append(examples.stale_case(values, some_names(random_, values, names_), local[:2]))
    return [case for case in found if is_valid_list(case["specs"]) and case["local"] and not is_stopped(case)]


def prefixes():
    found, random_ = [], random.Random(SEED)
    valid = [text for text in texts() if len(text) < 60 and is_valid("fetch", text)]
    for count in (1, 2, 3):
        found += [random_.sample(valid, count) for _ in range(2500)]
    found += [[text] for text in valid]
    found += [case["specs"] for case in matchings(["git"])]
    return [{"specs": values} for values in found if values]


def upstreams():
    """Fetch values and merged refs, as tools/oracle/remotevalues.py makes them."""
    random_ = random.Random(SEED)
    found = [{"values": [b"refs/heads/x:", b"refs/heads/*:refs/y/*"], "merge": b"refs/heads/x"},
             {"values": [b":refs/y/x"], "merge": b"HEAD"}]
    for _ in range(3500):
        values = remotevalues.values(random_, 3)
        merge = remotevalues.merged(random_, values)
        if random_.random() < 0.5:
            index, excluded = random_.randint(0, len(values)), [merge, remotevalues.pattern(random_), remotevalues.name(random_)]
            values.insert(index, b"^" + random_.choice(excluded))
        found.append({"values": values, "merge": merge})
    return [case for case in found if case["merge"] and is_valid_list(case["values"])]


POOLS = {"validity": validity, "names": names, "canonical": canonical, "equality": equality, "forward": forward, "backward": backward,
         "candidates": candidates, "validation": validation, "plans": plans, "stale": stale, "prefixes": prefixes,
         "upstreams": upstreams}
