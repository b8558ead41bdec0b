"""What `refspec check` warns of in a group of fetch specs, each (negative, source, destination or None), as str."""
import dataclasses
import json
import re
import subprocess

REASONS = {"idle_invalid": "invalid", "idle_excluded": "excluded", "idle_duplicate": "duplicate"}
EXAMPLE = re.compile(r"A remote with (\S+) and (\S+) would write both to (\S+), and git fetch would write nothing\.")
NESTED = re.compile(r"A remote with (\S+)(?: and (\S+))? would write (\S+) and (\S+): one is a directory of the other, so git fetch"
                    r" would write one of them, and end with status 1\.")


@dataclasses.dataclass
class Warned:
    """By index: the pairs of specs that can conflict, each with two sources and a destination, or None if the message quotes
    them; the pairs that can be in a directory conflict, the one with the directory first, each with one or two sources and two
    destinations, or None; the idle specs with their reasons; the negative specs that are idle, and those that exclude no
    branch."""
    conflicts: dict
    nestings: dict
    idle: dict
    idle_negative: set
    no_branch: set


def text_of(spec):
    negative, source, destination = spec
    if negative:
        return "^" + source
    return source if destination is None else source + ":" + destination


def warned(program, texts):
    """The warnings on a group of texts, or None if one is refused."""
    run = subprocess.run([program, "check", "--json", "--", *texts], stdout=subprocess.PIPE, stderr=subprocess.PIPE, text=True)
    if run.returncode == 1:
        return None
    if run.returncode != 0:
        raise SystemExit(f"status {run.returncode} of {texts}: {run.stderr}")
    found, told = Warned({}, {}, {}, set(), set()), []
    for one in (json.loads(line) for line in (run.stdout + run.stderr).splitlines()):
        if one["kind"] != "warning":
            continue
        indexes = [int(spec["place"].removeprefix("spec ")) - 1 for spec in one["specs"]]
        if (one["name"], sorted(indexes)) in told:
            raise SystemExit(f"{texts}: {one['name']} twice on {one['specs']}")
        told.append((one["name"], sorted(indexes)))
        if one["name"] == "possible_conflict":
            example = EXAMPLE.fullmatch(one["message"])
            found.conflicts[tuple(sorted(indexes[:2]))] = example and example.groups()
        elif one["name"] == "directory_conflict":
            example = NESTED.fullmatch(one["message"])
            found.nestings[tuple(indexes[:2])] = example and example.groups()
        elif one["name"] in REASONS:
            found.idle[indexes[0]] = REASONS[one["name"]]
        elif one["name"] == "idle_exclusion":
            found.idle_negative.add(indexes[0])
        elif one["name"] == "excludes_no_branch":
            found.no_branch.add(indexes[0])
    return found


def is_silent(found, group, index):
    """Whether an idle negative spec of a group has no warning of its own: it has another one, or may exclude a tag, as a fetch may
    follow tags."""
    prefix, star, _ = group[index][1].partition("*")
    takes_tags = prefix.startswith("refs/tags/") or bool(star) and "refs/tags/".startswith(prefix)
    return index in found.no_branch or takes_tags


def lines_of(found):
    """The warnings as lines of a sample, with specs counted from 1."""
    lines = [f"conflict {one + 1} {other + 1}" for one, other in sorted(found.conflicts)]
    lines += [f"nested {one + 1} {other + 1}" for one, other in sorted(found.nestings)]
    lines += [f"idle {index + 1} {reason}" for index, reason in sorted(found.idle.items())]
    return lines + [f"idle_negative {index + 1}" for index in sorted(found.idle_negative)]
