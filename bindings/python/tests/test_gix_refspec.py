"""Tests of gix_refspec over an installed library: python3 -m unittest discover -s tests"""
import array
import copy
import ctypes
import dataclasses
import doctest
import itertools
import pickle
import random
import sys
import unittest
from typing import Callable

import gix_refspec
from gix_refspec import (Direction, Effect, Effects, Fate, Kind, Mapping, Mismatch, Mode, Operation, Origin, OriginKind,
                         Outcome, Plan, RefspecError, RemoteValue, Request, Side, Sides, StaleRef, Update, Upstream,
                         UpstreamKind, Validity, Verdict, compare, explanation, from_parts, library_version, matches, parse,
                         plan, prefetched, prefixes, read, remote_value, renamed, stale, upstream, validate, why)


class Lying(bytes):
    """Bytes that tell another length."""

    length = 0

    def __len__(self) -> int:
        return self.length

    def __bytes__(self) -> bytes:
        return b"other"


class LyingText(str):
    """A text that encodes to such bytes."""

    def encode(self, *words: object) -> bytes:
        return Lying(b"other")


class Calls(unittest.TestCase):
    def refuses(self, outcome: Outcome, sentence: str, call: Callable[..., object], *words: object) -> None:
        with self.assertRaises(RefspecError) as refused:
            call(*words)
        self.assertIs(refused.exception.outcome, outcome)
        self.assertEqual(str(refused.exception), sentence)

    def test_parts(self) -> None:
        for text, operation, kind, source, destination in (
                (b":", Operation.PUSH, Kind.PUSH_ALL_MATCHING, None, None),
                (b":main", Operation.PUSH, Kind.PUSH_DELETE, None, b"main"),
                (b"main", Operation.PUSH, Kind.PUSH_MATCHING, b"main", b"main"),
                (b"^main", Operation.PUSH, Kind.PUSH_EXCLUDE, b"main", None),
                (b"main", Operation.FETCH, Kind.FETCH_ONLY, b"main", None),
                (b"^main", Operation.FETCH, Kind.FETCH_EXCLUDE, b"main", None),
                (b"+refs/heads/*:refs/x/*", Operation.FETCH, Kind.FETCH_AND_UPDATE, b"refs/heads/*", b"refs/x/*")):
            with self.subTest(text=text, operation=operation):
                spec = parse(text, operation)
                self.assertIs(spec.kind, kind)
                self.assertEqual((spec.operation, spec.forced), (operation, text.startswith(b"+")))
                self.assertEqual((spec.source, spec.destination), (source, destination))

    def test_sides_are_those_of_the_text(self) -> None:
        self.assertEqual(read("+:d", Operation.PUSH), Sides(Mode.FORCED, None, b"d"))
        self.assertEqual(read("main", Operation.PUSH), Sides(Mode.NORMAL, b"main", None))
        self.assertEqual(read("^a", Operation.FETCH), Sides(Mode.NEGATIVE, b"a", None))
        with self.assertRaises(RefspecError):
            read("a b", Operation.FETCH)

    def test_sides_make_the_text_that_has_them(self) -> None:
        for text, operation in (("+:d", Operation.PUSH), ("main", Operation.PUSH), ("^a", Operation.FETCH),
                                ("+a*:b*", Operation.FETCH), ("", Operation.FETCH)):
            made = from_parts(read(text, operation), operation)
            self.assertEqual(made, parse(text, operation).canonical)
        self.assertEqual(from_parts(Sides(Mode.FORCED, None, b""), Operation.PUSH), b"+:")
        self.refuses(Outcome.OTHER_PARTS, "The source begins with a sign, or the last part has a colon in it.", from_parts,
                     Sides(Mode.NORMAL, b"^a", None), Operation.FETCH)
        self.refuses(Outcome.NAME_REPEATED_DOT, "A ref name must not have two dots in a row.", from_parts,
                     Sides(Mode.NEGATIVE, b"a..b", None), Operation.FETCH)

    def test_values_of_remotes(self) -> None:
        for value, words, text in (
                (RemoteValue.BRANCH, ("up", "main"), b"+refs/heads/main:refs/remotes/up/main"),
                (RemoteValue.MIRROR, (), b"+refs/*:refs/*"),
                (RemoteValue.PULL_REQUESTS, ("up",), b"+refs/pull/*/head:refs/remotes/up/pr/*"),
                (RemoteValue.MERGE_REQUESTS, ("up",), b"+refs/merge-requests/*/head:refs/remotes/up/merge-requests/*")):
            self.assertEqual(remote_value(value, *words), text)
        self.refuses(Outcome.OTHER_PARTS, "The source begins with a sign, or the last part has a colon in it.", remote_value,
                     RemoteValue.BRANCH, "a:b")
        self.assertIsNone(renamed("^refs/remotes/origin/a", "origin", "up"))
        self.assertIsNone(prefetched("refs/tags/*:refs/tags/*"))
        self.assertEqual(prefetched(parse("^a", Operation.FETCH)), b"^a")
        with self.assertRaises(ValueError):
            prefetched(parse("a", Operation.PUSH))

    def test_mappings_are_validated(self) -> None:
        made = [Mapping(0, 0, b"a", b"refs/x"), Mapping(0, 1, b"b", b"y"), Mapping(0, None, b"a", b"refs/x"),
                Mapping(0, 0, b"b", None)]
        self.assertEqual(validate(made), [Validity(False, 0), Validity(False), Validity(False, 0), Validity(True)])
        self.assertEqual(validate(made[:2]), [Validity(True), Validity(False)])
        self.assertEqual(validate([]), [])

    def test_effects_on_a_ref(self) -> None:
        names = ["refs/heads/a", "refs/heads/b", "refs/tags/a", "refs/heads/d/e"]
        for texts, name, effects in (
                (["a:refs/x/a", "refs/heads/*:refs/x/*", "^refs/heads/b"], "refs/heads/a",
                 Effects(0, (Effect(Fate.UNMATCHED, mismatch=Mismatch.EARLIER_CANDIDATE, item=2),
                             Effect(Fate.IN_CONFLICT, b"refs/x/a", spec=0, item=2),
                             Effect(Fate.UNMATCHED, mismatch=Mismatch.OTHER_NAME)))),
                (["refs/heads/*:refs/x/*", "^refs/heads/*"], "refs/heads/gone",
                 Effects(None, (Effect(Fate.EXCLUDED, b"refs/x/gone", word=b"gone", spec=1), Effect(Fate.EXCLUDES, word=b"gone")))),
                (["refs/tags/*:refs/x/*", "1" * 40], "refs/heads/a",
                 Effects(0, (Effect(Fate.UNMATCHED, mismatch=Mismatch.PREFIX, count=5),
                             Effect(Fate.UNMATCHED, mismatch=Mismatch.OBJECT)))),
                (["refs/heads/a:" + "x" * 300] * 2, "refs/heads/a",
                 Effects(0, (Effect(Fate.WRITTEN, b"refs/heads/" + b"x" * 300),
                             Effect(Fate.DUPLICATE, b"refs/heads/" + b"x" * 300, spec=0)))),
                ([], "refs/heads/a", Effects(0, ()))):
            self.assertEqual(why(texts, names, name), effects)
        self.refuses(Outcome.NEGATIVE_EMPTY, "A refspec that begins with `^` needs a source after the `^`.", why, ["^"], [], "a")

    def test_upstreams(self) -> None:
        for texts, wanted in (
                (["refs/heads/a:x", "^refs/heads/a"], Upstream(UpstreamKind.EXCLUDED, 0, 1)),
                (["refs/heads/b:x", "refs/heads/a"], Upstream(UpstreamKind.NOT_STORED, 1)),
                (["a:x"], Upstream(UpstreamKind.NOT_FETCHED)),
                (["refs/heads/*:" + "x" * 300 + "/*"], Upstream(UpstreamKind.TRACKED, 0, None, b"x" * 300 + b"/a"))):
            self.assertEqual(upstream(texts, "refs/heads/a"), wanted)
        self.refuses(Outcome.NEGATIVE_EMPTY, "A refspec that begins with `^` needs a source after the `^`.", upstream, ["^"], "a")

    def test_texts_are_bytes_or_utf_8(self) -> None:
        for text in ("main", "\u00e9t\u00e9", "\udce9", "\U0001f600"):
            spec = parse(text, Operation.FETCH)
            self.assertEqual(spec.source, text.encode("utf-8", "surrogateescape"))
            self.assertEqual(spec, parse(spec.canonical, Operation.FETCH))
            self.assertEqual(compare(text, spec.canonical, Operation.FETCH), 0)
            self.assertEqual(prefixes([f"refs/{text}"]), [b"refs/" + spec.canonical])
            for call in (lambda *words: plan(*words).updates, lambda *words: matches(*words, Direction.FORWARD)):
                self.assertEqual(call([f"refs/{text}"], [f"refs/{text}"])[0].source, b"refs/" + spec.canonical)
        for text in (None, 7, ["main"], array.array("b", b"main")):
            for call in (lambda text: parse(text, Operation.FETCH), lambda text: compare("a", text, Operation.FETCH),
                         lambda text: prefixes([text]), lambda text: plan([], [text]), lambda text: plan([], [], [text]),
                         lambda text: plan([], [], merges=[text]), lambda text: stale([], [], [text])):
                self.assertRaisesRegex(TypeError, "a text is bytes-like or str", call, text)
        for one in ("main", b"main", bytearray(b"main"), memoryview(b"main"), parse("main", Operation.FETCH)):
            self.assertRaisesRegex(TypeError, "fetches are a list", plan, one, [])
            if not isinstance(one, gix_refspec.Spec):
                self.assertRaisesRegex(TypeError, "names are a list", plan, [], one)

    def test_texts_may_be_bytes_like(self) -> None:
        main = b"refs/heads/main"
        for make in (bytearray, memoryview, lambda text: memoryview(b"x" + text)[1:], lambda text: memoryview(text[::-1])[::-1]):
            self.assertEqual(parse(make(main), Operation.FETCH).source, main)
            self.assertEqual(compare(make(main), main, Operation.FETCH), 0)
            self.assertEqual(prefixes([make(main)]), [main])
            update = plan([make(main)], [make(main)]).updates[0]
            self.assertEqual((type(update.source), update.source), (bytes, main))
            self.assertEqual(stale([make(main + b":refs/x/a")], [], [make(b"refs/x/a")]), [StaleRef(0)])

    def test_texts_have_the_length_of_their_bytes(self) -> None:
        main = b"refs/heads/main"
        for length in (0, 1, 1 << 20, 1 << 33, sys.maxsize):
            Lying.length = length
            for text in (Lying(main), LyingText(main.decode())):
                self.assertEqual(parse(text, Operation.FETCH).canonical, main)
                self.assertEqual(compare(text, main, Operation.FETCH), 0)
                self.assertEqual(prefixes([text]), [main])
                self.assertEqual(matches([text], [text], Direction.FORWARD), [Mapping(0, 0, main, None)])
                told = plan([text], [text], [text], [text])
                self.assertEqual([(type(one.source), one.source) for one in told.updates], [(bytes, main)])
                self.assertEqual(plan([], [text], merges=[text]).updates[0].origin, Origin(OriginKind.MERGE, 0))
                self.assertEqual(stale(["a:refs/heads/main"], [text], [text]), [StaleRef(0)])
                spec = dataclasses.replace(parse(main, Operation.FETCH), canonical=text)
                self.assertEqual(prefixes([spec]), [main])

    def test_operations_are_checked(self) -> None:
        for operation in (0, 3, -1, 2 ** 32 + 1, "fetch", None):
            self.assertRaises(ValueError, parse, "main", operation)
            self.assertRaises(ValueError, compare, "main", "main", operation)
            self.assertRaises(ValueError, matches, [], [], operation)
        self.assertIs(parse("main", 2).operation, Operation.PUSH)

    def test_equality(self) -> None:
        self.assertEqual(parse(b"main", Operation.PUSH), parse(b"main:main", Operation.PUSH))
        self.assertEqual(hash(parse(b"main", Operation.PUSH)), hash(parse(b"main:main", Operation.PUSH)))
        self.assertEqual(parse(b"main", Operation.PUSH).canonical, b"main:main")
        self.assertNotEqual(parse(b"main", Operation.PUSH), parse(b"main", Operation.FETCH))
        name = b"a" * 1000
        self.assertEqual(parse(name, Operation.FETCH).canonical, name)

    def test_order_is_that_of_compare(self) -> None:
        sides = ["a", "b", "a/b", "HEAD", "refs/heads/*", "refs/x/*", "\u00e9", "ab"]
        texts = [":", "+:", *(f"{sign}{one}" for sign in ("", "+", "^", ":") for one in sides),
                 *(f"{sign}{one}:{two}" for sign in ("", "+") for one in sides for two in sides)]
        for operation in Operation:
            specs = []
            for text in texts:
                try:
                    specs.append(parse(text, operation))
                except RefspecError:
                    pass
            self.assertGreater(len(specs), 60)
            for a, b in itertools.product(specs, specs):
                order = compare(a.canonical, b.canonical, operation)
                self.assertEqual(((a > b) - (a < b), a == b, a <= b, a >= b), (order, order == 0, order <= 0, order >= 0))
            random.Random(1).shuffle(specs)
            ordered = [one.canonical for one in sorted(specs)]
            for a, b in zip(ordered, ordered[1:]):
                self.assertLessEqual(compare(a, b, operation), 0)
        self.assertLess(parse("b", Operation.PUSH), parse("a", Operation.FETCH))
        self.assertRaises(TypeError, lambda: parse("a", Operation.PUSH) < "a")

    def test_refusals(self) -> None:
        self.refuses(Outcome.NAME_REPEATED_DOT, "A ref name must not have two dots in a row.",
                     parse, b"a..b", Operation.FETCH)
        self.refuses(Outcome.PUSH_TO_EMPTY, "A push needs a destination after the colon.", parse, b"a:", Operation.PUSH)
        bad_byte = "A ref name must not have a control character, a space or one of ~ ^ : ? [ \\ in it."
        self.refuses(Outcome.NAME_INVALID_BYTE, bad_byte, parse, b"a\0b", Operation.FETCH)
        self.refuses(Outcome.NAME_INVALID_BYTE, bad_byte, compare, b"a", b"a b", Operation.FETCH)
        self.refuses(Outcome.NAME_INVALID_BYTE, bad_byte, prefixes, [b"main", b"a b"])
        self.refuses(Outcome.NAME_INVALID_BYTE, bad_byte, matches, [b"a b"], [], Direction.FORWARD)
        self.refuses(Outcome.NAME_INVALID_BYTE, bad_byte, plan, [b"a b"], [b"refs/heads/a"])
        self.refuses(Outcome.NEEDS_IDS, "A destination is an object id, and names alone don't tell which refs have it.",
                     matches, [b"a:" + b"1" * 40], [b"refs/heads/a"], Direction.BACKWARD)

    def test_errors_tell_the_place(self) -> None:
        for text, operation, place in (
                (b"a..b", Operation.FETCH, (Side.SOURCE, 1)), (b"+a:b.lock", Operation.FETCH, (Side.DESTINATION, 4)),
                (b"a*b*:c", Operation.FETCH, (Side.SOURCE, 3)), (b"a:b*", Operation.PUSH, (Side.DESTINATION, 3)),
                ("\u00e9:b c", Operation.FETCH, (Side.DESTINATION, 4)), (b"^a:b", Operation.FETCH, (Side.DESTINATION, 3)),
                (b"^a:", Operation.FETCH, (None, None)), (b"^", Operation.FETCH, (None, None)),
                (b"", Operation.PUSH, (None, None)), (b"a:", Operation.PUSH, (None, None))):
            with self.subTest(text=text, operation=operation), self.assertRaises(RefspecError) as refused:
                parse(text, operation)
            error = refused.exception
            for one in (error, copy.copy(error), pickle.loads(pickle.dumps(error))):
                self.assertEqual((one.side, one.position), place)

    def test_errors_are_copied_and_pickled(self) -> None:
        for outcome in (Outcome.NAME_REPEATED_DOT, 99, 2 ** 32 + 13):
            error = RefspecError(outcome)
            for other in (copy.copy(error), copy.deepcopy(error), pickle.loads(pickle.dumps(error))):
                self.assertEqual((type(other), other.outcome, str(other), other.args),
                                 (RefspecError, outcome, str(error), error.args))
        for outcome in (max(Outcome) + 1, 99, 2 ** 32 - 1, 2 ** 32 + Outcome.NAME_REPEATED_DOT, -1):
            sentence = f"The library ended with outcome {outcome}, which it doesn't explain."
            self.assertEqual((str(RefspecError(outcome)), RefspecError(outcome).outcome), (sentence, outcome))

    def test_explanations(self) -> None:
        for outcome in Outcome:
            self.assertTrue(explanation(outcome).endswith("."), outcome)
        self.assertEqual([explanation(number) for number in (-1, 26, 2 ** 32)], [None] * 3)

    def test_versions(self) -> None:
        self.assertEqual(library_version(), gix_refspec.__version__)

    def test_prefixes(self) -> None:
        self.assertEqual(prefixes([b"refs/heads/*:refs/x/*", b"refs/tags/v1"]), [b"refs/heads/", b"refs/tags/v1"])
        self.assertEqual(prefixes([b"refs/heads/main", b"refs/heads/*:refs/x/*"]), [b"refs/heads/"])
        self.assertIs(prefixes([]), Request.NOTHING)
        self.assertIs(prefixes([b"*:refs/x/*"]), Request.ALL)
        name = b"refs/heads/" + b"a" * 1000
        self.assertEqual(prefixes([name]), [name])

    def test_maps_one_name(self) -> None:
        every = parse(b"+refs/heads/*:refs/x/*", Operation.FETCH)
        long = b"a" * 1000
        for name in (b"main", long):
            one = Mapping(0, 0, b"refs/heads/" + name, b"refs/x/" + name, forced=True)
            self.assertEqual(every.map(b"refs/heads/" + name), one)
            self.assertEqual(every.map_back(b"refs/x/" + name), one)
        self.assertIsNone(every.map("refs/tags/v1"))
        self.assertIsNone(every.map_back("refs/heads/main"))
        short, push = parse("main", Operation.FETCH), parse("main", Operation.PUSH)
        self.assertEqual(short.map("refs/tags/main"), Mapping(0, 0, b"refs/tags/main", None))
        self.assertIsNone(short.map_back("refs/heads/main"))
        self.assertEqual(push.map("refs/heads/main"), Mapping(0, 0, b"refs/heads/main", b"refs/heads/main"))
        for text in ("^refs/heads/main", "1" * 40):
            self.assertIsNone(parse(text, Operation.FETCH).map("refs/heads/main"))

    def test_matches(self) -> None:
        one = Mapping(0, 0, b"refs/heads/a", b"refs/x/a", forced=True)
        texts = [b"+refs/heads/*:refs/x/*", b"^refs/heads/b", b"1" * 40]
        there = matches(texts, [b"refs/heads/a", b"refs/heads/b"], Direction.FORWARD)
        self.assertEqual(there, [Mapping(2, None, b"1" * 40, None), one])
        self.assertEqual(matches(texts, [b"refs/x/a", b"refs/x/b"], Direction.BACKWARD), [one])
        long = b"refs/heads/" + b"a" * 1000
        self.assertEqual(matches(texts, [long], Direction.FORWARD)[1],
                         Mapping(0, 0, long, b"refs/x/" + b"a" * 1000, forced=True))
        head = [Mapping(0, 1, b"HEAD", b"refs/x/HEAD"), Mapping(1, 1, b"HEAD", None)]
        self.assertEqual(matches([b"HEAD:refs/x/HEAD", b"@"], [b"refs/heads/a", b"HEAD"], Direction.FORWARD), head)
        many = [b"refs/heads/%d" % number for number in range(9)]
        told = matches([b"refs/heads/*:refs/%d/*" % number for number in range(9)], many, Direction.FORWARD)
        self.assertEqual([(one.spec, one.item) for one in told], [(spec, item) for spec in range(9) for item in range(9)])
        self.assertEqual(matches([], [], Direction.FORWARD), [])

    def test_plan(self) -> None:
        texts = [b"refs/heads/a:refs/x/a", b"refs/tags/*:other/*", b"refs/remotes/*ck:refs/x/*", b"refs/remotes/*:refs/y/*",
                 b"+refs/tags/b", b"refs/heads/a:refs/y", b"+refs/tags/b:refs/y"]
        names = [b"refs/heads/a", b"refs/tags/b", b"refs/remotes/a.lock"]
        told = plan(texts, names)
        self.assertEqual([one.verdict for one in told.updates],
                         [Verdict.WRITTEN, Verdict.INVALID_DESTINATION, Verdict.INVALID_SOURCE, Verdict.INVALID_SIDES,
                          Verdict.WRITTEN, Verdict.CONTESTED, Verdict.CONTESTED])
        self.assertEqual([one.forced for one in told.updates], [False] * 6 + [True])
        given = [Origin(OriginKind.GIVEN, index) for index in range(7)]
        self.assertEqual(told.updates[2],
                         Update(2, b"refs/remotes/a.lock", b"refs/x/a.lo", given[2], Verdict.INVALID_SOURCE))
        self.assertEqual([(one.origin, one.item) for one in told.updates], list(zip(given, [0, 1, 2, 2, 1, 0, 1])))
        self.assertEqual((told.missing, told.is_carried_out), ((), False))
        fine = plan(texts[:6], names)
        self.assertEqual((fine.updates[5].verdict, fine.is_carried_out), (Verdict.WRITTEN, True))

    def test_plans_have_what_the_configuration_adds(self) -> None:
        names = ["HEAD", "refs/heads/main", "refs/tags/v1"]
        configured = ["+refs/heads/*:refs/x/*"]
        given = plan(["main"], names, configured)
        self.assertEqual(given.updates, (
            Update(1, b"refs/heads/main", None, Origin(OriginKind.GIVEN, 0), Verdict.WRITTEN),
            Update(1, b"refs/heads/main", b"refs/x/main", Origin(OriginKind.CONFIGURED, 0), Verdict.WRITTEN, True)))
        self.assertEqual(len({given, plan(["main"], names, configured), plan(["v1"], names, configured)}), 2)
        self.assertEqual(plan(["v1:refs/x/main", "main"], names, configured).updates[2].verdict, Verdict.OVERRULED)
        nested = plan(["main:refs/x/a", "v1:refs/x/a/y", "main:refs/x/ab"], names)
        self.assertEqual([update.verdict for update in nested.updates],
                         [Verdict.DIRECTORY_CONFLICT, Verdict.DIRECTORY_CONFLICT, Verdict.WRITTEN])
        self.assertTrue(nested.is_carried_out)
        missing = plan(["main", "gone:refs/x/gone"], iter(names))
        self.assertEqual((len(missing.updates), missing.missing, missing.is_carried_out),
                         (1, (Origin(OriginKind.GIVEN, 1),), False))
        self.assertEqual(plan([], names).updates, (Update(0, b"HEAD", None, Origin(OriginKind.DEFAULT), Verdict.WRITTEN),))
        self.assertEqual(plan([], []), Plan((), (Origin(OriginKind.DEFAULT),)))
        merged = plan([], names, merges=["refs/heads/gone", "refs/heads/main"], tags=True)
        self.assertEqual([(one.origin, one.item) for one in merged.updates],
                         [(Origin(OriginKind.MERGE, 1), 1), (Origin(OriginKind.ALL_TAGS), 2)])
        # Git fetches HEAD for an empty merge. Here it is ignored, as a partial name is.
        self.assertEqual(plan([], names, merges=["", "main", "a..b"]), Plan((), ()))
        self.assertEqual(plan([b"1" * 40], names).updates[0].source, b"1" * 40)
        many = [b"refs/heads/%d" % number for number in range(9)]
        told = plan([b"refs/heads/*:refs/%d/*" % number for number in range(9)], many)
        self.assertEqual([one.item for one in told.updates], list(range(9)) * 9)

    def test_stale(self) -> None:
        specs = ["refs/heads/*:refs/x/*", "^refs/heads/dev"]
        local = ["refs/x/main", "refs/x/gone", "refs/x/dev", "refs/y/gone"]
        self.assertEqual(stale(specs, ["refs/heads/main", "refs/heads/dev"], local), [StaleRef(1), StaleRef(2, 1)])
        many = [f"refs/x/{number}" for number in range(40)]
        self.assertEqual(stale(specs, iter(["refs/heads/main"]), iter(many)), [StaleRef(item) for item in range(40)])
        self.assertEqual(stale([], ["refs/heads/main"], local), [])
        self.assertEqual(stale(specs, ["refs/heads/main"], ["refs/x/gone", "refs/x/gone"]), [StaleRef(0)])
        self.assertRaisesRegex(TypeError, "names are a list", stale, specs, "refs/heads/main", local)

    def test_specs_are_taken_for_texts(self) -> None:
        specs = [parse("refs/heads/*:refs/x/*", Operation.FETCH), "refs/tags/*:refs/y/*"]
        names = (name for name in ["refs/heads/a", "refs/tags/a"])
        self.assertEqual([one.destination for one in plan(iter(specs), names).updates], [b"refs/x/a", b"refs/y/a"])
        self.assertEqual(prefixes(specs), [b"refs/heads/", b"refs/tags/"])
        for call in (lambda push: plan([push], []), lambda push: plan([], [], [push]), lambda push: stale([push], [], []),
                     lambda push: matches([push], [], Direction.FORWARD), lambda push: prefixes([push])):
            self.assertRaisesRegex(ValueError, "a push is among the fetches", call, parse("main", Operation.PUSH))

    def test_numbers_are_not_cut(self) -> None:
        # ctypes cuts a number to 32 bits, which the library would take for an operation.
        self.assertEqual(ctypes.c_uint32(2 ** 32 + 1).value, Operation.FETCH)
        self.assertRaises(ValueError, parse, "main", 2 ** 32 + 1)


def load_tests(loader, tests, pattern):
    tests.addTests(doctest.DocTestSuite(gix_refspec))
    return tests


if __name__ == "__main__":
    unittest.main()
