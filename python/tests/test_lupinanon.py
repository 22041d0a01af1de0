"""Each function of lupinanon: what it returns, what it raises, and outputs that have to grow."""

import doctest
import os
import re
import unittest
from pathlib import Path

import lupinanon
from lupinanon import Answer, Error, Limits, Status, Verdict

PREAMBLE = b"\0asm\r\0\1\0"
# The script of a type, and a byte after it.
PLAN = b"\3\1\0\0\6\0\0\xff"
TYPE_OF_U32 = PREAMBLE + b"\7\2\1\x79"
# Types 0 and 1 are `bool` and a list of type 0; or of type 1, which is not there yet.
LIST = PREAMBLE + b"\7\4\2\x7f\x70\0"
OF_ITSELF = PREAMBLE + b"\7\4\2\x7f\x70\1"


class Refuses(unittest.TestCase):
    def refuses(self, status, offset, call, *words, **keywords):
        """Checks that a call raises an error of this status at this offset."""
        with self.assertRaises(Error) as caught:
            call(*words, **keywords)
        self.assertEqual((caught.exception.status, caught.exception.offset), (status, offset))


class LimitsTest(unittest.TestCase):
    def test_defaults(self):
        limits = Limits()
        self.assertEqual((limits.max_types, limits.max_type_size, limits.finish_after), (100, 1000, 0))
        self.assertIs(limits.simd_enabled, True)
        self.assertIs(limits.must_validate, False)
        self.assertEqual(limits, Limits(max_types=100))

    def test_profile(self):
        limits = Limits(max_exports=10, finish_after=8, max_name_length=8, loop_bits=2)
        self.assertEqual(lupinanon.fuzz_limits(), limits)
        self.assertEqual(lupinanon.fuzz_limits(loop_bits=3, max_types=4).loop_bits, 3)
        # A loop goes on after 02, and ends after 04.
        made = lupinanon.generate(b"\3\2\0\0\6\4\0", lupinanon.fuzz_limits(finish_after=0))
        self.assertEqual((made.component, made.left), (TYPE_OF_U32, 0))

    def test_keywords(self):
        limits = Limits(max_types=2**64 - 1, max_type_size=2**32 - 1, must_validate=True)
        self.assertEqual((limits.max_types, limits.max_type_size), (2**64 - 1, 2**32 - 1))
        self.assertIn("max_type_size=4294967295, ", repr(limits))
        self.assertEqual(eval(repr(limits)), limits)

    def test_what_is_no_limit(self):
        for name, value in ("max_types", -1), ("max_types", 2**64), ("max_type_size", 2**32):
            with self.assertRaises(ValueError):
                Limits(**{name: value})
        for name in "size", "reserved", "max_type":
            with self.assertRaises(TypeError):
                Limits(**{name: 1})
        with self.assertRaises(TypeError):
            Limits(max_types=1.5)
        with self.assertRaises(AttributeError):
            Limits().max_type = 1


class GenerateTest(Refuses):
    def test_a_component_of_one_type(self):
        made = lupinanon.generate(PLAN)
        self.assertEqual((made.component, made.left), (TYPE_OF_U32, 1))
        self.assertEqual(lupinanon.generate(bytearray(PLAN)), made)
        self.assertEqual(lupinanon.generate(memoryview(PLAN)), made)

    def test_limits_arrive(self):
        self.assertEqual(lupinanon.generate(PLAN[:5], max_type_size=0).component, PREAMBLE + b"\7\2\1\x7f")
        self.assertEqual(lupinanon.generate(PLAN[:5], Limits(max_type_size=0)).component, PREAMBLE + b"\7\2\1\x7f")
        limits = Limits(max_type_size=0)
        self.assertEqual(lupinanon.generate(PLAN, limits, max_type_size=1000).component, TYPE_OF_U32)
        self.assertEqual(limits.max_type_size, 0)

    def test_refusals(self):
        self.refuses(Status.INCONSISTENT_LIMITS, None, lupinanon.generate, PLAN, max_nesting_depth=1001)
        self.refuses(Status.MINIMUM_NOT_MET, None, lupinanon.generate, b"", min_imports=1)
        with self.assertRaisesRegex(Error, "^inconsistent limits$"):
            lupinanon.generate(b"", min_types=5, max_types=4)

    def test_what_are_no_bytes(self):
        for data in "text", 5, None:
            with self.assertRaises(TypeError):
                lupinanon.generate(data)

    def test_outputs_grow(self):
        data = b"\1\0\0" + b"\1\x2a" * 10_000 + b"\0\0"
        made = lupinanon.generate(data)
        self.assertEqual((len(made.component), made.left), (8 + 1 + 2 + 1 + 10_000, 0))
        self.assertEqual(lupinanon.script(made.component), data)

    def test_limits_of_an_input(self):
        swarm = lupinanon.swarm_limits(bytes([2, 0, 0, 0, 0, 0, 0, 17]) + bytes(12) + b"rest", must_validate=True, loop_bits=2)
        self.assertEqual((swarm.limits.max_types, swarm.limits.max_memories), (2, 1))
        self.assertEqual((swarm.limits.must_validate, swarm.limits.loop_bits), (True, 2))
        self.assertEqual(swarm.rest, b"rest")


class FeaturesTest(Refuses):
    def test_counters(self):
        # The component has one combination: a type that is declared at the root.
        counters = bytearray(64)
        lupinanon.features(b"", counters)
        self.assertEqual(counters, bytes(64))
        lupinanon.features(PLAN, counters)
        self.assertEqual(sorted(counters), [0] * 63 + [1])
        lupinanon.features(bytearray(PLAN), memoryview(counters))
        self.assertEqual(sorted(counters), [0] * 63 + [2])
        full = bytearray([254])
        for _ in range(2):
            lupinanon.features(PLAN, full)
            self.assertEqual(full, b"\xff")
        lupinanon.features(PLAN, bytearray())

    def test_refusals(self):
        counters = bytearray(64)
        self.refuses(Status.INCONSISTENT_LIMITS, None, lupinanon.features, PLAN, counters, max_nesting_depth=1001)
        self.refuses(Status.MINIMUM_NOT_MET, None, lupinanon.features, b"", counters, Limits(min_imports=1))
        self.assertEqual(counters, bytes(64))

    def test_what_are_no_counters(self):
        for counters in bytes(64), "text", 64, memoryview(bytearray(64))[::2]:
            with self.assertRaises(TypeError):
                lupinanon.features(PLAN, counters)


class JudgeTest(Refuses):
    def test_check(self):
        self.assertEqual(lupinanon.check(TYPE_OF_U32), lupinanon.Checked(Verdict.WELL_FORMED, None))
        self.assertEqual(lupinanon.check(OF_ITSELF), lupinanon.Checked(Verdict.ILL_FORMED, 12))
        self.assertEqual(lupinanon.check(b""), lupinanon.Checked(Verdict.UNREAD, 0))

    def test_validate(self):
        self.assertEqual(lupinanon.validate(LIST), lupinanon.Validated(Answer.VALID, None, None))
        invalid = lupinanon.validate(OF_ITSELF)
        self.assertEqual((invalid.answer, invalid.offset), (Answer.INVALID, 12))
        self.assertEqual(lupinanon.rule_text(invalid.rule), "no type has that index")
        self.assertEqual(lupinanon.rule_text(2**64 - 1), "unknown rule")
        outside = lupinanon.validate(PREAMBLE + b"\7\x82\0\1\x7f")
        self.assertEqual((outside.answer, outside.offset), (Answer.OUTSIDE, 9))

    def test_texts(self):
        self.assertEqual(lupinanon.text(PREAMBLE), "(component)\n")
        self.assertEqual(lupinanon.text(OF_ITSELF), "(component\n  (type (;0;) bool)\n  (type (;1;) (list 1))\n)\n")
        types = PREAMBLE + b"\7\x65\x64" + b"\x7f" * 100
        lines = [f"  (type (;{index};) bool)" for index in range(100)]
        self.assertEqual(lupinanon.text(types).splitlines(), ["(component", *lines, ")"])
        self.refuses(Status.UNREAD, None, lupinanon.text, b"")
        self.refuses(Status.NO_TEXT, None, lupinanon.text, PREAMBLE + b"\1\x0b\0asm\1\0\0\0\3\1\0")

    def test_scripts(self):
        self.assertEqual(lupinanon.script(TYPE_OF_U32), PLAN[:7])
        self.refuses(Status.UNREAD, 0, lupinanon.script, b"")
        self.refuses(Status.ILL_FORMED, None, lupinanon.script, OF_ITSELF)
        self.refuses(Status.NO_SCRIPT, 9, lupinanon.script, LIST, max_types=1)
        with self.assertRaisesRegex(Error, "^no script at offset 9$"):
            lupinanon.script(LIST, max_types=1)


class EditTest(Refuses):
    def test_smaller(self):
        for limits in None, Limits():
            found = [lupinanon.smaller(TYPE_OF_U32, k, limits) for k in range(4)]
            self.assertEqual(found, [PREAMBLE, PREAMBLE + b"\7\1\0", PREAMBLE + b"\7\2\1\x7f", None])
        self.assertEqual(lupinanon.smaller(TYPE_OF_U32, min_types=1), PREAMBLE + b"\7\2\1\x7f")
        self.refuses(Status.UNREAD, None, lupinanon.smaller, b"")
        self.refuses(Status.INCONSISTENT_LIMITS, None, lupinanon.smaller, TYPE_OF_U32, max_nesting_depth=1001)
        for k in -1, 2**64:
            with self.assertRaises(ValueError):
                lupinanon.smaller(TYPE_OF_U32, k)

    def test_steps(self):
        self.assertEqual(lupinanon.next_smaller(TYPE_OF_U32, 2), lupinanon.Step(3, PREAMBLE + b"\7\2\1\x7f"))
        self.assertEqual(lupinanon.next_smaller(TYPE_OF_U32, min_types=1).number, 3)
        self.assertIsNone(lupinanon.next_smaller(TYPE_OF_U32, 4))

    def test_without_and_joined(self):
        self.assertEqual(lupinanon.without(TYPE_OF_U32, 1), PREAMBLE + b"\7\1\0")
        self.assertIsNone(lupinanon.without(TYPE_OF_U32, 2))
        self.assertEqual(lupinanon.join(TYPE_OF_U32, TYPE_OF_U32), TYPE_OF_U32 + b"\7\2\1\x79")
        self.refuses(Status.UNREAD, None, lupinanon.join, TYPE_OF_U32, b"")

    def test_changes(self):
        self.assertEqual(lupinanon.change_count(LIST), 96)
        changed = lupinanon.changed(LIST, 81)
        self.assertEqual((changed.component, changed.validated), (OF_ITSELF, lupinanon.validate(OF_ITSELF)))
        self.assertIs(lupinanon.changed(LIST, 64).validated.answer, Answer.VALID)
        self.assertIsNone(lupinanon.changed(LIST, 80))
        self.assertEqual(lupinanon.next_changed(LIST, 65), lupinanon.Step(81, OF_ITSELF))
        self.assertIsNone(lupinanon.next_changed(LIST, 86))
        self.refuses(Status.UNREAD, None, lupinanon.change_count, b"")

    def test_miswritten(self):
        self.assertEqual(lupinanon.next_miswritten(TYPE_OF_U32, 8), lupinanon.Step(9, TYPE_OF_U32[:9]))
        self.assertIsNone(lupinanon.next_miswritten(TYPE_OF_U32, 24))


class LibraryTest(unittest.TestCase):
    def test_version(self):
        project = Path(__file__).parents[1] / "pyproject.toml"
        self.assertIn(f'\nversion = "{lupinanon.version()}"\n', project.read_text(encoding="utf-8"))

    @unittest.skipUnless("LUPINANON_HEADER" in os.environ, "LUPINANON_HEADER names no header")
    def test_statuses_of_the_header(self):
        header = Path(os.environ["LUPINANON_HEADER"]).read_text(encoding="utf-8")
        said = {name: int(value) for name, value in re.findall(r"^    LUPINANON_(\w+) = (\d+)", header, flags=re.M)}
        self.assertEqual(said, {**Status.__members__, "WELL_FORMED": 0, "VALID": 0})


def load_tests(loader, tests, pattern):
    tests.addTests(doctest.DocTestSuite(lupinanon))
    return tests


if __name__ == "__main__":
    unittest.main()
