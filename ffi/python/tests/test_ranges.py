"""Ranges and prefixes: views that can be read, counted, walked both ways and taken out."""

import unittest
from itertools import product

from boltcomfrey import Range
from kinds import Numbers, Strings

KEYS = [b"", b"a", b"a\0", b"a\xff", b"a\xff\xff", b"ab", b"b", b"\xff", b"\xff\xff"]


class Ranges:
    def setUp(self):
        self.value, self.other = self.values[:2]
        self.map = self.kind.fromkeys(KEYS, self.value)
        self.keys = sorted(KEYS)

    def test_slices(self):
        for start in (None, *KEYS, b"c"):
            for stop in (None, *KEYS, b"c"):
                wanted = [
                    it
                    for it in self.keys
                    if (start is None or start <= it) and (stop is None or it < stop)
                ]
                found = self.map[start:stop]
                self.assertIsInstance(found, Range)
                self.assertEqual(list(found), wanted)
                self.assertEqual(list(reversed(found)), wanted[::-1])
                self.assertEqual((len(found), bool(found)), (len(wanted), bool(wanted)))
                self.assertEqual(found, dict.fromkeys(wanted, self.value))
                self.assertEqual({it for it in KEYS if it in found}, {*wanted})

    def test_bounds_are_inclusive_or_not(self):
        for inclusive, wanted in (
            ((True, False), [b"a", b"a\0", b"ab", b"a\xff", b"a\xff\xff"]),
            ((True, True), [b"a", b"a\0", b"ab", b"a\xff", b"a\xff\xff", b"b"]),
            ((False, False), [b"a\0", b"ab", b"a\xff", b"a\xff\xff"]),
            ((False, True), [b"a\0", b"ab", b"a\xff", b"a\xff\xff", b"b"]),
        ):
            found = self.map.range(b"a", b"b", inclusive=inclusive)
            self.assertEqual(list(found.keys()), wanted)
            pairs = [(it, self.value) for it in wanted]
            self.assertEqual(list(reversed(found.items())), pairs[::-1])
            self.assertEqual((b"a" in found, b"b" in found), inclusive)
        self.assertEqual(len(self.map.range()), len(KEYS))
        self.assertEqual(list(self.map.range(stop=b"", inclusive=(True, True))), [b""])

    def test_ranges_of_ranges(self):
        bounds = (None, b"", b"a", b"a\xff", b"b")
        kinds = [(low, high) for low in (False, True) for high in (False, True)]
        for start, stop in product(bounds, bounds):
            for outer, inner in product(kinds, kinds):
                for low, high in product(bounds, bounds):
                    around = self.map.range(start, stop, inclusive=outer)
                    found = around.range(low, high, inclusive=inner)
                    alone = self.map.range(low, high, inclusive=inner)
                    self.assertEqual([*found], [it for it in around if it in alone])
        self.assertEqual([*self.map.prefix(b"a")[b"ab":]], [b"ab", b"a\xff", b"a\xff\xff"])
        behind = self.map.prefix(b"a").range(b"ab", inclusive=(False, False))
        self.assertEqual([*behind], [b"a\xff", b"a\xff\xff"])

    def test_inclusive_is_a_pair(self):
        for inclusive in (True, (), (True,), "[]", (1, 0)):
            with self.assertRaisesRegex(TypeError, "pair"):
                self.map.range(b"a", inclusive=inclusive)

    def test_prefixes(self):
        for prefix in (*KEYS, b"c", b"a\xff\xff\xff"):
            wanted = [it for it in self.keys if it.startswith(prefix)]
            found = self.map.prefix(prefix)
            self.assertEqual(list(found), wanted)
            self.assertEqual(list(reversed(found)), wanted[::-1])
            self.assertEqual(len(found), len(wanted))
            self.assertEqual(list(found.values()), [self.value] * len(wanted))

    def test_reads_what_is_within(self):
        found = self.map[b"a":b"b"]
        self.assertEqual(found[b"ab"], self.value)
        self.assertEqual(found.get(b"b"), None)
        for key in (b"b", b"az"):
            with self.assertRaises(KeyError):
                found[key]

    def test_shows_later_changes(self):
        found = self.map.prefix(b"b")
        self.map[b"bc"] = self.other
        self.assertEqual(list(found), [b"b", b"bc"])
        walk = iter(found)
        del self.map[b"bc"]
        self.assertEqual((list(walk), list(found)), ([b"b", b"bc"], [b"b"]))

    def test_is_only_read(self):
        for change in ("pop", "clear", "update"):
            self.assertFalse(hasattr(self.map[:], change))
        with self.assertRaises(TypeError):
            self.map[:][b"a"] = self.value
        with self.assertRaises(TypeError):
            self.map[b"a":b"b"] = {b"a": self.value}

    def test_takes_a_slice_out(self):
        before = self.map.copy()
        del self.map[b"a\0":b"b"]
        self.assertEqual(list(self.map), [b"", b"a", b"b", b"\xff", b"\xff\xff"])
        self.assertEqual(self.map.number, before.number + 4)
        del self.map[b"x":b"y"]
        del self.map[:b"a"]
        self.assertEqual(list(self.map), [b"a", b"b", b"\xff", b"\xff\xff"])
        del self.map[:]
        self.assertEqual((list(self.map), list(before)), ([], self.keys))

    def test_takes_many_out(self):
        keys = [b"%05d" % it for it in range(5000)]
        made = self.kind.fromkeys(keys, self.value)
        del made[b"00500":b"04500"]
        self.assertEqual(list(made), keys[:500] + keys[4500:])

    def test_takes_a_slice_out_or_nothing(self):
        made = self.kind(number=2**64 - 4)
        for key in (b"a", b"b"):
            made[key] = self.value
        number = made.number
        with self.assertRaises(OverflowError):
            del made[b"a":]
        self.assertEqual((list(made), made.number), ([b"a", b"b"], number))
        del made[b"b":]
        self.assertEqual(list(made), [b"a"])

    def test_takes_prefixes_out(self):
        self.assertEqual(self.map.remove_prefix(b"a"), 5)
        self.assertEqual(self.map.remove_prefix(b"a"), 0)
        self.assertEqual(list(self.map), [b"", b"b", b"\xff", b"\xff\xff"])
        self.assertEqual(self.map.number, len(KEYS) + 1)

    def test_bounds_that_are_wrong(self):
        for wrong in (slice("a", None), slice(None, 7), slice(b"a", b"b", 1)):
            with self.assertRaises((TypeError, ValueError)):
                self.map[wrong]
            with self.assertRaises((TypeError, ValueError)):
                del self.map[wrong]
        for wrong in ("a", 7, None):
            with self.assertRaises(TypeError):
                self.map.prefix(wrong)
        with self.assertRaises(TypeError):
            "a" in self.map[:]


class NumberRanges(Numbers, Ranges, unittest.TestCase):
    pass


class BytesRanges(Strings, Ranges, unittest.TestCase):
    pass


if __name__ == "__main__":
    unittest.main()
