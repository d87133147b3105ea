"""Snapshots, what differs between two maps, and what is put back."""

import gc
import unittest

from boltcomfrey import BytesMap, Change, KeyTooLong, LastNumber, NumberMap
from kinds import MOST, Numbers, Strings


class Versions:
    def setUp(self):
        self.one, self.two, self.three = self.values[:3]
        self.map = self.kind({b"milk": self.one, b"tea": self.one, b"teapot": self.one})

    def test_snapshots_change_apart(self):
        versions = [self.map]
        for number in range(20):
            versions.append(versions[-1].snapshot())
            versions[-1][b"%02d" % number] = self.two
        for number, version in enumerate(versions):
            self.assertEqual(len(version), 3 + number)
            self.assertEqual(len(version[:b"milk"]), number)
        del self.map, versions[5:]
        gc.collect()
        self.assertEqual(versions[4][b"03"], self.two)

    def test_diff(self):
        later = self.map.snapshot()
        later[b"tea"] = self.two
        later[b"salt"] = self.three
        del later[b"milk"]
        found = self.map.diff(later)
        later.clear()
        self.assertEqual(
            list(found),
            [
                Change(b"milk", self.one, None),
                Change(b"salt", None, self.three),
                Change(b"tea", self.one, self.two),
            ],
        )
        self.assertEqual(list(self.map.diff(self.map)), [])
        self.assertEqual(list(self.map.diff(self.map.copy())), [])
        self.assertEqual(
            [(it.key, it.before, it.after) for it in self.kind().diff(self.map)],
            [(it, None, self.one) for it in self.map],
        )
        self.assertEqual(
            list(self.map.diff(self.kind())), [(it, self.one, None) for it in self.map]
        )

    def test_difference_and_intersection(self):
        other = self.kind({b"tea": self.two, b"teapot": self.one, b"salt": self.one}, number=9)
        gone, common = self.map.difference(other), self.map.intersection(other)
        self.assertEqual(gone, {b"milk": self.one, b"tea": self.one})
        self.assertEqual(common, {b"tea": self.one, b"teapot": self.one})
        self.assertEqual((gone.number, common.number), (3, 3))
        self.assertEqual(self.map.common_count(other), 2)
        self.assertEqual(self.map.common_count(self.map), 3)
        self.assertEqual(self.map.difference(self.map), {})
        self.assertEqual(self.map.intersection(self.map), self.map)

    def test_prefixes_are_kept_and_put_back(self):
        before = self.map.prefix_snapshot(b"tea")
        self.assertEqual((list(before), before.number), ([b"tea", b"teapot"], 4))
        self.map[b"tea"] = self.two
        self.map[b"teas"] = self.two
        self.map[b"milk"] = self.two
        self.map.restore_prefix(b"tea", before)
        self.assertEqual(
            self.map, {b"milk": self.two, b"tea": self.one, b"teapot": self.one}
        )
        self.assertEqual(self.map.number, 6 + 4)
        self.map.restore_prefix(b"m", before)
        self.assertEqual(self.map, {b"tea": self.one, b"teapot": self.one})
        self.map.restore_prefix(b"t", self.map)
        self.assertEqual((len(self.map), self.map.number), (2, 28))

    def test_the_last_number(self):
        last = self.kind(number=MOST)
        for change in (
            last.snapshot,
            lambda: last.prefix_snapshot(b""),
            lambda: last.__setitem__(b"a", self.one),
            lambda: last.update({b"a": self.one}),
            lambda: last.setdefault(b"a", self.one),
            lambda: last.add(b"a", self.one),
            lambda: last.restore_prefix(b"", self.map),
        ):
            with self.assertRaises(LastNumber):
                change()
        self.assertEqual((len(last), last.number, last.copy().number), (0, MOST, MOST))
        last.clear()
        last = self.kind({b"a": self.one}, number=MOST - 1)
        for change in (
            lambda: last.pop(b"a"),
            lambda: last.__delitem__(b"a"),
            lambda: last.popitem(),
            lambda: last.replace(b"a", self.two),
            lambda: last.remove_prefix(b""),
            last.clear,
        ):
            with self.assertRaises(OverflowError):
                change()
        self.assertEqual((dict(last), last.number), ({b"a": self.one}, MOST))

    def test_longer_keys_are_not_put_back(self):
        short = self.kind({b"tea": self.two}, longest_key=3)
        with self.assertRaises(KeyTooLong):
            short.restore_prefix(b"", self.map)
        self.assertEqual((short, short.number), ({b"tea": self.two}, 1))

    def test_copies_keep_how_long_a_key_may_be(self):
        short = self.kind({b"tea": self.one}, longest_key=3)
        for made in (
            short.copy(),
            short.snapshot(),
            short.prefix_snapshot(b"t"),
            short.difference(self.map),
            short.intersection(self.map),
        ):
            self.assertEqual(made.longest_key, 3)

    def test_only_maps_of_one_kind_meet(self):
        other = (BytesMap if self.kind is NumberMap else NumberMap)()
        for wrong in (other, {}, None):
            for call in (
                self.map.diff,
                self.map.difference,
                self.map.intersection,
                self.map.common_count,
                lambda it: self.map.restore_prefix(b"", it),
            ):
                with self.assertRaises(TypeError):
                    call(wrong)
        self.assertEqual(self.kind(), other)


class NumberVersions(Numbers, Versions, unittest.TestCase):
    pass


class BytesVersions(Strings, Versions, unittest.TestCase):
    pass


if __name__ == "__main__":
    unittest.main()
