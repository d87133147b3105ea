"""Bad input: each is refused by the exception that a Python user expects, and changes nothing."""

import unittest

import boltcomfrey
from boltcomfrey import BytesMap, Error, KeyTooLong, LastNumber, LoadError, NumberMap
from kinds import MOST, Numbers, Strings


class Refusals:
    def setUp(self):
        self.value = self.values[0]
        self.map = self.kind({b"tea": self.value})

    def tearDown(self):
        self.assertEqual((dict(self.map), self.map.number), ({b"tea": self.value}, 1))

    def test_keys_are_bytes(self):
        for wrong in ("tea", 7, None, 1.5, (b"tea",), [116, 101, 97]):
            for call in (
                lambda: self.map[wrong],
                lambda: self.map.get(wrong),
                lambda: wrong in self.map,
                lambda: self.map.__setitem__(wrong, self.value),
                lambda: self.map.__delitem__(wrong),
                lambda: self.map.pop(wrong),
                lambda: self.map.pop(wrong, None),
                lambda: self.map.setdefault(wrong, self.value),
                lambda: self.map.add(wrong, self.value),
                lambda: self.map.replace(wrong, self.value),
                lambda: self.map.update([(wrong, self.value)]),
                lambda: self.map.longest_prefix(wrong),
                lambda: self.map.first_from(wrong),
                lambda: self.map.first_after(wrong),
                lambda: self.map.last_to(wrong),
                lambda: self.map.last_before(wrong),
                lambda: self.map.remove_prefix(wrong),
                lambda: self.map.prefix_snapshot(wrong),
                lambda: self.map.restore_prefix(wrong, self.map),
            ):
                with self.assertRaises(TypeError):
                    call()
        with self.assertRaisesRegex(TypeError, "encode"):
            self.map["tea"]

    def test_long_keys(self):
        for limit in (0, 1, 1024, 8192):
            made = self.kind(longest_key=limit)
            self.assertEqual(made.longest_key, limit)
            made[b"k" * limit] = self.value
            for call in (
                lambda: made.__setitem__(b"k" * (limit + 1), self.value),
                lambda: made.add(b"k" * (limit + 1), self.value),
                lambda: made.setdefault(b"k" * (limit + 1), self.value),
            ):
                with self.assertRaises(KeyTooLong) as caught:
                    call()
                self.assertIsInstance(caught.exception, ValueError)
                self.assertIsNone(caught.exception.offset)
            self.assertNotIn(b"k" * 100_000, made)
            self.assertFalse(made.replace(b"k" * 100_000, self.value))
            self.assertEqual(made.longest_prefix(b"k" * 100_000), (b"k" * limit, self.value))
            self.assertEqual(made.last_before(b"k" * 100_000), (b"k" * limit, self.value))
            self.assertEqual(made.last(), (b"k" * limit, self.value))
            self.assertEqual(len(made), 1)

    def test_how_long_keys_may_be(self):
        for wrong in (-1, 8193, 2**64):
            with self.assertRaises(ValueError):
                self.kind(longest_key=wrong)
        for wrong in ("1", 1.5, None):
            with self.assertRaises(TypeError):
                self.kind(longest_key=wrong)

    def test_numbers_of_maps(self):
        for wrong in (-1, MOST + 1):
            with self.assertRaises(OverflowError):
                self.kind(number=wrong)
        for wrong in ("1", 1.5, None):
            with self.assertRaises(TypeError):
                self.kind(number=wrong)

    def test_what_is_no_pairs(self):
        for wrong in (7, None, [b"ab", 7], [(b"a",)]):
            with self.assertRaises((TypeError, ValueError)):
                self.kind(wrong)
        with self.assertRaises(TypeError):
            self.kind(a=self.value)

    def test_properties_are_read(self):
        for name in ("number", "longest_key"):
            with self.assertRaises(AttributeError):
                setattr(self.map, name, 7)


class NumberRefusals(Numbers, Refusals, unittest.TestCase):
    def test_values_are_numbers(self):
        for wrong in ("7", b"7", None, 1.5, [7]):
            for call in (
                lambda: self.map.__setitem__(b"tea", wrong),
                lambda: self.map.setdefault(b"salt", wrong),
                lambda: self.map.add(b"salt", wrong),
                lambda: self.map.replace(b"tea", wrong),
            ):
                with self.assertRaises(TypeError):
                    call()

    def test_values_have_64_bits(self):
        for wrong in (-1, MOST + 1, -(2**63), 2**200):
            for call in (
                lambda: self.map.__setitem__(b"tea", wrong),
                lambda: self.map.setdefault(b"salt", wrong),
                lambda: self.map.add(b"salt", wrong),
                lambda: self.map.replace(b"tea", wrong),
            ):
                with self.assertRaisesRegex(OverflowError, r"2\*\*64"):
                    call()


class BytesRefusals(Strings, Refusals, unittest.TestCase):
    def test_values_are_bytes(self):
        for wrong in ("7", 7, None, 1.5, [7]):
            for call in (
                lambda: self.map.__setitem__(b"tea", wrong),
                lambda: self.map.setdefault(b"salt", wrong),
                lambda: self.map.add(b"salt", wrong),
                lambda: self.map.replace(b"tea", wrong),
            ):
                with self.assertRaises(TypeError):
                    call()


class Hierarchy(unittest.TestCase):
    def test_what_is_caught_by_what(self):
        own = [getattr(boltcomfrey, it) for it in boltcomfrey.__all__]
        own = [it for it in own if isinstance(it, type) and issubclass(it, Exception)]
        self.assertEqual(len(own), 9)
        self.assertTrue(all(issubclass(it, Error) and it.__doc__ for it in own))
        self.assertTrue(issubclass(LastNumber, OverflowError))
        self.assertTrue(issubclass(LoadError, ValueError))

    def test_all_that_is_public_is_described(self):
        for kind in (BytesMap, NumberMap, boltcomfrey.Range):
            for name in dir(kind):
                if not name.startswith("_"):
                    found = [getattr(vars(it).get(name), "__doc__", None) for it in kind.__mro__]
                    self.assertTrue(any(found), f"{kind.__name__}.{name}")


if __name__ == "__main__":
    unittest.main()
