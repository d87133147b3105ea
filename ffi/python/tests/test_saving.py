"""Maps as bytes, which docs/FORMAT.md describes, and bytes that are no map's."""

import hashlib
import unittest

from boltcomfrey import (
    BytesMap,
    Error,
    KeyTooLong,
    LoadError,
    Malformed,
    NumberMap,
    Truncated,
    UnsupportedFormat,
    WrongSum,
)
from kinds import MOST, Numbers, Strings, saved

KEYS = [b"", b"a", b"ab", b"abc" * 100, b"b", b"\xff" * 200]


def summed(data):
    """Bytes with a sum that fits."""
    return data + hashlib.sha256(data).digest()


class Saving:
    def setUp(self):
        self.pairs = {key: value for key, value in zip(KEYS, self.values * 2)}

    def test_bytes_are_the_ones_that_the_format_says(self):
        made = self.kind(self.pairs, number=300)
        self.assertEqual(made.to_bytes(), saved(self.pairs, 306))
        read = self.kind.from_bytes(saved(self.pairs, 306))
        self.assertEqual((dict(read), read.number, read.longest_key), (self.pairs, 306, 1024))
        for data in (bytearray(made.to_bytes()), memoryview(made.to_bytes())):
            self.assertEqual(self.kind.from_bytes(data), made)

    def test_the_greatest_number(self):
        data = saved({b"a": self.values[0]}, MOST)
        read = self.kind.from_bytes(data)
        self.assertEqual((read.number, read.to_bytes()), (MOST, data))

    def test_keys_past_the_limit(self):
        data = self.kind(self.pairs).to_bytes()
        self.assertEqual(self.kind.from_bytes(data, longest_key=300), self.pairs)
        with self.assertRaises(KeyTooLong) as caught:
            self.kind.from_bytes(data, longest_key=299)
        self.assertEqual(data[caught.exception.offset :][:4], b"\x02\xaa\x02c")
        long = self.kind({b"k" * 2000: self.values[0]}, longest_key=2000)
        with self.assertRaises(KeyTooLong):
            self.kind.from_bytes(long.to_bytes())
        self.assertEqual(self.kind.from_bytes(long.to_bytes(), longest_key=2000), long)

    def test_damaged_bytes(self):
        data = self.kind({b"tea": self.values[0], b"teapot": self.values[1]}).to_bytes()
        for length in range(len(data)):
            with self.assertRaises(Truncated):
                self.kind.from_bytes(data[:length])
        with self.assertRaises(UnsupportedFormat):
            self.kind.from_bytes(summed(b"comfrey\2" + data[8:-32]))
        with self.assertRaises(WrongSum):
            self.kind.from_bytes(data[:-1] + bytes([data[-1] ^ 1]))
        with self.assertRaises(Malformed) as caught:
            self.kind.from_bytes(b"x" + data[1:])
        self.assertEqual(caught.exception.offset, 0)
        self.assertIn("at byte 0", str(caught.exception))
        with self.assertRaises(Malformed):
            self.kind.from_bytes(data + b"x")
        for place in range(len(data)):
            changed = bytearray(data)
            changed[place] ^= 64
            with self.assertRaises((LoadError, KeyTooLong)) as caught:
                self.kind.from_bytes(changed)
            self.assertIsInstance(caught.exception, Error)
            self.assertIsInstance(caught.exception, ValueError)

    def test_lengths_are_not_believed(self):
        most = b"\xff" * 9 + b"\1"
        kind = b"\1" if self.kind is NumberMap else b"\2"
        for data in (
            b"comfrey\1" + kind + most + most,
            b"comfrey\1" + kind + most + b"\1\0" + most,
        ):
            with self.assertRaises((LoadError, KeyTooLong)):
                self.kind.from_bytes(summed(data))

    def test_bytes_of_the_other_kind(self):
        other = BytesMap if self.kind is NumberMap else NumberMap
        with self.assertRaises(Malformed) as caught:
            other.from_bytes(self.kind(self.pairs).to_bytes())
        self.assertEqual(caught.exception.offset, 8)

    def test_what_is_no_bytes(self):
        for wrong in ("comfrey", 7, None, [1]):
            with self.assertRaises(TypeError):
                self.kind.from_bytes(wrong)
        with self.assertRaises(ValueError):
            self.kind.from_bytes(saved({}, 0), longest_key=-1)


class NumberSaving(Numbers, Saving, unittest.TestCase):
    def test_the_empty_map(self):
        self.assertEqual(NumberMap().to_bytes(), summed(b"comfrey\1\1\0\0"))


class BytesSaving(Strings, Saving, unittest.TestCase):
    def test_the_empty_map(self):
        self.assertEqual(BytesMap().to_bytes(), summed(b"comfrey\1\2\0\0"))


if __name__ == "__main__":
    unittest.main()
