"""The two kinds of maps, and values of either, for tests of both."""

import hashlib

from boltcomfrey import BytesMap, NumberMap

MOST = 2**64 - 1


class Numbers:
    """Tests of maps to numbers."""

    kind = NumberMap
    values = (300, 100, 2000, 0, MOST)


class Strings:
    """Tests of maps to byte strings."""

    kind = BytesMap
    # (the last one is longer than a page has room for)
    values = (b"300", b"100", b"2000", b"", b"\0\xff" * 40_000)


def leb128(number):
    """A number in groups of seven bits, the least first, as docs/FORMAT.md says."""
    groups = []
    while number >= 128:
        groups.append(number % 128 + 128)
        number //= 128
    return bytes([*groups, number])


def saved(pairs, number):
    """The bytes of a map, by docs/FORMAT.md alone."""
    is_bytes = any(isinstance(it, bytes) for it in pairs.values())
    found = b"comfrey" + bytes([1, 2 if is_bytes else 1]) + leb128(number) + leb128(len(pairs))
    before = b""
    for key in sorted(pairs):
        shared = 0
        while shared < min(len(key), len(before)) and key[shared] == before[shared]:
            shared += 1
        value = pairs[key]
        found += leb128(shared) + leb128(len(key) - shared) + key[shared:]
        found += leb128(len(value)) + value if is_bytes else value.to_bytes(8, "little")
        before = key
    return found + hashlib.sha256(found).digest()
