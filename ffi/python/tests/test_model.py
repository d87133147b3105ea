"""Random calls on several maps and their snapshots, beside dicts with sorted keys.

CALLS says how many, of each kind.
"""

import os
import random
import unittest

from boltcomfrey import Change, LastNumber
from kinds import MOST, Numbers, Strings, saved

CALLS = int(os.environ.get("CALLS", "20000"))
# How many maps there are at most.
MAPS = 8


class Pair:
    """A map, and what it is to be: its pairs and its number."""

    def __init__(self, made, pairs, number):
        self.made, self.pairs, self.number = made, pairs, number

    def keys(self, holds=lambda _: True):
        return [it for it in sorted(self.pairs) if holds(it)]

    def items(self, holds=lambda _: True):
        return [(it, self.pairs[it]) for it in self.keys(holds)]


class Model:
    def setUp(self):
        self.random = random.Random(f"{self.kind.__name__} {CALLS}")
        self.pairs = [Pair(self.kind(), {}, 0)]
        self.walks = []

    # What calls are given.

    def key(self):
        letters = (b"a", b"b", b"c", b"\0", b"\xff")
        return b"".join(self.random.choices(letters, k=self.random.randrange(6)))

    def bound(self):
        return self.random.choice((None, self.key(), self.key()))

    def one(self):
        return self.random.choice(self.pairs)

    def keep(self, made, pairs, number):
        if len(self.pairs) == MAPS:
            self.pairs.pop(self.random.randrange(MAPS))
        self.pairs.append(Pair(made, pairs, number))

    # The calls, each beside what it is to do.

    def call_set(self):
        it, key, value = self.one(), self.key(), self.value()
        it.made[key] = value
        it.pairs[key] = value
        it.number += 1

    def call_get(self):
        it, key = self.one(), self.key()
        self.assertEqual(it.made.get(key), it.pairs.get(key))
        self.assertEqual(key in it.made, key in it.pairs)
        if key not in it.pairs:
            with self.assertRaises(KeyError):
                it.made[key]

    def call_take(self):
        it, key = self.one(), self.key()
        wanted = it.pairs.pop(key, None)
        it.number += wanted is not None
        self.assertEqual(it.made.pop(key, None), wanted)

    def call_delete(self):
        it, key = self.one(), self.key()
        if key in it.pairs:
            del it.made[key], it.pairs[key]
            it.number += 1
        else:
            with self.assertRaises(KeyError):
                del it.made[key]

    def call_popitem(self):
        it, last = self.one(), self.random.random() < 0.5
        if it.pairs:
            key = (max if last else min)(it.pairs)
            self.assertEqual(it.made.popitem(last=last), (key, it.pairs.pop(key)))
            it.number += 1
        else:
            with self.assertRaises(KeyError):
                it.made.popitem(last=last)

    def call_setdefault(self):
        it, key, value = self.one(), self.key(), self.value()
        it.number += key not in it.pairs
        self.assertEqual(it.made.setdefault(key, value), it.pairs.setdefault(key, value))

    def call_add(self):
        it, key, value = self.one(), self.key(), self.value()
        is_new = key not in it.pairs
        self.assertEqual(it.made.add(key, value), is_new)
        it.number += is_new
        it.pairs.setdefault(key, value)

    def call_replace(self):
        it, key, value = self.one(), self.key(), self.value()
        is_there = key in it.pairs
        self.assertEqual(it.made.replace(key, value), is_there)
        if is_there:
            it.pairs[key] = value
            it.number += 1

    def call_update(self):
        it, new = self.one(), {self.key(): self.value() for _ in range(5)}
        it.made.update(new)
        it.pairs.update(new)
        it.number += len(new)

    def call_neighbours(self):
        it, key = self.one(), self.key()
        for found, holds, end in (
            (it.made.first(), lambda _: True, 0),
            (it.made.last(), lambda _: True, -1),
            (it.made.first_from(key), key.__le__, 0),
            (it.made.first_after(key), key.__lt__, 0),
            (it.made.last_to(key), key.__ge__, -1),
            (it.made.last_before(key), key.__gt__, -1),
            (it.made.longest_prefix(key), key.startswith, -1),
        ):
            wanted = it.items(holds)
            self.assertEqual(found, wanted[end] if wanted else None)

    def call_range(self):
        it, start, stop = self.one(), self.bound(), self.bound()
        inclusive = self.random.random() < 0.5, self.random.random() < 0.5

        def holds(key):
            low = start is None or start < key or (inclusive[0] and start == key)
            high = stop is None or key < stop or (inclusive[1] and stop == key)
            return low and high

        self.compare(it.made.range(start, stop, inclusive=inclusive), it.items(holds))

    def call_prefix(self):
        it, prefix = self.one(), self.key()
        self.compare(it.made.prefix(prefix), it.items(lambda key: key.startswith(prefix)))

    def compare(self, found, wanted):
        """That a range has these pairs, both ways."""
        self.assertEqual(list(found.items()), wanted)
        self.assertEqual(list(reversed(found.items())), wanted[::-1])
        self.assertEqual(list(found), [key for key, _ in wanted])
        self.assertEqual(list(reversed(found.values())), [value for _, value in wanted[::-1]])
        self.assertEqual((len(found), bool(found)), (len(wanted), bool(wanted)))

    def call_delete_range(self):
        it, start, stop = self.one(), self.key(), self.key()
        keys = it.keys(lambda key: start <= key < stop)
        del it.made[start:stop]
        for key in keys:
            del it.pairs[key]
        it.number += len(keys)

    def call_remove_prefix(self):
        it, prefix = self.one(), self.key() + self.key()
        keys = it.keys(lambda key: key.startswith(prefix))
        self.assertEqual(it.made.remove_prefix(prefix), len(keys))
        for key in keys:
            del it.pairs[key]
        it.number += bool(keys)

    def call_snapshot(self):
        it = self.one()
        self.keep(it.made.snapshot(), dict(it.pairs), it.number + 1)

    def call_copy(self):
        it = self.one()
        self.keep(it.made.copy(), dict(it.pairs), it.number)

    def call_prefix_snapshot(self):
        it, prefix = self.one(), self.key()
        pairs = dict(it.items(lambda key: key.startswith(prefix)))
        self.keep(it.made.prefix_snapshot(prefix), pairs, it.number + 1)

    def call_restore_prefix(self):
        it, other, prefix = self.one(), self.one(), self.key()
        if it.number + other.number > MOST:
            with self.assertRaises(LastNumber):
                it.made.restore_prefix(prefix, other.made)
            self.keep(self.kind(it.pairs), dict(it.pairs), len(it.pairs))
            return
        it.made.restore_prefix(prefix, other.made)
        pairs = dict(it.items(lambda key: not key.startswith(prefix)))
        it.pairs = pairs | dict(other.items(lambda key: key.startswith(prefix)))
        it.number += other.number

    def call_compare(self):
        it, other = self.one(), self.one()
        keys = sorted({*it.pairs, *other.pairs})
        changes = [Change(key, it.pairs.get(key), other.pairs.get(key)) for key in keys]
        changes = [change for change in changes if change.before != change.after]
        self.assertEqual(list(it.made.diff(other.made)), changes)
        self.assertEqual(it.made == other.made, not changes)
        self.assertEqual(it.made.common_count(other.made), len({*it.pairs} & {*other.pairs}))

    def call_combine(self):
        it, other = self.one(), self.one()
        pairs = {key: value for key, value in it.items() if other.pairs.get(key) != value}
        self.assertEqual(it.made.difference(other.made), pairs)
        pairs = dict(it.items(other.pairs.__contains__))
        self.keep(it.made.intersection(other.made), pairs, it.number)

    def call_save(self):
        it = self.one()
        data = saved(it.pairs, it.number) if it.pairs else it.made.to_bytes()
        self.assertEqual(it.made.to_bytes(), data)
        self.keep(self.kind.from_bytes(data), dict(it.pairs), it.number)

    def call_walk(self):
        it = self.one()
        way = self.random.choice((iter, reversed))
        self.walks.append((way(it.made.items()), list(way(it.items()))))
        if len(self.walks) > 4:
            walk, wanted = self.walks.pop(self.random.randrange(4))
            for pair in wanted[: self.random.randrange(80)]:
                self.assertEqual(next(walk), pair)
                wanted.remove(pair)
            if self.random.random() < 0.5:
                self.assertEqual(list(walk), wanted)

    def call_all(self):
        it = self.one()
        self.assertEqual(dict(it.made), it.pairs)
        self.assertEqual(list(it.made), it.keys())
        self.assertEqual((len(it.made), it.made.number), (len(it.pairs), it.number))

    def test_random_calls(self):
        calls = [getattr(self, it) for it in dir(self) if it.startswith("call_")]
        for _ in range(CALLS):
            call = self.random.choice([*calls, self.call_set, self.call_set, self.call_update])
            call()
        for it in self.pairs:
            self.assertEqual(dict(it.made), it.pairs)


class NumberModel(Numbers, Model, unittest.TestCase):
    def value(self):
        return self.random.choice((0, 1, MOST, self.random.randrange(2**64)))


class BytesModel(Strings, Model, unittest.TestCase):
    def value(self):
        # (now and then one that is longer than a page has room for)
        length = self.random.choice((0, 1, 5, 40)) if self.random.random() < 0.999 else 70_000
        return self.random.randbytes(length)


if __name__ == "__main__":
    unittest.main()
