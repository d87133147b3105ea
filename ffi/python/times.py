"""How long calls take, beside a dict that is sorted when it is asked for order, and beside
sortedcontainers' SortedDict where that is installed.

    python times.py [PASSES]

Random keys of 16 bytes to numbers; the least time of so many passes (10 if left out), in
microseconds of a call, of a pair, or of a copy.
"""

import bisect
import random
import sys
import time

from boltcomfrey import NumberMap

try:
    from sortedcontainers import SortedDict
except ImportError:
    SortedDict = None

SIZES = 10_000, 100_000


class Sorted:
    """A dict beside a list of its keys, which is kept sorted by insertions in place."""

    def __init__(self, pairs):
        self.values = dict(pairs)
        self.keys = sorted(self.values)

    def __getitem__(self, key):
        return self.values[key]

    def __contains__(self, key):
        return key in self.values

    def __setitem__(self, key, value):
        if key not in self.values:
            bisect.insort(self.keys, key)
        self.values[key] = value

    def __delitem__(self, key):
        del self.values[key]
        del self.keys[bisect.bisect_left(self.keys, key)]

    def items(self):
        return ((key, self.values[key]) for key in self.keys)

    def hundred_from(self, key):
        at = bisect.bisect_left(self.keys, key)
        return [(it, self.values[it]) for it in self.keys[at : at + 100]]

    def copy(self):
        made = Sorted(())
        made.keys, made.values = self.keys.copy(), self.values.copy()
        return made


class Bolt(NumberMap):
    def hundred_from(self, key):
        return [pair for pair, _ in zip(self[key:].items(), range(100))]


kinds = {"NumberMap": Bolt, "dict and a sorted list": Sorted}
if SortedDict is not None:

    class Other(SortedDict):
        def hundred_from(self, key):
            return [(it, self[it]) for it, _ in zip(self.irange(key), range(100))]

    kinds["SortedDict"] = Other


def least(passes, prepare, call, count):
    """The least time of a pass of a call on what is prepared, for each of so many."""
    found = []
    for _ in range(passes):
        given = prepare()
        begun = time.perf_counter()
        call(given)
        found.append(time.perf_counter() - begun)
    return min(found) / count * 1e6


def measures(kind, keys, passes):
    """What is measured of a kind of maps: a name, and a time."""
    pairs = [(key, at) for at, key in enumerate(keys)]
    made = kind(pairs)
    some = random.Random(3).sample(keys, 1000)
    absent = [it[:-1] + bytes([it[-1] ^ 1]) for it in some]

    def keep():
        return made

    def build():
        return kind(pairs)

    def found(given):
        for key in some:
            given[key]

    def missed(given):
        for key in absent:
            key in given

    def inserted(given):
        for key in absent:
            given[key] = 7

    def removed(given):
        for key in some:
            del given[key]

    def walked(given):
        for _, _ in given.items():
            pass

    def ranged(given):
        for key in some[:200]:
            given.hundred_from(key)

    def copied(given):
        for _ in range(5):
            given.copy()

    def kept(given):
        given.copy()[absent[0]] = 7

    yield "lookup, found", least(passes, keep, found, len(some))
    yield "lookup, absent", least(passes, keep, missed, len(some))
    yield "insertion", least(passes, build, inserted, len(absent))
    yield "removal", least(passes, build, removed, len(some))
    yield "building, a pair", least(passes, list, lambda _: kind(pairs), len(pairs))
    yield "a walk, a pair", least(passes, keep, walked, len(keys))
    yield "a range of 100", least(passes, keep, ranged, 200)
    yield "a copy", least(passes, keep, copied, 5)
    yield "a copy and one insertion", least(passes, keep, kept, 1)


def main():
    passes = int(sys.argv[1]) if len(sys.argv) > 1 else 10
    for size in SIZES:
        data = random.Random(size).randbytes(16 * size)
        keys = [data[at : at + 16] for at in range(0, len(data), 16)]
        rows = zip(*(measures(kind, keys, passes) for kind in kinds.values()))
        print(f"\n| {size:,} keys | {' | '.join(kinds)} |\n|{'---|' * (len(kinds) + 1)}")
        for row in rows:
            print(f"| {row[0][0]} | {' | '.join(f'{figure:,.2f}' for _, figure in row)} |")


if __name__ == "__main__":
    main()
