"""What maps and their ranges have in common: pairs in the order of their keys, and the views."""

from __future__ import annotations

import reprlib
from collections.abc import ItemsView, Iterator, KeysView, Mapping, ValuesView
from itertools import chain, islice
from typing import TYPE_CHECKING, Any, Generic, NamedTuple, TypeVar, overload

from . import _library as library
from ._library import Bytes

if TYPE_CHECKING:
    from ._map import Map

V = TypeVar("V")

# How many pairs the first page of a walk has; each page has twice as many as the one before.
FIRST_PAGE = 16
# How many pairs `repr` shows.
SHOWN = 8

_short = reprlib.Repr()
_short.maxother = 40


class Bounds(NamedTuple):
    """The two bounds of a range of keys, as the library takes them."""

    low: bytes
    low_kind: int
    high: bytes
    high_kind: int

    def holds(self, key: bytes) -> bool:
        """Whether a key meets both bounds."""
        low = (key >= self.low, key > self.low, True)[self.low_kind]
        high = (key <= self.high, key < self.high, True)[self.high_kind]
        return low and high

    def within(self, other: Bounds) -> Bounds:
        """What meets these bounds and two others."""
        both = (self, other)
        low = max(both, key=lambda it: (it.low_kind != library.UNBOUNDED, it.low, it.low_kind))
        # (of two ends that are one key the excluded one is the nearer)
        high = min(both, key=lambda it: (it.high_kind == library.UNBOUNDED, it.high, -it.high_kind))
        return Bounds(low.low, low.low_kind, high.high, high.high_kind)

    def behind(self, key: bytes, is_back: bool) -> Bounds:
        """What is left of the range behind a key, or before it on the way back."""
        if is_back:
            return self._replace(high=key, high_kind=library.EXCLUDED)
        return self._replace(low=key, low_kind=library.EXCLUDED)


EVERY = Bounds(b"", library.UNBOUNDED, b"", library.UNBOUNDED)


def bounds_between(start: object, stop: object, inclusive: tuple[bool, bool]) -> Bounds:
    """The bounds of a range: None has no bound on its side."""
    if not (isinstance(inclusive, tuple) and [type(it) for it in inclusive] == [bool, bool]):
        raise TypeError(f"inclusive is a pair, as (True, False), not {inclusive!r}")
    low, low_kind = _bound(start, inclusive[0])
    high, high_kind = _bound(stop, inclusive[1])
    return Bounds(low, low_kind, high, high_kind)


def _bound(key: object, is_inclusive: bool) -> tuple[bytes, int]:
    if key is None:
        return b"", library.UNBOUNDED
    kind = library.INCLUDED if is_inclusive else library.EXCLUDED
    return library.as_bytes("bound", key), kind


def bounds_under(prefix: bytes) -> Bounds:
    """The bounds of the keys that begin with a prefix."""
    kept = prefix.rstrip(b"\xff")
    if not kept:
        return Bounds(prefix, library.INCLUDED, b"", library.UNBOUNDED)
    end = kept[:-1] + bytes([kept[-1] + 1])
    return Bounds(prefix, library.INCLUDED, end, library.EXCLUDED)


class Ordered(Mapping[bytes, V]):
    """A mapping whose pairs come in the order of their keys, from either end."""

    __slots__ = ()

    def _map(self) -> Map[V]:
        """The map that has the pairs."""
        raise NotImplementedError

    def _bounds(self) -> Bounds:
        """The bounds that keys are within."""
        raise NotImplementedError

    def _part(self, bounds: Bounds) -> Range[V]:
        """Those of the pairs that meet these bounds too, as a view."""
        return Range(self._map(), self._bounds().within(bounds))

    def range(
        self,
        start: Bytes | None = None,
        stop: Bytes | None = None,
        *,
        inclusive: tuple[bool, bool] = (True, False),
    ) -> Range[V]:
        """Those of the pairs whose keys are within two bounds, as a view; None is no bound."""
        return self._part(bounds_between(start, stop, inclusive))

    def _pages(self, is_back: bool) -> Iterator[tuple[list[bytes], list[V]]]:
        """The keys and the values, page by page, of the map as it is now."""
        source = self._map()
        return source._walk(source._clone(), self._bounds(), is_back)

    def __iter__(self) -> Iterator[bytes]:
        return chain.from_iterable(keys for keys, _ in self._pages(False))

    def __reversed__(self) -> Iterator[bytes]:
        return chain.from_iterable(keys for keys, _ in self._pages(True))

    def keys(self) -> Keys[V]:
        """A view of the keys, in order."""
        return Keys(self)

    def items(self) -> Items[V]:
        """A view of the pairs, in the order of their keys."""
        return Items(self)

    def values(self) -> Values[V]:
        """A view of the values, in the order of their keys."""
        return Values(self)

    def _text(self, name: str) -> str:
        """What `repr` shows: a few pairs all, of more pairs the ends."""
        shown = list(islice(self.items(), SHOWN + 1))
        if len(shown) <= SHOWN:
            pairs = ", ".join(f"{_short.repr(key)}: {_short.repr(it)}" for key, it in shown)
            return f"{name}({{{pairs}}})"
        ends = [_short.repr(next(it)) for it in (iter(self), reversed(self))]
        return f"<{name} of {len(self):,} keys, {ends[0]} to {ends[1]}>"


class Range(Ordered[V]):
    """The pairs of a map within two bounds, as the map is when they are asked for.

    A mapping that can be read: `len` counts the pairs, `reversed` begins with the last one, and
    `keys`, `items` and `values` are views. `map[start:stop]`, `map.range` and `map.prefix` make it,
    and so do `range[start:stop]` and `range.range`, of the pairs that are in the range too: a
    listing under a prefix goes on behind a key by
    `map.prefix(prefix).range(key, inclusive=(False, False))`.
    """

    __slots__ = ("_between", "_of")

    def __init__(self, of: Map[V], between: Bounds) -> None:
        self._of, self._between = of, between

    def _map(self) -> Map[V]:
        return self._of

    def _bounds(self) -> Bounds:
        return self._between

    @overload
    def __getitem__(self, key: Bytes, /) -> V: ...
    @overload
    def __getitem__(self, key: slice, /) -> Range[V]: ...
    def __getitem__(self, key: Any, /) -> Any:
        """The value of a key; of a slice of keys the range, as `range` gives it."""
        if isinstance(key, slice):
            return self._part(slice_bounds(key))
        if not self._between.holds(library.as_bytes("key", key)):
            raise KeyError(key)
        return self._of[key]

    def __contains__(self, key: object) -> bool:
        return self._between.holds(library.as_bytes("key", key)) and key in self._of

    def __len__(self) -> int:
        return self._of._count(self._of._clone(), self._between)

    def __bool__(self) -> bool:
        return next(iter(self), None) is not None

    def __repr__(self) -> str:
        return self._text("Range")


class Keys(KeysView[bytes], Generic[V]):
    """The keys of a map or a range, in order."""

    __slots__ = ()
    _mapping: Ordered[V]

    def __iter__(self) -> Iterator[bytes]:
        return iter(self._mapping)

    def __reversed__(self) -> Iterator[bytes]:
        return reversed(self._mapping)


class Items(ItemsView[bytes, V]):
    """The pairs of a map or a range, in the order of their keys."""

    __slots__ = ()
    _mapping: Ordered[V]

    def __iter__(self) -> Iterator[tuple[bytes, V]]:
        return chain.from_iterable(zip(*page) for page in self._mapping._pages(False))

    def __reversed__(self) -> Iterator[tuple[bytes, V]]:
        return chain.from_iterable(zip(*page) for page in self._mapping._pages(True))


class Values(ValuesView[V]):
    """The values of a map or a range, in the order of their keys."""

    __slots__ = ()
    _mapping: Ordered[V]

    def __iter__(self) -> Iterator[V]:
        return chain.from_iterable(values for _, values in self._mapping._pages(False))

    def __reversed__(self) -> Iterator[V]:
        return chain.from_iterable(values for _, values in self._mapping._pages(True))

    def __contains__(self, value: object) -> bool:
        return any(it == value for it in self)


class Change(NamedTuple, Generic[V]):
    """A key at which two maps differ, with what either has there; None where it has no such key."""

    key: bytes
    before: V | None
    after: V | None


def changes(
    gone: Iterator[tuple[bytes, V]], come: Iterator[tuple[bytes, V]]
) -> Iterator[Change[V]]:
    """The changes that take away the first pairs and bring the second ones."""
    old, new = next(gone, None), next(come, None)
    while old or new:
        if new is None or (old is not None and old[0] < new[0]):
            assert old is not None
            yield Change(old[0], old[1], None)
            old = next(gone, None)
        elif old is None or new[0] < old[0]:
            yield Change(new[0], None, new[1])
            new = next(come, None)
        else:
            yield Change(old[0], old[1], new[1])
            old, new = next(gone, None), next(come, None)


def slice_bounds(slice_: slice) -> Bounds:
    """The bounds of `map[start:stop]`."""
    if slice_.step is not None:
        raise ValueError("a slice of keys has no step")
    return bounds_between(slice_.start, slice_.stop, (True, False))
