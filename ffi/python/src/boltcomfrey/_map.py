"""What the maps of both kinds are, whatever their values."""

from __future__ import annotations

from collections.abc import Iterable, Iterator, Mapping, MutableMapping
from typing import Any, ClassVar, Self, TypeVar, overload

from . import _library as library
from ._library import Bytes
from ._ordered import (
    EVERY,
    FIRST_PAGE,
    Bounds,
    Change,
    Ordered,
    Range,
    bounds_under,
    changes,
    slice_bounds,
)

V = TypeVar("V")
D = TypeVar("D")


class Map(Ordered[V], MutableMapping[bytes, V]):
    """A map of one kind: `BytesMap` and `NumberMap` say of which."""

    __slots__ = ("__weakref__", "_tree")
    _calls: ClassVar[library.Calls]
    _tree: Any

    def __init__(
        self,
        pairs: Mapping[bytes, V] | Iterable[tuple[bytes, V]] = (),
        /,
        *,
        longest_key: int = library.LONGEST_KEY,
        number: int = 0,
    ) -> None:
        self._begin(longest_key, number)
        self.update(pairs)

    def _begin(self, longest_key: int, number: int) -> None:
        """Makes this a map without a key."""
        if not 0 <= longest_key <= library.MOST_LONGEST_KEY:
            raise ValueError(
                f"longest_key is 0 to {library.MOST_LONGEST_KEY}, not {longest_key}: a call takes "
                "stack for each byte of a key"
            )
        self._tree = self._calls.new_tree()
        with library.lock:
            if number != 0:
                library.is_done(self._calls.new_at(self._tree, number))
            if longest_key != library.LONGEST_KEY:
                library.is_done(self._calls.set_longest_key(self._tree, longest_key))

    @classmethod
    def fromkeys(cls, keys: Iterable[bytes], value: V) -> Self:
        """A map of these keys, which all have one value."""
        return cls((key, value) for key in keys)

    @classmethod
    def from_bytes(cls, data: Bytes, *, longest_key: int = library.LONGEST_KEY) -> Self:
        """The map that `to_bytes` wrote, its number too. The bytes may be a stranger's.

        How long a key may be isn't among the bytes: a map that had another limit is loaded with it.
        Maps that are loaded share nothing. Raises a `LoadError` where they are no map's of this kind, and `KeyTooLong` where a key of
        them is longer than `longest_key`.
        """
        data = library.as_bytes("saved map", data)
        made = cls._empty(longest_key)
        offset = library.ffi.new(library.LENGTH)
        with library.lock:
            answer = cls._calls.load(made._tree, data, len(data), offset)
        if answer != library.DONE:
            raise library.refusal(answer, offset[0])
        return made

    @classmethod
    def _empty(cls, longest_key: int = library.LONGEST_KEY) -> Self:
        """A map without a key, for which no `__init__` is called."""
        made = cls.__new__(cls)
        made._begin(longest_key, 0)
        return made

    def _map(self) -> Self:
        return self

    def _bounds(self) -> Bounds:
        return EVERY

    def _clone(self) -> Any:
        """A tree of the same pairs, for a walk that no change shows in."""
        tree = self._calls.new_tree()
        with library.lock:
            library.is_done(self._calls.clone(self._tree, tree))
        return tree

    def _made(self, call: Any, *words: Any) -> Self:
        """A map that a call on this one makes."""
        made = self._empty()
        with library.lock:
            library.is_done(call(self._tree, *words, made._tree))
        return made

    def _other(self, other: Map[V]) -> Any:
        """The tree of another map of this kind, which no call may have twice."""
        if not isinstance(other, Map) or other._calls is not self._calls:
            raise TypeError(f"this is done with a map of the same kind, not {type(other).__name__}")
        return self._clone() if other is self else other._tree

    # What each kind has in its own way.

    def _find(self, key: Bytes) -> V | None:
        """The value of a key, or None."""
        raise NotImplementedError

    def _page(self, tree: Any, bounds: Bounds, is_back: bool, most: int) -> tuple[list[int], bytes]:
        """The numbers of the entries of a page, two of each, and its bytes."""
        raise NotImplementedError

    @staticmethod
    def _last_key(numbers: list[int], data: Bytes) -> bytes:
        """The last key of a page."""
        raise NotImplementedError

    @staticmethod
    def _parts(numbers: list[int], data: Bytes) -> tuple[list[bytes], list[V]]:
        """The keys and the values of a page."""
        raise NotImplementedError

    def _near(self, call: Any, *words: Any) -> tuple[bytes, V] | None:
        """The pair that a search from a key finds."""
        raise NotImplementedError

    def _walk(
        self, tree: Any, bounds: Bounds, is_back: bool
    ) -> Iterator[tuple[list[bytes], list[V]]]:
        """The keys and the values of a tree within bounds, page by page."""
        most = FIRST_PAGE
        while (page := self._page(tree, bounds, is_back, most))[0]:
            keys, values = self._parts(*page)
            yield keys, values
            bounds = bounds.behind(keys[-1], is_back)
            most = min(2 * most, library.PAIRS)

    def _count(self, tree: Any, bounds: Bounds) -> int:
        """How many keys of a tree are within bounds."""
        found = 0
        while (page := self._page(tree, bounds, False, library.PAIRS))[0]:
            found += len(page[0]) // 2
            bounds = bounds.behind(self._last_key(*page), False)
        return found

    # Reads.

    def __len__(self) -> int:
        with library.lock:
            return self._calls.len(self._tree)

    @property
    def number(self) -> int:
        """The map's number: each change raises it, and a snapshot's is one greater.

        It counts changes, and names no version: two copies that go on have the same numbers.
        """
        with library.lock:
            return self._calls.version(self._tree)

    @property
    def longest_key(self) -> int:
        """How many bytes a key may have."""
        with library.lock:
            return self._calls.longest_key(self._tree)

    @overload
    def __getitem__(self, key: Bytes, /) -> V: ...
    @overload
    def __getitem__(self, key: slice, /) -> Range[V]: ...
    def __getitem__(self, key: Any, /) -> Any:
        """The value of a key; of a slice of keys the range, as `range` gives it."""
        if isinstance(key, slice):
            return self._part(slice_bounds(key))
        found = self._find(key)
        if found is None:
            raise KeyError(key)
        return found

    @overload
    def get(self, key: Bytes, /) -> V | None: ...
    @overload
    def get(self, key: Bytes, default: D, /) -> V | D: ...
    def get(self, key: Any, default: Any = None, /) -> Any:
        """The value of a key, or the default."""
        found = self._find(key)
        return default if found is None else found

    def prefix(self, prefix: Bytes) -> Range[V]:
        """The pairs whose keys begin with a prefix, as a view."""
        return self._part(bounds_under(library.as_bytes("prefix", prefix)))

    def first(self) -> tuple[bytes, V] | None:
        """The first pair, or None."""
        return self._near(self._calls.seek, b"", 0)

    def last(self) -> tuple[bytes, V] | None:
        """The last pair, or None."""
        return self._near(self._calls.last)

    def first_from(self, key: Bytes) -> tuple[bytes, V] | None:
        """The first pair whose key is this one or comes after it, or None."""
        key = library.as_bytes("key", key)
        return self._near(self._calls.seek, key, len(key))

    def first_after(self, key: Bytes) -> tuple[bytes, V] | None:
        """The first pair whose key comes after this one, or None."""
        key = library.as_bytes("key", key)
        return self._near(self._calls.next, key, len(key))

    def last_to(self, key: Bytes) -> tuple[bytes, V] | None:
        """The last pair whose key is this one or comes before it, or None."""
        key = library.as_bytes("key", key)
        return self._near(self._calls.seek_back, key, len(key))

    def last_before(self, key: Bytes) -> tuple[bytes, V] | None:
        """The last pair whose key comes before this one, or None."""
        key = library.as_bytes("key", key)
        return self._near(self._calls.prev, key, len(key))

    def longest_prefix(self, probe: Bytes) -> tuple[bytes, V] | None:
        """The pair of the longest key that the probe begins with, or None."""
        raise NotImplementedError

    def to_bytes(self) -> bytes:
        """The map as bytes, with its number: equal maps of one number have equal bytes."""
        length = library.ffi.new(library.LENGTH)
        with library.lock:
            library.is_done(self._calls.saved_len(self._tree, length))
            room = library.ffi.new(library.BYTES, length[0])
            library.is_done(self._calls.save(self._tree, room, len(room), length))
        return library.ffi.unpack(room, length[0])

    def __reduce__(self) -> tuple[Any, ...]:
        own = getattr(self, "__dict__", None) or None
        return _loaded, (type(self), self.to_bytes(), self.longest_key), own

    def __repr__(self) -> str:
        return self._text(type(self).__name__)

    # Changes.

    def __delitem__(self, key: Bytes | slice) -> None:
        """Takes a key out; of a slice of keys all that are in it, or none where it is refused."""
        if isinstance(key, slice):
            self._remove_within(slice_bounds(key))
            return
        key = library.as_bytes("key", key)
        if not self._discard(key):
            raise KeyError(key)

    def _discard(self, key: bytes) -> bool:
        """Takes a key out, and tells whether it was there."""
        raise NotImplementedError

    def _remove_within(self, bounds: Bounds) -> None:
        with library.lock:
            before = self._clone()
            try:
                for keys, _ in self._walk(before, bounds, False):
                    for key in keys:
                        self._discard(key)
            except BaseException:
                self._tree = before
                raise

    def clear(self) -> None:
        """Takes all keys out. The number rises by one, and `longest_key` stays."""
        self.remove_prefix(b"")

    def popitem(self, last: bool = True) -> tuple[bytes, V]:
        """Takes the last pair out and gives it, or the first one; KeyError where there is none."""
        with library.lock:
            pair = self.last() if last else self.first()
            if pair is None:
                raise KeyError("the map has no key")
            self._discard(pair[0])
        return pair

    def update(  # type: ignore[override]
        self, pairs: Mapping[bytes, V] | Iterable[tuple[bytes, V]] = (), /
    ) -> None:
        """Sets each pair of a mapping or an iterable. At a refusal those before it are set."""
        given: Any = pairs
        if isinstance(pairs, Mapping):
            given = pairs.items()
        elif hasattr(pairs, "keys"):
            given = ((key, pairs[key]) for key in pairs.keys())
        for key, value in given:
            self[key] = value

    def __or__(self, other: Mapping[bytes, V]) -> Self:
        if not isinstance(other, Mapping):
            return NotImplemented
        made = self.copy()
        made.update(other)
        return made

    def __ior__(self, other: Mapping[bytes, V] | Iterable[tuple[bytes, V]]) -> Self:
        self.update(other)
        return self

    def remove_prefix(self, prefix: Bytes) -> int:
        """Takes out all keys that begin with a prefix, and gives how many there were.

        The number rises by one where there were any. It takes time by how many there are.
        """
        prefix = library.as_bytes("prefix", prefix)
        removed = library.ffi.new(library.LENGTH)
        with library.lock:
            answer = self._calls.remove_prefix(self._tree, prefix, len(prefix), removed)
        return removed[0] if library.is_done(answer) else 0

    def restore_prefix(self, prefix: Bytes, other: Map[V]) -> None:
        """Puts another map's pairs under a prefix in place of all that are there.

        The others stay. The number is then the sum of both: a map that is restored from its own
        snapshots doubles it each time, so after some 60 times each more is refused by `LastNumber`.
        A new map of its pairs, as `BytesMap(map)`, has a small number again. To undo all, keep the
        snapshot in the map's place.
        """
        prefix = library.as_bytes("prefix", prefix)
        with library.lock:
            tree = self._other(other)
            answer = self._calls.restore_prefix(self._tree, prefix, len(prefix), tree)
        library.is_done(answer)

    # Copies.

    def snapshot(self) -> Self:
        """A map of its own with the same pairs, its number one greater.

        It takes no time for each key: the two share what neither changes.
        """
        return self._made(self._calls.snapshot)

    def copy(self) -> Self:
        """A map of its own with the same pairs, its number the same; else as `snapshot`."""
        return self._made(self._calls.clone)

    __copy__ = copy

    def __deepcopy__(self, _: Any) -> Self:
        return self.copy()

    def prefix_snapshot(self, prefix: Bytes) -> Self:
        """A map of its own of the pairs under a prefix alone, its number one greater.

        The two share what stands there. It takes time by how many pairs there are.
        """
        prefix = library.as_bytes("prefix", prefix)
        return self._made(self._calls.prefix_snapshot, prefix, len(prefix))

    # Two maps.

    def __eq__(self, other: object) -> bool:
        """Whether both have the same pairs, whatever their numbers. It takes time by all pairs."""
        if not isinstance(other, Map) or other._calls is not self._calls:
            return super().__eq__(other)
        with library.lock:
            answer = self._calls.equals(self._tree, self._other(other))
        if answer not in (library.DONE, library.DIFFERENT):
            raise library.refusal(answer)
        return answer == library.DONE

    def common_count(self, other: Map[V]) -> int:
        """How many keys both maps have, whatever their values."""
        with library.lock:
            return self._calls.common(self._tree, self._other(other))

    def difference(self, other: Map[V]) -> Self:
        """A map of the pairs whose key the other lacks or has with another value."""
        return self._made(self._calls.difference, self._other(other))

    def intersection(self, other: Map[V]) -> Self:
        """A map of the pairs whose key the other has too, with this map's values."""
        return self._made(self._calls.intersection, self._other(other))

    def diff(self, after: Map[V]) -> Iterator[Change[V]]:
        """What differs from this map to a later one: each key at which they do, in order.

        It walks over both maps whole, now, also where they share most: a program that asks often
        for what it changed itself keeps those keys. Later changes of the maps don't show.
        """
        with library.lock:
            gone, come = self.difference(after), after.difference(self)
        return changes(iter(gone.items()), iter(come.items()))


def _loaded(kind: type[Map[Any]], data: Bytes, longest_key: int) -> Map[Any]:
    """A map that was pickled."""
    return kind.from_bytes(data, longest_key=longest_key)
