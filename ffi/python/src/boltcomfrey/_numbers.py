"""Maps from byte strings to numbers."""

from __future__ import annotations

import operator
from typing import Any, SupportsIndex, TypeVar, overload

from . import _library as library
from ._library import Bytes
from ._map import Map
from ._ordered import Bounds

D = TypeVar("D")

MOST = 2**64 - 1

_calls = library.Calls("rart_", "rart_tree")
_get, _insert, _remove = _calls.get, _calls.insert, _calls.remove
_new, _unpack = library.ffi.new, library.ffi.unpack
_NUMBER, _LENGTH = library.NUMBER, library.LENGTH
_ABSENT, _DONE = library.ABSENT, library.DONE
_NONE: Any = object()


def _as_number(value: SupportsIndex) -> int:
    """A value that the library takes."""
    number = operator.index(value)
    if not 0 <= number <= MOST:
        raise OverflowError(f"a value is 0 to 2**64 - 1, not {number}")
    return number


class NumberMap(Map[int]):
    """A map from `bytes` to numbers from 0 to 2**64 - 1, in the order of its keys.

    A mutable mapping as `dict`, whose `snapshot` and `copy` are maps of their own that take no time
    for each key. Keys may also be given as `bytearray` or `memoryview`.

    A walk goes over the map as it was when the walk began: changes meanwhile don't show in it.

    `pairs` are what `dict` takes. A key may have `longest_key` bytes, 8,192 at most. A thread needs
    500 bytes of stack for each of them, and 16 KiB: where `threading.stack_size` gave less, take a
    smaller one. `number` is the map's number before the pairs are set.
    """

    __slots__ = ()
    _calls = _calls

    def _find(self, key: Bytes) -> int | None:
        if type(key) is not bytes:
            key = library.as_bytes("key", key)
        value = _new(_NUMBER)
        with library.lock:
            answer = _get(self._tree, key, len(key), value)
        return value[0] if answer == _DONE else None

    def __contains__(self, key: object) -> bool:
        return self._find(key) is not None  # type: ignore[arg-type]

    def __setitem__(self, key: Bytes, value: SupportsIndex) -> None:
        if type(key) is not bytes:
            key = library.as_bytes("key", key)
        if type(value) is not int or not 0 <= value <= MOST:
            value = _as_number(value)
        replaced = _new(_NUMBER)
        with library.lock:
            answer = _insert(self._tree, key, len(key), value, replaced)
        if answer > _ABSENT:
            raise library.refusal(answer)

    def setdefault(self, key: Bytes, default: SupportsIndex, /) -> int:  # type: ignore[override]
        """The value of a key, which is set to the default where it is not there."""
        number = _as_number(default)
        found = self._choose(_calls.add, key, number)
        return number if found is None else found

    def add(self, key: Bytes, value: SupportsIndex) -> bool:
        """Sets a key where it is not there, and tells whether it was set."""
        return self._choose(_calls.add, key, value) is None

    def replace(self, key: Bytes, value: SupportsIndex) -> bool:
        """Sets a key where it is there, and tells whether it was set."""
        return self._choose(_calls.replace, key, value) is not None

    def _choose(self, call: Any, key: Bytes, value: SupportsIndex) -> int | None:
        """The value that was there before a call, which sets the key or not."""
        key, number, found = library.as_bytes("key", key), _as_number(value), _new(_NUMBER)
        with library.lock:
            answer = call(self._tree, key, len(key), number, found)
        return found[0] if library.is_done(answer) else None

    @overload
    def pop(self, key: Bytes, /) -> int: ...
    @overload
    def pop(self, key: Bytes, default: D, /) -> int | D: ...
    def pop(self, key: Any, default: Any = _NONE, /) -> Any:
        """Takes a key out and gives its value, or the default where it is not there."""
        key, value = library.as_bytes("key", key), _new(_NUMBER)
        with library.lock:
            answer = _remove(self._tree, key, len(key), value)
        if library.is_done(answer):
            return value[0]
        if default is _NONE:
            raise KeyError(key)
        return default

    def _discard(self, key: bytes) -> bool:
        with library.lock:
            return library.is_done(_remove(self._tree, key, len(key), _new(_NUMBER)))

    def longest_prefix(self, probe: Bytes) -> tuple[bytes, int] | None:
        probe = library.as_bytes("probe", probe)
        length, value = _new(_LENGTH), _new(_NUMBER)
        with library.lock:
            answer = _calls.longest(self._tree, probe, len(probe), length, value)
        return (probe[: length[0]], value[0]) if answer == _DONE else None

    def _near(self, call: Any, *words: Any) -> tuple[bytes, int] | None:
        value = _new(_NUMBER)
        with library.lock:
            into = library.take_buffer()
            answer = call(self._tree, *words, into.key, len(into.key), into.length, value)
            key = _unpack(into.key, into.length[0]) if answer == _DONE else b""
            library.give_buffer(into)
        return (key, value[0]) if library.is_done(answer) else None

    def _page(self, tree: Any, bounds: Bounds, is_back: bool, most: int) -> tuple[list[int], bytes]:
        low, low_kind, high, high_kind = bounds
        call = _calls.page_back if is_back else _calls.page
        with library.lock:
            into = library.take_buffer()
            answer = call(
                tree, low, len(low), low_kind, high, len(high), high_kind, into.bytes,
                len(into.bytes), into.entries, most, into.count, into.length,
            )
            library.is_done(answer)
            numbers = into.numbers[: 2 * into.count[0]].tolist()
            data = _unpack(into.bytes, numbers[-2]) if numbers else b""
            library.give_buffer(into)
        return numbers, data

    @staticmethod
    def _last_key(numbers: list[int], data: bytes) -> bytes:
        return data[numbers[-4] if len(numbers) > 2 else 0 :]

    @staticmethod
    def _parts(numbers: list[int], data: bytes) -> tuple[list[bytes], list[int]]:
        ends = numbers[::2]
        return [data[start:end] for start, end in zip([0, *ends], ends)], numbers[1::2]
