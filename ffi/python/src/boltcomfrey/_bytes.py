"""Maps from byte strings to byte strings."""

from __future__ import annotations

from typing import Any, TypeVar, overload

from . import _library as library
from ._library import Bytes
from ._map import Map
from ._ordered import Bounds

D = TypeVar("D")

_calls = library.Calls("rart_bytes_", "rart_bytes")
_get, _insert, _remove = _calls.get, _calls.insert, _calls.remove
_new, _unpack = library.ffi.new, library.ffi.unpack
_LENGTH, _BYTES = library.LENGTH, library.BYTES
_ABSENT, _DONE, _TOO_SMALL = library.ABSENT, library.DONE, library.TOO_SMALL
_NONE: Any = object()


class BytesMap(Map[bytes]):
    """A map from `bytes` to `bytes`, in the order of its keys.

    A mutable mapping as `dict`, whose `snapshot` and `copy` are maps of their own that take no time
    for each key. Keys and values may also be given as `bytearray` or `memoryview`: the map keeps a
    copy of a value, and a read copies it out.

    A walk goes over the map as it was when the walk began: changes meanwhile don't show in it.

    `pairs` are what `dict` takes. A key may have `longest_key` bytes, 8,192 at most. A thread needs
    500 bytes of stack for each of them, and 16 KiB: where `threading.stack_size` gave less, take a
    smaller one. `number` is the map's number before the pairs are set.
    """

    __slots__ = ()
    _calls = _calls

    def _find(self, key: Bytes) -> bytes | None:
        if type(key) is not bytes:
            key = library.as_bytes("key", key)
        return self._read(_get, key, len(key))

    def _read(self, call: Any, *words: Any) -> bytes | None:
        """The value that a call copies into room, which is made longer until it has it, or None."""
        with library.lock:
            into = library.take_buffer()
            room, size, length = into.bytes, library.ROOM, into.length
            while (answer := call(self._tree, *words, room, size, length)) == _TOO_SMALL:
                size = length[0]
                room = _new(_BYTES, size)
            value = _unpack(room, length[0]) if answer == _DONE else None
            library.give_buffer(into)
        return value

    def __contains__(self, key: object) -> bool:
        key, length = library.as_bytes("key", key), _new(_LENGTH)
        with library.lock:
            return _get(self._tree, key, len(key), _new(_BYTES, 1), 0, length) != _ABSENT

    def __setitem__(self, key: Bytes, value: Bytes) -> None:
        self._choose(_insert, key, value)

    def setdefault(self, key: Bytes, default: Bytes, /) -> bytes:  # type: ignore[override]
        """The value of a key, which is set to the default where it is not there."""
        key, default = library.as_bytes("key", key), library.as_bytes("value", default)
        with library.lock:
            is_there = self._choose(_calls.add, key, default)
            found = self._find(key) if is_there else None
        return default if found is None else found

    def add(self, key: Bytes, value: Bytes) -> bool:
        """Sets a key where it is not there, and tells whether it was set."""
        return not self._choose(_calls.add, key, value)

    def replace(self, key: Bytes, value: Bytes) -> bool:
        """Sets a key where it is there, and tells whether it was set."""
        return self._choose(_calls.replace, key, value)

    def _choose(self, call: Any, key: Bytes, value: Bytes) -> bool:
        """Whether the key was there before a call, which sets it or not."""
        key, value = library.as_bytes("key", key), library.as_bytes("value", value)
        with library.lock:
            return library.is_done(call(self._tree, key, len(key), value, len(value)))

    @overload
    def pop(self, key: Bytes, /) -> bytes: ...
    @overload
    def pop(self, key: Bytes, default: D, /) -> bytes | D: ...
    def pop(self, key: Any, default: Any = _NONE, /) -> Any:
        """Takes a key out and gives its value, or the default where it is not there."""
        key = library.as_bytes("key", key)
        with library.lock:
            found = self._find(key)
            if found is not None:
                self._discard(key)
                return found
        if default is _NONE:
            raise KeyError(key)
        return default

    def _discard(self, key: bytes) -> bool:
        with library.lock:
            return library.is_done(_remove(self._tree, key, len(key)))

    def longest_prefix(self, probe: Bytes) -> tuple[bytes, bytes] | None:
        probe, length = library.as_bytes("probe", probe), _new(_LENGTH)
        value = self._read(_calls.longest, probe, len(probe), length)
        return None if value is None else (probe[: length[0]], value)

    def _near(self, call: Any, *words: Any) -> tuple[bytes, bytes] | None:
        with library.lock:
            into = library.take_buffer()
            value = self._read(call, *words, into.key, len(into.key), into.key_len)
            pair = None if value is None else (_unpack(into.key, into.key_len[0]), value)
            library.give_buffer(into)
        return pair

    def _page(self, tree: Any, bounds: Bounds, is_back: bool, most: int) -> tuple[list[int], bytes]:
        low, low_kind, high, high_kind = bounds
        call = _calls.page_back if is_back else _calls.page
        with library.lock:
            into = library.take_buffer()
            room, size, answer = into.bytes, library.ROOM, _TOO_SMALL
            while answer == _TOO_SMALL:
                answer = call(
                    tree, low, len(low), low_kind, high, len(high), high_kind, room, size,
                    into.entries_of_bytes, most, into.count, into.key_len, into.length,
                )
                if answer == _TOO_SMALL:
                    size = into.key_len[0] + into.length[0]
                    room = _new(_BYTES, size)
            library.is_done(answer)
            numbers = into.numbers[: 2 * into.count[0]].tolist()
            data = _unpack(room, numbers[-1]) if numbers else b""
            library.give_buffer(into)
        return numbers, data

    @staticmethod
    def _last_key(numbers: list[int], data: bytes) -> bytes:
        return data[numbers[-3] if len(numbers) > 2 else 0 : numbers[-2]]

    @staticmethod
    def _parts(numbers: list[int], data: bytes) -> tuple[list[bytes], list[bytes]]:
        key_ends, ends = numbers[::2], numbers[1::2]
        keys = [data[start:end] for start, end in zip([0, *ends], key_ends)]
        return keys, [data[start:end] for start, end in zip(key_ends, ends)]
