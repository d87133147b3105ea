"""The shared library: its calls, the lock that each is made under, and what it answers.

A tree goes to one call at a time, and so do all trees that share nodes with it, since nodes count
who shares them. cffi releases the interpreter's lock while a call runs. So each call is made under
one lock of this module.

The lock can be taken again by the thread that has it: a signal's handler or a finalizer may use a
map between two steps of a call on another, or on the same one. (None runs within a call of the
library.) So no two calls share a place that the library writes to.
"""

from __future__ import annotations

import os
import threading
import weakref
from pathlib import Path
from typing import Any, NoReturn

from ._declared import ffi
from ._errors import (
    ForkedProcess,
    KeyTooLong,
    LastNumber,
    Malformed,
    Truncated,
    UnsupportedFormat,
    WrongSum,
)

lib: Any = ffi.dlopen(str(Path(__file__).with_name("libboltcomfrey.so")))

DONE: int = lib.RART_DONE
ABSENT: int = lib.RART_ABSENT
TOO_SMALL: int = lib.RART_TOO_SMALL
DIFFERENT: int = lib.RART_DIFFERENT
INCLUDED: int = lib.RART_INCLUDED
EXCLUDED: int = lib.RART_EXCLUDED
UNBOUNDED: int = lib.RART_UNBOUNDED
LONGEST_KEY: int = lib.RART_LONGEST_KEY

# The most that a map's `longest_key` may be. The header asks for 500 bytes of stack for each byte
# that a key may have, and 16 KiB: here that is half of the 8 MiB that a thread has on Linux.
MOST_LONGEST_KEY = 8192
# How many bytes and how many pairs a page has room for.
ROOM, PAIRS = 1 << 16, 1024

# What may be given for a key.
Bytes = bytes | bytearray | memoryview

NUMBER = ffi.typeof("uint64_t *")
LENGTH = ffi.typeof("size_t *")
BYTES = ffi.typeof("char[]")

_REFUSALS: dict[int, tuple[type[Exception], str]] = {
    lib.RART_LAST_NUMBER: (LastNumber, "the map's number would be 2**64 or more"),
    lib.RART_NO_MEMORY: (MemoryError, "the library was refused memory"),
    lib.RART_TOO_LONG: (KeyTooLong, "a key is longer than keys of the map may be"),
    lib.RART_TRUNCATED: (Truncated, "the bytes end before the map's end"),
    lib.RART_UNSUPPORTED: (UnsupportedFormat, "the bytes are of another format"),
    lib.RART_MALFORMED: (Malformed, "the bytes are no map's of this kind"),
    lib.RART_WRONG_SUM: (WrongSum, "the checksum is not that of the bytes"),
}


def refusal(answer: int, offset: int | None = None) -> Exception:
    """The exception that an answer of the library is."""
    kind, text = _REFUSALS.get(answer, (SystemError, f"the library answered {answer}"))
    if offset is None or not issubclass(kind, (KeyTooLong, Malformed)):
        return kind(text)
    made = kind(f"{text}, at byte {offset}")
    made.offset = offset
    return made


def is_done(answer: int) -> bool:
    """Whether there was such a key; raises where the call was refused."""
    if answer > ABSENT:
        raise refusal(answer)
    return answer == DONE


class _Forked:
    """What stands for the lock in a forked child, where the library makes no call."""

    def __enter__(self) -> NoReturn:
        raise ForkedProcess(
            "the library makes no call in a child of os.fork: start the child by 'spawn' or "
            "'forkserver', and send it the map by pickle or to_bytes()"
        )

    def __exit__(self, *_: object) -> None:
        pass


lock: Any = threading.RLock()
is_open = True


def _refuse_calls() -> None:
    global lock, is_open
    lock, is_open = _Forked(), False


os.register_at_fork(after_in_child=_refuse_calls)


class Buffer:
    """Room for a key, and for a value or a page: the two numbers of each of its entries."""

    __slots__ = (
        "bytes", "count", "entries", "entries_of_bytes", "key", "key_len", "length", "numbers",
    )

    def __init__(self) -> None:
        self.key = ffi.new(BYTES, MOST_LONGEST_KEY)
        self.bytes = ffi.new(BYTES, ROOM)
        self.entries = ffi.new("rart_entry[]", PAIRS)
        self.entries_of_bytes = ffi.cast("rart_bytes_entry *", self.entries)
        self.numbers = memoryview(ffi.buffer(self.entries)).cast("Q")
        self.count, self.key_len, self.length = (ffi.new(LENGTH) for _ in range(3))


# The buffers that no call uses. One that is not given back, as an exception came, is collected.
_buffers: list[Buffer] = []


def take_buffer() -> Buffer:
    """A buffer that no other call uses, which `give_buffer` gives back."""
    try:
        return _buffers.pop()
    except IndexError:
        return Buffer()


give_buffer = _buffers.append


class _Owned(weakref.ref[Any]):
    """A tree, to be cleared once nothing has the pointer to it.

    What the garbage collector finds is finalized in any order, and so is what `ffi.gc` makes: a
    `__del__` would meet its map empty. A plain pointer is nothing that the collector looks at, so
    it goes behind all finalizers.
    """

    __slots__ = ("clear", "tree")
    clear: Any
    tree: Any


_owned: dict[int, _Owned] = {}


def _clear(owned: _Owned) -> None:
    # (at the end of a process, and in a forked child, memory goes with the process)
    if is_open:
        del _owned[id(owned)]
        with lock:
            owned.clear(owned.tree)


class Calls:
    """The library's calls on maps of one kind, by their names without the prefix."""

    def __init__(self, prefix: str, tree: str) -> None:
        self._prefix, self._tree = prefix, ffi.typeof(f"{tree} *")

    def __getattr__(self, name: str) -> Any:
        call = getattr(lib, self._prefix + name)
        setattr(self, name, call)
        return call

    def new_tree(self) -> Any:
        """A pointer to a tree without a key, which is cleared once nothing has the pointer."""
        tree = ffi.new(self._tree)
        pointer = ffi.cast(self._tree, tree)
        owned = _Owned(pointer, _clear)
        owned.tree, owned.clear = tree, self.clear
        _owned[id(owned)] = owned
        return pointer


def as_bytes(what: str, given: object) -> bytes:
    """A key or a value, copied where it may change."""
    if isinstance(given, bytes):
        return given
    if isinstance(given, (bytearray, memoryview)):
        return bytes(given)
    is_text = isinstance(given, str) and what != "saved map"
    hint = ": encode it, as by .encode()" if is_text else ""
    raise TypeError(f"a {what} is bytes, not {type(given).__name__}{hint}")
