"""The exceptions that Python has no name for."""


class Error(Exception):
    """What the library or this package refuses. Memory that is refused is a `MemoryError`."""


class KeyTooLong(Error, ValueError):
    """A key is longer than the map's `longest_key`, or keys may be longer in another map.

    `offset` says where the key begins among bytes that were loaded; else it is None.
    """

    offset: int | None = None


class LastNumber(Error, OverflowError):
    """The map's number would be 2**64 or more."""


class LoadError(Error, ValueError):
    """Bytes are no map's of this kind."""


class Truncated(LoadError):
    """The bytes end before the map's end."""


class UnsupportedFormat(LoadError):
    """The bytes are of a format that this library doesn't read."""


class Malformed(LoadError):
    """What begins at `offset` of the bytes stands in no map's form."""

    offset: int = 0


class WrongSum(LoadError):
    """The checksum at the end is not that of the bytes before it."""


class ForkedProcess(Error, RuntimeError):
    """A call was made in a child of `os.fork`, whose parent had loaded the library."""
