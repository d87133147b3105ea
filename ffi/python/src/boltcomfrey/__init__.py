"""Ordered maps from byte strings to byte strings or to numbers, with cheap snapshots.

    >>> from boltcomfrey import NumberMap
    >>> prices = NumberMap({b"tea": 300, b"milk": 100})
    >>> yesterday = prices.snapshot()
    >>> prices[b"tea"] = 350
    >>> yesterday[b"tea"], prices[b"tea"]
    (300, 350)
    >>> list(prices.prefix(b"t").items())
    [(b'tea', 350)]
    >>> list(yesterday.diff(prices))
    [Change(key=b'tea', before=300, after=350)]

A map is a mutable mapping as `dict`, in the order of its keys' bytes. A snapshot or a copy is a map
of its own, which takes no time for each key: the two share what neither changes. A walk goes over
the map as it was when the walk began.

Maps may be used on several threads. Each call of the library is made under one lock, so two of them
never run at once; a call on many pairs of Python's own, as `update`, is many calls. In a child of
`os.fork` each call raises `ForkedProcess`.

The maps stand on a library whose every call is proved. This package round it is tested.
"""

from ._bytes import BytesMap
from ._declared import VERSION as __version__
from ._errors import (
    Error,
    ForkedProcess,
    KeyTooLong,
    LastNumber,
    LoadError,
    Malformed,
    Truncated,
    UnsupportedFormat,
    WrongSum,
)
from ._library import Bytes
from ._map import Map
from ._numbers import NumberMap
from ._ordered import Change, Range

__all__ = [
    "Bytes",
    "BytesMap",
    "Change",
    "Error",
    "ForkedProcess",
    "KeyTooLong",
    "LastNumber",
    "LoadError",
    "Malformed",
    "Map",
    "NumberMap",
    "Range",
    "Truncated",
    "UnsupportedFormat",
    "WrongSum",
    "__version__",
]
