"""Numbers and bytes, as calls of the library take them."""

from __future__ import annotations

import ctypes
from operator import index
from typing import List, Optional, Union

#: What calls read: any object that gives its bytes.
Buffer = Union[bytes, bytearray, memoryview]

#: The largest number of a C `size_t`.
SIZE_MAX = ctypes.c_size_t(-1).value


def number(name: str, value: int, largest: int = SIZE_MAX) -> int:
    """The number, where a call can be given it. ctypes itself would cut off its higher bits. A class of its own
    doesn't say how it compares."""
    value = int.__index__(index(value))
    if not 0 <= value <= largest:
        raise ValueError(f"{name} is {value}, and not from 0 to {largest}")
    return value


def as_bytes(data: Buffer) -> bytes:
    """The bytes of `data`, by the buffer protocol alone: whatever its class says of itself, the length is that of
    the memory. All but `bytes` is copied, so that no other thread changes it in a call."""
    if type(data) is bytes:
        return data
    with memoryview(data) as view:
        return view.tobytes()


class Room:
    """Memory that calls write to, kept from call to call."""

    def __init__(self) -> None:
        self._put(0)

    def _put(self, size: int) -> None:
        # At least a byte, so that there is an address. Where memory lacks, what stands here stays.
        made = bytearray(size + 1)
        view, first = memoryview(made), ctypes.c_char.from_buffer(made)
        self._bytes, self.view, self._first = made, view, first
        self.address, self.size = ctypes.addressof(first), size

    def grow(self, size: int) -> None:
        """Makes room for so many bytes. Where it grows, what stood here is gone."""
        if size > self.size:
            self._put(max(size, 2 * self.size))

    def copy(self, begin: int, end: int) -> bytes:
        """The bytes from `begin` up to `end`."""
        return self.view[begin:end].tobytes()


class Ends:
    """Memory for the places where packets end."""

    _EACH = ctypes.sizeof(ctypes.c_size_t)

    def __init__(self) -> None:
        self._room = Room()
        self.size = 0

    @property
    def address(self) -> int:
        """Where the numbers stand."""
        return self._room.address

    def grow(self, count: int) -> None:
        """Makes room for so many numbers."""
        self._room.grow(count * self._EACH)
        self.size = self._room.size // self._EACH

    def copy(self, count: int) -> List[int]:
        """The first so many numbers."""
        return self._room.view[: count * self._EACH].cast("N").tolist()


class Target:
    """The caller's memory, while a call writes to it. A bytearray can't change its size meanwhile."""

    def __init__(self, into: Union[bytearray, memoryview]) -> None:
        self._view = memoryview(into)
        self._first: Optional[ctypes.c_char] = None
        self.size, self.address = self._view.nbytes, 0
        if self.size > 0:
            self._hold()

    def _hold(self) -> None:
        """Finds the address. ctypes refuses what can't be written, and what isn't in one piece."""
        try:
            self._first = ctypes.c_char.from_buffer(self._view)
        except TypeError:
            self.release()
            raise
        self.address = ctypes.addressof(self._first)

    def release(self) -> None:
        """Lets go of the memory."""
        self._first = None
        self._view.release()
