"""The owner of a handle of the library, the same for every end."""

from __future__ import annotations

import threading
import weakref
from ctypes import byref
from types import TracebackType
from typing import Any, Callable, Optional, Type, TypeVar

from ._library import Handle
from .errors import check

Self = TypeVar("Self", bound="Owner")


class Owner:
    """Has a live handle: one that the library wrote, and that is not freed yet.

    Calls release the interpreter's lock, and a call that changes a handle wants it to itself. So every
    call is made with the owner's lock, one that only looks too, and a second thread waits.
    """

    #: The calls that copy and free such a handle.
    _CLONE: Callable[..., int]
    _FREE: Callable[[Handle], None]

    def _own(self, handle: Handle) -> None:
        self._lock = threading.Lock()
        self._handle: Optional[Handle] = handle
        self._free = weakref.finalize(self, type(self)._FREE, handle)
        # At the program's end a thread may still be in a call. The memory goes with the program.
        self._free.atexit = False

    def _live(self) -> Handle:
        """The handle, for who has the lock."""
        if self._handle is None:
            raise ValueError(f"this {type(self).__name__} is closed")
        return self._handle

    def _with_handle(self, call: Callable[..., Any], *arguments: Any) -> Any:
        """What a call answers that is given the handle and no memory of the owner's."""
        with self._lock:
            return call(self._live(), *arguments)

    def close(self) -> None:
        """Frees what the library holds. Every later call but this one raises ValueError.

        What is not closed is freed with the object.
        """
        with self._lock:
            self._handle = None
            self._free()

    @property
    def closed(self) -> bool:
        """Whether it is closed."""
        return self._handle is None

    def __enter__(self: Self) -> Self:
        return self

    def __exit__(
        self,
        kind: Optional[Type[BaseException]],
        value: Optional[BaseException],
        traceback: Optional[TracebackType],
    ) -> None:
        self.close()

    def _cloned(self) -> Handle:
        """A copy of the handle."""
        made = Handle()
        check(self._with_handle(type(self)._CLONE, byref(made)))
        return made
