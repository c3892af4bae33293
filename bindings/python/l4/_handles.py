"""Objects that own memory of the library."""
from __future__ import annotations

import threading
import weakref
from ctypes import Structure, byref
from typing import Any, Callable, TypeVar

from . import _library
from ._library import Forks
from .refusals import Refused

Self = TypeVar("Self", bound="Handle")


def _free(free: Callable[..., None], handle: Structure, lock: Any) -> None:
    """Frees what the handle owns, and leaves the handle empty."""
    if not Forks.among_threads:
        with lock:
            free(byref(handle))


def all_items(kind: Any, write: Callable[[Any, int], Any], spare: int = 0) -> Any:
    """Returns an array of this type with all items that a function of the library writes, and with some spare places. With a room of 0, the
    function counts them and writes nothing. Raises Refused if the function is refused."""
    out, told = None, write(None, 0)
    if not told.refusal:
        out = (kind * (told.count + spare))()
        told = write(out, len(out))
    if told.refusal:
        raise Refused(told.refusal)
    return out


class Unique:
    """An object that the modules copy and pickle cannot duplicate: they raise TypeError."""

    def __reduce__(self) -> Any:
        raise TypeError(f"a {type(self).__name__} can't be pickled, nor copied by the module copy")


class Handle(Unique):
    """An object that owns memory of the library.

    It is freed once: by `close`, at the end of a `with` block, or with its last reference. It cannot be copied with the module copy.
    Several threads may use it: calls run one at a time.
    """

    def __init__(self, handle: Structure, make: Callable[..., int], free: Callable[..., None], *values: int) -> None:
        Forks.check()
        refusal = make(byref(handle), *values)
        if refusal:
            raise Refused(refusal)
        self._handle = handle
        # a handle takes one call at a time; ctypes lets other threads run during the call
        self._lock = threading.RLock()
        self._free = weakref.finalize(self, _free, free, handle, self._lock)

    def close(self) -> None:
        """Frees the object and all its memory. Has no effect if it is closed already. Every later call raises ValueError."""
        self._free()

    @property
    def closed(self) -> bool:
        """Returns whether the object was freed."""
        return not self._free.alive

    def __enter__(self: Self) -> Self:
        return self

    def __exit__(self, *_: object) -> None:
        self.close()

    @property
    def _name(self) -> str:
        """Returns the name of the object in errors."""
        return type(self).__name__

    @property
    def _turn(self) -> Any:
        """Returns the lock that every call holds. Raises RuntimeError in a process that was forked while its parent had several threads,
        since one of them may have held the lock."""
        Forks.check()
        return self._lock

    def _ask(self, function: Callable[..., Any], *values: Any) -> Any:
        """Calls the library function with this handle, and returns its result."""
        with self._turn:
            return function(byref(self._handle), *values)

    def _told(self, told: Any) -> Any:
        """Returns a result of the library; raises ValueError if the handle is empty."""
        if told.refusal == _library.L4_B1:
            raise ValueError(f"the {self._name} is closed")
        return told
