"""Queries about the state of a kernel, which a shared kernel answers too."""
from __future__ import annotations

import enum
from dataclasses import dataclass
from typing import Any, ContextManager, Iterator, Optional, Tuple

from . import _library
from ._library import number
from .refusals import Refused
from .replies import Reply, reply_of
from .words import Rights, ThreadId

# room for as many pages as most spaces have, and as descend from most pages
_MAPPED_ROOM = 64
_PLACE_ROOM = 16


@dataclass(frozen=True, order=True)
class Place:
    """A page of a space, by the numbers of both."""

    space: int
    page: int


@dataclass(frozen=True)
class Mapping:
    """The frame and the rights of a present page, and its parent.

    The parent is the page from which the page was mapped; a granted page keeps the parent that it had before the grant. It is None for
    sigma0's boot pages, also after a grant of them.
    """

    place: Place
    frame: int
    rights: Rights
    parent: Optional[Place]


@dataclass(frozen=True)
class Change:
    """A page whose mapping is another one in two kernels, from `Kernel.changes_since`: its mapping in the kernel that was passed, and in the
    one that was asked. Each is None if the page is not present there."""

    place: Place
    before: Optional[Mapping]
    after: Optional[Mapping]


class ThreadState(enum.Enum):
    """What a thread is doing."""

    #: It runs, and has made no call yet.
    NEW = _library.L4_STATE_NEW
    #: It runs, and its last call has ended: `Kernel.reply` returns the reply.
    RUNNING = _library.L4_STATE_RUNNING
    #: It waits until its partner receives its message.
    SENDING = _library.L4_STATE_SENDING
    #: It waits for a message from its partner.
    RECEIVING = _library.L4_STATE_RECEIVING


@dataclass(frozen=True)
class Thread:
    """A thread: its id, which has its version, the number of its space, its pager, and what it is doing.

    `pager` is `ThreadId.NIL` if the thread has no pager. `partner` is the partner for which the thread waits: `ThreadId.ANY` if it accepts a
    message from any thread, and `ThreadId.NIL` if it does not wait. `expires` is true if the wait has a timeout of zero, and `fault` if it
    belongs to a page fault.
    """

    id: ThreadId
    space: int
    pager: ThreadId
    state: ThreadState
    partner: ThreadId = ThreadId.NIL
    expires: bool = False
    fault: bool = False

    @property
    def waits(self) -> bool:
        """Returns whether the thread waits for a partner."""
        return self.state in (ThreadState.SENDING, ThreadState.RECEIVING)


def _thread(told: _library.l4_state) -> Optional[Thread]:
    if told.state == _library.L4_STATE_ABSENT:
        return None
    ids = ThreadId(told.id), told.space, ThreadId(told.pager)
    return Thread(*ids, ThreadState(told.state), ThreadId(told.partner), bool(told.expires), bool(told.fault))


def _mapped(space: int, told: _library.l4_mapped) -> Mapping:
    """Returns the mapping of a page of a space that the library lists."""
    parent = Place(told.parent_space, told.parent_page) if told.has_parent else None
    return Mapping(Place(space, told.page), told.frame, Rights.of_bits(told.rights), parent)


class Queries:
    """The queries of a kernel. They change nothing."""

    @property
    def _turn(self) -> ContextManager[Any]:
        """Returns the lock that is held during a query."""
        raise NotImplementedError

    def _query(self, name: str, *values: Any) -> Any:
        """Calls the library's function of this name, and returns its result. Raises ValueError if the kernel is closed."""
        raise NotImplementedError

    @property
    def page_bytes(self) -> int:
        """Returns the size in bytes of a page and of a frame, with which the kernel was booted."""
        return self._query("page_size_of").page_bytes

    def thread(self, thread: int) -> Optional[Thread]:
        """Returns the thread with this number: its id, space and pager, and what it is doing. Returns None if there is no such thread.

        >>> from l4 import Call, Kernel, ThreadId
        >>> kernel = Kernel(1)
        >>> kernel.thread(2).state, kernel.thread(3)
        (<ThreadState.NEW: 1>, None)
        >>> _ = kernel.enter(2, Call.receive(ThreadId.SIGMA0))
        >>> kernel.thread(2).state, str(kernel.thread(2).partner)
        (<ThreadState.RECEIVING: 4>, 'thread 1')
        """
        return _thread(self._query("state_of", number(thread, "a thread number")))

    def reply(self, thread: int) -> Optional[Reply]:
        """Returns the reply of the thread's last call, which has ended. Returns None if the thread waits, does not exist, or has made no
        call yet; `thread` tells these apart."""
        return reply_of(self._query("reply_of", number(thread, "a thread number")))

    def space_of(self, thread: int) -> Optional[int]:
        """Returns the number of a thread's space, or None if there is no such thread."""
        told = self._query("space_of", number(thread, "a thread number"))
        return told.space if told.there else None

    def mapping(self, space: int, page: int) -> Optional[Mapping]:
        """Returns the mapping of a page of a space, or None if the page is not present. `page` is from 0 to 4,294,967,295; a page of a
        space that does not exist, or beyond the space, is not present."""
        place = number(space, "a space", 64), number(page, "a page")
        told = self._query("mapping_of", *place)
        if not told.there:
            return None
        parent = Place(told.parent_space, told.parent_page) if told.has_parent else None
        return Mapping(Place(space, page), told.frame, Rights.of_bits(told.rights), parent)

    def next_page(self, space: int, page: int) -> Optional[int]:
        """Returns the lowest present page of a space that is not below `page`, or None if there is none."""
        place = number(space, "a space", 64), number(page, "a page")
        told = self._query("next_page", *place)
        return told.page if told.there else None

    def mappings(self, space: int) -> Tuple[Mapping, ...]:
        """Returns the mappings of a space's present pages, by rising page number.

        >>> from l4 import Kernel
        >>> kernel = Kernel(3)
        >>> [mapping.frame for mapping in kernel.mappings(0)]
        [0, 1, 2]
        """
        number(space, "a space", 64)
        with self._turn:
            room = _MAPPED_ROOM
            while True:
                pages = (_library.l4_mapped * room)()
                told = self._query("mappings", space, 0, pages, room)
                if told.count <= room:
                    return tuple(_mapped(space, found) for found in pages[: told.count])
                room = told.count

    def descendants(self, space: int, page: int) -> Tuple[Place, ...]:
        """Returns the pages that descend from a page of a space: those that were mapped from it, those that were mapped from these, and so
        on. Each is returned once, in no fixed order; there are none if the page is not present. The cost depends only on their number.

        A step changes at most the pages that it names and what descends from them before the step. A message names the pages that its items
        fill, and the source pages of its grant items.

        Raises Refused with NoMemory.

        >>> from l4 import Kernel
        >>> kernel = Kernel(256)
        >>> kernel.descendants(0, 16)
        ()
        """
        place = number(space, "a space", 64), number(page, "a page")
        with self._turn:
            room = _PLACE_ROOM
            while True:
                places = (_library.l4_place * room)()
                told = self._query("descendants", *place, places, room)
                if told.refusal:
                    raise Refused(told.refusal)
                if told.count <= room:
                    return tuple(Place(found.space, found.page) for found in places[: told.count])
                room = told.count

    def threads(self) -> Tuple[int, ...]:
        """Returns the numbers of the threads, by rising number."""
        with self._turn:
            return tuple(self._listed("next_thread", "thread"))

    def threads_in(self, space: int) -> Tuple[int, ...]:
        """Returns the numbers of the threads of a space, by rising number."""
        number(space, "a space", 64)
        with self._turn:
            return tuple(thread for thread in self.threads() if self.space_of(thread) == space)

    def spaces(self) -> Tuple[int, ...]:
        """Returns the numbers of the spaces, by rising number."""
        with self._turn:
            return tuple(self._listed("next_space", "space"))

    def _listed(self, name: str, member: str) -> Iterator[int]:
        """Yields the numbers that the library's function finds, each search starting after the number found last."""
        told = self._query(name, 0)
        while told.there:
            found = getattr(told, member)
            yield found
            told = self._query(name, found + 1)
