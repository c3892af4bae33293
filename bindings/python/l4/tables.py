"""The tables of pagers, and sigma0's table."""
from __future__ import annotations

from ctypes import byref
from typing import Any, List, Tuple

from . import _library
from ._handles import Handle
from ._library import array, library, number, of_type
from ._shown import table
from .plans import Region
from .refusals import Refused
from .words import PAGE_BYTES, Message, Rights


def _answer(told: Any) -> Message:
    if told.refusal:
        raise Refused(told.refusal, told.detail)
    return Message(tuple(told.words[: told.word_count]))


class Pager(Handle):
    """A pager's table. For the pages of the threads that the pager serves, it says which of its own pages the pager maps there.

    It has at most 64 regions, whose target pages do not overlap; source pages may be shared. `Pager(page_bytes)` makes an empty table for
    pages of 4,096 or 1,024 bytes, as the kernel whose faults it answers has. Any other number is refused with B4. The table owns memory of
    the library, and is freed as a `Kernel` is.

    >>> pager = Pager()
    >>> pager.add(Region(100, 4, 4, Rights.READ))
    >>> pager.find(5, Rights.READ)
    101
    >>> fault = Message.of(0xffe4, [0x5678, 0x400100])
    >>> [hex(word) for word in pager.answer(fault).words]
    ['0x80', '0x5008', '0x650c4']
    """

    def __init__(self, page_bytes: int = PAGE_BYTES) -> None:
        page_bytes = number(page_bytes, "the number of bytes")
        super().__init__(_library.l4_pager(), library.l4_pager_new_sized, library.l4_pager_free, page_bytes)
        self._regions: List[Region] = []

    def add(self, region: Region) -> None:
        """Adds a region at the end. Raises Refused, in this order, with P4, P1 or P3; nothing has changed then."""
        given = byref(of_type(region, Region, "what a table gets").given())
        with self._turn:
            told = self._told(_library.l4_verdict(self._ask(library.l4_pager_add, given), 0))
            if told.refusal:
                raise Refused(told.refusal)
            self._regions.append(region)

    @property
    def regions(self) -> Tuple[Region, ...]:
        """Returns the regions, in the order in which they were added."""
        return tuple(self._regions)

    def _repr_html_(self) -> str:
        """Returns the regions as a table for a notebook."""
        rows = ((region.target, region.source, region.count, region.rights) for region in self.regions)
        return table("regions", ("first page", "source page", "pages", "rights"), rows)

    def find(self, page: int, access: Rights) -> int:
        """Returns the source page of a target page whose region has all the rights that the access needs.

        An access that needs no right finds the page in any region. Raises Refused with P2.
        """
        needed = of_type(access, Rights, "what an access needs").value
        told = self._told(self._ask(library.l4_pager_find, number(page, "a page"), needed))
        if told.refusal:
            raise Refused(told.refusal)
        return told.page

    def answer(self, message: Message) -> Message:
        """Returns the pager's answer to a message.

        The answer to a page fault is one map item: the source page, with its region's rights, for the page of the fault. It is a nil map
        item if `find` refuses the page; so is the answer to any other message. Raises Refused with M7, M1, M5, M2, M4 or M3 for words that
        are not a message.
        """
        words = of_type(message, Message, "what is answered").words
        return _answer(self._told(self._ask(library.l4_pager_answer, array(words), len(words))))


class Sigma0(Handle):
    """sigma0's table: which space owns which frame.

    Once a space has been given a frame, the frame belongs to that space for good. `Sigma0(frames, page_bytes)` makes a table of 1 to 4,096
    frames without owners, for pages of 4,096 or 1,024 bytes, as the kernel has. Any other page size is refused with B4, and any other
    number of frames with K6. The table owns memory of the library, and is freed as a `Kernel` is.

    >>> sigma0 = Sigma0(256)
    >>> fault = Message.of(0xffe4, [0x5678, 0x400100])
    >>> [hex(word) for word in sigma0.answer(2, fault).words]
    ['0x80', '0x5008', '0x50c7']
    >>> [hex(word) for word in sigma0.answer(3, fault).words]
    ['0x80', '0x8', '0x0']
    """

    def __init__(self, frames: int = 256, page_bytes: int = PAGE_BYTES) -> None:
        given = number(frames, "the number of frames"), number(page_bytes, "the number of bytes")
        super().__init__(_library.l4_sigma0(), library.l4_sigma0_new_sized, library.l4_sigma0_free, *given)

    def answer(self, space: int, message: Message) -> Message:
        """Returns sigma0's answer to a message from a thread in this space.

        A request with attributes of 0 requests the frames of its fpage's pages, and a page fault requests the frame of its page. The frame
        of a page has the page's number. If all of these frames exist, and each has no owner or is owned by this space, then the space owns
        them from then on. The answer is then one map item of all of them, with all rights, to the pages of the same numbers. The answer to
        anything else is a nil map item, and nothing changes. Raises Refused with M7, M1, M5, M2, M4 or M3 for words that are not a message.
        """
        words = of_type(message, Message, "what is answered").words
        given = number(space, "a space", 64), array(words), len(words)
        return _answer(self._told(self._ask(library.l4_sigma0_answer, *given)))
