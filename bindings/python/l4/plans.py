"""Plans of map items for regions, and checks of plans."""
from __future__ import annotations

from ctypes import byref
from dataclasses import dataclass
from typing import Iterator, Sequence, Tuple

from . import _library
from ._library import Forks, array, library, number, of_type
from ._shown import counted, hexadecimal, table
from .refusals import Refused, TooLong
from .words import PAGE_BYTES, Item, Message, Rights, items_of


@dataclass(frozen=True)
class Plan:
    """The shortest list of map items that moves exactly a region, in the fewest messages. `Region.plan` makes it.

    It has `item_count` items, 1 to 1,984, and `message_count` messages, 1 to 64; every message but the last has 31 items. Each item
    has one page, and no single map item could move two of these pages: this proves that no list is shorter. A plan stores no items. Each
    message is computed when you request it.

    >>> plan = Region(0, 1, 40, Rights.ALL).plan()
    >>> plan.item_count, [len(message.words) for message in plan.messages()]
    (40, [63, 19])
    """

    region: Region
    page_bytes: int
    item_count: int
    message_count: int

    def message(self, k: int) -> Message:
        """Returns the message with this number, from 0. It has label 0 and no untyped words. Raises Refused with N6 if the plan has no
        message with this number."""
        told = library.l4_plan_message_sized(byref(self.region.given()), number(k, "a message's number"), self.page_bytes)
        if told.refusal:
            raise Refused(told.refusal)
        return Message(tuple(told.words[: told.word_count]))

    def only(self) -> Message:
        """Returns the message that sends all items. Raises Refused with N5 if the plan has several messages."""
        if self.message_count > 1:
            raise Refused(_library.L4_N5)
        return self.message(0)

    def messages(self) -> Iterator[Message]:
        """Yields the messages, in order."""
        return map(self.message, range(self.message_count))

    def words(self) -> Tuple[int, ...]:
        """Returns the words of the items, two for each, in order."""
        return tuple(word for message in self.messages() for word in message.words[1:])

    def items(self) -> Tuple[Item, ...]:
        """Returns the items, in order."""
        return items_of(self.words())

    def pages(self) -> Tuple[int, ...]:
        """Returns one page for each item, in the items' order."""
        return _first_pages(self.region, self.page_bytes)

    def __str__(self) -> str:
        return f"{counted(self.item_count, 'item')} in {counted(self.message_count, 'message')}"

    def _repr_html_(self) -> str:
        """Returns the items with their words and pages, as a table for a notebook."""
        rows = ((hexadecimal(item.words(False)), item, page) for item, page in zip(self.items(), self.pages()))
        return table(str(self), ("words", "item", "page"), rows)


def _first_pages(region: Region, page_bytes: int) -> Tuple[int, ...]:
    """Returns the pages of the items of a region's plan, or those that prove that the plan is too long."""
    room = array([0] * _library.L4_TOO_MANY)
    count = library.l4_plan_pages_sized(byref(region.given()), room, len(room), page_bytes)
    return tuple(room[:count])


@dataclass(frozen=True)
class Region:
    """A region: `count` pages that start at page `source`. They move to the pages that start at page `target`, with these rights."""

    source: int
    target: int
    count: int
    rights: Rights

    def __post_init__(self) -> None:
        for name in ("source", "target", "count"):
            number(getattr(self, name), f"the {name} of a region")
        of_type(self.rights, Rights, "what may be done with a region")

    def given(self) -> _library.l4_region:
        """Returns the struct that the library reads."""
        Forks.check()
        return _library.l4_region(self.source, self.target, self.count, self.rights.value)

    def plan(self, page_bytes: int = PAGE_BYTES) -> Plan:
        """Returns the shortest list of map items that moves exactly the region, for pages of 4,096 or 1,024 bytes.

        Raises Refused, in this order, with B4, N1, N2 or N3, and then TooLong (N4), which has the pages that prove it.

        >>> plan = Region(4, 12, 12, Rights.ALL).plan()
        >>> [hex(word) for word in plan.only().words], plan.pages()
        (['0x100', '0xc009', '0x40e7', '0x10008', '0x80f7'], (4, 8))
        """
        page_bytes = number(page_bytes, "the number of bytes")
        told = library.l4_plan_region_sized(byref(self.given()), page_bytes)
        if told.refusal == _library.L4_N4:
            raise TooLong(_first_pages(self, page_bytes))
        if told.refusal:
            raise Refused(told.refusal)
        return Plan(self, page_bytes, told.items, told.messages)

    def check(self, words: Sequence[int], pages: Sequence[int], page_bytes: int = PAGE_BYTES) -> None:
        """Checks a plan from any source: that its items move exactly the region, and that its pages, one for each item, prove that no list
        of map items that does so is shorter. `words` has the words of the items, two for each.

        Raises Refused, in this order, with B4; M1 (more than 3,968 words), M2 (an odd number of words), M4 or M3; C6, C1, C2, C5, C3, C4.
        """
        words = [number(word, "a word") for word in words]
        pages = [number(page, "a page") for page in pages]
        given = array(words), len(words), array(pages), len(pages), number(page_bytes, "the number of bytes")
        told = library.l4_check_plan_sized(byref(self.given()), *given)
        if told.refusal:
            raise Refused(told.refusal, told.detail)

    def check_too_long(self, pages: Sequence[int], page_bytes: int = PAGE_BYTES) -> None:
        """Checks that 1,985 pages prove the following: every list of map items that moves exactly the region has more than 1,984 items.

        Raises Refused, in this order, with B4, C6, C5, C3 or C4.
        """
        pages = [number(page, "a page") for page in pages]
        given = array(pages), len(pages), number(page_bytes, "the number of bytes")
        told = library.l4_check_too_long_sized(byref(self.given()), *given)
        if told.refusal:
            raise Refused(told.refusal, told.detail)
