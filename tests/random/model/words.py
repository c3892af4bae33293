"""Words as the manual lays them out: fpages, message tags, items, receive windows, and what an item moves."""
from typing import NamedTuple

# pages of 4,096 bytes, or of 1,024 where a machine is booted so, in a space of 2^32 bytes
PAGE_LOG = 12
SMALL_PAGE_LOG = 10
SPACE_LOG = 32
FULL_RIGHTS = 7
NIL_THREAD = 0
ANY_THREAD = 0xFFFFFFFF
WORDS = 64
ERROR_TAG = 0x8000


class Refused(Exception):
    """A refusal by its code, with the number that the code carries or none."""

    def __init__(self, code, number=None):
        super().__init__(code, number)
        self.code = code
        self.number = number

    def text(self):
        return self.code if self.number is None else f"{self.code} {self.number}"


class Fpage(NamedTuple):
    """An fpage: 2^log bytes from its base on, or nil if there is no log."""

    base: int
    log: int | None
    rights: int

    def pages(self, page_log):
        if self.log is None or self.log < page_log:
            return range(0)
        first = self.base >> page_log
        return range(first, first + (1 << (self.log - page_log)))


class Item(NamedTuple):
    is_grant: bool
    send_base: int
    fpage: Fpage


class Message(NamedTuple):
    """The words that the tag counts, itself in front, and the items among them."""

    words: tuple
    items: tuple


def read_fpage(word):
    """The fpage of a word, or None if it is malformed."""
    size = word >> 4 & 63
    base = word & ~0x3FF
    if size == 0:
        return Fpage(0, None, 0)
    if size == SPACE_LOG or (size == 1 and base == 0):
        return Fpage(0, SPACE_LOG, word & FULL_RIGHTS)
    if 10 <= size < SPACE_LOG:
        return Fpage(base >> size << size, size, word & FULL_RIGHTS)
    return None


def write_fpage(base, log, rights):
    return base | log << 4 | rights


def read_window(word):
    window = read_fpage(word & ~15)
    if window is None:
        raise Refused("M6")
    return window


def read_item(number, first, second):
    kind = first >> 1 & 7
    if kind < 4 or kind == 6:
        raise Refused("M4", number)
    fpage = read_fpage(second)
    if kind == 7 or fpage is None:
        raise Refused("M3", number)
    return Item(kind == 5, first & ~0x3FF, fpage)


def read_message(words):
    if not words:
        raise Refused("M7")
    untyped, typed = words[0] & 63, words[0] >> 6 & 63
    if untyped + typed < WORDS and len(words) < 1 + untyped + typed:
        raise Refused("M7")
    if untyped + typed >= WORDS:
        raise Refused("M1")
    if words[0] >> 12 & 15:
        raise Refused("M5")
    if typed % 2:
        raise Refused("M2")
    at = range(1 + untyped, 1 + untyped + typed, 2)
    items = tuple(read_item(number, words[k], words[k + 1]) for number, k in enumerate(at))
    return Message(tuple(words[: 1 + untyped + typed]), items)


def moved_block(item, window, page_log):
    """What an item moves into a window: the first source page, the first target page and their number; None if it moves none."""
    size, room = item.fpage.log, window.log
    if size is None or room is None:
        return None
    source, target = item.fpage.base, window.base
    if size < room:
        target += item.send_base % (1 << room) >> size << size
    elif size > room:
        source += item.send_base % (1 << size) >> room << room
    log = min(size, room)
    if log < page_log:
        return None
    return source >> page_log, target >> page_log, 1 << (log - page_log)
