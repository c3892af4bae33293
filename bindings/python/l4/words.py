"""The words of the kernel's interface: thread ids, rights, fpages, items and messages."""
from __future__ import annotations

import enum
from dataclasses import dataclass
from typing import ClassVar, Dict, Iterable, Optional, Sequence, Tuple

from . import _library
from ._library import number, of_type
from ._shown import bytes_of, hexadecimal

#: The size in bytes of a page, and of a small page.
PAGE_BYTES = _library.L4_PAGE_BYTES
SMALL_PAGE_BYTES = _library.L4_SMALL_PAGE_BYTES
#: The number of pages of a space, and of small pages.
SPACE_PAGES = _library.L4_SPACE_PAGES
SMALL_SPACE_PAGES = _library.L4_SMALL_SPACE_PAGES
#: The largest number of frames of a machine.
MAX_FRAMES = _library.L4_MAX_FRAMES
#: The largest number of threads of a kernel.
MAX_THREADS = _library.L4_MAX_THREADS
#: The largest number of words of a message, including the tag, and of fpages of an Unmap.
MAX_WORDS = _library.L4_MAX_WORDS

# the binary logarithm of each page size
_PAGE_LOGS = {PAGE_BYTES: _library.L4_PAGE_LOG, SMALL_PAGE_BYTES: _library.L4_SMALL_PAGE_LOG}

# the log of the nil fpage, and of the complete one
_NIL_LOG = 0
_SPACE_LOG = 32


def _page_log(page_bytes: int) -> int:
    if page_bytes not in _PAGE_LOGS:
        raise ValueError(f"the page size is {PAGE_BYTES} or {SMALL_PAGE_BYTES} bytes, not {page_bytes}")
    return _PAGE_LOGS[page_bytes]


@dataclass(frozen=True, order=True, repr=False)
class ThreadId:
    """A thread id: the thread number in bits 31 to 14, and the version in bits 13 to 0 (L4 X.2 manual, ThreadId).

    Every word is a ThreadId, even one that no thread can have; `ThreadId.of` makes only ids that a thread can have. A ThreadId in place of
    a number, or a number in place of a ThreadId, raises TypeError.

    >>> ThreadId.of(3), str(ThreadId.of(3)), ThreadId.of(3).number
    (ThreadId(0x0000c001), 'thread 3', 3)
    """

    #: nilthread, the id of no thread: a call has no phase with it.
    NIL: ClassVar[ThreadId]
    #: anythread: as a partner to receive from, it means any thread.
    ANY: ClassVar[ThreadId]
    #: The id of sigma0, thread 1 in space 0.
    SIGMA0: ClassVar[ThreadId]
    #: The id of root, thread 2 in space 1.
    ROOT: ClassVar[ThreadId]

    word: int

    def __post_init__(self) -> None:
        number(self.word, "the word of a thread id")

    @classmethod
    def of(cls, thread: int, version: int = 1) -> ThreadId:
        """Returns the id of the thread with this number, from 1 to 262,143, and this version, from 1 to 16,383, whose low six bits are
        not all zero. Raises ValueError for other numbers, and for the one pair whose word is `ThreadId.ANY`."""
        if not (0 < thread < 1 << 18 and 0 < version < 1 << 14 and version & 0x3F):
            raise ValueError(
                f"no thread can have number {thread} and version {version}: numbers are 1 to 262143, "
                "versions are 1 to 16383, and the low six bits of a version are not all zero"
            )
        if thread << 14 | version == _library.L4_ANYTHREAD:
            raise ValueError("this number and version are the id anythread, which no thread can have")
        return cls(thread << 14 | version)

    @property
    def number(self) -> int:
        """Returns the thread number, below 262,144."""
        return self.word >> 14

    @property
    def version(self) -> int:
        """Returns the version, below 16,384."""
        return self.word & 0x3FFF

    @property
    def is_valid(self) -> bool:
        """Returns whether a thread can have this id. No thread can if the number is 0, if the low six bits of the version are all zero, or
        if the id is `ThreadId.ANY`.

        >>> ThreadId.ROOT.is_valid, ThreadId(0xc040).is_valid
        (True, False)
        """
        return self.number != 0 and self.version & 0x3F != 0 and self.word != _library.L4_ANYTHREAD

    def __str__(self) -> str:
        if self in (ThreadId.NIL, ThreadId.ANY):
            return "nil" if self == ThreadId.NIL else "any"
        return f"thread {self.number}" + ("" if self.version == 1 else f" version {self.version}")

    def __repr__(self) -> str:
        return f"ThreadId({self.word:#010x})"


ThreadId.NIL = ThreadId(_library.L4_NILTHREAD)
ThreadId.ANY = ThreadId(_library.L4_ANYTHREAD)
ThreadId.SIGMA0 = ThreadId.of(1)
ThreadId.ROOT = ThreadId.of(2)


class Rights(enum.Flag):
    """A set of the rights to read, to write and to execute a page (L4 X.2 manual, Fpages).

    >>> str(Rights.READ | Rights.EXECUTE)
    'r-x'
    """

    NONE = 0
    READ = _library.L4_READ
    WRITE = _library.L4_WRITE
    EXECUTE = _library.L4_EXECUTE
    ALL = 7

    @classmethod
    def of_bits(cls, word: int) -> Rights:
        """Returns the rights in the low three bits of a word: read is 4, write 2, execute 1. The other bits are ignored."""
        return cls(word & 7)

    def __str__(self) -> str:
        letters = ((Rights.READ, "r"), (Rights.WRITE, "w"), (Rights.EXECUTE, "x"))
        return "".join(letter if right in self else "-" for right, letter in letters)


@dataclass(frozen=True, repr=False)
class Fpage:
    """A flexpage: 2^log bytes that start at byte `base`, with rights (L4 X.2 manual, Fpages).

    `log` is 10 to 31, and `base` is a multiple of 2^log. With base 0, a log of 0 is the nil fpage, which has no bytes, and a log of 32 is
    the complete fpage. Other values raise ValueError. As a receive window, an fpage says where a receiver accepts pages; its rights are
    ignored there.

    >>> Fpage.page(16, Rights.ALL)
    <Fpage 0x000100c7: 4 KiB at 0x10000 rwx>
    """

    base: int
    log: int
    rights: Rights = Rights.NONE

    def __post_init__(self) -> None:
        number(self.base, "the base of an fpage")
        of_type(self.rights, Rights, "what may be done with an fpage")
        if number(self.log, "the log of an fpage") not in (_NIL_LOG, _SPACE_LOG) and not 10 <= self.log <= 31:
            raise ValueError(f"no fpage has 2^{self.log} bytes: the log is 10 to 31, 0 (nil) or 32 (complete)")
        if self.base and (self.log == _NIL_LOG or self.base % (1 << self.log)):
            raise ValueError(f"an fpage of 2^{self.log} bytes doesn't start at {self.base:#x}")

    @classmethod
    def nil(cls) -> Fpage:
        """Returns the nil fpage, which has no bytes."""
        return cls(0, _NIL_LOG)

    @classmethod
    def complete(cls, rights: Rights = Rights.NONE) -> Fpage:
        """Returns the complete fpage, which has all bytes of a space."""
        return cls(0, _SPACE_LOG, rights)

    @classmethod
    def pages(cls, first: int, log: int, rights: Rights, page_bytes: int = PAGE_BYTES) -> Fpage:
        """Returns the fpage of 2^log pages that start at page `first`, a multiple of 2^log. With a log of 20 (22 for small
        pages) it has all pages of a space. Raises ValueError if there is no such fpage."""
        page_log = _page_log(page_bytes)
        if not 0 <= log <= _SPACE_LOG - page_log:
            raise ValueError(f"no fpage has 2^{log} pages")
        return cls(first * page_bytes, log + page_log, rights)

    @classmethod
    def page(cls, page: int, rights: Rights, page_bytes: int = PAGE_BYTES) -> Fpage:
        """Returns the fpage of one page, below 1,048,576, or below 4,194,304 for small pages. Raises ValueError for other pages.

        >>> hex(Fpage.page(16, Rights.ALL, SMALL_PAGE_BYTES).word)
        '0x40a7'
        """
        return cls.pages(page, 0, rights, page_bytes)

    @classmethod
    def read(cls, word: int) -> Fpage:
        """Returns the fpage that a word names. Raises ValueError if it names none, or does not have 32 bits.

        A base that is not a multiple of the size is rounded down, and bit 3 is ignored. A size field of 0 means nil, and one of 32 means
        complete, with any base.

        >>> Fpage.read(0x100c7) == Fpage.page(16, Rights.ALL)
        True
        """
        word = number(word, "the word of an fpage")
        log, base, rights = word >> 4 & 0x3F, word & 0xFFFFFC00, Rights.of_bits(word)
        if log == _NIL_LOG:
            return cls.nil()
        if log == _SPACE_LOG or (log == 1 and base == 0):
            return cls.complete(rights)
        if not 10 <= log <= 31:
            raise ValueError(f"the word is not an fpage: {word:#x}")
        return cls(base >> log << log, log, rights)

    @property
    def word(self) -> int:
        """Returns the word, which is read as this fpage and no other. The complete fpage is written with a size field of 1."""
        if self.log == _NIL_LOG:
            return 0
        size = 1 if self.log == _SPACE_LOG else self.log
        return self.base | size << 4 | self.rights.value

    @property
    def acceptor(self) -> int:
        """Returns the acceptor word whose receive window is this fpage, as `Call.ipc` takes it. It has no rights.

        >>> hex(Fpage.complete(Rights.ALL).acceptor)
        '0x10'
        """
        return self.word & 0xFFFFFFF0

    def __str__(self) -> str:
        if self.log == _NIL_LOG:
            return "nil"
        return f"complete {self.rights}" if self.log == _SPACE_LOG else f"{bytes_of(self.log)} at {self.base:#x} {self.rights}"

    def __repr__(self) -> str:
        return f"<Fpage {hexadecimal([self.word])}: {self}>"

    @property
    def page_range(self) -> range:
        """Returns the pages of 4,096 bytes that lie wholly inside the fpage."""
        return self.range_of(PAGE_BYTES)

    def range_of(self, page_bytes: int) -> range:
        """Returns the pages of `page_bytes` bytes that lie wholly inside the fpage.

        >>> Fpage.page(5, Rights.ALL).range_of(SMALL_PAGE_BYTES)
        range(20, 24)
        """
        page_log = _page_log(page_bytes)
        first = self.base >> page_log
        return range(first, first + (1 << self.log >> page_log))


@dataclass(frozen=True, repr=False)
class Item:
    """A map or grant item of a message: the pages of an fpage, which the receiver shares (map) or takes over (grant) (L4 X.2 manual, IPC:
    map item, grant item).

    The send base, in bytes and a multiple of 1,024, says where the pages land in a larger receive window.

    >>> Item.map(Fpage.page(16, Rights.READ), 0x20000)
    <Item 0x00020008 0x000100c4: map 4 KiB at 0x10000 r--, send base 0x20000>
    """

    fpage: Fpage
    base: int = 0
    is_grant: bool = False

    def __post_init__(self) -> None:
        of_type(self.fpage, Fpage, "what an item hands over")
        if number(self.base, "a send base") % 1024:
            raise ValueError(f"a send base is a multiple of 1,024: {self.base:#x}")

    @classmethod
    def map(cls, fpage: Fpage, base: int = 0) -> Item:
        """Returns an item that maps the pages: sender and receiver share them."""
        return cls(fpage, base, False)

    @classmethod
    def grant(cls, fpage: Fpage, base: int = 0) -> Item:
        """Returns an item that grants the pages: the sender loses them."""
        return cls(fpage, base, True)

    @classmethod
    def read(cls, first: int, second: int) -> Item:
        """Returns the item of two words. Raises ValueError for strings, CtrlXfer items, and words that are not an item."""
        kind = number(first, "the first word of an item") >> 1 & 7
        if kind not in (4, 5):
            raise ValueError(f"the words are not a map or grant item: {first:#x} {second:#x}")
        return cls(Fpage.read(second), first & 0xFFFFFC00, kind == 5)

    def words(self, more: bool) -> Tuple[int, int]:
        """Returns the two words. `more`, their lowest bit, says that another item follows. Raises TypeError if it is not a bool."""
        of_type(more, bool, "the parameter more of an item's words")
        return self.base | (10 if self.is_grant else 8) | more, self.fpage.word

    def __str__(self) -> str:
        return f"{'grant' if self.is_grant else 'map'} {self.fpage}, send base {self.base:#x}"

    def __repr__(self) -> str:
        return f"<Item {hexadecimal(self.words(False))}: {self}>"


def items_of(words: Sequence[int]) -> Tuple[Item, ...]:
    """Returns the items of the typed words of a message."""
    return tuple(Item.read(first, second) for first, second in zip(words[::2], words[1::2]))


def words_of(words: Iterable[int], what: str) -> Tuple[int, ...]:
    """Returns the words as a tuple. Raises ValueError for more than 64 words, and for a word that does not have 32 bits."""
    words = tuple(number(word, what) for word in words)
    if len(words) > MAX_WORDS:
        raise ValueError(f"more than {MAX_WORDS} words: {len(words)}")
    return words


def _item_text(first: int, second: int) -> str:
    """Returns the item of two words as text."""
    try:
        return str(Item.read(first, second))
    except ValueError:
        return f"no item in {hexadecimal([first, second])}"


@dataclass(frozen=True, repr=False)
class Tag:
    """The tag of a message: a label, the number of untyped words, and the number of words of items, two for each (L4 X.2 manual, MsgTag).

    Every word is a Tag, even one that the kernel refuses.

    >>> Tag.of(7, 1, 2), Tag.of(7, 1, 2).typed
    (Tag(0x00070081), 2)
    """

    word: int

    def __post_init__(self) -> None:
        number(self.word, "the word of a tag")

    @classmethod
    def of(cls, label: int = 0, untyped: int = 0, typed: int = 0) -> Tag:
        """Returns the tag with a label of 16 bits and these numbers of words, each below 64. Raises ValueError for other numbers."""
        counts = number(typed, "a number of words of items", 6) << 6 | number(untyped, "a number of untyped words", 6)
        return cls(number(label, "a label", 16) << 16 | counts)

    @property
    def label(self) -> int:
        """Returns the label."""
        return self.word >> 16

    @property
    def untyped(self) -> int:
        """Returns the number of untyped words."""
        return self.word & 0x3F

    @property
    def typed(self) -> int:
        """Returns the number of words of items."""
        return self.word >> 6 & 0x3F

    @property
    def _flags(self) -> int:
        """Returns the flags. The kernel refuses a message with flags."""
        return self.word >> 12 & 0xF

    @property
    def is_error(self) -> bool:
        """Returns whether this is the tag of an Ipc that failed, which has the highest flag."""
        return self._flags & 8 != 0

    def __repr__(self) -> str:
        return f"Tag({self.word:#010x})"


def _message_text(tag: Tag, words: Sequence[int]) -> str:
    """Returns the tag of a message and the words after it as text."""
    untyped, typed, flags = tag.untyped, tag.typed, tag._flags
    found = words[untyped : untyped + typed]
    parts = [f"label {tag.label:#06x}", f"flags {flags:#x}" if flags else "", f"{untyped} untyped" if untyped else ""]
    parts += [_item_text(first, second) for first, second in zip(found[::2], found[1::2])]
    if typed % 2:
        parts.append(f"an odd number of words for the items: {typed}")
    if len(words) != untyped + typed:
        parts.append(f"{len(words)} words where the tag counts {untyped + typed}")
    return "; ".join(part for part in parts if part)


@dataclass(frozen=True, repr=False)
class Message:
    """The words of a message, the tag first: at most 64 (L4 X.2 manual, IPC: message registers).

    The kernel may refuse such words. `Message.of` makes only messages that it does not refuse.

    >>> Message((0x70081, 5, 0x20008, 0x100c7))
    <Message 0x00070081 0x00000005 0x00020008 0x000100c7: label 0x0007; 1 untyped; map 4 KiB at 0x10000 rwx, send base 0x20000>
    """

    words: Tuple[int, ...] = ()

    def __post_init__(self) -> None:
        object.__setattr__(self, "words", words_of(self.words, "a word of a message"))

    @classmethod
    def of(cls, label: int = 0, untyped: Iterable[int] = (), items: Iterable[Item] = ()) -> Message:
        """Returns a message with a label of 16 bits, untyped words, and items. At most 63 words follow the tag, two of them for each item.
        Raises ValueError for more.

        >>> message = Message.of(7, [5], [Item.map(Fpage.page(16, Rights.ALL), 0x20000)])
        >>> [hex(word) for word in message.words]
        ['0x70081', '0x5', '0x20008', '0x100c7']
        """
        untyped, items = tuple(untyped), tuple(of_type(item, Item, "an item of a message") for item in items)
        if len(untyped) + 2 * len(items) >= MAX_WORDS:
            raise ValueError(f"more than {MAX_WORDS - 1} words after the tag")
        typed = [word for place, item in enumerate(items, 1) for word in item.words(place < len(items))]
        return cls((Tag.of(label, len(untyped), len(typed)).word, *untyped, *typed))

    @property
    def tag(self) -> Optional[Tag]:
        """Returns the tag, or None if the message has no words."""
        return Tag(self.words[0]) if self.words else None

    @property
    def label(self) -> int:
        """Returns the label, or 0 if the message has no words."""
        return Tag(self.words[0]).label if self.words else 0

    @property
    def untyped(self) -> Tuple[int, ...]:
        """Returns the untyped words, which come before the items."""
        return self.words[1:][: Tag(self.words[0]).untyped] if self.words else ()

    @property
    def items(self) -> Tuple[Item, ...]:
        """Returns the items."""
        return items_of(self.words[1:][Tag(self.words[0]).untyped :]) if self.words else ()

    def __str__(self) -> str:
        return _message_text(Tag(self.words[0]), self.words[1:]) if self.words else "no tag"

    def __repr__(self) -> str:
        return f"<Message {hexadecimal(self.words)}: {self}>" if self.words else "<Message: no tag>"


class Timeout(enum.Enum):
    """How long a phase of an Ipc waits for its partner."""

    #: It waits until the partner is ready.
    NEVER = 0
    #: It does not wait: `Kernel.expire` may end the phase if the partner is not ready.
    ZERO = _library.L4_ZERO_TIMEOUT


def timeouts(send: Timeout, receive: Timeout) -> int:
    """Returns the timeouts word: the send timeout in bits 31 to 16, and the receive timeout in bits 15 to 0."""
    return of_type(send, Timeout, "a timeout").value << 16 | of_type(receive, Timeout, "a timeout").value


