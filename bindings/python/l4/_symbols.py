"""The symbolic tokens of scripts, as words: `tag:7`, `map:16+4>32:rwx`, `32+4`, `16+4:rwx`, `unmap:1`, `zero,never`."""
from __future__ import annotations

import re
from typing import Dict, List, Tuple

from .words import MAX_WORDS, PAGE_BYTES, Fpage, Item, Message, Rights, Timeout, timeouts

_NUMBER = re.compile(r"0x[0-9A-Fa-f]{1,8}|[0-9]{1,10}")
_RIGHTS = {str(rights): rights for rights in map(Rights.of_bits, range(8))}
_WINDOWS = {"all": Fpage.complete().acceptor, "none": Fpage.nil().acceptor}
_TIMEOUTS: Dict[str, Timeout] = {"never": Timeout.NEVER, "zero": Timeout.ZERO}
_CONTROLS = {"unmap": 0, "flush": 1 << 6}
_ITEM = re.compile(r"(map|grant):([^>]*)>([^:]*):(.*)", re.DOTALL)
_LABELS = 1 << 16
_NAME = re.compile(r"[A-Za-z][A-Za-z0-9-]{0,23}")
_WORDS = {"nil", "any", "new", "tag", "map", "grant", *_WINDOWS, *_TIMEOUTS, *_RIGHTS}


def number(token: str) -> int:
    """Returns the number that a token spells. Raises ValueError if it spells none below 2^32."""
    if not is_number(token):
        raise ValueError(f"not a number: {token!r}")
    return _value(token)


def is_number(token: str) -> bool:
    """Returns whether a token spells a number below 2^32."""
    return bool(_NUMBER.fullmatch(token)) and _value(token) < 1 << 32


def is_name(token: str) -> bool:
    """Returns whether a token has the form of a thread's name, and no place of a line has it as a word."""
    return bool(_NAME.fullmatch(token)) and token not in _WORDS


def _value(token: str) -> int:
    return int(token, 16 if token.startswith("0x") else 10)


def rights(token: str) -> Rights:
    """Returns the rights that a token spells. Raises ValueError if it spells none."""
    if token not in _RIGHTS:
        raise ValueError(f"not rights: {token!r}")
    return _RIGHTS[token]


def _block(first: int, count: int, granted: Rights, page_bytes: int) -> Fpage:
    """Returns the fpage of `count` pages from `first` on. Their number is a power of two, and divides `first`."""
    if not count or count & (count - 1) or first % count or first + count > (1 << 32) // page_bytes:
        raise ValueError(f"not a block of pages: {first}+{count}")
    return Fpage.pages(first, count.bit_length() - 1, granted, page_bytes)


def _pages(text: str, granted: Rights, page_bytes: int) -> Fpage:
    """Returns the fpage of FIRST+COUNT, or of FIRST alone."""
    first, plus, count = text.partition("+")
    return _block(number(first), number(count) if plus else 1, granted, page_bytes)


def window(token: str, page_bytes: int = PAGE_BYTES) -> int:
    """Returns the acceptor word of a number, `all`, `none` or FIRST+COUNT. Raises ValueError for any other token."""
    if is_number(token):
        return number(token)
    return _WINDOWS[token] if token in _WINDOWS else _pages(token, Rights.NONE, page_bytes).acceptor


def fpage(token: str, page_bytes: int = PAGE_BYTES) -> int:
    """Returns the word of a number or of FIRST+COUNT:RIGHTS. Raises ValueError for any other token."""
    if is_number(token):
        return number(token)
    pages, _, granted = token.partition(":")
    return _pages(pages, rights(granted), page_bytes).word


def _control(token: str) -> int:
    """Returns the control word of unmap:COUNT or flush:COUNT."""
    name, _, count = token.partition(":")
    if name not in _CONTROLS or not 1 <= number(count) <= MAX_WORDS:
        raise ValueError(f"not a control word: {token!r}")
    return _CONTROLS[name] | number(count) - 1


def revoked(tokens: List[str], page_bytes: int = PAGE_BYTES) -> Tuple[int, Tuple[int, ...]]:
    """Returns the control word and the fpages of an Unmap: as many as the word counts, unless all tokens are numbers. Raises ValueError if a
    token is wrong, or there are too few tokens or too many.

    >>> revoked(["flush:2", "16:r--", "32+4:rwx"])
    (65, (65732, 131303))
    """
    if not 1 <= len(tokens) <= 1 + MAX_WORDS:
        raise ValueError("not a control word and at most 64 fpages")
    control, *others = tokens
    word = number(control) if is_number(control) else _control(control)
    fpages = tuple(fpage(token, page_bytes) for token in others)
    if not all(map(is_number, tokens)) and len(fpages) != (word & 0x3F) + 1:
        raise ValueError(f"{(word & 0x3F) + 1} fpages are counted, not {len(fpages)}")
    return word, fpages


def timeout_word(token: str) -> int:
    """Returns the timeouts word of a number, of `never` or `zero`, or of two of them. Raises ValueError for any other token."""
    if is_number(token):
        return number(token)
    names = token.split(",")
    if len(names) > 2 or not all(name in _TIMEOUTS for name in names):
        raise ValueError(f"not timeouts: {token!r}")
    return timeouts(_TIMEOUTS[names[0]], _TIMEOUTS[names[-1]])


def item(token: str, page_bytes: int = PAGE_BYTES) -> Item:
    """Returns the item of map:PAGES>BASE:RIGHTS or grant:PAGES>BASE:RIGHTS. Raises ValueError for any other token."""
    found = _ITEM.fullmatch(token)
    if not found:
        raise ValueError(f"not an item: {token!r}")
    kind, pages, base, granted = found.groups()
    if number(base) >= (1 << 32) // page_bytes:
        raise ValueError(f"not a page of the space: {base}")
    return Item(_pages(pages, rights(granted), page_bytes), number(base) * page_bytes, kind == "grant")


def _label(token: str) -> int:
    """Returns the label of tag:LABEL."""
    name, _, label = token.partition(":")
    if name != "tag" or number(label) >= _LABELS:
        raise ValueError(f"not a tag: {token!r}")
    return number(label)


def words(tokens: List[str], page_bytes: int = PAGE_BYTES) -> Tuple[int, ...]:
    """Returns the words of a message's tokens: the tag as a number or tag:LABEL, then numbers, and then items. Raises ValueError if a token is
    wrong, or there are more words than message registers.

    >>> [hex(word) for word in words(["tag:7", "5", "map:16+4>32:rwx"])]
    ['0x70081', '0x5', '0x20008', '0x100e7']
    """
    if not tokens:
        return ()
    tag, *others = tokens
    count = next((place for place, token in enumerate(others) if not is_number(token)), len(others))
    if count + 2 * (len(others) - count) >= MAX_WORDS:
        raise ValueError(f"more than {MAX_WORDS} words")
    label = 0 if is_number(tag) else _label(tag)
    message = Message.of(label, map(number, others[:count]), [item(token, page_bytes) for token in others[count:]])
    return (number(tag), *message.words[1:]) if is_number(tag) else message.words
