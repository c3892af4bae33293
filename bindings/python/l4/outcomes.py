"""The outcomes that a litmus test has over all orders of its threads' calls; `l4 orders` prints the same outcomes.

A litmus test is a script with a line `unordered`. The lines after it may be executed in any order, but the lines of one thread keep
theirs. The queries after a line `finally` are the outcome. The user guide describes litmus tests.
"""
from __future__ import annotations

from ctypes import byref, c_char, c_uint64
from dataclasses import dataclass
from enum import Enum
from typing import Any, Callable, Optional, Tuple

from . import _library
from ._handles import all_items
from ._library import Forks, library, number, of_type
from .refusals import BadPlan, Refused
from .words import PAGE_BYTES

#: The number of states that a search visits at most, if you do not pass `most`.
MOST_STATES = 1_000_000


class SearchEnd(Enum):
    """How a search ended: it followed every order; or it ended early, because it had visited as many states as it may, memory ran out, or the
    history of an order was full."""

    ALL_ORDERS = _library.L4_ALL_ORDERS
    MOST_STATES = _library.L4_MOST_STATES
    MEMORY = _library.L4_LACKED_MEMORY
    HISTORY = _library.L4_LACKED_HISTORY


@dataclass(frozen=True)
class PlanOutcome:
    """An outcome that some order of the calls has.

    `answers` has the lines of the answers to the queries, and then a line `stuck N L` for each thread N that is left before its line L of the
    test. `witness` is the script of an order that produces this outcome: `l4 run` and `Script.run` answer its queries so. `order` has the
    numbers of the test's lines in that order, from 1, without those before `unordered` and after `finally`. `broken` has the rules of the
    test that this outcome breaks: their lines `never ..` and `always ..`.
    """

    answers: Tuple[str, ...]
    witness: str
    order: Tuple[int, ...]
    broken: Tuple[str, ...]


@dataclass(frozen=True)
class Orders:
    """What a search found: each outcome once, how the search ended, and the number of states that it visited. `order_count` is the number of
    orders, whatever its size, or None if the search ended early."""

    outcomes: Tuple[PlanOutcome, ...]
    end: SearchEnd
    order_count: Optional[int]
    state_count: int

    @property
    def complete(self) -> bool:
        """Returns whether every order was followed. The test then has no other outcomes."""
        return self.end is SearchEnd.ALL_ORDERS


def _text(write: Callable[..., Any], search: _library.l4_orders, *outcome: int) -> str:
    """Returns a text of the search, or of an outcome."""
    text = all_items(c_char, lambda out, room: write(byref(search), *outcome, out, room), spare=1)
    return text.raw[:-1].decode("utf-8", "surrogateescape")


def _text_lines(write: Callable[..., Any], search: _library.l4_orders, outcome: int) -> Tuple[str, ...]:
    """Returns the lines of a text of an outcome. Each ends with a newline."""
    return tuple(_text(write, search, outcome).split("\n")[:-1])


def _lines(search: _library.l4_orders, outcome: int) -> Tuple[int, ...]:
    """Returns the numbers of the lines of an outcome's order."""
    return tuple(all_items(c_uint64, lambda out, room: library.l4_orders_lines(byref(search), outcome, out, room)))


def _outcome(search: _library.l4_orders, place: int) -> PlanOutcome:
    answers = _text_lines(library.l4_orders_answers, search, place)
    witness = _text(library.l4_orders_witness, search, place)
    return PlanOutcome(answers, witness, _lines(search, place), _text_lines(library.l4_orders_broken, search, place))


def _found(search: _library.l4_orders) -> Orders:
    """Returns what a search found."""
    told = library.l4_orders_found(byref(search))
    end = SearchEnd(told.ended)
    outcomes = tuple(_outcome(search, place) for place in range(told.outcomes))
    orders = _text(library.l4_orders_number, search)
    return Orders(outcomes, end, int(orders) if orders else None, told.states)


def orders(script: str, frames: int = 256, page_bytes: int = PAGE_BYTES, most: int = MOST_STATES) -> Orders:
    """Executes a litmus test in all orders of its threads' calls, and returns its outcomes, each with the script of an order that produces
    it.

    Each order is executed on a new kernel with this number of frames. A search is faster with few frames. It visits at most `most` states.

    Raises Refused, in this order, with B4 or K6; BadPlan, with the refused line; and Refused with NoMemory, or with L1 if a history is full
    before the search has begun. NoMemory may come before BadPlan.

    >>> found = orders("unordered\\nsend 1 2 0x10000\\nrecv 2 any 0\\nfinally\\nreply 2\\n", frames=1)
    >>> [outcome.answers for outcome in found.outcomes], found.order_count, found.complete
    ([('2 ipc 00010000 0 1',)], 2, True)
    """
    text = of_type(script, str, "a script").encode("utf-8", "surrogateescape")
    given = number(frames, "the number of frames"), text, len(text), number(most, "the number of states", 64), number(page_bytes, "the number of bytes")
    Forks.check()
    search = _library.l4_orders()
    told = library.l4_orders_search_sized(byref(search), *given)
    if told.line or told.refusal == _library.L4_O6:
        raise BadPlan(told.refusal, told.detail, told.line)
    if told.refusal:
        raise Refused(told.refusal)
    try:
        return _found(search)
    finally:
        library.l4_orders_free(byref(search))
