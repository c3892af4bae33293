"""Kernels and their steps."""
from __future__ import annotations

import enum
from ctypes import byref, c_char, create_string_buffer
from dataclasses import dataclass
from typing import Any, Callable, Dict, Iterator, Optional, Tuple, Union

from . import _library
from ._handles import Handle, all_items
from ._library import library, number, of_type
from .calls import Call
from .queries import Change, Mapping, Place, Queries
from .refusals import BadCheckpoint, Refused
from .words import MAX_THREADS, PAGE_BYTES

# room for a line of each thread whose call ends in a step
_ANSWER_ROOM = 1 << 16


class Outcome(enum.Enum):
    """What a step did."""

    #: A call was started.
    STARTED = _library.L4_STARTED
    #: A transfer: the message was delivered, and its map and grant items were executed.
    DELIVERED = _library.L4_DELIVERED
    #: A transfer: the message has items and the receiver's window is nil; both calls failed.
    NO_WINDOW = _library.L4_NO_WINDOW
    #: A transfer: the message's items conflict; both calls failed.
    ENTANGLED = _library.L4_ENTANGLED
    #: A transfer: an allocation failed; both calls failed, and no page moved.
    WANTS_MEMORY = _library.L4_WANTS_MEMORY
    #: A wait with a timeout of zero expired.
    EXPIRED = _library.L4_EXPIRED
    #: `Kernel.timeout` or `Kernel.cancel` ended a wait.
    WAIT_ENDED = _library.L4_WAIT_ENDED


@dataclass(frozen=True)
class Transfer:
    """The step that delivers the sender's message to the receiver; both are thread numbers.

    >>> Transfer(1, 3).line
    'transfer 1 3'
    """

    sender: int
    receiver: int

    @property
    def line(self) -> str:
        """Returns the line of a step list that has this step, without its newline."""
        return _library.step_text(_step_given(self, 0))


@dataclass(frozen=True)
class Expire:
    """The step that ends the thread's wait with a timeout of zero."""

    thread: int

    @property
    def line(self) -> str:
        """Returns the line of a step list that has this step, without its newline."""
        return _library.step_text(_step_given(self, 0))


@dataclass(frozen=True)
class Cancel:
    """The step in which the program that embeds the kernel ends the thread's wait. `timed_out` is true if a timeout has passed by a clock of
    that program, and false if it canceled the wait.

    >>> Cancel(3).line, Cancel(3, timed_out=True).line
    ('cancel 3', 'timeout 3')
    """

    thread: int
    timed_out: bool = False

    @property
    def line(self) -> str:
        """Returns the line of a step list that has this step, without its newline."""
        return _library.step_text(_step_given(self, 0))


#: A step that `Kernel.enabled` names.
Step = Union[Transfer, Expire]


@dataclass(frozen=True)
class Answer:
    """The outcome of a step, and the numbers of the threads whose calls ended in it.

    After a transfer these are the sender and then the receiver; after a Delete, the caller and then the others by rising number.
    """

    outcome: Outcome
    ended: Tuple[int, ...]


@dataclass(frozen=True)
class Done:
    """An executed step, its outcome, and the numbers of the threads whose calls ended in it.

    >>> Done(Transfer(1, 3), Outcome.DELIVERED, (1, 3)).line
    'transfer 1 3 done'
    """

    step: Union[Step, Cancel]
    outcome: Outcome
    ended: Tuple[int, ...]

    @property
    def line(self) -> str:
        """Returns the line that `l4 run` prints for this step, without its newline."""
        return _library.step_text(_step_given(self.step, self.outcome.value))


@dataclass(frozen=True)
class Entered:
    """A call that was started, and the steps that followed it, in order."""

    start: Answer
    steps: Tuple[Done, ...]


def step_of(kind: int, thread: int, receiver: int) -> Optional[Step]:
    """Returns the step of this kind and of these threads, or None if there is none."""
    if kind == _library.L4_TRANSFER:
        return Transfer(thread, receiver)
    return Expire(thread) if kind == _library.L4_EXPIRE else None


def _step_given(step: Union[Step, Cancel], outcome: int) -> _library.l4_step:
    """Returns the step as the library has it, with the number of its outcome."""
    if isinstance(step, Transfer):
        return _library.l4_step(kind=_library.L4_TRANSFER, thread=step.sender, receiver=step.receiver, outcome=outcome)
    if isinstance(step, Cancel):
        return _library.l4_step(kind=_library.L4_TIMEOUT if step.timed_out else _library.L4_CANCEL, thread=step.thread, outcome=outcome)
    return _library.l4_step(kind=_library.L4_EXPIRE, thread=step.thread, outcome=outcome)


def _step(told: _library.l4_step) -> Optional[Step]:
    return step_of(told.kind, told.thread, told.receiver)


def _done(told: _library.l4_step) -> Optional[Done]:
    step = _step(told)
    return step and Done(step, Outcome(told.outcome), tuple(told.ended[: told.ended_count]))


def _answer(told: _library.l4_answer) -> Answer:
    if told.refusal:
        raise Refused(told.refusal, told.detail)
    return Answer(Outcome(told.outcome), tuple(told.ended[: told.ended_count]))


class Kernel(Handle, Queries):
    """A kernel with its threads, spaces and mappings.

    `Kernel(frames, page_bytes)` boots a machine with 1 to 4,096 frames; its pages and frames have 4,096 or 1,024 bytes. The refusals, in
    this order, are B4 for any other page size, K6 for any other number of frames, and NoMemory. sigma0 is thread 1 in space 0, where frame
    i is mapped at page i with all rights. root is thread 2 in space 1, which is empty.

    The methods name threads by their numbers. Several threads of a program may use one kernel: calls run one at a time. The kernel is freed
    by `close`, at the end of a `with` block, or with its last reference. Every call after `close` raises ValueError.

    >>> from l4 import Call, Fpage, Item, Message, Rights, ThreadId
    >>> with Kernel(256) as kernel:
    ...     _ = kernel.enter(2, Call.receive(window=Fpage.complete()))
    ...     message = Message.of(items=[Item.map(Fpage.page(16, Rights.ALL), 0x20000)])
    ...     _ = kernel.enter(1, Call.send(ThreadId.ROOT, message))
    ...     [(mapping.place.page, mapping.frame, str(mapping.rights)) for mapping in kernel.mappings(1)]
    [(32, 16, 'rwx')]
    """

    def __init__(self, frames: int = 256, page_bytes: int = PAGE_BYTES) -> None:
        given = number(frames, "the number of frames"), number(page_bytes, "the number of bytes")
        super().__init__(_library.l4_kernel(), library.l4_boot_sized, library.l4_free, *given)
        self._frames = given[0]

    def __repr__(self) -> str:
        return "<Kernel: closed>" if self.closed else f"<Kernel: {len(self.threads())} threads, {len(self.spaces())} spaces, {self._frames} frames>"

    def copy(self) -> Kernel:
        """Returns a copy of the kernel, in memory of its own.

        The copy has each thread with what it is doing and its message registers, the queue of senders, every space, and every mapping.
        Changes to one kernel are not visible in the other, so you can try two continuations of one run. Raises Refused with
        NoMemory if an allocation fails.

        >>> from l4 import Call, Message, ThreadId, Timeout
        >>> kernel = Kernel(1)
        >>> _ = kernel.start(1, Call.send(ThreadId.ROOT, Message.of(untyped=[5]), Timeout.ZERO))
        >>> copy = kernel.copy()
        >>> kernel.enter(2, Call.receive()).steps[0].step, copy.enabled()
        (Transfer(sender=1, receiver=2), Expire(thread=1))
        """
        return Kernel._copied(lambda made: self._ask(library.l4_copy, made), self, self._frames)

    def changes_since(self, before: Kernel) -> Tuple[Change, ...]:
        """Returns the pages whose mappings are others than those of another kernel, by rising space and page number: pages that are present
        in one of the two kernels alone, and pages whose frame, rights or parent differ.

        To learn which pages a step changed, copy the kernel before the step. Both kernels' mappings are compared in full.

        >>> from l4 import Call, Fpage, Item, Message, Rights, ThreadId
        >>> kernel = Kernel(2)
        >>> page = Item.map(Fpage.page(1, Rights.READ), 0x20000)
        >>> _ = kernel.start(2, Call.receive(window=Fpage.complete()))
        >>> _ = kernel.start(1, Call.send(ThreadId.ROOT, Message.of(items=[page])))
        >>> before = kernel.copy()
        >>> _ = kernel.transfer(1, 2)
        >>> [(change.place.page, change.before, str(change.after.rights)) for change in kernel.changes_since(before)]
        [(32, None, 'r--')]
        """
        old, new = (kernel._all_mappings() for kernel in (of_type(before, Kernel, "the other kernel"), self))
        places = sorted({*old, *new})
        return tuple(Change(place, old.get(place), new.get(place)) for place in places if old.get(place) != new.get(place))

    def _all_mappings(self) -> Dict[Place, Mapping]:
        """Returns the mappings of all spaces by their pages."""
        with self._turn:
            return {mapping.place: mapping for space in self.spaces() for mapping in self.mappings(space)}

    def checkpoint(self, entries: int = 0) -> bytes:
        """Returns the state of the kernel as bytes. You keep them as a file, to continue a run later or to share a fault.

        `entries` is the number of steps in its history since boot, or 0 if you keep none. Raises Refused, in this order, with B7 if `entries`
        exceeds 2^63, and with NoMemory if an allocation fails.

        >>> from l4 import Call, Message, ThreadId
        >>> kernel = Kernel(1)
        >>> _ = kernel.start(1, Call.send(ThreadId.ROOT, Message.of(untyped=[5])))
        >>> again, entries = Kernel.from_checkpoint(kernel.checkpoint(1))
        >>> again.enter(2, Call.receive()).steps[0].step, entries
        (Transfer(sender=1, receiver=2), 1)
        """
        given = self._frames, number(entries, "the number of entries", 64)

        def write(out: Any, room: int) -> Any:
            return self._told(self._ask(library.l4_checkpoint_write, *given, out, room))

        # no other thread changes the kernel between the count and the bytes
        with self._turn:
            return all_items(c_char, write).raw

    @classmethod
    def from_checkpoint(cls, data: bytes) -> Tuple[Kernel, int]:
        """Returns exactly the kernel that `checkpoint` wrote, and the number of entries that was passed. Raises BadCheckpoint (B6) with the
        position if the bytes cannot be read as a checkpoint, and Refused with NoMemory if an allocation fails."""
        given, told = of_type(data, bytes, "a checkpoint"), _library.l4_checkpoint()

        def read(handle: Any) -> int:
            nonlocal told
            told = library.l4_checkpoint_read(handle, given, len(given))
            if told.refusal == _library.L4_B6:
                raise BadCheckpoint(told.fault, told.position)
            return told.refusal

        made = cls.__new__(cls)
        Handle.__init__(made, _library.l4_kernel(), read, library.l4_free)
        made._frames = told.frames
        return made, told.entries

    @classmethod
    def _copied(cls, copy: Callable[[Any], int], source: Handle, frames: int) -> Kernel:
        """Returns the kernel that a function of the library copies from the source. Raises ValueError if the source is closed."""
        made = cls.__new__(cls)
        with source._turn:
            if source.closed:
                raise ValueError(f"the {source._name} is closed")
            Handle.__init__(made, _library.l4_kernel(), copy, library.l4_free)
        made._frames = frames
        return made

    @property
    def frames(self) -> int:
        """Returns the number of frames with which the kernel was booted."""
        return self._frames


    def _query(self, name: str, *values: Any) -> Any:
        return self._told(self._ask(getattr(library, f"l4_{name}"), *values))

    def _begin(self, function: Callable[..., Any], thread: int, call: Call, *rest: Any) -> Any:
        """Passes a call to the library, and returns its result."""
        words = of_type(call, Call, "what a thread starts").words
        given = (byref(call.given()), _library.array(words), len(words))
        return self._ask(function, number(thread, "a thread number"), *given, *rest)

    def start(self, thread: int, call: Call) -> Answer:
        """Starts a call of a thread.

        The call ends at once if it needs no partner or can have none; otherwise the thread waits. Raises Refused, in this order, with K2,
        K3 or K4; then with the refusals of the message (M7, M1, M5, M2, M4 or M3) and of the window (M6), of an Unmap (U2, U1), or of a
        Create, SetPager or Delete (H1 to H6; NoMemory for a Create in a new space).
        """
        return _answer(self._told(self._begin(library.l4_start, thread, call)))

    def enter(self, thread: int, call: Call) -> Entered:
        """Starts a call as `start` does, and then executes the next step until no step is enabled. Raises Refused as `start` does."""
        steps = (_library.l4_step * MAX_THREADS)()
        told = self._begin(library.l4_enter, thread, call, steps, MAX_THREADS)
        start = _answer(self._told(told.start))
        done = (_done(step) for step in steps[: told.step_count])
        return Entered(start, tuple(step for step in done if step))

    def transfer(self, sender: int, receiver: int) -> Answer:
        """Delivers the sender's message to the receiver.

        Raises Refused with K1 if the sender does not wait to send to this receiver, or the receiver does not wait for a message from this
        sender.
        """
        partners = number(sender, "a thread number"), number(receiver, "a thread number")
        return _answer(self._told(self._ask(library.l4_transfer, *partners)))

    def expire(self, thread: int) -> Answer:
        """Ends the thread's wait with a timeout of zero. Raises Refused with K1 if the thread has no such wait."""
        return _answer(self._told(self._ask(library.l4_expire, number(thread, "a thread number"))))

    def timeout(self, thread: int) -> Answer:
        """Ends the thread's wait, whatever its timeouts are: you call it when a timeout has passed by a clock of your own. The call ends with
        ErrorCode 2 if the thread was sending, and 3 if it was receiving. Raises Refused with K1 if the thread does not wait."""
        return _answer(self._told(self._ask(library.l4_timeout, number(thread, "a thread number"))))

    def cancel(self, thread: int) -> Answer:
        """Cancels the thread's wait, as ExchangeRegisters does. The call ends with ErrorCode 6 if the thread was sending, and 7 if it was
        receiving. Raises Refused with K1 if the thread does not wait."""
        return _answer(self._told(self._ask(library.l4_cancel, number(thread, "a thread number"))))

    def enabled(self) -> Optional[Step]:
        """Returns the step that is executed next if no call is started, or None if no step is enabled.

        This is the enabled transfer whose sender has waited longest or, if no transfer is enabled, the enabled expiry of the lowest thread
        number.
        """
        return _step(self._told(self._ask(library.l4_enabled)))

    def next(self) -> Optional[Done]:
        """Executes the step that `enabled` returns. Returns None, and changes nothing, if there is none."""
        return _done(self._told(self._ask(library.l4_next)))

    def steps(self) -> Iterator[Done]:
        """Executes the next step again and again, until no step is enabled, and yields each."""
        return iter(self.next, None)

    def execute(self, step: str) -> str:
        """Executes a line of a step list, without its newline: a step or a query. Returns the lines that `l4_steps` prints for it. If the kernel
        refuses the step, that is its answer.

        Raises Refused, in this order, with B5 if the line is not a step or query, and nothing has changed, and with NoMemory if there is no
        memory for the answer: the step has been executed.

        >>> kernel = Kernel(1)
        >>> [kernel.execute(line) for line in ("start 1 ipc 0x8001 0 0 0 0", "reply 1", "transfer 2 1")]
        ['started\\n', 'none\\n', 'refused K1\\n']
        """
        line, out = step.encode(), create_string_buffer(_ANSWER_ROOM)
        told = self._told(self._ask(library.l4_execute, line, len(line), out, _ANSWER_ROOM))
        if told.refusal:
            raise Refused(told.refusal)
        return out.value.decode()

    def _judge(self, step: bytes, found: bytes) -> Tuple[_library.l4_judgement, str]:
        """Executes a step or query, which is a line of a step list, and compares another kernel's answer. Returns what the library found, and
        the line that was expected. Raises Refused with B5 if the line is not a step or query, and with NoMemory."""
        expected = create_string_buffer(_library.TEXT_ROOM)
        told = self._told(self._ask(library.l4_judge, step, len(step), found, len(found), expected, _library.TEXT_ROOM))
        if told.refusal:
            raise Refused(told.refusal)
        return told, expected.value.decode()
