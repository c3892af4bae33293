"""A kernel that threads share, with its history and its seats."""
from __future__ import annotations

import asyncio
import contextlib
import threading
import time
from ctypes import byref, c_char, c_uint32
from dataclasses import dataclass
from itertools import count
from typing import Any, Callable, ContextManager, Dict, Iterable, Iterator, List, Optional, Set, Tuple, Union

from . import _library
from ._handles import Handle, Unique, all_items
from ._library import Forks, library, number, of_type
from .calls import Call
from .kernel import Cancel, Expire, Kernel, Outcome, Transfer, step_of
from .queries import Place, Queries
from .refusals import Refused
from .replies import Reply, reply_of
from .words import PAGE_BYTES, Rights


# room for as many links as most pages have
_LINK_ROOM = 16
# a kernel without a history drops its steps once it keeps this many
_DROPPED = 1024


@dataclass(frozen=True)
class Start:
    """The step in which a thread starts a call."""

    thread: int
    call: Call


#: Any step of a step list or of a history.
AnyStep = Union[Start, Transfer, Expire, Cancel]


def step_line(step: AnyStep) -> str:
    """Returns the step as a line of a step list."""
    return f"start {step.thread} {step.call.line}" if isinstance(step, Start) else step.line


@dataclass(frozen=True)
class Entry:
    """An entry of a history: a step, its outcome, and the numbers of the threads whose calls ended in it.

    `seat` is the thread number whose call the step starts or follows; it is 0 if the step is a `Cancel`. `str` returns a line of a step
    list, as the program `l4_steps` reads it.
    """

    seat: int
    step: AnyStep
    outcome: Outcome
    ended: Tuple[int, ...]

    def __str__(self) -> str:
        return step_line(self.step)


@dataclass(frozen=True)
class Receipt:
    """A seat's receipt for a call that has ended: the call, the numbers since boot, from 0, of the entries that started and ended it, and
    its reply."""

    call: Call
    start: int
    end: int
    reply: Reply


@dataclass(frozen=True)
class Link:
    """One transfer that moved a page.

    It has the number of the transfer's entry since boot, from 0; the thread numbers of the sender and the receiver; the sender's page
    and the receiver's page; `grant`, which is true if the item granted the page and false if it mapped it; the rights of the sender's page
    just before the transfer; and the rights that the item named. `str` returns a line of the output of `l4 why`.
    """

    entry: int
    sender: int
    receiver: int
    source: Place
    target: Place
    grant: bool
    source_rights: Rights
    item_rights: Rights

    def __str__(self) -> str:
        kind = "grant" if self.grant else "map"
        pages = f"{self.source.page} {self.target.page} {self.source_rights} {self.item_rights}"
        return f"entry {self.entry} transfer {self.sender} {self.receiver} {kind} {pages}"

    def given(self) -> _library.l4_link:
        """Returns the struct that the library reads."""
        source, target = self.source, self.target
        spaces = number(source.space, "a space", 64), number(target.space, "a space", 64)
        pages = number(source.page, "a page"), number(target.page, "a page")
        rights = self.source_rights.value, self.item_rights.value
        return _library.l4_link(number(self.entry, "an entry", 64), *spaces, *pages, bool(self.grant), *rights)


def _call(told: Any) -> Call:
    return Call.told(told.call, tuple(told.words[: told.word_count]))


def _entry(told: _library.l4_entry) -> Optional[Entry]:
    step: Optional[AnyStep]
    if told.kind == _library.L4_START:
        step = Start(told.thread, _call(told))
    elif told.kind in (_library.L4_TIMEOUT, _library.L4_CANCEL):
        step = Cancel(told.thread, told.kind == _library.L4_TIMEOUT)
    else:
        step = step_of(told.kind, told.thread, told.receiver)
    return None if step is None else Entry(told.seat, step, Outcome(told.outcome), tuple(told.ended[: told.ended_count]))


def _link(told: _library.l4_link, entry: _library.l4_entry) -> Link:
    source, target = Place(told.source_space, told.source_page), Place(told.target_space, told.target_page)
    rights = Rights.of_bits(told.source_rights), Rights.of_bits(told.item_rights)
    return Link(told.entry, entry.thread, entry.receiver, source, target, bool(told.grant), *rights)


def _receipt(told: _library.l4_receipt) -> Optional[Receipt]:
    reply = reply_of(told.reply)
    return None if reply is None else Receipt(_call(told), told.start, told.end, reply)


def _finish(future: asyncio.Future[None]) -> None:
    """Ends the wait of a task, unless the task was cancelled."""
    if not future.done():
        future.set_result(None)


class _Lock(Handle):
    """A locked kernel of the library. Each call holds the lock, and each seat has a condition variable of the lock, on which its thread
    waits."""

    def __init__(self, frames: int, page_bytes: int) -> None:
        super().__init__(_library.l4_lock(), library.l4_lock_new_sized, library.l4_lock_free, frames, page_bytes)
        self._wakers: Dict[int, threading.Condition] = {}
        # what to call when a seat is woken whose call a task awaits
        self._notices: Dict[int, Callable[[], object]] = {}
        # the seats whose waits are to end
        self.ended: Set[int] = set()

    @property
    def _name(self) -> str:
        return SharedKernel.__name__

    @property
    def entered(self) -> ContextManager[Any]:
        """Returns the lock. Raises RuntimeError if `Handle._turn` does."""
        return self._turn

    def waker(self, seat: int) -> threading.Condition:
        """Returns the condition variable of a seat. The lock must be held."""
        return self._wakers.setdefault(seat, threading.Condition(self._lock))

    def notice(self, seat: int) -> asyncio.Future[None]:
        """Returns a future of the running event loop that is done once the seat is woken. The lock must be held."""
        loop = asyncio.get_running_loop()
        future: asyncio.Future[None] = loop.create_future()
        self._notices[seat] = lambda: loop.call_soon_threadsafe(_finish, future)
        return future

    def wake(self, seat: int) -> None:
        """Wakes the thread or the task that waits in a call of this seat, if there is one. The lock must be held."""
        if seat in self._wakers:
            self._wakers[seat].notify_all()
        notice = self._notices.pop(seat, None)
        if notice is not None:
            # the event loop may be closed
            with contextlib.suppress(RuntimeError):
                notice()

    def close(self) -> None:
        """Frees the kernel, even if calls wait, and wakes the threads that wait for them."""
        super().close()
        if not Forks.among_threads:
            with self._lock:
                for seat in {*self._wakers, *self._notices}:
                    self.wake(seat)

    def answer(self, function: Callable[..., Any], *values: Any) -> Any:
        """Calls the library function, and returns its result. Raises ValueError if the kernel is closed."""
        return self._told(self._ask(function, *values))


class Segment(Handle):
    """Entries of a history that `SharedKernel.hand_out` handed out. All segments of a kernel in their order, followed by its `history`, are
    its steps since boot.

    `first` is the number of its first entry since boot, `len` returns the number of its entries, and you iterate over them. The memory is
    freed by `close`, at the end of a `with` block, or with the last reference. From then on, every call raises ValueError.
    """

    def __init__(self, lock: _Lock) -> None:
        super().__init__(_library.l4_segment(), lambda segment: lock._ask(library.l4_lock_hand_out, segment), library.l4_segment_free)
        self._first = self._answer(library.l4_segment_first).count
        self._length = self._answer(library.l4_segment_length).count

    def _answer(self, function: Callable[..., Any], *values: Any) -> Any:
        return self._told(self._ask(function, *values))

    @property
    def first(self) -> int:
        """Returns the number of the first entry since boot, from 0."""
        return self._first

    def __len__(self) -> int:
        return self._length

    def __iter__(self) -> Iterator[Entry]:
        for place in range(self._first, self._first + self._length):
            entry = _entry(self._answer(library.l4_segment_entry, place))
            assert entry is not None
            yield entry

    def to_bytes(self) -> bytes:
        """Returns the file of the segment. `l4 history --from` reads such files, several of them one after another too. Raises Refused with
        NoMemory.

        >>> from l4 import Call, SharedKernel
        >>> kernel = SharedKernel()
        >>> kernel.seat(2).call_for(Call.receive(), 0)
        >>> kernel.hand_out().to_bytes()[:8]
        b'LSG4\\x01\\x00\\x00\\x00'
        """
        return all_items(c_char, lambda out, room: self._answer(library.l4_segment_bytes, out, room)).raw


class SharedKernel(Unique, Queries):
    """A kernel that threads share. It keeps the history of its steps, and gives out one `Seat` for each thread number that makes calls.

    The queries of `Kernel` (`thread`, `threads`, `spaces`, `mapping`, `descendants` ..) see the kernel at one moment between two calls.

    `SharedKernel(frames, page_bytes)` boots as `Kernel` does, with the same refusals. While the call of one seat waits, other threads can
    run and other seats can make calls. The kernel keeps at most 1,000,000 entries of its history. Once it keeps more than 999,871, every
    further call of a seat is refused with L1; queries and `close` still work. To run longer, call `hand_out` from time to time.

    With `history=False`, the kernel keeps no history: it drops its steps and the receipts of its seats from time to time, so its memory does
    not grow. Between two calls it keeps fewer than 1,024 steps. Methods that need dropped steps raise Refused with L8, as after `hand_out`.

    The memory is freed by `close`, at the end of a `with` block, or with the last reference to the kernel and its seats. From then on, every
    call raises ValueError; so does each call that still waits then.

    >>> from l4 import Call, Message, SharedKernel, ThreadId
    >>> kernel = SharedKernel(1)
    >>> sigma0, root = kernel.seat(1), kernel.seat(2)
    >>> waits = threading.Thread(target=root.call, args=[Call.receive()])
    >>> waits.start()
    >>> _ = sigma0.call(Call.send(ThreadId.ROOT, Message.of(untyped=[5])))
    >>> waits.join()
    >>> kernel.steps(), str(kernel.history()[2])
    (3, 'transfer 1 2')
    >>> len(kernel.close([root, sigma0]))
    3
    """

    def __init__(self, frames: int = 256, page_bytes: int = PAGE_BYTES, history: bool = True) -> None:
        given = number(frames, "the number of frames"), number(page_bytes, "the number of bytes")
        self._lock = _Lock(*given)
        self._steps = 0
        self._has_history = history

    def __enter__(self) -> SharedKernel:
        return self

    def __exit__(self, *_: object) -> None:
        self._lock.close()

    @property
    def closed(self) -> bool:
        """Returns whether the kernel was freed."""
        return self._lock.closed

    def __repr__(self) -> str:
        return "<SharedKernel: closed>" if self.closed else f"<SharedKernel: {self._steps} steps>"

    def seat(self, thread: int) -> Seat:
        """Gives out the seat of a thread number. Each seat is given once, and the thread need not exist yet. Raises Refused with
        L4 if the seat was given before, and with NoMemory."""
        return Seat(self, number(thread, "a thread number"))

    def end_wait(self, thread: int) -> None:
        """Ends the wait in which the seat of a thread number is, and the call continues. `Seat.call_for` and `Seat.wait_for` then return None,
        and `Seat.call` raises Refused with K3. This has no effect on a seat that does not wait in one of them."""
        with self._lock.entered:
            self._lock.ended.add(number(thread, "a thread number"))
            self._lock.wake(thread)

    def timeout(self, thread: int) -> None:
        """Ends the wait of a thread, because its timeout has passed by a clock of yours. The call ends with ErrorCode 2 if the thread was
        sending, and 3 if it was receiving; a receive phase that would have followed does not begin. `Seat.call` then returns the reply.

        Raises Refused, in this order, with L1, with NoMemory, and with K1 if the thread does not wait.
        """
        self._end_call(library.l4_lock_timeout, thread)

    def cancel(self, thread: int) -> None:
        """Cancels the wait of a thread, as `timeout` ends it, but with ErrorCode 6 if the thread was sending, and 7 if it was receiving.

        If the thread's call was made by `Seat.call` or `Seat.call_async`, that method returns the reply. Else get it with `Seat.take`. Raises Refused
        as `timeout` does.

        >>> from l4 import Call, SharedKernel
        >>> kernel = SharedKernel(1)
        >>> root = kernel.seat(2)
        >>> root.call_for(Call.receive(), 0)
        >>> kernel.cancel(2)
        >>> root.take().error
        7
        """
        self._end_call(library.l4_lock_cancel, thread)

    def _end_call(self, function: Callable[..., Any], thread: int) -> None:
        """Ends the wait of a thread by this function of the library, and wakes its seat."""
        with self._lock.entered:
            refusal = self._lock._ask(function, number(thread, "a thread number"))
            if refusal == _library.L4_B1:
                raise ValueError("the SharedKernel is closed")
            if refusal:
                raise Refused(refusal)
            self._wake()
            self._drop_steps()

    def steps(self) -> int:
        """Returns the number of steps since boot when the last call was entered. It never decreases, and the method never waits."""
        return self._steps

    def history(self) -> Tuple[Entry, ...]:
        """Returns the steps that the kernel keeps: those since the last segment was handed out, or since boot."""
        with self._lock.entered:
            return self.entries(self._lock.answer(library.l4_lock_kept_from).count)

    def entries(self, since: int) -> Tuple[Entry, ...]:
        """Returns the steps from this number on, which counts since boot from 0. Raises Refused with L8 if the step with this number was
        handed out.

        To follow a run, pass the number of the first step that you have not seen: the method reads only the steps from there on. There is
        none if the number is not below `steps`.

        >>> from l4 import Call, SharedKernel, ThreadId
        >>> kernel = SharedKernel(1)
        >>> root = kernel.seat(2)
        >>> _ = root.call(Call.set_pager(ThreadId.ROOT, ThreadId.NIL)), root.call_for(Call.receive(), 0)
        >>> [str(entry) for entry in kernel.entries(1)]
        ['start 2 ipc 0x00000000 0xffffffff 0x00000000 0x00000000']
        """
        first = number(since, "an entry", 64)
        with self._lock.entered:
            return tuple(_until_none(self.entry(place) for place in count(first)))

    def entry(self, place: int) -> Optional[Entry]:
        """Returns the step with this number, which counts since boot from 0, or None if there is no such step yet. Raises Refused with L8
        if the step was handed out."""
        told = self._lock.answer(library.l4_lock_entry, number(place, "an entry", 64))
        if told.refusal:
            raise Refused(told.refusal)
        return _entry(told)

    def hand_out(self) -> Segment:
        """Hands out the steps that the kernel keeps, and forgets the receipts of all seats.

        From then on, the kernel keeps the steps and receipts of later calls only, and their numbers continue. Any thread may call this at
        any time; calls that wait are not affected. Raises Refused with NoMemory. Then nothing has changed.
        """
        with self._lock.entered:
            self._wake()
            try:
                return Segment(self._lock)
            except Refused as refused:
                if refused.code == "B1":
                    raise ValueError("the SharedKernel is closed") from None
                raise

    @property
    def _turn(self) -> ContextManager[Any]:
        return self._lock.entered

    def _query(self, name: str, *values: Any) -> Any:
        return self._lock.answer(getattr(library, f"l4_lock_{name}"), *values)

    def _ended(self) -> List[int]:
        """Returns the seats whose calls ended in the entries that were appended since the seats were last woken."""
        room = _library.L4_MAX_THREADS
        while True:
            threads = (c_uint32 * room)()
            count = self._lock.answer(library.l4_lock_ended, self._steps, threads, room).count
            if count <= room:
                return threads[:count]
            room = count

    def _wake(self) -> None:
        """Wakes the seats whose calls ended since the seats were last woken. The lock must be held."""
        steps = self._lock.answer(library.l4_lock_length).count
        # if an exception ends this loop, the next call wakes these seats
        for seat in self._ended():
            self._lock.wake(seat)
        self._steps = steps

    def _drop_steps(self) -> None:
        """Drops the steps that the kernel keeps if there are enough of them, and if it keeps no history. If there is no memory for that, a later
        call does it. The lock must be held."""
        if not self._has_history and self._steps - self._lock.answer(library.l4_lock_kept_from).count >= _DROPPED:
            with contextlib.suppress(Refused):
                Segment(self._lock).close()

    def copy(self) -> Kernel:
        """Returns a copy of the kernel, in memory of its own, at one moment between two calls. You can query it while calls go on, or let
        it continue in another way. The copy has no history and no seats. Raises Refused with NoMemory.
        """
        frames = self._lock.answer(library.l4_lock_frames_of).count
        return Kernel._copied(lambda made: self._lock._ask(library.l4_lock_copy, made), self._lock, frames)

    def provenance(self, space: int, page: int) -> Optional[List[Link]]:
        """Finds how a page of a space got to where it is.

        Returns the transfers that brought the page there, one after another, from a page that sigma0 had at boot. A page that sigma0 has
        had since boot has no transfers. Returns None if the page is not present.

        The history is replayed on a second kernel; calls of seats wait meanwhile. Raises Refused with L8 if steps were handed out, with
        NoMemory, or with L6 if a transfer of the history found no memory.
        """
        place = number(space, "a space", 64), number(page, "a page")
        with self._lock.entered:
            room = _LINK_ROOM
            while True:
                links = (_library.l4_link * room)()
                told = self._lock.answer(library.l4_lock_provenance, *place, links, room)
                if told.refusal:
                    raise Refused(told.refusal, told.detail)
                if told.count <= room:
                    break
                room = told.count
            if not told.there:
                return None
            return [_link(link, self._lock.answer(library.l4_lock_entry, link.entry)) for link in links[: told.count]]

    def check_provenance(self, space: int, page: int, links: Iterable[Link]) -> None:
        """Checks that exactly these links are how a page of a space got to where it is. The check shares no code with `provenance`.

        Raises Refused with L7 if they are not. If the page is not present, every list of links is refused. Also raises Refused as
        `provenance` does. The sender and the receiver of a link follow from its entry, and are not checked.
        """
        place = number(space, "a space", 64), number(page, "a page")
        given = [of_type(link, Link, "a link").given() for link in links]
        told = self._lock.answer(library.l4_lock_check_provenance, *place, (_library.l4_link * max(len(given), 1))(*given), len(given))
        if told.refusal:
            raise Refused(told.refusal, told.detail)

    def close(self, seats: Iterable[Seat]) -> Tuple[Entry, ...]:
        """Takes back the seats, frees the kernel, and returns the steps that it keeps, if exactly the seats that were given come back.
        Every later call raises ValueError, and so does each call that still waits.

        Raises Refused with X1 if a seat is missing, and with X2 if a seat belongs to another kernel or is passed twice. Nothing has changed
        then.
        """
        seats = [of_type(seat, Seat, "what comes back") for seat in seats]
        with self._lock.entered:
            for seat in seats:
                if seat.kernel is not self:
                    raise Refused(_library.L4_X2, seat.number)
            history = self.history()
            numbers = [seat.number for seat in seats]
            told = self._lock.answer(library.l4_lock_close, _library.array(numbers), len(numbers))
            if told.refusal:
                raise Refused(told.refusal, told.detail)
            self._lock.close()
        return history


class Seat(Unique):
    """The right to make the calls of one thread number, from `SharedKernel.seat`. Use a seat from one thread at a time."""

    def __init__(self, kernel: SharedKernel, thread: int) -> None:
        refusal = kernel._lock._ask(library.l4_lock_give, thread)
        if refusal == _library.L4_B1:
            raise ValueError("the SharedKernel is closed")
        if refusal:
            raise Refused(refusal)
        self._kernel = kernel
        self._number = thread

    def __repr__(self) -> str:
        return f"<Seat of thread {self._number}>"

    @property
    def kernel(self) -> SharedKernel:
        """Returns the kernel that gave the seat."""
        return self._kernel

    @property
    def number(self) -> int:
        """Returns the seat's thread number."""
        return self._number

    def call(self, call: Call, timeout: Optional[float] = None) -> Reply:
        """Makes a call, and waits until it has ended. Other seats can make calls meanwhile.

        If the call has not ended after `timeout` seconds, `SharedKernel.timeout` ends it, and the reply has ErrorCode 2 or 3. To stop waiting
        without ending the call, use `call_for`.

        An exception that ends the wait, such as KeyboardInterrupt, cancels the call too, as `SharedKernel.cancel` does: the seat can make its next
        call. If the call has ended just before, `take` returns its reply. Raises ValueError if the kernel is closed meanwhile.

        Raises Refused, in this order, with L3 (an earlier call has ended, whose reply you must `take` first), L1, NoMemory, K2 if there is
        no such thread, and as `Kernel.start` does. Raises Refused with K3 if an earlier call still waits, or if `SharedKernel.end_wait` ended
        the wait: in both cases, get the reply of the call that waits with `wait_for` or `take`. When the timeout has passed, it raises Refused
        as `SharedKernel.timeout` does.

        >>> from l4 import Call, SharedKernel
        >>> root = SharedKernel(1).seat(2)
        >>> root.call(Call.receive(), timeout=0.001).error
        3
        """
        lock, end = self._kernel._lock, _end_of(timeout)
        with lock.entered:
            reply = self._enter(call)
            lock.ended.discard(self._number)
            while reply is None:
                if self._number in lock.ended:
                    raise Refused(_library.L4_K3)
                if self._ends_late(end):
                    reply = self.take()
                    continue
                try:
                    lock.waker(self._number).wait(_left(end))
                except BaseException:
                    self._cancel()
                    raise
                reply = self.take()
            return reply

    def _cancel(self) -> None:
        """Cancels the call that waits, and drops its reply. Has no effect on a call that has ended. The lock must be held."""
        with contextlib.suppress(Refused, ValueError):
            self._kernel.cancel(self._number)
            self.take()

    def _ends_late(self, end: Optional[float]) -> bool:
        """Ends the call that waits if this time has passed. Returns whether it did. The lock must be held."""
        if end is None or time.monotonic() < end:
            return False
        self._kernel.timeout(self._number)
        return True

    async def call_async(self, call: Call, timeout: Optional[float] = None) -> Reply:
        """Makes a call as `call` does, and awaits its end in the running asyncio event loop. No thread waits for it, so that one thread can
        serve many seats. Raises what `call` raises.

        If the task is cancelled, its call is canceled too, as `SharedKernel.cancel` does: the seat can make its next call. If the call has ended
        just before, `take` returns its reply.

        >>> import asyncio
        >>> from l4 import Call, Message, SharedKernel, ThreadId
        >>> kernel = SharedKernel(1)
        >>> sigma0, root = kernel.seat(1), kernel.seat(2)
        >>> async def both():
        ...     send = Call.send(ThreadId.ROOT, Message.of(untyped=[7]))
        ...     received, _ = await asyncio.gather(root.call_async(Call.receive()), sigma0.call_async(send))
        ...     return received.message.untyped
        >>> asyncio.run(both())
        (7,)
        """
        lock, end = self._kernel._lock, _end_of(timeout)
        with lock.entered:
            reply = self._enter(call)
            lock.ended.discard(self._number)
        while reply is None:
            with lock.entered:
                reply = self.take()
                if reply is not None:
                    break
                if self._number in lock.ended:
                    raise Refused(_library.L4_K3)
                if self._ends_late(end):
                    continue
                woken = lock.notice(self._number)
            try:
                await asyncio.wait([woken], timeout=_left(end))
            except asyncio.CancelledError:
                with lock.entered:
                    self._cancel()
                raise
        return reply

    def _enter(self, call: Call) -> Optional[Reply]:
        """Enters a call, and returns its reply if it has ended."""
        words = of_type(call, Call, "what a thread starts").words
        kernel, given = self._kernel, (byref(call.given()), _library.array(words), len(words))
        told = kernel._lock.answer(library.l4_lock_enter, self._number, *given)
        if told.refusal:
            raise Refused(told.refusal, told.detail)
        kernel._wake()
        kernel._drop_steps()
        return reply_of(told.reply)

    def call_for(self, call: Call, seconds: float) -> Optional[Reply]:
        """Makes a call as `call` does, and waits at most this many seconds.

        Returns None if the call has not ended by then, or if `SharedKernel.end_wait` ended the wait. The call continues: get its reply with
        `wait_for` or `take`. Raises what `call` raises; while an earlier call waits, Refused with K3.

        >>> from l4 import Call, SharedKernel
        >>> root = SharedKernel(1).seat(2)
        >>> root.call_for(Call.receive(), 0.001) is None
        True
        """
        with self._kernel._lock.entered:
            reply = self._enter(call)
            return self.wait_for(seconds) if reply is None else reply

    def wait_for(self, seconds: float) -> Optional[Reply]:
        """Waits at most this many seconds until an earlier call has ended, and takes its reply.

        Returns None if it has not ended by then, if `SharedKernel.end_wait` ended the wait, or if there is no such call.
        """
        lock, end = self._kernel._lock, time.monotonic() + seconds
        with lock.entered:
            lock.ended.discard(self._number)
            while True:
                reply, left = self.take(), end - time.monotonic()
                if reply is not None or left <= 0 or self._number in lock.ended:
                    return reply
                lock.waker(self._number).wait(left)

    def poll(self) -> bool:
        """Returns whether an earlier call has ended since, so that `take` returns its reply. This method never waits for the end of a call."""
        with self._kernel._lock.entered:
            told, thread = self._kernel._lock.answer(library.l4_lock_seat_of, self._number), self._kernel.thread(self._number)
            return told.starts > told.receipts and not (thread and thread.waits)

    def take(self) -> Optional[Reply]:
        """Takes the reply of a call whose wait has ended before the call, by `call_for`, `wait_for` or `SharedKernel.end_wait`.

        Returns None if the call still waits, or if there is no such reply. Each reply can be taken once; `receipts` keeps it. This method
        never waits for the end of a call.
        """
        return reply_of(self._kernel._lock.answer(library.l4_lock_take, self._number))

    @property
    def starts(self) -> int:
        """Returns the number of calls that the seat has started."""
        return self._kernel._lock.answer(library.l4_lock_seat_of, self._number).starts

    @property
    def receipts(self) -> Tuple[Receipt, ...]:
        """Returns the receipts that are kept, in the order in which the seat got them. `SharedKernel.hand_out` forgets the earlier ones."""
        ask = self._kernel._lock.answer
        with self._kernel._lock.entered:
            first = ask(library.l4_lock_seat_of, self._number).kept_from
            return tuple(_until_none(_receipt(ask(library.l4_lock_receipt, self._number, place)) for place in count(first)))


def _end_of(seconds: Optional[float]) -> Optional[float]:
    """Returns the time at which this many seconds from now have passed, or None if there is no limit."""
    return None if seconds is None else time.monotonic() + seconds


def _left(end: Optional[float]) -> Optional[float]:
    """Returns how many seconds are left until this time, at least 0, or None if there is no limit."""
    return None if end is None else max(0.0, end - time.monotonic())


def _until_none(values: Iterator[Any]) -> Iterator[Any]:
    """Yields the values before the first None."""
    return iter(values.__next__, None)
