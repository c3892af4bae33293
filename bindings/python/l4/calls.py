"""The calls of threads."""
from __future__ import annotations

from dataclasses import dataclass
from typing import Dict, Iterable, Optional, Tuple

from . import _library
from ._library import number, of_type
from ._shown import hexadecimal
from .words import Fpage, Message, Rights, ThreadId, Timeout, timeouts, words_of

# the name of each kind in a step list
_NAMES = {
    _library.L4_IPC: "ipc",
    _library.L4_FAULT: "fault",
    _library.L4_UNMAP: "unmap",
    _library.L4_CREATE: "create",
    _library.L4_SET_PAGER: "setpager",
    _library.L4_DELETE: "delete",
}

# the members of l4_call that each kind uses
_MEMBERS = {
    _library.L4_IPC: "to from timeouts acceptor",
    _library.L4_FAULT: "address ip access",
    _library.L4_UNMAP: "control",
    _library.L4_CREATE: "id space pager",
    _library.L4_SET_PAGER: "id pager",
    _library.L4_DELETE: "id",
}

_TIMEOUTS = {0: "", _library.L4_ZERO_TIMEOUT: " at once"}


def _id(value: ThreadId, what: str) -> int:
    """Returns the word of a thread id. Raises TypeError for a plain number, which may be meant as a thread number."""
    if not isinstance(value, ThreadId):
        raise TypeError(f"{what} is a ThreadId, as ThreadId.of(3) is thread 3's: {value!r}")
    return value.word


def _window(window: Optional[Fpage]) -> int:
    """Returns the acceptor word of a receive window."""
    return 0 if window is None else int(of_type(window, Fpage, "a window").acceptor)


def _fpage_text(word: int) -> str:
    """Returns the fpage of a word as text."""
    try:
        return str(Fpage.read(word))
    except ValueError:
        return f"no fpage in {word:#010x}"


@dataclass(frozen=True, repr=False)
class Call:
    """A call of a thread, which `Kernel.start` and `Kernel.enter` begin. The class methods below make calls.

    A call is immutable, belongs to no kernel, and can be started many times. `repr` shows it as in a step list, with its words in
    hexadecimal, and then as text:

    >>> Call.send(ThreadId.of(3), Message((0x80, 0x20008, 0x100c7)))
    <Call ipc 0x0000c001 0x00000000 0x00000000 0x00000000 0x00000080 0x00020008 0x000100c7: send to thread 3: label 0x0000; map 4 KiB at \
0x10000 rwx, send base 0x20000>
    >>> Call.fault(0x5678, 0x400100, Rights.READ)
    <Call fault 0x00005678 0x00400100 0x00000004: fault at 0x5678 by 0x400100, which needs r-->
    """

    _members: Tuple[Tuple[str, int], ...]
    _words: Tuple[int, ...] = ()

    @classmethod
    def _of_kind(cls, kind: int, members: Dict[str, int], words: Tuple[int, ...] = ()) -> Call:
        return cls((("kind", kind), *((name, number(value, name)) for name, value in members.items())), words)

    @classmethod
    def told(cls, given: _library.l4_call, words: Tuple[int, ...]) -> Call:
        """Returns the call that the library reports in a history or a receipt."""
        members = {name: getattr(given, name) for name in _MEMBERS[given.kind].split()}
        return cls._of_kind(given.kind, members, words)

    @classmethod
    def ipc(cls, to: ThreadId, source: ThreadId, timeout_word: int, acceptor: int, message: Message) -> Call:
        """Makes an Ipc from its words: a send phase unless `to` is nil, and then a receive phase unless `source` is nil.

        The kernel refuses it, in this order, with K4 for its timeouts; M7, M1, M5, M2, M4 or M3 for its message; and M6 for its window
        (bits 31 to 4 of `acceptor`). The timeouts and windows of the methods below are always valid.
        """
        words = of_type(message, Message, "what is sent").words
        partners = {"to": _id(to, "whom an Ipc is sent to"), "from": _id(source, "whom an Ipc receives from")}
        return cls._of_kind(_library.L4_IPC, {**partners, "timeouts": timeout_word, "acceptor": acceptor}, words)

    @classmethod
    def send(cls, to: ThreadId, message: Message, timeout: Timeout = Timeout.NEVER) -> Call:
        """Sends a message to a thread, without a receive phase (L4 X.2 manual, Send)."""
        return cls.ipc(to, ThreadId.NIL, timeouts(timeout, Timeout.NEVER), 0, message)

    @classmethod
    def receive(cls, source: ThreadId = ThreadId.ANY, window: Optional[Fpage] = None, timeout: Timeout = Timeout.NEVER) -> Call:
        """Receives a message from the thread `source`, or from any thread (L4 X.2 manual, Receive and Wait).

        The window says where the caller accepts pages; its rights are ignored. Without a window it is nil, and no message with items can be
        delivered.
        """
        return cls.ipc(ThreadId.NIL, source, timeouts(Timeout.NEVER, timeout), _window(window), Message())

    @classmethod
    def call(
        cls,
        to: ThreadId,
        message: Message,
        window: Optional[Fpage] = None,
        send: Timeout = Timeout.NEVER,
        receive: Timeout = Timeout.NEVER,
    ) -> Call:
        """Sends a message to a thread, and then receives that thread's answer (L4 X.2 manual, Call)."""
        return cls.ipc(to, to, timeouts(send, receive), _window(window), message)

    @classmethod
    def reply_and_wait(
        cls,
        to: ThreadId,
        message: Message,
        window: Optional[Fpage] = None,
        send: Timeout = Timeout.NEVER,
        receive: Timeout = Timeout.NEVER,
    ) -> Call:
        """Sends a message to a thread, and then receives a message from any thread (L4 X.2 manual, ReplyWait)."""
        return cls.ipc(to, ThreadId.ANY, timeouts(send, receive), _window(window), message)

    @classmethod
    def fault(cls, address: int, ip: int, access: Rights) -> Call:
        """Reports a page fault at `address`, by the instruction at `ip`, both in bytes, for an access that needs these rights.

        If the page is not present with these rights, the kernel sends the fault to the thread's pager as a message (L4 X.2 manual, Page
        Fault Protocol).
        """
        needed = of_type(access, Rights, "what an access needs").value
        return cls._of_kind(_library.L4_FAULT, {"address": address, "ip": ip, "access": needed})

    @classmethod
    def unmap(cls, fpages: Iterable[Fpage], own: bool = False) -> Call:
        """Revokes the rights that the fpages name from every page that was mapped from the caller's pages in them (L4 X.2 manual, Unmap).

        If `own` is true, the caller's pages lose these rights too. Raises ValueError if there are no fpages, or more than 64.
        """
        words = tuple(of_type(fpage, Fpage, "what is unmapped").word for fpage in fpages)
        if not words:
            raise ValueError("an Unmap needs at least one fpage")
        return cls.unmap_words(bool(own) << 6 | (len(words) - 1) & 0x3F, words)

    @classmethod
    def unmap_words(cls, control: int, words: Iterable[int]) -> Call:
        """Makes an Unmap from its words. Bit 6 of `control` means that the caller's own pages lose the rights too; bits 5 to 0 are k,
        and the words 0 to k are fpages. The kernel refuses it, in this order, with U2 and U1."""
        return cls._of_kind(_library.L4_UNMAP, {"control": control}, words_of(words, "a word of an Unmap"))

    @classmethod
    def create(cls, thread_id: ThreadId, space: ThreadId, pager: ThreadId = ThreadId.NIL) -> Call:
        """Creates a thread with this id, in the space of the thread `space`, or in a new space if `space` is the same id (L4 X.2 manual,
        ThreadControl). The kernel refuses it with H1 to H5, and with NoMemory for a new space."""
        given = {"id": _id(thread_id, "the thread"), "space": _id(space, "the thread of the space"), "pager": _id(pager, "the pager")}
        return cls._of_kind(_library.L4_CREATE, given)

    @classmethod
    def set_pager(cls, thread_id: ThreadId, pager: ThreadId) -> Call:
        """Sets the pager of a thread (L4 X.2 manual, ThreadControl). The kernel refuses it with H1 and H4."""
        return cls._of_kind(_library.L4_SET_PAGER, {"id": _id(thread_id, "the thread"), "pager": _id(pager, "the pager")})

    @classmethod
    def delete(cls, thread_id: ThreadId) -> Call:
        """Deletes a thread, and its space if the thread is the last one in it (L4 X.2 manual, ThreadControl). The kernel refuses it with
        H1, H4 and H6."""
        return cls._of_kind(_library.L4_DELETE, {"id": _id(thread_id, "the thread")})

    @property
    def words(self) -> Tuple[int, ...]:
        """Returns the words of the call's message or Unmap."""
        return self._words

    def given(self) -> _library.l4_call:
        """Returns the struct that the library reads."""
        return _library.l4_call(**dict(self._members))

    def __str__(self) -> str:
        kind, *values = (value for _, value in self._members)
        if kind == _library.L4_IPC:
            return _ipc_text(*values, self._words)
        if kind == _library.L4_FAULT:
            return f"fault at {values[0]:#x} by {values[1]:#x}, which needs {Rights.of_bits(values[2])}"
        if kind == _library.L4_UNMAP:
            own = "own pages too, " if values[0] & 0x40 else ""
            return f"unmap {own}" + "; ".join(_fpage_text(word) for word in self._words[: (values[0] & 0x3F) + 1])
        thread, *others = map(ThreadId, values)
        if kind == _library.L4_CREATE:
            space = "a new space" if others[0] == thread else f"the space of {others[0]}"
            return f"create {thread} in {space}, pager {others[1]}"
        return f"delete {thread}" if kind == _library.L4_DELETE else f"pager of {thread} is {others[0]}"

    @property
    def line(self) -> str:
        """Returns the call as in a step list, with each word in hexadecimal."""
        (_, kind), *members = self._members
        words = [*(value for _, value in members), *self._words]
        return f"{_NAMES[kind]} {hexadecimal(words)}"

    def __repr__(self) -> str:
        return f"<Call {self.line}: {self}>"


def _ipc_text(to: int, source: int, timeout_word: int, acceptor: int, words: Tuple[int, ...]) -> str:
    """Returns an Ipc as text."""
    waits = [_TIMEOUTS.get(bits, f" with timeout {bits:#06x}") for bits in (timeout_word >> 16, timeout_word & 0xFFFF)]
    parts = []
    if to != _library.L4_NILTHREAD:
        parts.append(f"send to {ThreadId(to)}{waits[0]}: {Message(words)}")
    if source != _library.L4_NILTHREAD:
        parts.append(f"receive from {ThreadId(source)}{waits[1]}, window {_fpage_text(acceptor & ~0xF)}")
    return ", then ".join(parts) or "neither phase"
