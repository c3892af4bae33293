"""Scripts in the language of `l4 run`, over a kernel and the tables of its pagers; `l4 --help` describes the language.

The answers of `l4 run` are proved; those of this module are only tested. It gives the same answers through the library's functions, step
by step, so that the state can be queried after each step.
"""
from __future__ import annotations

from dataclasses import dataclass
from typing import Callable, Dict, Iterable, Iterator, List, Optional, Set, Tuple, TypeVar

from . import _symbols
from ._library import L4_DELETE
from .calls import Call
from .kernel import Cancel, Kernel, Transfer
from .plans import Plan, Region
from .refusals import Refused
from .replies import Reply, ReplyKind
from .tables import Pager, Sigma0
from .words import PAGE_BYTES, Message, Rights, ThreadId

#: The largest number of bytes of a line.
MAX_LINE = 4096

#: After more steps than this, every call is refused (L1).
MOST_STEPS = 999_871

#: The most names of a script.
MAX_NAMES = 64

# how many calls of served threads may follow a line, and the space of a thread that does not exist
_MOST_ACTS = 256
_NO_SPACE = (1 << 64) - 1

_Read = TypeVar("_Read")


@dataclass(frozen=True)
class Event:
    """An event on a line: a call that a thread started, a step that followed, the end of a wait, or only an answer.

    `texts` has the lines of its answer. A transfer also has the message that was sent.
    """

    line: int
    texts: Tuple[str, ...]
    thread: Optional[int] = None
    call: Optional[Call] = None
    transfer: Optional[Transfer] = None
    message: Optional[Message] = None
    cancel: Optional[Cancel] = None
    is_step: bool = False


class _Bad(Exception):
    """A refused line: its code, with the number that the code carries."""


def _read(read: Callable[..., _Read], *tokens: object) -> _Read:
    """Returns what a function makes of these tokens. A line with a token that it refuses is S2."""
    try:
        return read(*tokens)
    except ValueError:
        raise _Bad("S2") from None


class _Tokens:
    """The tokens of a line after its command, taken one by one."""

    def __init__(self, tokens: List[str], page_bytes: int, names: Dict[str, int]) -> None:
        self.left = tokens
        self.page_bytes = page_bytes
        self.names = names

    def take(self) -> str:
        if not self.left:
            raise _Bad("S2")
        return self.left.pop(0)

    def number(self, below: int = 1 << 32) -> int:
        value = _read(_symbols.number, self.take())
        if value >= below:
            raise _Bad("S2")
        return value

    def thread(self) -> int:
        if self.left and self.left[0] in self.names:
            return self.names[self.take()]
        return self.number(1 << 18)

    def new_name(self) -> str:
        token = self.take()
        if token in _COMMANDS or not _symbols.is_name(token):
            raise _Bad("S2")
        return token

    def id_or(self, words: Dict[str, ThreadId]) -> ThreadId:
        if self.left and self.left[0] in words:
            return words[self.take()]
        return _id(self.thread())

    def partner(self) -> ThreadId:
        return self.id_or({"nil": ThreadId.NIL, "any": ThreadId.ANY})

    def pager(self) -> ThreadId:
        return self.id_or({"nil": ThreadId.NIL})

    def rights(self) -> Rights:
        return _read(_symbols.rights, self.take())

    def window(self) -> int:
        return _read(_symbols.window, self.take(), self.page_bytes)

    def timeout_word(self) -> int:
        return _read(_symbols.timeout_word, self.take())

    def words(self) -> Tuple[int, ...]:
        return _read(_symbols.words, self.left, self.page_bytes)

    def revoked(self) -> Tuple[int, Tuple[int, ...]]:
        return _read(_symbols.revoked, self.left, self.page_bytes)

    def end(self) -> None:
        if self.left:
            raise _Bad("S2")


def _id(thread: int) -> ThreadId:
    """Returns the id of this thread in a script, which may be an id that no thread can have."""
    return ThreadId(thread << 14 | 1)


def _ipc(to: ThreadId, source: ThreadId, words: Iterable[int] = (), timeout_word: int = 0, window: int = 0) -> Call:
    return Call.ipc(to, source, timeout_word, window, Message(tuple(words)))


def _text(refused: Refused) -> str:
    return refused.code if refused.detail is None else f"{refused.code} {refused.detail}"


def _reply_text(thread: int, reply: Optional[Reply]) -> str:
    """Returns the line of a thread's reply. A thread that no longer exists has none."""
    return (reply or Reply(ReplyKind.GONE)).line(thread)


class Script:
    """A run of a script, line by line.

    >>> script = Script(256)
    >>> [text for line in ("recv 2 any 0x10", "send 1 2 0x80 0x20008 0x100c7") for event in script.line(line) for text in event.texts]
    ['2 waits', 'transfer 1 2 done', '1 ipc 00000000 0 nil', '2 ipc 00000080 0 1 00020008 000100c7']
    """

    def __init__(self, frames: int = 256, page_bytes: int = PAGE_BYTES) -> None:
        self.kernel = Kernel(frames, page_bytes)
        self.page_bytes = page_bytes
        self.sigma0 = Sigma0(frames, page_bytes)
        self.pagers: Dict[int, Pager] = {}
        self.served: Set[int] = set()
        self.steps = 0
        self.line_count = 0
        #: The number of each thread that was given a name.
        self.names: Dict[str, int] = {}
        #: The call that each thread started last.
        self.calls: Dict[int, Call] = {}
        self._seats = {1, 2}
        # the thread whose call the line entered, while that call waits
        self._waiting: Optional[int] = None

    def run(self, text: str) -> Iterator[Event]:
        """Yields the events of the lines of a text. A last line without its newline is refused (S4)."""
        *lines, last = text.split("\n")
        for line in lines:
            if line:
                yield from self.line(line)
            else:
                self.line_count += 1
        if last:
            yield from self.line(last, is_cut=True)

    def line(self, line: str, is_cut: bool = False) -> Iterator[Event]:
        """Yields the events of a line, which is given without its newline. Each event happens when it is requested."""
        self.line_count += 1
        try:
            yield from self._carry_out(line, is_cut)
        except _Bad as why:
            yield self._told(f"line {self.line_count} refused {why}")
        except Refused as refused:
            yield self._told(f"line {self.line_count} refused {_text(refused)}")

    def _told(self, *texts: str) -> Event:
        return Event(self.line_count, texts)

    def _carry_out(self, line: str, is_cut: bool) -> Iterator[Event]:
        if is_cut:
            raise _Bad("S4")
        if len(line.encode("utf-8", "surrogateescape")) > MAX_LINE:
            raise _Bad("S3")
        tokens = [token for token in line.split(" ") if token]
        if not tokens or line.startswith("#"):
            return iter(())
        command = _COMMANDS.get(tokens[0])
        if command is None:
            raise _Bad("S1")
        return command(self, _Tokens(tokens[1:], self.page_bytes, self.names))

    # the commands

    def _thread(self, tokens: _Tokens) -> Iterator[Event]:
        number = tokens.thread()
        space, pager = tokens.id_or({"new": _id(number)}), tokens.pager()
        tokens.end()
        self._seats.add(number)
        return self._enter(ThreadId.ROOT.number, Call.create(_id(number), space, pager))

    def _setpager(self, tokens: _Tokens) -> Iterator[Event]:
        number, pager = tokens.thread(), tokens.pager()
        tokens.end()
        return self._enter(ThreadId.ROOT.number, Call.set_pager(_id(number), pager))

    def _delete(self, tokens: _Tokens) -> Iterator[Event]:
        number = tokens.thread()
        tokens.end()
        return self._enter(ThreadId.ROOT.number, Call.delete(_id(number)))

    def _recv(self, tokens: _Tokens) -> Iterator[Event]:
        number, source, window = tokens.thread(), tokens.partner(), tokens.window()
        tokens.end()
        return self._enter(number, _ipc(ThreadId.NIL, source, window=window))

    def _send(self, tokens: _Tokens) -> Iterator[Event]:
        number, to = tokens.thread(), tokens.partner()
        return self._enter(number, _ipc(to, ThreadId.NIL, tokens.words()))

    def _ipc(self, tokens: _Tokens) -> Iterator[Event]:
        number, to, source = tokens.thread(), tokens.partner(), tokens.partner()
        timeout_word, window = tokens.timeout_word(), tokens.window()
        return self._enter(number, _ipc(to, source, tokens.words(), timeout_word, window))

    def _delegate(self, tokens: _Tokens) -> Iterator[Event]:
        number, to = tokens.thread(), tokens.partner()
        plan = self._plan(tokens)
        if plan.message_count > 1:
            raise _Bad(f"N5 {plan.message_count}")
        return self._enter(number, _ipc(to, ThreadId.NIL, plan.only().words))

    def _part(self, tokens: _Tokens) -> Iterator[Event]:
        number, to, part = tokens.thread(), tokens.partner(), tokens.number()
        plan = self._plan(tokens)
        if part >= plan.message_count:
            raise _Bad(f"N6 {plan.message_count}")
        return self._enter(number, _ipc(to, ThreadId.NIL, plan.message(part).words))

    def _plan(self, tokens: _Tokens) -> Plan:
        """Returns the plan of the region that the last tokens of the line name."""
        source, target, count, rights = tokens.number(), tokens.number(), tokens.number(), tokens.rights()
        tokens.end()
        return Region(source, target, count, rights).plan(self.page_bytes)

    def _unmap(self, tokens: _Tokens) -> Iterator[Event]:
        number = tokens.thread()
        return self._enter(number, Call.unmap_words(*tokens.revoked()))

    def _fault(self, tokens: _Tokens) -> Iterator[Event]:
        number, address, ip, access = tokens.thread(), tokens.number(), tokens.number(), tokens.rights()
        tokens.end()
        return self._enter(number, Call.fault(address, ip, access))

    def _region(self, tokens: _Tokens) -> Iterator[Event]:
        number, first, source, count, rights = tokens.thread(), tokens.number(), tokens.number(), tokens.number(), tokens.rights()
        tokens.end()
        self._space(number)
        self._pager(number).add(Region(source, first, count, rights))
        yield self._told("region ok")

    def _serve(self, tokens: _Tokens) -> Iterator[Event]:
        number = tokens.thread()
        tokens.end()
        return self._enter(number, _ipc(ThreadId.NIL, ThreadId.ANY), serves=True)

    def _show(self, tokens: _Tokens) -> Iterator[Event]:
        number, first, count = tokens.thread(), tokens.number(), tokens.number()
        tokens.end()
        space, texts = self._space(number), []
        page = self.kernel.next_page(space, first)
        while page is not None and page < first + count:
            mapping = self.kernel.mapping(space, page)
            if mapping:
                texts.append(f"page {page} frame {mapping.frame} {mapping.rights}")
            page = self.kernel.next_page(space, page + 1)
        yield self._told(*texts, f"shown {len(texts)}")

    def _parent(self, tokens: _Tokens) -> Iterator[Event]:
        number, page = tokens.thread(), tokens.number()
        tokens.end()
        mapping = self.kernel.mapping(self._space(number), page)
        if mapping is None:
            yield self._told("absent")
        elif mapping.parent is None:
            yield self._told("parent none")
        else:
            yield self._told(f"parent {mapping.parent.space} {mapping.parent.page}")

    def _name(self, tokens: _Tokens) -> Iterator[Event]:
        name, number = tokens.new_name(), tokens.thread()
        tokens.end()
        if name not in self.names and len(self.names) == MAX_NAMES:
            raise _Bad("S5")
        self.names[name] = number
        yield self._told(f"named {number}")

    def _reply(self, tokens: _Tokens) -> Iterator[Event]:
        number = tokens.thread()
        tokens.end()
        self._space(number)
        reply = self.kernel.reply(number)
        if reply is not None:
            yield self._told(_reply_text(number, reply))
        else:
            yield self._told(f"{number} waits" if number in self.calls else f"{number} none")

    def _timeout(self, tokens: _Tokens) -> Iterator[Event]:
        return self._end_wait(tokens, timed_out=True)

    def _cancel(self, tokens: _Tokens) -> Iterator[Event]:
        return self._end_wait(tokens, timed_out=False)

    def _begin_part(self, tokens: _Tokens) -> Iterator[Event]:
        tokens.end()
        return iter(())

    def _rule(self, tokens: _Tokens) -> Iterator[Event]:
        tokens.take()
        return iter(())

    def _steps(self, tokens: _Tokens) -> Iterator[Event]:
        tokens.end()
        yield self._told(f"steps {self.steps}")

    def _space(self, number: int) -> int:
        space = self.kernel.space_of(number)
        if space is None:
            raise _Bad("K2")
        return space

    def _pager(self, number: int) -> Pager:
        """Returns the table of this thread."""
        if number not in self.pagers:
            self.pagers[number] = Pager(self.page_bytes)
        return self.pagers[number]

    # the call of a line, and the calls of served threads that follow it

    def _enter(self, number: int, call: Call, serves: bool = False) -> Iterator[Event]:
        if number not in self._seats:
            raise _Bad("K2")
        if self.steps > MOST_STEPS:
            raise _Bad("L1")
        self._waiting = number
        yield self._start(number, call)
        if serves:
            self.served.add(number)
        if call.given().kind == L4_DELETE:
            self._forget_ended()
        yield from self._go_on()
        yield from self._act_all()
        if self._waiting is not None:
            yield self._told(f"{number} waits")

    def _end_wait(self, tokens: _Tokens, timed_out: bool) -> Iterator[Event]:
        """Ends the wait of a thread, which is a step that no thread's call starts."""
        number = tokens.thread()
        tokens.end()
        if self.steps > MOST_STEPS:
            raise _Bad("L1")
        self._waiting = None
        step = Cancel(number, timed_out)
        answer = self.kernel.timeout(number) if timed_out else self.kernel.cancel(number)
        self.steps += 1
        yield Event(self.line_count, (step.line, *self._ended(answer.ended)), number, cancel=step, is_step=True)
        yield from self._act_all()

    def _act_all(self) -> Iterator[Event]:
        """Lets the served threads act, one after another."""
        for _ in range(_MOST_ACTS):
            running = [thread for thread in sorted(self.served) if self.kernel.reply(thread) is not None]
            if not running or self.steps > MOST_STEPS:
                break
            try:
                yield self._start(running[0], self._act(running[0]))
            except Refused as refused:
                yield self._told(f"{running[0]} refused {_text(refused)}")
                break
            yield from self._go_on()

    def _start(self, number: int, call: Call) -> Event:
        """Starts a call, which is a step."""
        answer = self.kernel.start(number, call)
        self.steps += 1
        self.calls[number] = call
        return Event(self.line_count, self._ended(answer.ended), number, call, is_step=True)

    def _go_on(self) -> Iterator[Event]:
        """Executes the next step until no step is enabled."""
        for done in self.kernel.steps():
            self.steps += 1
            texts = (done.line, *self._ended(done.ended))
            if isinstance(done.step, Transfer):
                message = self._sent(done.step.sender, done.step.receiver)
                yield Event(self.line_count, texts, transfer=done.step, message=message, is_step=True)
            else:
                yield Event(self.line_count, texts, done.step.thread, is_step=True)

    def _sent(self, sender: int, receiver: int) -> Message:
        """Returns the message that was sent: the message of an Ipc's call, or the one that a pager received for a fault."""
        reply, words = self.kernel.reply(receiver), self.calls[sender].words
        return Message(words) if words or reply is None else reply.message

    def _ended(self, threads: Iterable[int]) -> Tuple[str, ...]:
        """Returns how the calls of these threads ended, as text."""
        texts = tuple(_reply_text(thread, self.kernel.reply(thread)) for thread in threads)
        if self._waiting in threads:
            self._waiting = None
        return texts

    def _act(self, number: int) -> Call:
        """Returns the next call of a served thread."""
        reply = self.kernel.reply(number)
        if reply is None or reply.kind is not ReplyKind.IPC or reply.error:
            return _ipc(ThreadId.NIL, ThreadId.ANY)
        if number == ThreadId.SIGMA0.number:
            space = self.kernel.space_of(reply.sender.number)
            answer = self.sigma0.answer(_NO_SPACE if space is None else space, reply.message)
        else:
            answer = self._pager(number).answer(reply.message)
        return _ipc(reply.sender, ThreadId.ANY, answer.words, timeout_word=0x400 << 16)

    def _forget_ended(self) -> None:
        """Removes what is kept for threads that no longer exist."""
        there = set(self.kernel.threads())
        self.served &= there
        self.pagers = {thread: pager for thread, pager in self.pagers.items() if thread in there}
        self.calls = {thread: call for thread, call in self.calls.items() if thread in there}


_COMMANDS: Dict[str, Callable[[Script, _Tokens], Iterator[Event]]] = {
    "thread": Script._thread,
    "setpager": Script._setpager,
    "delete": Script._delete,
    "recv": Script._recv,
    "send": Script._send,
    "ipc": Script._ipc,
    "delegate": Script._delegate,
    "part": Script._part,
    "unmap": Script._unmap,
    "fault": Script._fault,
    "region": Script._region,
    "serve": Script._serve,
    "show": Script._show,
    "parent": Script._parent,
    "name": Script._name,
    "reply": Script._reply,
    "timeout": Script._timeout,
    "cancel": Script._cancel,
    "steps": Script._steps,
    "unordered": Script._begin_part,
    "finally": Script._begin_part,
    "never": Script._rule,
    "always": Script._rule,
}
