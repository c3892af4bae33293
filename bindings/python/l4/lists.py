"""Step lists in the language of the program l4_steps, one step or query per line; `l4_steps --help` describes the language."""
from __future__ import annotations

import re
from typing import Callable, Iterable, Iterator, List, Optional

from .calls import Call
from .kernel import Answer, Cancel, Expire, Kernel, Outcome, Transfer
from .refusals import Refused
from .replies import Reply, ReplyKind
from .shared import AnyStep, Start
from .words import MAX_WORDS, Message, Rights, ThreadId

#: The largest number of bytes of a line.
MAX_LINE = 4096

_NUMBER = re.compile(rb"0x[0-9A-Fa-f]{1,8}|[0-9]{1,10}")

_OUTCOMES = {
    Outcome.STARTED: "started",
    Outcome.DELIVERED: "done",
    Outcome.NO_WINDOW: "no-window",
    Outcome.ENTANGLED: "entangled",
    Outcome.WANTS_MEMORY: "no-memory",
    Outcome.EXPIRED: "expired",
    Outcome.WAIT_ENDED: "canceled",
}


class Unread(Exception):
    """A line that is not a valid step or query, or is not a whole line. `args` has the line number and the reason."""

    def __init__(self, line: int, why: str) -> None:
        super().__init__(line, why)

    def __str__(self) -> str:
        return "line {} {}".format(*self.args)


class _NoLine(Exception):
    """Raised for a line that is not a valid step or query."""


def _number(token: bytes) -> int:
    if not _NUMBER.fullmatch(token):
        raise _NoLine
    value = int(token, 16 if token.startswith(b"0x") else 10)
    if value >= 1 << 32:
        raise _NoLine
    return value


def _call(kind: bytes, numbers: List[int]) -> Call:
    """Returns the call of this kind."""
    if kind == b"ipc" and 4 <= len(numbers) <= 4 + MAX_WORDS:
        return Call.ipc(*map(ThreadId, numbers[:2]), *numbers[2:4], Message(tuple(numbers[4:])))
    if kind == b"fault" and len(numbers) == 3 and numbers[2] < 8:
        return Call.fault(numbers[0], numbers[1], Rights.of_bits(numbers[2]))
    if kind == b"unmap" and 1 <= len(numbers) <= 1 + MAX_WORDS:
        return Call.unmap_words(numbers[0], numbers[1:])
    if kind == b"create" and len(numbers) == 3:
        return Call.create(*map(ThreadId, numbers))
    if kind == b"setpager" and len(numbers) == 2:
        return Call.set_pager(*map(ThreadId, numbers))
    if kind == b"delete" and len(numbers) == 1:
        return Call.delete(*map(ThreadId, numbers))
    raise _NoLine


def _reply(reply: Optional[Reply], none: str) -> str:
    if reply is None:
        return none
    if reply.kind is ReplyKind.IPC:
        words = "".join(f" {word:08x}" for word in reply.words)
        return f"ipc {reply.tag:08x} {reply.error} {reply.sender.word:08x}{words}"
    if reply.kind is ReplyKind.FAILED:
        return f"failed {reply.error}"
    return reply.kind.name.lower()


def _answer(kernel: Kernel, step: Callable[[], Answer]) -> List[str]:
    """Executes the step, and returns the lines that answer it."""
    try:
        answer = step()
    except Refused as refused:
        return [f"refused {refused.code}" + ("" if refused.detail is None else f" {refused.detail}")]
    ended = [f"{thread} {_reply(kernel.reply(thread), 'gone')}" for thread in answer.ended]
    return [_OUTCOMES[answer.outcome], *ended]


def enabled_line(kernel: Kernel) -> str:
    """Returns the answer to the query `enabled`."""
    step = kernel.enabled()
    if isinstance(step, Transfer):
        return f"enabled transfer {step.sender} {step.receiver}"
    if isinstance(step, Expire):
        return f"enabled expire {step.thread}"
    return "enabled none"


def _pages(kernel: Kernel, space: int) -> List[str]:
    lines = []
    for mapping in kernel.mappings(space):
        parent = f"{mapping.parent.space} {mapping.parent.page}" if mapping.parent else "none"
        lines.append(f"page {mapping.place.page} frame {mapping.frame} {mapping.rights} {parent}")
    return [*lines, f"shown {len(lines)}"]


def _question(kernel: Kernel, name: bytes, numbers: List[int]) -> List[str]:
    """Returns the lines that answer a query."""
    if name == b"enabled" and not numbers:
        return [enabled_line(kernel)]
    if len(numbers) != 1:
        raise _NoLine
    if name == b"reply":
        return [_reply(kernel.reply(numbers[0]), "none")]
    if name == b"space":
        space = kernel.space_of(numbers[0])
        return ["none" if space is None else f"space {space}"]
    if name == b"pages":
        return _pages(kernel, numbers[0])
    raise _NoLine


def _tokens(line: bytes) -> List[bytes]:
    """Returns the tokens of a line: none if it is empty or a comment."""
    return [] if line.startswith(b"#") else [token for token in line.split(b" ") if token]


def _step(tokens: List[bytes]) -> Optional[AnyStep]:
    """Returns the step that these tokens are, or None if they may be a query."""
    if tokens[0] == b"start":
        if len(tokens) < 3:
            raise _NoLine
        return Start(_number(tokens[1]), _call(tokens[2], [_number(token) for token in tokens[3:]]))
    numbers = [_number(token) for token in tokens[1:]]
    if tokens[0] == b"transfer" and len(numbers) == 2:
        return Transfer(*numbers)
    if len(numbers) != 1:
        return None
    if tokens[0] in (b"timeout", b"cancel"):
        return Cancel(numbers[0], timed_out=tokens[0] == b"timeout")
    return Expire(numbers[0]) if tokens[0] == b"expire" else None


def execute(kernel: Kernel, step: AnyStep) -> Answer:
    """Executes a step. Raises Refused as the kernel does."""
    if isinstance(step, Start):
        return kernel.start(step.thread, step.call)
    if isinstance(step, Cancel):
        return kernel.timeout(step.thread) if step.timed_out else kernel.cancel(step.thread)
    return kernel.transfer(step.sender, step.receiver) if isinstance(step, Transfer) else kernel.expire(step.thread)


def _line(kernel: Kernel, line: bytes) -> List[str]:
    """Returns the lines that answer this one."""
    tokens = _tokens(line)
    if not tokens:
        return []
    step = _step(tokens)
    if step is not None:
        return _answer(kernel, lambda: execute(kernel, step))
    return _question(kernel, tokens[0], [_number(token) for token in tokens[1:]])


def step_in(line: bytes) -> Optional[AnyStep]:
    """Returns the step in a line of a list, or None if the line is a query, a comment or empty. Raises ValueError if it is none of these."""
    try:
        tokens = _tokens(line)
        return _step(tokens) if tokens else None
    except _NoLine:
        raise ValueError("the line is not a valid step") from None


def threads_in(line: bytes) -> List[int]:
    """Returns the numbers of the threads that a valid step or query names: a caller and, if it sends, its partner; the sender and the receiver of a
    transfer; or the thread of another step or query, if it names one."""
    tokens = _tokens(line)
    if tokens[0] == b"start":
        partner = [_number(tokens[3]) >> 14] if tokens[2] == b"ipc" else []
        return [_number(tokens[1]), *partner]
    return [] if tokens[0] == b"pages" else [_number(token) for token in tokens[1:]]


def answers_to(kernel: Kernel, line: bytes) -> Optional[List[str]]:
    """Executes a line of a list, which has no newline, and returns the lines that answer it. Returns None if it is not a valid step or query."""
    try:
        return _line(kernel, line)
    except _NoLine:
        return None


def whole_line(place: int, line: bytes) -> bytes:
    """Returns the line at this place of a list, without its newline. Raises Unread if it has none, or has more than 4,096 bytes before it."""
    whole = line.endswith(b"\n")
    line = line[:-1] if whole else line
    if len(line) > MAX_LINE:
        raise Unread(place, f"is longer than {MAX_LINE} bytes")
    if not whole:
        raise Unread(place, "does not end with a newline")
    return line


def replay(kernel: Kernel, lines: Iterable[bytes]) -> Iterator[str]:
    """Executes the steps of a list, one line after another, and yields the lines that answer them. Each line ends with its newline.

    Raises Unread at the first line that is not a valid step or query, has no newline, or has more than 4,096 bytes before it.
    """
    for place, line in enumerate(lines, 1):
        answers = answers_to(kernel, whole_line(place, line))
        if answers is None:
            raise Unread(place, "is not a valid step or query")
        yield from answers
