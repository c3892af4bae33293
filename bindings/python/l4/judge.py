"""Judges another kernel: compares its answers to a step list with those of the proved kernel, and shortens lists that differ."""
from __future__ import annotations

import subprocess
from collections import deque
from dataclasses import dataclass
from typing import Deque, Dict, Iterable, List, Optional, Sequence, Tuple, Union

from ._library import L4_AGREES, L4_NOT_ENABLED
from .kernel import Kernel
from .lists import Unread, answers_to, enabled_line, threads_in, whole_line
from .refusals import Refused
from .shared import AnyStep, step_line

#: An answer that the other kernel did not report. It matches any one line.
UNKNOWN = "?"

_STEPS = (b"start", b"transfer", b"expire", b"timeout", b"cancel")
_NO_FURTHER = "no further answer"
_LIST_END = "the end of the list"


class Uncompared(Exception):
    """A list in which nothing differs, but no answer was compared."""

    def __init__(self) -> None:
        super().__init__("no answer was compared")


class NoSteps(Unread):
    """A list without a step or query. `args` has the number of the line after the last one, and the reason."""

    def __str__(self) -> str:
        return "line {}: {}".format(*self.args)


def _counted(number: int, noun: str) -> str:
    return f"{number} {noun}{'' if number == 1 else 's'}"


@dataclass(frozen=True)
class Agreement:
    """The list has the wanted steps and queries, and the proved kernel's answers. `steps` counts the steps, and `answers` the answer lines that were compared."""

    steps: int
    answers: int

    def __str__(self) -> str:
        return f"agrees: {_counted(self.steps, 'step')}, {_counted(self.answers, 'answer')}"


@dataclass(frozen=True)
class Difference:
    """The first answer line of a step or query that is not the proved kernel's.

    `place` is its place among the answer lines of the step, from 0. `expected` is the proved kernel's line and `found` the other kernel's;
    either is None if that kernel gives no further line. If the proved kernel refuses the step with K1, `enabled` is the step that is enabled,
    as text. `line` is the number of the line in a list, or None for a step that was passed to `Judge.compare`.
    """

    step: str
    place: int
    expected: Optional[str]
    found: Optional[str]
    enabled: Optional[str] = None
    line: Optional[int] = None

    def __str__(self) -> str:
        where = "" if self.line is None else f"line {self.line}: "
        expected = _NO_FURTHER if self.expected is None else self.expected
        enabled = "" if self.enabled is None else f" ({self.enabled})"
        missing = _NO_FURTHER if self.place else "no answer"
        return f"{where}{self.step}: expected {expected}{enabled}, found {missing if self.found is None else self.found}"


@dataclass(frozen=True)
class OtherStep:
    """The first step or query that is not the one of the list that was passed as `against`.

    `line` is the number of its line. `expected` and `found` are the lines of both lists; either is None if that list ends there.
    """

    line: int
    expected: Optional[str]
    found: Optional[str]

    def __str__(self) -> str:
        expected, found = (_LIST_END if step is None else step for step in (self.expected, self.found))
        return f"line {self.line}: expected {expected}, found {found}"


#: What `judge` returns.
Verdict = Union[Agreement, Difference, OtherStep]


def _is_step(line: str) -> bool:
    """Returns whether a line of a list has a step or query: it is no comment or answer, and not empty."""
    return bool(line.strip(" ")) and not line.startswith("#")


class Judge:
    """Watches another kernel, step by step.

    Pass each step that the other kernel executes, with its answer, to `compare`. The proved kernel executes the same step, so its state follows
    the definition even after a difference. `steps` and `answers` count the steps, and the answer lines that were compared.

    >>> judge = Judge()
    >>> judge.compare("start 1 ipc 0x8001 0 0 0 0x70000", ["started"])
    >>> judge.compare("start 2 ipc 0 0xffffffff 0 0", ["started"])
    >>> judge.compare("transfer 1 2", ["done", "1 ipc 00000000 0 00000000", "2 ipc 00070000 0 00000000"])
    Difference(step='transfer 1 2', place=2, expected='2 ipc 00070000 0 00004001', found='2 ipc 00070000 0 00000000', enabled=None, line=None)
    """

    def __init__(self, kernel: Optional[Kernel] = None) -> None:
        self.kernel = Kernel() if kernel is None else kernel
        self.steps = self.answers = 0

    def compare(self, step: Union[str, AnyStep], answer: Iterable[str] = ()) -> Optional[Difference]:
        """Executes a step or query on the proved kernel, and compares the other kernel's answer with it. Returns None if they agree.

        `step` is a line of a step list, or a value that prints as one. `answer` has the lines that `l4_steps` would print. A line `UNKNOWN`
        matches any one line. An answer without lines differs at place 0. Raises ValueError if the step is not a line of a step list.
        """
        line = step if isinstance(step, str) else step_line(step)
        found = list(answer)
        try:
            told, expected = self.kernel._judge(line.encode("latin-1"), "".join(f"{said}\n" for said in found).encode("utf-8", "surrogatepass"))
        except Refused as refused:
            if refused.code != "B5":
                raise
            raise ValueError(f"not a step or query: {line!r}") from None
        self.steps += line.split()[0].encode() in _STEPS
        self.answers += sum(said != UNKNOWN for said in found)
        if told.verdict == L4_AGREES:
            return None
        came = found[told.place] if told.place < len(found) else None
        return Difference(line, told.place, expected or None, came, enabled_line(self.kernel) if told.verdict == L4_NOT_ENABLED else None)


def requests(lines: Iterable[bytes]) -> List[str]:
    """Returns the steps and queries of a list: its lines that are neither empty nor comments. Raises Unread for a line that is not whole."""
    texts = (whole_line(number, line).decode("latin-1") for number, line in enumerate(lines, 1))
    return [text for text in texts if _is_step(text)]


@dataclass(frozen=True)
class Report:
    """A difference, and the last calls of the threads that its step names: the number of the line of each call, and the line."""

    difference: Union[Difference, OtherStep]
    calls: Tuple[Tuple[int, str], ...] = ()

    def __str__(self) -> str:
        return "\n".join([str(self.difference), *(f"  line {number}: {line}" for number, line in self.calls)])


@dataclass
class _Request:
    """A step or query that the proved kernel has executed: its answer, how many lines of it were compared, and the number of the last of these
    lines."""

    line: str
    due: List[str]
    last: int
    calls: Tuple[Tuple[int, str], ...]
    compared: int = 0

    def lacks(self) -> bool:
        return self.compared < len(self.due)


class Follower:
    """Judges a list as it arrives, line by line.

    Pass each line to `read`, which returns the differences that this line shows, and call `end` after the last one. Unless `every` is set,
    lines after the first difference are not compared. `against` has the steps and queries that the list must have; without it, any are
    accepted. With `partial`, a step or query may have no answer. `differs` tells whether a difference was found. `lines` counts the lines that
    were read, `steps` the steps that were executed, and `answers` the answer lines that were compared.

    >>> follower = Follower(Kernel())
    >>> follower.read(b"space 2\\n")
    []
    >>> print(*follower.read(b"# space 7\\n"))
    line 2: space 2: expected space 1, found space 7
    """

    def __init__(self, kernel: Kernel, against: Optional[Iterable[str]] = None, partial: bool = False, every: bool = False) -> None:
        self.kernel, self.partial, self.every = kernel, partial, every
        self.lines = self.steps = self.answers = 0
        self.differs = False
        self._wanted: Optional[Deque[str]] = None if against is None else deque(against)
        self._request: Optional[_Request] = None
        #: The last call of each thread: the number of its line, and the line.
        self._calls: Dict[int, Tuple[int, str]] = {}

    def read(self, line: bytes) -> List[Report]:
        """Compares a line, with its newline. Raises Unread if it is not valid."""
        self.lines += 1
        if self._has_ended():
            return []
        text = whole_line(self.lines, line).decode("latin-1")
        if text.startswith("# "):
            return self._reported([self._compare(text[2:])])
        return self._reported(self._execute(text)) if _is_step(text) else []

    def end(self) -> List[Report]:
        """Compares the end of the list."""
        missing = Report(OtherStep(self.lines + 1, self._wanted[0], None)) if self._wanted else None
        return [] if self._has_ended() else self._reported([self._lack(), missing])

    def agreement(self) -> Agreement:
        """Returns the agreement of a list that has ended and in which nothing differs. Raises NoSteps or Uncompared if nothing was compared."""
        if self._request is None:
            raise NoSteps(self.lines + 1, "the list has no step or query")
        if self.answers == 0:
            raise Uncompared
        return Agreement(self.steps, self.answers)

    def _has_ended(self) -> bool:
        return self.differs and not self.every

    def _reported(self, found: Sequence[Optional[Report]]) -> List[Report]:
        """Returns what is reported of these differences: all, or the first."""
        reports = [report for report in found if report is not None]
        self.differs = self.differs or bool(reports)
        return reports if self.every else reports[:1]

    def _difference(self, request: _Request, number: int, found: Optional[str]) -> Report:
        """The answer line that is due next was not found at the line of this number."""
        expected = request.due[request.compared] if request.lacks() else None
        enabled = enabled_line(self.kernel) if expected == "refused K1" else None
        return Report(Difference(request.line, request.compared, expected, found, enabled, number), request.calls)

    def _compare(self, found: str) -> Optional[Report]:
        """Compares an answer with the line that is due."""
        request = self._request
        if request is None:
            raise Unread(self.lines, "is an answer without a step or query above it")
        agrees = request.lacks() and found in (UNKNOWN, request.due[request.compared])
        report = None if agrees else self._difference(request, self.lines, found)
        self.answers += found != UNKNOWN
        request.compared += 1
        request.last = self.lines
        return report

    def _lack(self) -> Optional[Report]:
        """Returns the difference if the last request lacks answers."""
        request = self._request
        if request is None or not request.lacks() or self.partial and not request.compared:
            return None
        return self._difference(request, request.last, None)

    def _other(self, text: str) -> Optional[Report]:
        """Returns the difference if another request is wanted next."""
        if self._wanted is None:
            return None
        expected = self._wanted.popleft() if self._wanted else None
        return None if text == expected else Report(OtherStep(self.lines, expected, text))

    def _execute(self, text: str) -> List[Optional[Report]]:
        """Executes a step or query, after which its answer is due."""
        lack, line = self._lack(), text.encode("latin-1")
        due = answers_to(self.kernel, line)
        if due is None:
            raise Unread(self.lines, "is not a valid step or query")
        name, threads = text.split()[0].encode(), threads_in(line)
        self._request = _Request(text, due, self.lines, tuple(self._calls[thread] for thread in threads if thread in self._calls))
        self.steps += name in _STEPS
        if name == b"start":
            self._calls[threads[0]] = (self.lines, text)
        return [lack, self._other(text)]


def judge(kernel: Kernel, lines: Iterable[bytes], against: Optional[Iterable[bytes]] = None, partial: bool = False) -> Verdict:
    """Judges a list: steps and queries, with the other kernel's answers below each, in lines that begin with '# '. Returns the first difference,
    or the agreement.

    `against` is a list with the steps and queries that the first one must have; without it, any are accepted. With `partial`, a step or query
    may have no answer.

    Raises Unread at the first line that is not valid: not a step or query, an answer without a step, a line that is not whole, or the end of a
    list without steps. Raises Uncompared if nothing differs, but no answer was compared.
    """
    follower = Follower(kernel, None if against is None else requests(against), partial)
    for line in lines:
        for report in follower.read(line):
            return report.difference
    for report in follower.end():
        return report.difference
    return follower.agreement()


class Unfit(Exception):
    """A command that cannot be used to shorten a list, with the reason."""


class Adapter:
    """A kernel behind a command of the shell, which reads a step list from standard input and writes the list with its answers.

    `frames` and `page_bytes` are those of the machine. If `partial`, steps and queries may have no answer. The command may take `seconds`
    for a list.
    """

    def __init__(self, command: str, frames: int, page_bytes: int, partial: bool = False, seconds: float = 60) -> None:
        self.command, self.sizes, self.partial, self.seconds = command, (frames, page_bytes), partial, seconds

    def answered(self, lines: Sequence[str]) -> bytes:
        """Returns what the command writes for the list of these lines. Raises Unfit if it fails."""
        given = "".join(f"{line}\n" for line in lines).encode("latin-1")
        try:
            done = subprocess.run(self.command, shell=True, input=given, stdout=subprocess.PIPE, timeout=self.seconds)
        except subprocess.TimeoutExpired:
            raise Unfit(f"the command took more than {self.seconds:g} seconds") from None
        if done.returncode:
            raise Unfit(f"the command ended with status {done.returncode}")
        return done.stdout

    def judge(self, lines: Sequence[str]) -> Tuple[Verdict, bytes]:
        """Runs the command on these lines, and judges what it writes against them. Returns the verdict, and the list with the answers."""
        text = self.answered(lines)
        with Kernel(*self.sizes) as kernel:
            return judge(kernel, text.splitlines(keepends=True), (f"{line}\n".encode("latin-1") for line in lines), self.partial), text

    def disagrees(self, steps: Sequence[str]) -> bool:
        """Returns whether an answer of the command to these lines differs from the proved kernel's. A list that the command does not answer
        counts as agreement, and so does one in which it changes the steps."""
        try:
            return bool(steps) and isinstance(self.judge(steps)[0], Difference)
        except (Unfit, Unread, Uncompared):
            return False


def shrink(adapter: Adapter, lines: Sequence[str]) -> List[str]:
    """Shortens a list on which the command disagrees. It still disagrees on the steps and queries that are returned, and agrees if any single
    one of them is left out.

    A shorter list may still exist, if several lines must be left out at once. The command must answer the same list in the same way each time.
    """
    kept = list(filter(_is_step, lines))
    size = max(len(kept) // 2, 1)
    while True:
        at, is_shorter = 0, False
        while at < len(kept):
            fewer = kept[:at] + kept[at + size :]
            if adapter.disagrees(fewer):
                kept, is_shorter = fewer, True
            else:
                at += size
        if size == 1 and not is_shorter:
            return kept
        size = max(size // 2, 1)


def unanswered(lines: Sequence[bytes]) -> List[str]:
    """Returns the lines of a list without its answers. Raises Unread for a list that `judge` does not read."""
    texts, has_step = [], False
    for number, line in enumerate(lines, 1):
        text = whole_line(number, line).decode("latin-1")
        has_step = has_step or _is_step(text)
        if not text.startswith("# "):
            texts.append(text)
        elif not has_step:
            raise Unread(number, "is an answer without a step or query above it")
    if not has_step:
        raise NoSteps(len(lines) + 1, "the list has no step or query")
    return texts
