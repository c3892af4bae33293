"""A run of a step list, for the lab: the history in files of segments, step by step."""
from __future__ import annotations

from typing import Dict, Iterable, Iterator, List, Set, Tuple

from .calls import Call
from .kernel import Cancel, Done, Kernel, Transfer
from .lists import execute, step_in
from .refusals import Refused
from .replies import Reply, ReplyKind
from .scripts import Event
from .segments import SavedSegment, check, join, read
from .shared import AnyStep, Start
from .tables import Pager
from .words import PAGE_BYTES, Message


def is_step_list(text: str) -> bool:
    """Returns whether a text is a step list: its first line that is not empty or a comment begins with `start`. No command of a script does."""
    lines = (line.split() for line in text.split("\n") if not line.startswith("#"))
    return next((tokens for tokens in lines if tokens), [""])[0] == "start"


def read_history(files: Iterable[str], most_bytes: int) -> Tuple[str, SavedSegment, int]:
    """Returns the history in files of segments as a step list, with the kernel's parameters, and the number of all its steps.

    If the list is longer than `most_bytes`, only its first lines are returned. These steps are executed again. Raises BadSegments if a file
    is wrong, if the segments are not one history from boot, or at the first of these steps that the kernel answers otherwise.
    """
    segments: List[SavedSegment] = []
    for name in files:
        with open(name, "rb") as stream:
            segments += read(stream.read())
    history = join(segments)
    lines, size = [], 0
    for entry in history.entries:
        line = f"{entry}\n"
        size += len(line)
        if size > most_bytes:
            break
        lines.append(line)
    shown = SavedSegment(history.frames, history.page_bytes, 0, history.entries[: len(lines)])
    check(shown)
    return "".join(lines), shown, len(history.entries)


class StepList:
    """A run of a step list, line by line, in the form of the run of a `Script`.

    >>> steps = StepList(256)
    >>> lines = "start 2 ipc 0 0xffffffff 0 0\\nstart 1 ipc 0x8001 0 0 0 0x70000\\ntransfer 1 2\\n"
    >>> [event.texts for event in steps.run(lines)]
    [(), (), ('transfer 1 2 done', '1 ipc 00000000 0 nil', '2 ipc 00070000 0 1')]
    """

    def __init__(self, frames: int = 256, page_bytes: int = PAGE_BYTES) -> None:
        self.kernel = Kernel(frames, page_bytes)
        self.page_bytes = page_bytes
        self.pagers: Dict[int, Pager] = {}
        self.served: Set[int] = set()
        self.names: Dict[str, int] = {}
        # the call that each thread started last
        self._calls: Dict[int, Call] = {}

    def run(self, text: str) -> Iterator[Event]:
        """Yields the events of the lines of a text. Queries leave none."""
        for number, line in enumerate(text.split("\n"), 1):
            try:
                step = step_in(line.encode("utf-8", "surrogateescape"))
                if step is not None:
                    yield self._execute(number, step)
            except ValueError:
                yield Event(number, (f"line {number} refused B5",))
            except Refused as refused:
                yield Event(number, (f"line {number} refused {refused.code}",))

    def _execute(self, number: int, step: AnyStep) -> Event:
        """Executes a step of the line with this number."""
        answer = execute(self.kernel, step)
        ended = tuple((self.kernel.reply(thread) or Reply(ReplyKind.GONE)).line(thread) for thread in answer.ended)
        if isinstance(step, Start):
            self._calls[step.thread] = step.call
            return Event(number, ended, step.thread, step.call, is_step=True)
        if isinstance(step, Cancel):
            return Event(number, (step.line, *ended), step.thread, cancel=step, is_step=True)
        texts = (Done(step, answer.outcome, answer.ended).line, *ended)
        if isinstance(step, Transfer):
            return Event(number, texts, transfer=step, message=self._sent(step), is_step=True)
        return Event(number, texts, step.thread, is_step=True)

    def _sent(self, step: Transfer) -> Message:
        """Returns the message that was sent: the message of an Ipc's call, or the one that a pager received for a fault."""
        reply, words = self.kernel.reply(step.receiver), self._calls[step.sender].words
        return Message(words) if words or reply is None else reply.message
