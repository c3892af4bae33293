"""Replies: how calls ended."""
from __future__ import annotations

import enum
from dataclasses import dataclass
from typing import Optional, Tuple

from . import _library
from ._library import number
from ._shown import hexadecimal
from .refusals import IpcFailed
from .words import MAX_WORDS, Item, Message, Tag, ThreadId, items_of


class ReplyKind(enum.Enum):
    """How a call ended."""

    #: An Ipc ended with or without a message, or failed.
    IPC = _library.L4_REPLY_IPC
    #: A fault: the page is present with the rights that the access needs.
    HIT = _library.L4_REPLY_HIT
    #: A fault that the pager answered.
    ANSWERED = _library.L4_REPLY_ANSWERED
    #: A fault that failed.
    FAILED = _library.L4_REPLY_FAILED
    #: An Unmap was executed.
    UNMAPPED = _library.L4_REPLY_UNMAPPED
    #: A Create, SetPager or Delete was executed.
    CONTROLLED = _library.L4_REPLY_CONTROLLED
    #: The thread was deleted.
    GONE = _library.L4_REPLY_GONE


_ENDS = {
    ReplyKind.HIT: "the page is there with the rights that the access needs",
    ReplyKind.ANSWERED: "the pager has answered the fault",
    ReplyKind.FAILED: "the fault failed",
    ReplyKind.UNMAPPED: "the Unmap is done",
    ReplyKind.CONTROLLED: "the control of threads is done",
    ReplyKind.GONE: "the thread is gone",
}


@dataclass(frozen=True, repr=False)
class Reply:
    """The result of a thread's last call.

    `error` is the ErrorCode of an Ipc or a fault that failed, and otherwise 0. The other members are for an Ipc: `tag` is the message's tag
    (0x8000 if the call failed), `sender` is the sender's thread id or `ThreadId.NIL`, and `words` are the words after the tag, at most 63.

    >>> Reply(ReplyKind.IPC, 0x70001, 0, ThreadId.SIGMA0, (5,))
    <Reply ipc 0x00070001 0x00000005: message of thread 1: label 0x0007; 1 untyped>
    """

    kind: ReplyKind
    tag: int = 0
    error: int = 0
    sender: ThreadId = ThreadId.NIL
    words: Tuple[int, ...] = ()

    def check(self) -> Reply:
        """Returns the reply itself; raises IpcFailed if it has an ErrorCode."""
        if self.error:
            raise IpcFailed(self.error)
        return self

    @property
    def message(self) -> Message:
        """Returns the message, the tag first. Pass it to `Pager.answer` or `Sigma0.answer` to compute the answer."""
        return Message((self.tag, *self.words))

    @property
    def label(self) -> int:
        """Returns the message's label."""
        return self.message.label

    @property
    def untyped(self) -> Tuple[int, ...]:
        """Returns the message's untyped words, which come before its items."""
        return self.message.untyped

    @property
    def items(self) -> Tuple[Item, ...]:
        """Returns the message's items."""
        return self.message.items

    def line(self, thread: int) -> str:
        """Returns the line that `l4 run` prints for this reply of a thread, without its newline.

        >>> Reply(ReplyKind.IPC, 0x1, 0, ThreadId.SIGMA0, (5,)).line(3)
        '3 ipc 00000001 0 1 00000005'
        """
        words = self.words[:MAX_WORDS]
        given = _library.l4_reply(kind=self.kind.value, tag=self.tag, error=self.error, word_count=len(words))
        setattr(given, "from", self.sender.word)
        given.words[: len(words)] = words
        return _library.reply_text(number(thread, "a thread number"), given)

    def __str__(self) -> str:
        if self.error:
            return str(IpcFailed(self.error))
        if self.kind is not ReplyKind.IPC:
            return _ENDS[self.kind]
        return f"message of {self.sender}: {self.message}" if self.sender != ThreadId.NIL else "no message was received"

    def __repr__(self) -> str:
        words = f" {hexadecimal(self.message.words)}" if self.kind is ReplyKind.IPC else ""
        return f"<Reply {self.kind.name.lower()}{words}: {self}>"


def reply_of(told: _library.l4_reply) -> Optional[Reply]:
    """Returns the reply that the library reports, or None if there is none."""
    if told.kind == _library.L4_NONE:
        return None
    words = tuple(told.words[: told.word_count])
    return Reply(ReplyKind(told.kind), told.tag, told.error, ThreadId(getattr(told, "from")), words)
