"""The exceptions for refused calls and failed Ipcs."""
from __future__ import annotations

import enum
from typing import Optional, Sequence

from . import _library

# the refusals that carry a number
_DETAILED = {
    _library.L4_M3,
    _library.L4_M4,
    _library.L4_U1,
    _library.L4_C1,
    _library.L4_C2,
    _library.L4_C3,
    _library.L4_C4,
    _library.L4_L6,
    _library.L4_X1,
    _library.L4_X2,
    _library.L4_X3,
    _library.L4_O5,
}


class Refused(Exception):
    """A refused call. A refused step changes nothing.

    `code` is the code that the programs print, such as "K1", and `text` explains it. `detail` is the number that some refusals carry (an
    item, a word, an entry or a place of a list, from 0; a page; a seat; or a thread), and otherwise None.
    """

    code: str
    text: str
    detail: Optional[int]

    def __init__(self, refusal: int, detail: int = 0) -> None:
        self.code = _library.refusal_code(refusal)
        self.text = _library.refusal_text(refusal)
        self.detail = detail if refusal in _DETAILED else None
        super().__init__(refusal, detail)

    def __str__(self) -> str:
        return f"{self.code}: {self.text}" if self.detail is None else f"{self.code} {self.detail}: {self.text}"


class TooLong(Refused):
    """N4: every list of map items that moves exactly the region has more than 1,984 items. `pages` has the 1,985 pages that prove it."""

    pages: Sequence[int]

    def __init__(self, pages: Sequence[int]) -> None:
        super().__init__(_library.L4_N4)
        self.args = (pages,)
        self.pages = tuple(pages)


class BadPlan(Refused):
    """A script that is not a litmus test (S1 to S5, O1 to O8). `line` is the number of the refused line, from 1, or None if no line is
    `unordered` (O6)."""

    line: Optional[int]

    def __init__(self, refusal: int, detail: int = 0, line: int = 0) -> None:
        super().__init__(refusal, detail)
        self.args = (refusal, detail, line)
        self.line = line or None

    def __str__(self) -> str:
        return super().__str__() if self.line is None else f"line {self.line}: {super().__str__()}"


class CheckpointFault(enum.Enum):
    """What is wrong with bytes that cannot be read as a checkpoint."""

    #: They do not begin with `LCP4`.
    MAGIC = _library.L4_CHECKPOINT_MAGIC
    #: The version of the form is unknown.
    VERSION = _library.L4_CHECKPOINT_VERSION
    #: No kernel has this number of frames.
    FRAMES = _library.L4_CHECKPOINT_FRAMES
    #: No kernel has this page size.
    PAGE_SIZE = _library.L4_CHECKPOINT_PAGE_SIZE
    #: The number of entries exceeds 2^63.
    ENTRIES = _library.L4_CHECKPOINT_ENTRIES
    #: They end too early.
    CUT = _library.L4_CHECKPOINT_CUT
    #: The checksum is wrong.
    CHECKSUM = _library.L4_CHECKPOINT_CHECKSUM
    #: Bytes follow the checksum.
    EXTRA = _library.L4_CHECKPOINT_EXTRA
    #: No kernel could be built from the words.
    STATE = _library.L4_CHECKPOINT_STATE


_FAULTS = {
    CheckpointFault.MAGIC: "a checkpoint begins with LCP4",
    CheckpointFault.VERSION: "the version of the form must be 1",
    CheckpointFault.FRAMES: "the number of frames must be from 1 to 4,096",
    CheckpointFault.PAGE_SIZE: "the page size must be 4,096 or 1,024 bytes",
    CheckpointFault.ENTRIES: "the number of entries exceeds 2^63",
    CheckpointFault.CUT: "the checkpoint is cut off",
    CheckpointFault.CHECKSUM: "the checksum is not that of the checkpoint",
    CheckpointFault.EXTRA: "bytes follow the checkpoint",
    CheckpointFault.STATE: "no kernel could be built from the words",
}


class BadCheckpoint(Refused):
    """Bytes that cannot be read as a checkpoint (B6). `fault` is what is wrong with them, and `position` where, in bytes from 0."""

    fault: CheckpointFault
    position: int

    def __init__(self, fault: int, position: int) -> None:
        super().__init__(_library.L4_B6)
        self.args = (fault, position)
        self.fault = CheckpointFault(fault)
        self.position = position

    def __str__(self) -> str:
        return f"byte {self.position}: {_FAULTS[self.fault]}"


_ERRORS = {
    2: "the timeout of the send phase expired",
    3: "the timeout of the receive phase expired",
    4: "there is no thread to send to",
    5: "there is no thread to receive from",
    6: "the send phase was canceled",
    7: "the receive phase was canceled",
    8: "the message that was sent could not be delivered",
    9: "the message to this thread could not be delivered",
}


class IpcFailed(Exception):
    """An Ipc that failed with this ErrorCode (L4 X.2 manual, IPC: ErrorCode).

    - 2 and 3: the timeout of the send phase or of the receive phase expired.
    - 4 and 5: there is no thread to send to, or to receive from.
    - 6 and 7: the send phase or the receive phase was canceled.
    - 8 and 9: the message of this thread, or to this thread, could not be delivered: the receiver has no window for its items, the items
      conflict, or there was no memory.
    """

    error: int
    text: str

    def __init__(self, error: int) -> None:
        self.error = error
        self.text = _ERRORS.get(error, "the Ipc failed")
        super().__init__(error)

    def __str__(self) -> str:
        return f"ErrorCode {self.error}: {self.text}"
