"""Files of segments, as `l4 run --history-to` writes them. The README of the crate l4_segments has their form.

The program's reader is proved; this one is only tested.
"""
from __future__ import annotations

import hashlib
import struct
from dataclasses import dataclass
from typing import Iterable, List, Tuple

from .calls import Call
from .kernel import Cancel, Expire, Kernel, Outcome, Transfer
from .lists import execute
from .refusals import Refused
from .shared import AnyStep, Entry, Start
from .words import MAX_FRAMES, PAGE_BYTES, SMALL_PAGE_BYTES, Message, Rights, ThreadId

_HEADING = struct.Struct("<4sIIIQQ")
_DIGEST = 32
_MOST = 1 << 63
_OUTCOMES = (
    Outcome.STARTED,
    Outcome.DELIVERED,
    Outcome.NO_WINDOW,
    Outcome.ENTANGLED,
    Outcome.WANTS_MEMORY,
    Outcome.EXPIRED,
    Outcome.WAIT_ENDED,
)


class BadSegments(Exception):
    """A file that is not one of segments, or segments that are not one history. `args` has the position and the reason."""

    def __str__(self) -> str:
        return "{}: {}".format(*self.args)


@dataclass(frozen=True)
class SavedSegment:
    """A segment that was read from a file: the number of frames and the page size of its kernel, the number of its first entry since boot,
    and its entries."""

    frames: int
    page_bytes: int
    first: int
    entries: Tuple[Entry, ...]


def _call(kind: int, fields: Tuple[int, ...]) -> Call:
    """Returns the call of this kind. Raises ValueError if its fields are not those of such a call."""
    if kind == 0 and len(fields) >= 4:
        return Call.ipc(ThreadId(fields[0]), ThreadId(fields[1]), fields[2], fields[3], Message(fields[4:]))
    if kind == 1 and len(fields) == 3 and fields[2] < 8:
        return Call.fault(fields[0], fields[1], Rights.of_bits(fields[2]))
    if kind == 2 and len(fields) >= 1:
        return Call.unmap_words(fields[0], fields[1:])
    if kind == 3 and len(fields) == 3:
        return Call.create(*map(ThreadId, fields))
    if kind == 4 and len(fields) == 2:
        return Call.set_pager(*map(ThreadId, fields))
    if kind == 5 and len(fields) == 1:
        return Call.delete(*map(ThreadId, fields))
    raise ValueError


def _step(words: Tuple[int, ...]) -> AnyStep:
    """Returns the step that these words are. Raises ValueError if they are none."""
    if len(words) >= 3 and words[0] == 0:
        return Start(words[1], _call(words[2], words[3:]))
    if len(words) == 3 and words[0] == 1:
        return Transfer(*words[1:])
    if len(words) == 2 and words[0] == 2:
        return Expire(words[1])
    if len(words) == 2 and words[0] in (3, 4):
        return Cancel(words[1], timed_out=words[0] == 3)
    raise ValueError


def _entry(words: Tuple[int, ...]) -> Entry:
    """Returns the entry that these words are. Raises ValueError if they are none."""
    if len(words) < 3 or words[1] >= len(_OUTCOMES) or words[2] > len(words) - 3:
        raise ValueError
    end = 3 + words[2]
    return Entry(words[0], _step(words[end:]), _OUTCOMES[words[1]], words[3:end])


class _Reader:
    """Reads the bytes of a file, one piece after another."""

    def __init__(self, data: bytes) -> None:
        self.data = data
        self.at = 0

    def take(self, count: int) -> bytes:
        """Returns the next bytes, this many."""
        if len(self.data) - self.at < count:
            raise BadSegments(f"byte {self.at}", "F8: the segment is cut off")
        self.at += count
        return self.data[self.at - count : self.at]

    def segment(self) -> SavedSegment:
        """Reads a segment."""
        begin = self.at
        front = self.data[begin : begin + 4]
        if front != b"LSG4"[: len(front)]:
            raise BadSegments(f"byte {begin}", "F1: the segment does not begin with LSG4")
        _, version, frames, page_bytes, first, count = _HEADING.unpack(self.take(_HEADING.size))
        for is_right, offset, why in (
            (version == 1, 4, "F2: the version of the file is not 1"),
            (1 <= frames <= MAX_FRAMES, 8, "F3: the number of frames is not in 1..=4096"),
            (page_bytes in (PAGE_BYTES, SMALL_PAGE_BYTES), 12, "F4: the page size is neither 4096 nor 1024 bytes"),
            (first + count <= _MOST, 16, "F5: the number of an entry would exceed 2^63"),
        ):
            if not is_right:
                raise BadSegments(f"byte {begin + offset}", why)
        entries = tuple(self.entry() for _ in range(count))
        digest, place = hashlib.sha256(self.data[begin : self.at]).digest(), self.at
        if self.take(_DIGEST) != digest:
            raise BadSegments(f"byte {place}", "F7: the checksum is not that of the segment")
        return SavedSegment(frames, page_bytes, first, entries)

    def entry(self) -> Entry:
        """Reads an entry."""
        begin = self.at
        (count,) = struct.unpack("<I", self.take(4))
        words = struct.unpack(f"<{count}I", self.take(4 * count))
        try:
            return _entry(words)
        except ValueError:
            raise BadSegments(f"byte {begin}", "F6: the words are not those of an entry") from None


def read(data: bytes) -> List[SavedSegment]:
    """Returns the segments whose files, one after another, are these bytes: one or more. Raises BadSegments with the position of the first
    piece that is wrong."""
    reader = _Reader(data)
    segments = [reader.segment()]
    while reader.at < len(data):
        segments.append(reader.segment())
    return segments


def join(segments: Iterable[SavedSegment]) -> SavedSegment:
    """Returns the history from boot that these segments are, as one segment. Raises BadSegments if they are of kernels with other parameters,
    if the first one does not begin at boot, or if another one does not begin where the one before it ended."""
    frames = page_bytes = 0
    entries: List[Entry] = []
    for place, segment in enumerate(segments):
        if place and segment.frames != frames:
            raise BadSegments(f"segment {place}", "J1: the number of frames is not that of the segments before it")
        if place and segment.page_bytes != page_bytes:
            raise BadSegments(f"segment {place}", "J2: the page size is not that of the segments before it")
        if segment.first != len(entries):
            raise BadSegments(f"segment {place}", f"J3: the segment does not begin with the next entry, number {len(entries)}")
        frames, page_bytes = segment.frames, segment.page_bytes
        entries += segment.entries
    return SavedSegment(frames, page_bytes, 0, tuple(entries))


def check(history: SavedSegment) -> None:
    """Executes the entries of a history again, from boot. Raises BadSegments at the first one that the kernel refuses or answers otherwise."""
    with Kernel(history.frames, history.page_bytes) as kernel:
        for place, entry in enumerate(history.entries):
            try:
                answer = execute(kernel, entry.step)
            except Refused as refused:
                raise BadSegments(f"entry {place}", f"the kernel refuses this step: {refused}") from None
            if (answer.outcome, answer.ended) != (entry.outcome, entry.ended):
                raise BadSegments(f"entry {place}", "J5: the kernel gives this step another answer")
