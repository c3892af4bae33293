"""The written form of segments, as the README of l4_segments describes it: from the lines of `l4 history --answers` to the bytes of a file.

It shares no code with the program. `pieces` names each piece of a file with its position, as a fault names it.
"""
import hashlib
import struct
from typing import NamedTuple

OUTCOMES = ["started", "done", "no-window", "entangled", "no-memory", "expired", "canceled"]
ENDS = {"timeout": 3, "cancel": 4}  # the steps that the environment executes, with their kinds: no seat is theirs
CALLS = ["ipc", "fault", "unmap", "create", "setpager", "delete"]
RIGHTS = {"r": 4, "w": 2, "x": 1}


class Entry(NamedTuple):
    """An entry: the number of the thread to whose call it belongs, its outcome, the threads whose calls ended, and the words of its step."""

    seat: int
    outcome: int
    ended: list
    step: list

    def words(self):
        return [self.seat, self.outcome, len(self.ended), *self.ended, *self.step]

    def begins(self):
        """Whether it can be the first of a segment: it starts a call, or ends a wait."""
        return self.step[0] in (0, *ENDS.values())


def step_words(line):
    """The words of a step, as `l4_steps` reads it."""
    kind, *tokens = line.split()
    if kind == "transfer":
        return [1, *map(int, tokens)]
    if kind == "expire":
        return [2, int(tokens[0])]
    if kind in ENDS:
        return [ENDS[kind], int(tokens[0])]
    number, call, *fields = tokens
    if call == "fault":
        fields[2] = str(sum(RIGHTS.get(letter, 0) for letter in fields[2])) if set(fields[2]) <= set("rwx-") else fields[2]
    return [0, int(number), CALLS.index(call), *(int(field, 0) for field in fields)]


def entries(text):
    """The entries of a history that `l4 history --answers` wrote."""
    found = []
    for line in text.splitlines():
        if not line.startswith("# "):
            step = step_words(line)
            seat = step[1] if step[0] == 0 else 0 if step[0] in ENDS.values() else found[-1].seat
            found.append(Entry(seat, 0, [], step))
        elif line[2:] in OUTCOMES:
            found[-1] = found[-1]._replace(outcome=OUTCOMES.index(line[2:]))
        else:
            found[-1].ended.append(int(line.split()[1]))
    return found


def as_bytes(words):
    return struct.pack(f"<{len(words)}I", *words)


def pieces(frames, page_bytes, first, given, magic=b"LSG4", version=1, count=None):
    """The pieces of a file: each its position and its bytes. The last one is the checksum."""
    count = len(given) if count is None else count
    parts = [magic, as_bytes([version]), as_bytes([frames]), as_bytes([page_bytes]), struct.pack("<QQ", first, count)]
    parts += [as_bytes([len(entry.words()), *entry.words()]) for entry in given]
    parts.append(hashlib.sha256(b"".join(parts)).digest())
    places = [sum(map(len, parts[:place])) for place in range(len(parts))]
    return list(zip(places, parts))


def segment(*words, **other):
    """The bytes of a file."""
    return b"".join(part for _, part in pieces(*words, **other))


def split(given, parts):
    """A history in so many parts, each of which begins with the start of a call or the end of a wait: the number of its first entry, and its
    entries."""
    starts = [place for place, entry in enumerate(given) if entry.begins()]
    cuts = sorted({0, *(starts[len(starts) * part // parts] for part in range(1, parts))}) if starts else [0]
    return [(begin, given[begin:end]) for begin, end in zip(cuts, [*cuts[1:], len(given)])]
