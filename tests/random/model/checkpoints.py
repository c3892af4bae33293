"""The file of a checkpoint: the words of a machine after a heading, and a checksum. It is written from the tables in the README of
l4_checkpoints, and shares no code with the crates."""
import hashlib
import struct

from machine import Receiving
from words import ANY_THREAD, SPACE_LOG

MAGIC, VERSION = b"LCP4", 1
# the windows in which a page fault's answer is received have all rights
FAULT_WINDOW = 0x17
OTHER_REPLIES = {"hit": 2, "answered": 3, "failed": 4, "unmapped": 5, "controlled": 6, "gone": 7}


def wide(number):
    return [number & 0xFFFFFFFF, number >> 32]


def counted(words):
    return [len(words), *words]


def fpage_word(fpage):
    if fpage.log is None:
        return 0
    return (0x10 if fpage.log == SPACE_LOG else fpage.base | fpage.log << 4) | fpage.rights


def window_word(phase):
    return FAULT_WINDOW if phase.is_fault else fpage_word(phase.window)


def reply_words(reply):
    if reply is None:
        return [0]
    if reply[0] == "ipc":
        _, tag, error, sender, words = reply
        return [1, tag, error, sender, *counted(words)]
    return [OTHER_REPLIES[reply[0]], *reply[1:]]


def receiving_words(machine, phase):
    source = [0] if phase.partner == ANY_THREAD else [1, machine.named(phase.partner)]
    return [8, int(phase.is_zero), int(phase.is_fault), window_word(phase), *source]


def sending_words(phase):
    then = [0]
    if phase.then:
        then = [1, phase.then.partner, int(phase.then.is_zero), window_word(phase.then)]
    items = [[2 if item.is_grant else 1, item.send_base, fpage_word(item.fpage)] for item in phase.message.items]
    return [9, phase.partner, int(phase.is_zero), int(phase.is_fault), *then, *counted(phase.message.words), len(items), *sum(items, [])]


def state_words(machine, thread):
    if thread.phase is None:
        return reply_words(thread.reply)
    if isinstance(thread.phase, Receiving):
        return receiving_words(machine, thread.phase)
    return sending_words(thread.phase)


def mapping_words(mapping):
    parent = [0] if mapping.parent is None else [1, mapping.parent[1], *wide(mapping.parent[0])]
    return [mapping.frame, mapping.rights, *parent]


def machine_words(machine):
    words = [0 if machine.page_log == 12 else 1, *wide(machine.next_space), *counted(machine.queue)]
    for number, thread in sorted(machine.threads.items()):
        words += [1, number, thread.ident, thread.pager, *wide(thread.space), *state_words(machine, thread)]
    words.append(0)
    for space in sorted({thread.space for thread in machine.threads.values()}):
        words += [1, *wide(space)]
        for page, mapping in machine.pages(space):
            words += [1, page, *mapping_words(mapping)]
        words.append(0)
    return [*words, 0]


def file_of(machine, frames, entries):
    """The checkpoint of a machine that booted with so many frames, and whose history has so many entries."""
    words = machine_words(machine)
    body = MAGIC + struct.pack("<7I", VERSION, frames, 1 << machine.page_log, *wide(entries), *wide(len(words))) + struct.pack(f"<{len(words)}I", *words)
    return body + hashlib.sha256(body).digest()
