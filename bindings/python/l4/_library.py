"""The functions of the C header, from the shared library libl4.so.

The structs, constants and functions are written by hand; tests/embedding/bindings compares them with what a C compiler reads in include/l4.h.
"""
from __future__ import annotations

import ctypes
import operator
import os
import threading
from ctypes import POINTER, Structure, c_char_p, c_size_t, c_uint32, c_uint64, c_void_p
from pathlib import Path
from typing import Any, Dict, List, Sequence, Tuple

L4_VERSION_MAJOR = 0
L4_VERSION_MINOR = 1
L4_VERSION_PATCH = 0
L4_VERSION = 1000

L4_PAGE_LOG = 12
L4_PAGE_BYTES = 4096
L4_SMALL_PAGE_LOG = 10
L4_SMALL_PAGE_BYTES = 1024
L4_MAX_THREADS = 64
L4_MAX_WORDS = 64
L4_MAX_ITEMS = 31
L4_MAX_PLAN_ITEMS = 1984
L4_MAX_PLAN_MESSAGES = 64
L4_TOO_MANY = 1985
L4_MAX_FRAMES = 4096
L4_SPACE_PAGES = 1048576
L4_SMALL_SPACE_PAGES = 4194304
L4_MAX_REGIONS = 64

L4_NILTHREAD = 0
L4_ANYTHREAD = 0xFFFFFFFF
L4_ZERO_TIMEOUT = 0x400

L4_READ = 4
L4_WRITE = 2
L4_EXECUTE = 1

L4_OK = 0
L4_B1 = 0x4231
L4_B2 = 0x4232
L4_B3 = 0x4233
L4_B4 = 0x4234
L4_B5 = 0x4235
L4_B6 = 0x4236
L4_B7 = 0x4237
L4_K1 = 0x4B31
L4_K2 = 0x4B32
L4_K3 = 0x4B33
L4_K4 = 0x4B34
L4_K6 = 0x4B36
L4_M1 = 0x4D31
L4_M2 = 0x4D32
L4_M3 = 0x4D33
L4_M4 = 0x4D34
L4_M5 = 0x4D35
L4_M6 = 0x4D36
L4_M7 = 0x4D37
L4_H1 = 0x4831
L4_H2 = 0x4832
L4_H3 = 0x4833
L4_H4 = 0x4834
L4_H5 = 0x4835
L4_H6 = 0x4836
L4_U1 = 0x5531
L4_U2 = 0x5532
L4_N1 = 0x4E31
L4_N2 = 0x4E32
L4_N3 = 0x4E33
L4_N4 = 0x4E34
L4_N5 = 0x4E35
L4_N6 = 0x4E36
L4_C1 = 0x4331
L4_C2 = 0x4332
L4_C3 = 0x4333
L4_C4 = 0x4334
L4_C5 = 0x4335
L4_C6 = 0x4336
L4_P1 = 0x5031
L4_P2 = 0x5032
L4_P3 = 0x5033
L4_P4 = 0x5034
L4_L1 = 0x4C31
L4_L3 = 0x4C33
L4_L4 = 0x4C34
L4_L6 = 0x4C36
L4_L7 = 0x4C37
L4_L8 = 0x4C38
L4_X1 = 0x5831
L4_X2 = 0x5832
L4_X3 = 0x5833
L4_S1 = 0x5331
L4_S2 = 0x5332
L4_S3 = 0x5333
L4_S4 = 0x5334
L4_S5 = 0x5335
L4_O1 = 0x4F31
L4_O2 = 0x4F32
L4_O3 = 0x4F33
L4_O4 = 0x4F34
L4_O5 = 0x4F35
L4_O6 = 0x4F36
L4_O7 = 0x4F37
L4_O8 = 0x4F38
L4_NO_MEMORY = 0x4E6F

L4_IPC = 1
L4_FAULT = 2
L4_UNMAP = 3
L4_CREATE = 4
L4_SET_PAGER = 5
L4_DELETE = 6

L4_STARTED = 1
L4_DELIVERED = 2
L4_NO_WINDOW = 3
L4_ENTANGLED = 4
L4_WANTS_MEMORY = 5
L4_EXPIRED = 6
L4_WAIT_ENDED = 7

L4_NONE = 0
L4_TRANSFER = 1
L4_EXPIRE = 2

L4_REPLY_IPC = 1
L4_REPLY_HIT = 2
L4_REPLY_ANSWERED = 3
L4_REPLY_FAILED = 4
L4_REPLY_UNMAPPED = 5
L4_REPLY_CONTROLLED = 6
L4_REPLY_GONE = 7

L4_STATE_ABSENT = 0
L4_STATE_NEW = 1
L4_STATE_RUNNING = 2
L4_STATE_SENDING = 3
L4_STATE_RECEIVING = 4

L4_AGREES = 1
L4_DIFFERS = 2
L4_NOT_ENABLED = 3

L4_START = 3
L4_TIMEOUT = 4
L4_CANCEL = 5

L4_ALL_ORDERS = 1
L4_MOST_STATES = 2
L4_LACKED_MEMORY = 3
L4_LACKED_HISTORY = 4
L4_CHECKPOINT_MAGIC = 1
L4_CHECKPOINT_VERSION = 2
L4_CHECKPOINT_FRAMES = 3
L4_CHECKPOINT_PAGE_SIZE = 4
L4_CHECKPOINT_ENTRIES = 5
L4_CHECKPOINT_CUT = 6
L4_CHECKPOINT_CHECKSUM = 7
L4_CHECKPOINT_EXTRA = 8
L4_CHECKPOINT_STATE = 9

L4_SIGMA0_ID = 0x4001
L4_ROOT_ID = 0x8001
L4_NIL_FPAGE = 0
L4_COMPLETE_FPAGE = 0x10

# the room for a text of the library and its 0: the longest text is the line of a reply, of 656 bytes
TEXT_ROOM = 657


def numbers(names: str) -> List[Tuple[str, Any]]:
    """Returns fields of 32 bits with these names."""
    return [(name, c_uint32) for name in names.split()]


class l4_kernel(Structure):
    _fields_ = [("hidden", c_void_p)]


class l4_call(Structure):
    _fields_ = numbers("kind to from timeouts acceptor address ip access control id space pager") + [("reserved", c_uint32 * 4)]


class l4_answer(Structure):
    _fields_ = numbers("refusal detail outcome ended_count") + [("ended", c_uint32 * L4_MAX_THREADS), ("reserved", c_uint32 * 2)]


class l4_step(Structure):
    _fields_ = numbers("refusal kind thread receiver outcome ended_count") + [("ended", c_uint32 * 2), ("reserved", c_uint32 * 2)]


class l4_entered(Structure):
    _fields_ = [("start", l4_answer), ("step_count", c_uint32)]


class l4_reply(Structure):
    _fields_ = numbers("refusal kind tag error from word_count") + [("words", c_uint32 * L4_MAX_WORDS), ("reserved", c_uint32 * 2)]


class l4_judgement(Structure):
    _fields_ = (
        numbers("refusal verdict")
        + [("place", c_uint64), ("length", c_uint64), ("enabled", l4_step)]
        + [("reserved", c_uint32 * 2)]
    )


class l4_space(Structure):
    _fields_ = numbers("refusal there") + [("space", c_uint64)]


class l4_thread(Structure):
    _fields_ = numbers("refusal there thread")


class l4_state(Structure):
    _fields_ = numbers("refusal state") + [("space", c_uint64)] + numbers("id pager partner expires fault") + [("reserved", c_uint32 * 3)]


class l4_page_size(Structure):
    _fields_ = numbers("refusal page_bytes")


class l4_mapping(Structure):
    _fields_ = numbers("refusal there frame rights has_parent parent_page") + [("parent_space", c_uint64), ("reserved", c_uint32 * 2)]


class l4_page(Structure):
    _fields_ = numbers("refusal there page")


class l4_count(Structure):
    _fields_ = numbers("refusal") + [("count", c_uint64)]


class l4_mapped(Structure):
    _fields_ = numbers("page frame rights has_parent") + [("parent_space", c_uint64)] + numbers("parent_page reserved")


class l4_place(Structure):
    _fields_ = [("space", c_uint64)] + numbers("page reserved")


class l4_fault(Structure):
    _fields_ = numbers("refusal detail there address ip access")


class l4_request(Structure):
    _fields_ = numbers("refusal detail there fpage attributes")


class l4_region(Structure):
    _fields_ = numbers("source target count rights")


class l4_pager(Structure):
    _fields_ = [("hidden", c_void_p)]


class l4_message(Structure):
    _fields_ = numbers("refusal detail word_count") + [("words", c_uint32 * L4_MAX_WORDS)]


class l4_sigma0(Structure):
    _fields_ = [("hidden", c_void_p)]


class l4_plan(Structure):
    _fields_ = numbers("refusal items messages")


class l4_part(Structure):
    _fields_ = numbers("refusal messages word_count page_count") + [
        ("words", c_uint32 * L4_MAX_WORDS),
        ("pages", c_uint32 * L4_MAX_ITEMS),
    ]


class l4_verdict(Structure):
    _fields_ = numbers("refusal detail")


class l4_lock(Structure):
    _fields_ = [("hidden", c_void_p)]


class l4_seated(Structure):
    _fields_ = numbers("refusal detail") + [("reply", l4_reply)]


class l4_entry(Structure):
    _fields_ = numbers("refusal seat kind thread receiver outcome ended_count word_count") + [
        ("ended", c_uint32 * L4_MAX_THREADS),
        ("words", c_uint32 * L4_MAX_WORDS),
        ("call", l4_call),
    ]


class l4_segment(Structure):
    _fields_ = [("hidden", c_void_p)]


class l4_seat(Structure):
    _fields_ = numbers("refusal there") + [("starts", c_uint64), ("receipts", c_uint64), ("kept_from", c_uint64)]


class l4_receipt(Structure):
    _fields_ = (
        numbers("refusal there")
        + [("start", c_uint64), ("end", c_uint64)]
        + numbers("word_count")
        + [("words", c_uint32 * L4_MAX_WORDS), ("call", l4_call), ("reply", l4_reply)]
    )


class l4_link(Structure):
    _fields_ = [("entry", c_uint64), ("source_space", c_uint64), ("target_space", c_uint64)] + numbers(
        "source_page target_page grant source_rights item_rights reserved"
    )


class l4_chain(Structure):
    _fields_ = numbers("refusal detail there") + [("count", c_uint64)]


class l4_orders(Structure):
    _fields_ = [("hidden", c_void_p)]


class l4_searched(Structure):
    _fields_ = numbers("refusal detail") + [("line", c_uint64)]


class l4_found(Structure):
    _fields_ = numbers("refusal ended") + [("outcomes", c_uint64), ("orders", c_uint64), ("states", c_uint64)]


class l4_checkpoint(Structure):
    _fields_ = numbers("refusal fault") + [("position", c_uint64), ("entries", c_uint64)] + numbers("frames reserved")


STRUCTS = [
    l4_kernel,
    l4_call,
    l4_answer,
    l4_step,
    l4_entered,
    l4_reply,
    l4_judgement,
    l4_space,
    l4_thread,
    l4_state,
    l4_page_size,
    l4_mapped,
    l4_mapping,
    l4_page,
    l4_count,
    l4_place,
    l4_fault,
    l4_request,
    l4_region,
    l4_pager,
    l4_message,
    l4_sigma0,
    l4_plan,
    l4_part,
    l4_verdict,
    l4_lock,
    l4_seated,
    l4_entry,
    l4_segment,
    l4_seat,
    l4_receipt,
    l4_link,
    l4_chain,
    l4_orders,
    l4_searched,
    l4_found,
    l4_checkpoint,
]

KERNEL = POINTER(l4_kernel)
MAPPED = POINTER(l4_mapped)
PLACES = POINTER(l4_place)
WORDS = POINTER(c_uint32)
PAGER = POINTER(l4_pager)
SIGMA0 = POINTER(l4_sigma0)
REGION = POINTER(l4_region)
LOCK = POINTER(l4_lock)
SEGMENT = POINTER(l4_segment)
LINKS = POINTER(l4_link)
ORDERS = POINTER(l4_orders)
LINES = POINTER(c_uint64)

# the result and the parameters of each function
FUNCTIONS: Dict[str, Tuple[Any, List[Any]]] = {
    "l4_version": (c_uint32, []),
    "l4_refusal_code": (c_size_t, [c_uint32, c_char_p, c_size_t]),
    "l4_refusal_text": (c_size_t, [c_uint32, c_char_p, c_size_t]),
    "l4_reply_text": (c_size_t, [c_uint32, POINTER(l4_reply), c_char_p, c_size_t]),
    "l4_step_text": (c_size_t, [POINTER(l4_step), c_char_p, c_size_t]),
    "l4_boot": (c_uint32, [KERNEL, c_uint32]),
    "l4_boot_sized": (c_uint32, [KERNEL, c_uint32, c_uint32]),
    "l4_copy": (c_uint32, [KERNEL, KERNEL]),
    "l4_free": (None, [KERNEL]),
    "l4_start": (l4_answer, [KERNEL, c_uint32, POINTER(l4_call), WORDS, c_size_t]),
    "l4_transfer": (l4_answer, [KERNEL, c_uint32, c_uint32]),
    "l4_expire": (l4_answer, [KERNEL, c_uint32]),
    "l4_timeout": (l4_answer, [KERNEL, c_uint32]),
    "l4_cancel": (l4_answer, [KERNEL, c_uint32]),
    "l4_enabled": (l4_step, [KERNEL]),
    "l4_next": (l4_step, [KERNEL]),
    "l4_enter": (l4_entered, [KERNEL, c_uint32, POINTER(l4_call), WORDS, c_size_t, POINTER(l4_step), c_size_t]),
    "l4_reply_of": (l4_reply, [KERNEL, c_uint32]),
    "l4_execute": (l4_count, [KERNEL, c_char_p, c_size_t, c_char_p, c_size_t]),
    "l4_judge": (l4_judgement, [KERNEL, c_char_p, c_size_t, c_char_p, c_size_t, c_char_p, c_size_t]),
    "l4_space_of": (l4_space, [KERNEL, c_uint32]),
    "l4_next_space": (l4_space, [KERNEL, c_uint64]),
    "l4_next_thread": (l4_thread, [KERNEL, c_uint32]),
    "l4_state_of": (l4_state, [KERNEL, c_uint32]),
    "l4_page_size_of": (l4_page_size, [KERNEL]),
    "l4_mapping_of": (l4_mapping, [KERNEL, c_uint64, c_uint32]),
    "l4_next_page": (l4_page, [KERNEL, c_uint64, c_uint32]),
    "l4_mappings": (l4_count, [KERNEL, c_uint64, c_uint32, MAPPED, c_size_t]),
    "l4_descendants": (l4_count, [KERNEL, c_uint64, c_uint32, PLACES, c_size_t]),
    "l4_read_fault": (l4_fault, [WORDS, c_size_t]),
    "l4_read_request": (l4_request, [WORDS, c_size_t]),
    "l4_pager_new": (c_uint32, [PAGER]),
    "l4_pager_new_sized": (c_uint32, [PAGER, c_uint32]),
    "l4_pager_free": (None, [PAGER]),
    "l4_pager_add": (c_uint32, [PAGER, REGION]),
    "l4_pager_find": (l4_page, [PAGER, c_uint32, c_uint32]),
    "l4_pager_answer": (l4_message, [PAGER, WORDS, c_size_t]),
    "l4_sigma0_new": (c_uint32, [SIGMA0, c_uint32]),
    "l4_sigma0_new_sized": (c_uint32, [SIGMA0, c_uint32, c_uint32]),
    "l4_sigma0_free": (None, [SIGMA0]),
    "l4_sigma0_answer": (l4_message, [SIGMA0, c_uint64, WORDS, c_size_t]),
    "l4_plan_region": (l4_plan, [REGION]),
    "l4_plan_region_sized": (l4_plan, [REGION, c_uint32]),
    "l4_plan_message": (l4_part, [REGION, c_uint32]),
    "l4_plan_message_sized": (l4_part, [REGION, c_uint32, c_uint32]),
    "l4_plan_pages": (c_uint32, [REGION, WORDS, c_size_t]),
    "l4_plan_pages_sized": (c_uint32, [REGION, WORDS, c_size_t, c_uint32]),
    "l4_check_plan": (l4_verdict, [REGION, WORDS, c_size_t, WORDS, c_size_t]),
    "l4_check_plan_sized": (l4_verdict, [REGION, WORDS, c_size_t, WORDS, c_size_t, c_uint32]),
    "l4_check_too_long": (l4_verdict, [REGION, WORDS, c_size_t]),
    "l4_check_too_long_sized": (l4_verdict, [REGION, WORDS, c_size_t, c_uint32]),
    "l4_lock_new": (c_uint32, [LOCK, c_uint32]),
    "l4_lock_new_sized": (c_uint32, [LOCK, c_uint32, c_uint32]),
    "l4_lock_free": (None, [LOCK]),
    "l4_lock_give": (c_uint32, [LOCK, c_uint32]),
    "l4_lock_enter": (l4_seated, [LOCK, c_uint32, POINTER(l4_call), WORDS, c_size_t]),
    "l4_lock_timeout": (c_uint32, [LOCK, c_uint32]),
    "l4_lock_cancel": (c_uint32, [LOCK, c_uint32]),
    "l4_lock_take": (l4_reply, [LOCK, c_uint32]),
    "l4_lock_length": (l4_count, [LOCK]),
    "l4_lock_kept_from": (l4_count, [LOCK]),
    "l4_lock_entry": (l4_entry, [LOCK, c_size_t]),
    "l4_lock_ended": (l4_count, [LOCK, c_size_t, WORDS, c_size_t]),
    "l4_lock_frames_of": (l4_count, [LOCK]),
    "l4_lock_hand_out": (c_uint32, [LOCK, SEGMENT]),
    "l4_segment_free": (None, [SEGMENT]),
    "l4_segment_first": (l4_count, [SEGMENT]),
    "l4_segment_length": (l4_count, [SEGMENT]),
    "l4_segment_entry": (l4_entry, [SEGMENT, c_size_t]),
    "l4_segment_bytes": (l4_count, [SEGMENT, c_char_p, c_size_t]),
    "l4_lock_seat_of": (l4_seat, [LOCK, c_uint32]),
    "l4_lock_receipt": (l4_receipt, [LOCK, c_uint32, c_size_t]),
    "l4_lock_provenance": (l4_chain, [LOCK, c_uint64, c_uint32, LINKS, c_size_t]),
    "l4_lock_check_provenance": (l4_verdict, [LOCK, c_uint64, c_uint32, LINKS, c_size_t]),
    "l4_lock_space_of": (l4_space, [LOCK, c_uint32]),
    "l4_lock_next_space": (l4_space, [LOCK, c_uint64]),
    "l4_lock_next_thread": (l4_thread, [LOCK, c_uint32]),
    "l4_lock_state_of": (l4_state, [LOCK, c_uint32]),
    "l4_lock_reply_of": (l4_reply, [LOCK, c_uint32]),
    "l4_lock_page_size_of": (l4_page_size, [LOCK]),
    "l4_lock_mapping_of": (l4_mapping, [LOCK, c_uint64, c_uint32]),
    "l4_lock_next_page": (l4_page, [LOCK, c_uint64, c_uint32]),
    "l4_lock_mappings": (l4_count, [LOCK, c_uint64, c_uint32, MAPPED, c_size_t]),
    "l4_lock_descendants": (l4_count, [LOCK, c_uint64, c_uint32, PLACES, c_size_t]),
    "l4_lock_copy": (c_uint32, [LOCK, KERNEL]),
    "l4_lock_close": (l4_verdict, [LOCK, WORDS, c_size_t]),
    "l4_orders_search": (l4_searched, [ORDERS, c_uint32, c_char_p, c_size_t, c_uint64]),
    "l4_orders_search_sized": (l4_searched, [ORDERS, c_uint32, c_char_p, c_size_t, c_uint64, c_uint32]),
    "l4_orders_found": (l4_found, [ORDERS]),
    "l4_orders_number": (l4_count, [ORDERS, c_char_p, c_size_t]),
    "l4_orders_answers": (l4_count, [ORDERS, c_size_t, c_char_p, c_size_t]),
    "l4_orders_witness": (l4_count, [ORDERS, c_size_t, c_char_p, c_size_t]),
    "l4_orders_lines": (l4_count, [ORDERS, c_size_t, LINES, c_size_t]),
    "l4_orders_broken": (l4_count, [ORDERS, c_size_t, c_char_p, c_size_t]),
    "l4_orders_free": (None, [ORDERS]),
    "l4_checkpoint_write": (l4_count, [KERNEL, c_uint32, c_size_t, c_char_p, c_size_t]),
    "l4_checkpoint_read": (l4_checkpoint, [KERNEL, c_char_p, c_size_t]),
}


# what to do if the library cannot be used
GET = "Run l4_build.py to copy the library beside the package's modules, or set L4_LIBRARY to its file"


def version_text(version: int) -> str:
    """Returns the text of a version number, such as "0.1.0"."""
    return f"{version // 1_000_000}.{version // 1_000 % 1_000}.{version % 1_000}"


def check_version(file: str, shared: ctypes.CDLL) -> None:
    """Raises ImportError if the library has another version than this module needs, since its structs may have another layout."""

    def line(number: int) -> int:
        return number - number % (1_000 if number < 1_000_000 else 1_000_000)

    function = getattr(shared, "l4_version", None)
    if function is None:
        raise ImportError(f"{file} is not the library of this package: it has no function l4_version. {GET}")
    function.restype, function.argtypes = c_uint32, []
    version = function()
    if line(version) != line(L4_VERSION) or version < L4_VERSION:
        raise ImportError(f"{file} is libl4 {version_text(version)}, but this package needs libl4 {version_text(L4_VERSION)}. {GET}")


def load() -> ctypes.CDLL:
    """Loads the shared library that L4_LIBRARY names, or else the one beside this file. Raises ImportError if it cannot be loaded, has another
    version, or lacks a function of the header."""
    file = os.environ.get("L4_LIBRARY") or str(Path(__file__).resolve().parent / "libl4.so")
    try:
        shared = ctypes.CDLL(file)
    except OSError as fault:
        raise ImportError(f"{file} can't be loaded: {fault}. {GET}") from fault
    check_version(file, shared)
    for name, (result, parameters) in FUNCTIONS.items():
        function = getattr(shared, name, None)
        if function is None:
            raise ImportError(f"{file} is not the library of this package: it has no function {name}. {GET}")
        function.restype = result
        function.argtypes = parameters
    return shared


library = load()


class Forks:
    """Detects a process that was forked while its parent had several threads. The library must not be called in such a process."""

    thread_count = 1
    among_threads = False

    @classmethod
    def before(cls) -> None:
        cls.thread_count = threading.active_count()

    @classmethod
    def after(cls) -> None:
        cls.among_threads = cls.among_threads or cls.thread_count > 1

    @classmethod
    def check(cls) -> None:
        """Raises RuntimeError in such a process."""
        if cls.among_threads:
            raise RuntimeError(
                "l4 cannot be used in this process, which was forked while its parent had several threads. Start the process with the "
                "spawn method, as multiprocessing.get_context('spawn') does, or fork before you start threads"
            )


if hasattr(os, "register_at_fork"):
    os.register_at_fork(before=Forks.before, after_in_child=Forks.after)


def number(value: int, what: str, bits: int = 32) -> int:
    """Returns the value if it fits this number of bits, since ctypes would cut off the higher bits. Raises TypeError for a value that is
    not a number, and ValueError for one that does not fit."""
    try:
        value = operator.index(value)
    except TypeError:
        raise TypeError(f"{what} is a number: {value!r}") from None
    if not 0 <= value < 1 << bits:
        raise ValueError(f"{what} is from 0 to {(1 << bits) - 1}: {value}")
    return value


def of_type(value: Any, kind: type, what: str) -> Any:
    """Returns the value; raises TypeError if it is not of this type."""
    if not isinstance(value, kind):
        raise TypeError(f"{what} is a {kind.__name__}: {value!r}")
    return value


def array(values: Sequence[int]) -> Any:
    """Returns the values as a C array, which has an address even if there are no values."""
    return (c_uint32 * max(len(values), 1))(*values)


def _text(function: Any, *values: Any) -> str:
    """Returns the text that a function of the library writes."""
    text = ctypes.create_string_buffer(TEXT_ROOM)
    function(*values, text, TEXT_ROOM)
    return text.value.decode()


def refusal_code(refusal: int) -> str:
    """Returns the printed code of a refusal, or an empty text for a number that is not a refusal."""
    return _text(library.l4_refusal_code, refusal)


def refusal_text(refusal: int) -> str:
    """Returns the text of a refusal, or an empty text for a number that is not a refusal."""
    return _text(library.l4_refusal_text, refusal)


def reply_text(thread: int, reply: l4_reply) -> str:
    """Returns the line that `l4 run` prints for a thread's reply."""
    return _text(library.l4_reply_text, thread, ctypes.byref(reply))


def step_text(step: l4_step) -> str:
    """Returns the line that `l4 run` prints for a step."""
    return _text(library.l4_step_text, ctypes.byref(step))


def library_version() -> Tuple[int, int, int]:
    """Returns the version of the library libl4: its major, minor and patch numbers."""
    version = library.l4_version()
    return version // 1_000_000, version // 1_000 % 1_000, version % 1_000
