"""An L4 X.2 kernel core in user space, whose every answer is proved.

Your program makes calls for many threads and executes steps; the kernel returns replies, mappings and refusals, by the rules of the L4
eXperimental Kernel Reference Manual, Version X.2 (32-bit, no string items). This package calls the library libl4 with ctypes.

A `Kernel` boots with two threads. sigma0 is thread 1 in space 0, where frame i is mapped at page i with all rights. root is thread 2 in
space 1, which is empty; root may create threads. A thread starts a `Call`. A call that must wait ends in a later step, and its result is a
`Reply`.

The package raises `Refused`, with a code and a text, if the kernel refuses a call. It raises ValueError for a number with too many bits or
a message with too many words, and TypeError for a value of the wrong type, at the place where you pass the value.

A caller is named by its thread number, and a partner by its `ThreadId`, as in the kernel's own words. A number in place of an id, or an id
in place of a number, raises TypeError. A page has 4,096 bytes. The pages of a space are numbered from 0 to 1,048,575; a parameter that is a
page number accepts 0 to 4,294,967,295, and a page beyond the space is never present. A space has a number of 64 bits, which is never used
again.

A parameter `page_bytes` chooses the page size: 4,096, which is the default, or 1,024. Small pages are numbered from 0 to 4,194,303. A
kernel and a table keep the size with which they were made. Make the tables and plans for a kernel with the kernel's `page_bytes`. Message
words are in bytes, so their form is the same in both sizes.

`Kernel`, `Pager`, `Sigma0` and `SharedKernel` own memory of the library. They free it when they are closed, or with the last reference to
them. Several threads may use one of these objects: its calls run one at a time. In a process that was forked while its parent had several
threads, every call of the library raises RuntimeError. In other forked processes everything works, and each process has its own copy of
every object.
"""
from . import draw
from ._library import library_version
from .calls import Call
from .judge import UNKNOWN, Agreement, Difference, Judge
from .kernel import Answer, Cancel, Done, Entered, Expire, Kernel, Outcome, Step, Transfer
from .outcomes import Orders, PlanOutcome, SearchEnd, orders
from .plans import Plan, Region
from .protocols import FrameRequest, PageFault
from .queries import Change, Mapping, Place, Thread, ThreadState
from .refusals import BadCheckpoint, BadPlan, CheckpointFault, IpcFailed, Refused, TooLong
from .replies import Reply, ReplyKind
from .shared import Entry, Link, Receipt, Seat, Segment, SharedKernel, Start
from .tables import Pager, Sigma0
from .words import (
    MAX_FRAMES,
    MAX_THREADS,
    MAX_WORDS,
    PAGE_BYTES,
    SMALL_PAGE_BYTES,
    SMALL_SPACE_PAGES,
    SPACE_PAGES,
    Fpage,
    Item,
    Message,
    Rights,
    Tag,
    ThreadId,
    Timeout,
    timeouts,
)

__version__ = "0.1.0"

__all__ = [
    "MAX_FRAMES",
    "MAX_THREADS",
    "MAX_WORDS",
    "PAGE_BYTES",
    "SMALL_PAGE_BYTES",
    "SMALL_SPACE_PAGES",
    "SPACE_PAGES",
    "UNKNOWN",
    "Agreement",
    "Answer",
    "BadCheckpoint",
    "BadPlan",
    "Call",
    "Cancel",
    "Change",
    "CheckpointFault",
    "Difference",
    "Done",
    "Entered",
    "Entry",
    "Expire",
    "Fpage",
    "FrameRequest",
    "IpcFailed",
    "Item",
    "Judge",
    "Kernel",
    "Link",
    "Mapping",
    "Message",
    "Orders",
    "Outcome",
    "PageFault",
    "Pager",
    "Place",
    "Plan",
    "PlanOutcome",
    "Receipt",
    "Refused",
    "Region",
    "Reply",
    "ReplyKind",
    "Rights",
    "SearchEnd",
    "Seat",
    "Segment",
    "SharedKernel",
    "Sigma0",
    "Start",
    "Step",
    "Tag",
    "Thread",
    "ThreadId",
    "ThreadState",
    "Timeout",
    "TooLong",
    "Transfer",
    "draw",
    "library_version",
    "orders",
    "timeouts",
]
