"""The messages that a pager and sigma0 receive."""
from __future__ import annotations

from dataclasses import dataclass
from typing import Any, Callable, Optional

from ._library import Forks, array, library, of_type
from .refusals import Refused
from .words import Fpage, Message, Rights


def _read(function: Callable[..., Any], message: Message) -> Any:
    """Reads a message with a library function. Returns None if the message is not of that protocol."""
    words = of_type(message, Message, "what is read").words
    Forks.check()
    told = function(array(words), len(words))
    if told.refusal:
        raise Refused(told.refusal, told.detail)
    return told if told.there else None


@dataclass(frozen=True)
class PageFault:
    """A page fault, as the kernel sends it to a pager (L4 X.2 manual, page fault protocol).

    `address` is the fault address and `ip` the address of the instruction that tried the access, both in bytes. `access` has the rights
    that the access needs.

    >>> fault = PageFault.read(Message.of(0xffe4, [0x5678, 0x400100]))
    >>> hex(fault.address), hex(fault.ip), str(fault.access)
    ('0x5678', '0x400100', 'r--')
    >>> PageFault.read(Message.of(7)) is None
    True
    """

    address: int
    ip: int
    access: Rights

    @classmethod
    def read(cls, message: Message) -> Optional[PageFault]:
        """Reads a message as a page fault. Returns None if it is not one.

        A page fault has a label of 0xffe0 to 0xffe7, two untyped words and no item. Words that are not a message are refused with M7, M1,
        M5, M2, M4 or M3.
        """
        told = _read(library.l4_read_fault, message)
        return told and cls(told.address, told.ip, Rights.of_bits(told.access))


@dataclass(frozen=True)
class FrameRequest:
    """A request to sigma0 for the frames of an fpage's pages (L4 X.2 manual, sigma0 protocol).

    The fpage has no rights. Attributes of 0 request the machine's default memory attributes.

    >>> FrameRequest.read(Message.of(0xffa0, [0x100c0, 0])).fpage
    <Fpage 0x000100c0: 4 KiB at 0x10000 --->
    """

    fpage: Fpage
    attributes: int

    @classmethod
    def read(cls, message: Message) -> Optional[FrameRequest]:
        """Reads a message as a request for frames. Returns None if it is not one.

        A request has the label 0xffa0, two untyped words, of which the first is an fpage, and no item. Words that are not a message are
        refused with M7, M1, M5, M2, M4 or M3.
        """
        told = _read(library.l4_read_request, message)
        return told and cls(Fpage.read(told.fpage), told.attributes)
