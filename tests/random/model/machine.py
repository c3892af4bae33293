"""The machine of kernel steps, slow and plain: threads, a queue of senders, and places with their parents as a map.

It is written from the definitions and shares no code with the crates.
"""
from typing import NamedTuple

from words import (
    ANY_THREAD,
    ERROR_TAG,
    FULL_RIGHTS,
    NIL_THREAD,
    PAGE_LOG,
    SPACE_LOG,
    Fpage,
    Message,
    Refused,
    moved_block,
    read_fpage,
    read_message,
    read_window,
)

SIGMA0_ID = 0x00004001
ROOT_ID = 0x00008001
ROOT_SPACE = 1
THREADS = 64
ZERO_TIMEOUT = 0x0400

# error codes of a failed phase
SEND_TIMEOUT, RECEIVE_TIMEOUT = 2, 3
NO_PARTNER_TO_SEND, NO_PARTNER_TO_RECEIVE = 4, 5
SEND_OVERFLOW, RECEIVE_OVERFLOW = 8, 9


class Mapping(NamedTuple):
    """The mapping of a place: its frame, its rights, and its parent place or None."""

    frame: int
    rights: int
    parent: tuple | None


class Receiving(NamedTuple):
    """A receive phase: from which id, or from any thread."""

    partner: int
    window: Fpage
    is_zero: bool
    is_fault: bool


class Sending(NamedTuple):
    """A send phase to a thread's number, and the receive phase after it or None."""

    partner: int
    message: Message
    is_zero: bool
    is_fault: bool
    then: Receiving | None


class Used(NamedTuple):
    """A used move of an item: the source page is present, and has a right in common with the item."""

    source: tuple
    target: tuple
    frame: int
    rights: int
    is_grant: bool


class Thread:
    """A thread: it runs if it has no phase."""

    def __init__(self, ident, space, pager):
        self.ident = ident
        self.space = space
        self.pager = pager
        self.phase = None
        self.reply = None


def ipc_reply(words=(0,), partner=NIL_THREAD):
    return ("ipc", words[0], 0, partner, words[1:])


def failed_reply(phase, error):
    """The reply of a call that fails in this phase."""
    return ("failed", error) if phase.is_fault else ("ipc", ERROR_TAG, error, NIL_THREAD, ())


class Machine:
    def __init__(self, frames, page_log=PAGE_LOG):
        self.page_log = page_log
        self.page_count = 1 << (SPACE_LOG - page_log)
        self.threads = {1: Thread(SIGMA0_ID, 0, NIL_THREAD), 2: Thread(ROOT_ID, ROOT_SPACE, SIGMA0_ID)}
        self.places = {(0, page): Mapping(page, FULL_RIGHTS, None) for page in range(frames)}
        self.queue = []
        self.next_space = 2

    # queries

    def named(self, ident):
        """Returns the number of the thread with this id, or None."""
        number = ident >> 14
        found = self.threads.get(number)
        return number if found is not None and found.ident == ident else None

    def accepts(self, receiver, sender):
        phase = self.threads[receiver].phase
        return isinstance(phase, Receiving) and phase.partner in (ANY_THREAD, self.threads[sender].ident)

    def first_sender(self, receiver):
        """Returns the first sender in the queue that sends to this thread and that the thread accepts."""
        for sender in self.queue:
            if self.threads[sender].phase.partner == receiver and self.accepts(receiver, sender):
                return sender
        return None

    def can_transfer(self, sender, receiver):
        return sender in self.threads and receiver in self.threads and self.first_sender(receiver) == sender

    def can_expire(self, number):
        thread = self.threads.get(number)
        if thread is None or thread.phase is None or not thread.phase.is_zero:
            return False
        if isinstance(thread.phase, Sending):
            return not self.can_transfer(number, thread.phase.partner)
        return self.first_sender(number) is None

    def enabled(self):
        for sender in self.queue:
            if self.can_transfer(sender, self.threads[sender].phase.partner):
                return ("transfer", sender, self.threads[sender].phase.partner)
        for number in sorted(self.threads):
            if self.can_expire(number):
                return ("expire", number)
        return None

    def pages(self, space):
        """Returns the present pages of a space in rising order, each with its mapping."""
        return sorted((place[1], mapping) for place, mapping in self.places.items() if place[0] == space)

    # steps: each returns its outcome and the calls that ended, in order

    def start(self, number, call):
        """Starts a call: ('ipc', to, from, timeouts, window, words), ('fault', address, ip, access), ('unmap', control, words),
        ('create', id, space, pager), ('setpager', id, pager) or ('delete', id)."""
        thread = self.threads.get(number)
        if thread is None:
            raise Refused("K2")
        if thread.phase is not None:
            raise Refused("K3")
        kind, *rest = call
        return "started", getattr(self, "start_" + kind)(number, *rest)

    def start_ipc(self, number, to, partner, timeouts, window, words):
        for is_there, timeout in ((to != NIL_THREAD, timeouts >> 16), (partner != NIL_THREAD, timeouts & 0xFFFF)):
            if is_there and timeout not in (0, ZERO_TIMEOUT):
                raise Refused("K4")
        message = read_message(words) if to != NIL_THREAD else None
        then = None
        if partner != NIL_THREAD:
            then = Receiving(partner, read_window(window), timeouts & 0xFFFF == ZERO_TIMEOUT, False)
        if message is None:
            return self.begin_receive(number, then) if then else [self.end(number, ipc_reply())]
        sending = Sending(self.named(to), message, timeouts >> 16 == ZERO_TIMEOUT, False, then)
        return self.begin_send(number, sending)

    def start_fault(self, number, address, ip, access):
        thread = self.threads[number]
        shown = self.places.get((thread.space, address >> self.page_log))
        if shown is not None and shown.rights & access == access:
            return [self.end(number, ("hit",))]
        message = Message(((0xFFE0 | access) << 16 | 2, address, ip), ())
        answer = Receiving(thread.pager, Fpage(0, SPACE_LOG, 0), False, True)
        return self.begin_send(number, Sending(self.named(thread.pager), message, False, True, answer))

    def start_unmap(self, number, control, words):
        count = (control & 63) + 1
        if len(words) < count:
            raise Refused("U2")
        fpages = [read_fpage(word) for word in words[:count]]
        for k, fpage in enumerate(fpages):
            if fpage is None:
                raise Refused("U1", k)
        self.unmap(self.threads[number].space, control & 64 != 0, fpages)
        return [self.end(number, ("unmapped",))]

    def start_create(self, number, ident, space, pager):
        self.control(number)
        if ident in (NIL_THREAD, ANY_THREAD) or ident >> 14 == 0 or ident & 63 == 0:
            raise Refused("H2")
        if ident >> 14 in self.threads:
            raise Refused("H3")
        if space != ident and self.named(space) is None:
            raise Refused("H4")
        if len(self.threads) == THREADS:
            raise Refused("H5")
        if space == ident:
            home = self.next_space
            self.next_space += 1
        else:
            home = self.threads[self.named(space)].space
        self.threads[ident >> 14] = Thread(ident, home, pager)
        return [self.end(number, ("controlled",))]

    def start_setpager(self, number, ident, pager):
        self.control(number)
        if self.named(ident) is None:
            raise Refused("H4")
        self.threads[self.named(ident)].pager = pager
        return [self.end(number, ("controlled",))]

    def start_delete(self, number, ident):
        self.control(number)
        victim = self.named(ident)
        if victim is None:
            raise Refused("H4")
        if victim in (1, 2, number):
            raise Refused("H6")
        ended = [self.end(number, ("controlled",))]
        for other in sorted(self.threads):
            phase = self.threads[other].phase
            if other == victim:
                if phase is not None:
                    ended.append(self.end(other, ("gone",)))
            elif isinstance(phase, Sending) and phase.partner == victim:
                ended.append(self.end(other, failed_reply(phase, NO_PARTNER_TO_SEND)))
            elif isinstance(phase, Receiving) and phase.partner == ident:
                ended.append(self.end(other, failed_reply(phase, NO_PARTNER_TO_RECEIVE)))
        space = self.threads.pop(victim).space
        if all(thread.space != space for thread in self.threads.values()):
            self.end_space(space)
        return ended

    def transfer(self, sender, receiver):
        if not self.can_transfer(sender, receiver):
            raise Refused("K1")
        sending, receiving = self.threads[sender].phase, self.threads[receiver].phase
        items = sending.message.items
        used = self.used_moves(sender, receiver, items, receiving.window)
        if items and receiving.window.log is None:
            outcome = "no-window"
        elif self.is_entangled(used):
            outcome = "entangled"
        else:
            outcome = "done"
        if outcome != "done":
            replies = failed_reply(sending, SEND_OVERFLOW), failed_reply(receiving, RECEIVE_OVERFLOW)
            return outcome, [self.end(sender, replies[0]), self.end(receiver, replies[1])]
        self.move(used)
        message = ipc_reply(sending.message.words, self.threads[sender].ident)
        received = self.end(receiver, ("answered",) if receiving.is_fault else message)
        if sending.then is None:
            return outcome, [self.end(sender, ipc_reply()), received]
        self.queue.remove(sender)
        return outcome, self.begin_receive(sender, sending.then) + [received]

    def expire(self, number):
        if not self.can_expire(number):
            raise Refused("K1")
        phase = self.threads[number].phase
        error = SEND_TIMEOUT if isinstance(phase, Sending) else RECEIVE_TIMEOUT
        return "expired", [self.end(number, failed_reply(phase, error))]

    def timeout(self, number):
        """The wait of a thread ends, as its timeout has passed by a clock outside the machine."""
        return self.cancel_wait(number, 1)

    def cancel(self, number):
        return self.cancel_wait(number, 3)

    def cancel_wait(self, number, error):
        """Ends the wait of a thread, for this reason (e of the ErrorCode), whatever its timeouts and its partner are."""
        thread = self.threads.get(number)
        if thread is None or thread.phase is None:
            raise Refused("K1")
        code = 2 * error + (0 if isinstance(thread.phase, Sending) else 1)
        return "canceled", [self.end(number, failed_reply(thread.phase, code))]

    # parts of steps

    def control(self, number):
        if self.threads[number].space != ROOT_SPACE:
            raise Refused("H1")

    def end(self, number, reply):
        """Ends the call of a thread: it runs, with this reply."""
        thread = self.threads[number]
        if isinstance(thread.phase, Sending) and number in self.queue:
            self.queue.remove(number)
        thread.phase = None
        thread.reply = reply
        return number, reply

    def begin_send(self, number, sending):
        if sending.partner is None or sending.partner == number:
            return [self.end(number, failed_reply(sending, NO_PARTNER_TO_SEND))]
        self.threads[number].phase = sending
        self.queue.append(number)
        return []

    def begin_receive(self, number, receiving):
        if receiving.partner != ANY_THREAD and self.named(receiving.partner) is None:
            return [self.end(number, failed_reply(receiving, NO_PARTNER_TO_RECEIVE))]
        self.threads[number].phase = receiving
        return []

    # places

    def ancestors(self, place):
        """The places from which this one descends."""
        above = self.places[place].parent
        while above is not None:
            yield above
            above = self.places[above].parent

    def used_moves(self, sender, receiver, items, window):
        used = []
        home, other = self.threads[sender].space, self.threads[receiver].space
        shown = self.pages(home) if items else []
        for item in items:
            block = moved_block(item, window, self.page_log)
            if block is None:
                continue
            first, target, count = block
            for page, mapping in shown:
                rights = mapping.rights & item.fpage.rights
                if first <= page < first + count and rights:
                    place = (other, target + page - first)
                    used.append(Used((home, page), place, mapping.frame, rights, item.is_grant))
        return used

    def is_entangled(self, used):
        targets = {move.target for move in used}
        if len(targets) < len(used):
            return True
        sources = [move.source for move in used]
        if any(move.is_grant and sources.count(move.source) > 1 for move in used):
            return True
        return any(place in targets for source in set(sources) for place in (source, *self.ancestors(source)))

    def move(self, used):
        """What a transfer does to the places, if it is not entangled."""
        targets = {move.target for move in used}
        gone = {p for p in self.places if p in targets or any(a in targets for a in self.ancestors(p))} if used else set()
        renamed = {move.source: move.target for move in used if move.is_grant}
        old = dict(self.places)
        for place in gone | set(renamed):
            del self.places[place]
        for place, mapping in self.places.items():
            if mapping.parent in renamed:
                self.places[place] = mapping._replace(parent=renamed[mapping.parent])
        cuts = {}
        for move in used:
            parent = move.source
            if move.is_grant:
                parent = old[move.source].parent
                parent = renamed.get(parent, parent)
                cuts[move.target] = old[move.source].rights & ~move.rights
            self.places[move.target] = Mapping(move.frame, move.rights, parent)
        if any(cuts.values()):
            self.take({p: union(cuts.get(above, 0) for above in self.ancestors(p)) for p in self.places})

    def unmap(self, space, with_self, fpages):
        named = {}
        for page, _ in self.pages(space):
            named[(space, page)] = union(fpage.rights for fpage in fpages if page in fpage.pages(self.page_log))
        if not any(named.values()):
            return
        lost = {}
        for place in self.places:
            own = named.get(place, 0) if with_self else 0
            lost[place] = own | union(named.get(above, 0) for above in self.ancestors(place))
        self.take(lost)

    def take(self, lost):
        """Takes the rights that each place loses. A place that is left without rights goes."""
        for place, rights in lost.items():
            left = self.places[place].rights & ~rights
            if left:
                self.places[place] = self.places[place]._replace(rights=left)
            else:
                del self.places[place]

    def end_space(self, space):
        gone = [p for p in self.places if p[0] == space or any(above[0] == space for above in self.ancestors(p))]
        for place in gone:
            del self.places[place]


def union(rights):
    taken = 0
    for each in rights:
        taken |= each
    return taken
