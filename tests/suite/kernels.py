"""The slow model of tests/random as a kernel that is judged: as it is, and with one rule changed at a time."""
import pathlib
import sys

sys.path.insert(0, str(pathlib.Path(__file__).resolve().parents[1] / "random/model"))

from machine import Machine, Receiving, Sending
from steps import StepLines
from words import ANY_THREAD

FRAMES = 256
READ_AND_EXECUTE = 5


class Windows(Machine):
    """If the window is smaller than the fpage, the first part of the fpage moves, whatever the send base."""

    def used_moves(self, sender, receiver, items, window):
        small = window.log or 0
        items = [item._replace(send_base=0) if (item.fpage.log or 0) > small else item for item in items]
        return super().used_moves(sender, receiver, items, window)


class Items(Machine):
    """The receiver gets all rights of the sender's page, whatever rights the item has."""

    def used_moves(self, *rest):
        return [move._replace(rights=self.places[move.source].rights) for move in super().used_moves(*rest)]


class Entangled(Machine):
    """Two items may fill one page: only the later one is executed there."""

    def used_moves(self, *rest):
        return list({move.target: move for move in super().used_moves(*rest)}.values())


class Grants(Machine):
    """A granted page stays with the sender too."""

    def used_moves(self, *rest):
        return [move._replace(is_grant=False) for move in super().used_moves(*rest)]


class Unmap(Machine):
    """An Unmap takes the rights from the caller's own pages too, whatever bit 6 of the control word."""

    def unmap(self, space, with_self, fpages):
        super().unmap(space, True, fpages)


class Faults(Machine):
    """A fault on a page that is present ends at once, even if the page lacks a right that the access needs."""

    def start_fault(self, number, address, ip, access):
        shown = self.places.get((self.threads[number].space, address >> self.page_log))
        return super().start_fault(number, address, ip, access & shown.rights if shown else access)


class Sigma0(Machine):
    """sigma0 has its pages without the right to write."""

    def __init__(self, *rest):
        super().__init__(*rest)
        self.places = {place: mapping._replace(rights=READ_AND_EXECUTE) for place, mapping in self.places.items()}


class Timeouts(Machine):
    """A zero timeout of a receive phase never expires."""

    def can_expire(self, number):
        return super().can_expire(number) and isinstance(self.threads[number].phase, Sending)


class Deletion(Machine):
    """The pages of a space stay when its last thread is deleted."""

    def end_space(self, space):
        pass


class Delegation(Machine):
    """Only the first item of a message is executed."""

    def used_moves(self, sender, receiver, items, window):
        return super().used_moves(sender, receiver, items[:1], window)


class Open(Machine):
    """A receive from one thread accepts any sender, also the receive phase of a call."""

    def accepts(self, receiver, sender):
        return isinstance(self.threads[receiver].phase, Receiving)


class Calls(Machine):
    """The receive phase of a call accepts any sender."""

    def start_ipc(self, number, to, partner, timeouts, window, words):
        return super().start_ipc(number, to, ANY_THREAD if to and partner else partner, timeouts, window, words)


class Queue(Machine):
    """The last of several senders is received first."""

    def first_sender(self, receiver):
        self.queue.reverse()
        found = super().first_sender(receiver)
        self.queue.reverse()
        return found


class Words(Machine):
    """Words that the tag does not count are delivered too."""

    def start_ipc(self, number, to, partner, timeouts, window, words):
        ended = super().start_ipc(number, to, partner, timeouts, window, words)
        phase = self.threads[number].phase
        if isinstance(phase, Sending):
            self.threads[number].phase = phase._replace(message=phase.message._replace(words=tuple(words)))
        return ended


class Labels(Machine):
    """The label of a message is lost."""

    def transfer(self, sender, receiver):
        outcome, ended = super().transfer(sender, receiver)
        ended = [(n, (reply[0], reply[1] & 0xFFFF, *reply[2:]) if reply[0] == "ipc" else reply) for n, reply in ended]
        for number, reply in ended:
            self.threads[number].reply = reply
        return outcome, ended


class Partners(Machine):
    """A thread that sends to a deleted thread goes on waiting."""

    def start_delete(self, number, ident):
        waiting = {n: t.phase for n, t in self.threads.items() if isinstance(t.phase, Sending) and t.phase.partner == self.named(ident)}
        ended = super().start_delete(number, ident)
        for other in waiting.keys() & self.threads.keys():
            self.threads[other].phase = waiting[other]
        return [(n, reply) for n, reply in ended if n not in waiting]


class Begins(Machine):
    """If the send phase of a call fails since its partner is deleted, the receive phase begins all the same."""

    def start_delete(self, number, ident):
        waiting = {n: t.phase.then for n, t in self.threads.items() if isinstance(t.phase, Sending) and t.phase.partner == self.named(ident) and t.phase.then}
        ended = super().start_delete(number, ident)
        for other in waiting.keys() & self.threads.keys():
            self.threads[other].phase = waiting[other]
        return [(n, reply) for n, reply in ended if n not in waiting]


class Answers(Machine):
    """A thread goes on waiting for its pager after the pager's first answer."""

    def transfer(self, sender, receiver):
        phase = self.threads[receiver].phase if receiver in self.threads else None
        outcome, ended = super().transfer(sender, receiver)
        if phase.is_fault and phase.partner == self.threads[sender].ident:
            self.threads[receiver].phase = phase
        return outcome, ended


# the wrong kernels of each folder
WRONG = {
    "windows": [Windows],
    "items": [Items],
    "entangled": [Entangled],
    "grants": [Grants],
    "unmap": [Unmap],
    "faults": [Faults, Answers],
    "sigma0": [Sigma0],
    "timeouts": [Timeouts],
    "deletion": [Deletion, Partners],
    "delegation": [Delegation],
    "ipc": [Open, Calls, Queue, Words, Labels, Partners, Begins],
}
KERNELS = {kind.__name__.lower(): kind for kinds in WRONG.values() for kind in kinds}


def answered(text, wrong=None):
    """A list with the answers of the model, or of the wrong kernel of this name. Comments stay."""
    kernel, lines = StepLines(FRAMES), []
    if wrong:
        kernel.machine = KERNELS[wrong](FRAMES)
    for line in text.splitlines():
        if not line.startswith("# "):
            lines.append(line)
        if line.strip() and not line.startswith("#"):
            lines += [f"# {told}" for told in kernel.answer(line).splitlines()]
    return "".join(f"{line}\n" for line in lines)
