"""What a step list needs of a kernel besides the manual: rules of this profile, and pages that a kernel may keep for itself."""
import pathlib
import sys

sys.dont_write_bytecode = True
sys.path.insert(0, str(pathlib.Path(__file__).resolve().parents[1] / "tests/random/model"))

from steps import StepLines
from words import SPACE_LOG, Refused, read_fpage, read_message

FRAMES = 256
HIGH = 0xC0000000
# the needs by name, with what each says
NEEDS = {
    "entangled": "a message whose items conflict moves no page, and both calls fail",
    "fifo": "of several senders that a receiver accepts, the one whose send began first is received",
    "self-send": "a send to the calling thread fails at once",
    "high-pages": "threads can have pages at 0xc0000000 and above",
    "complete-space": "an item or an Unmap can name the complete space",
    "fault-calls": "a page fault needs any rights at once, and ends with the first answer or with an ErrorCode",
}
HEAD = "## needs "


def stated(text):
    """The needs that the heading of a list states: its comment lines before the first step."""
    found = set()
    for line in text.splitlines():
        if not line.startswith("##"):
            break
        if line.startswith(HEAD):
            found.update(line[len(HEAD) :].split())
    return found


def heading(needs):
    """The lines that state these needs, in the order of the table."""
    return [HEAD + need for need in NEEDS if need in needs]


def fpages_of(line, page_log):
    """The fpages that a call names, except its receive window; none if a word is refused."""
    tokens = line.split()
    numbers = [int(token, 0) for token in tokens[3:]]
    if tokens[2] == "unmap":
        return [read_fpage(word) for word in numbers[1 : 2 + (numbers[0] & 63)]]
    if tokens[2] == "ipc" and numbers[0]:
        try:
            return [item.fpage for item in read_message(tuple(numbers[4:])).items]
        except Refused:
            return []
    return []


# the accesses for which a processor raises a fault
SINGLE = (4, 2, 1)
READ = 4


def rights_at(model, number, address):
    """The rights of the page that a thread has at an address; none if there is no page."""
    mapping = model.machine.places.get((model.machine.threads[number].space, address >> model.machine.page_log))
    return mapping.rights if mapping else 0


def needs_fault_call(model, number, address, access):
    """Whether a processor would not raise this fault as the list does: x86 lets a thread read each page that it has."""
    rights = rights_at(model, number, address)
    return access not in SINGLE or access == READ and rights != 0 and not rights & READ


def has_ended_fault(model, answer):
    """Whether a fault fails, or ends although the access is still not allowed: a processor would repeat it."""
    for end in answer.splitlines():
        words = end.split()
        if words[1:2] == ["failed"]:
            return True
        if words[1:2] == ["answered"]:
            address, access = faults_of(model)[int(words[0])]
            if rights_at(model, int(words[0]), address) & access != access:
                return True
    return False


def faults_of(model):
    """The last fault of each thread: its address and access."""
    return model.__dict__.setdefault("faults", {})


def call_needs(model, line):
    """What a call needs by its words."""
    found, tokens = set(), line.split()
    for fpage in filter(None, fpages_of(line, model.machine.page_log)):
        if fpage.log == SPACE_LOG:
            found.add("complete-space")
        elif fpage.log is not None and fpage.base + (1 << fpage.log) > HIGH:
            found.add("high-pages")
    thread = model.machine.threads.get(int(tokens[1]))
    if tokens[2] == "ipc" and thread and int(tokens[3], 0) == thread.ident:
        found.add("self-send")
    if tokens[2] == "fault" and thread:
        address, access = int(tokens[3], 0), int(tokens[5], 0)
        faults_of(model)[int(tokens[1])] = (address, access)
        if address >= HIGH:
            found.add("high-pages")
        if needs_fault_call(model, int(tokens[1]), address, access):
            found.add("fault-calls")
    return found


def accepted(model, receiver):
    """The senders that a receiver accepts."""
    machine = model.machine
    return [sender for sender in machine.queue if machine.threads[sender].phase.partner == receiver and machine.accepts(receiver, sender)]


def step(model, line):
    """The answer to a line, and what the line needs."""
    found, words = set(), line.split()
    if words[0] == "start":
        found |= call_needs(model, line)
    elif words[0] == "transfer" and int(words[2]) in model.machine.threads and len(accepted(model, int(words[2]))) > 1:
        found.add("fifo")
    answer = model.answer(line)
    if answer.startswith("entangled"):
        found.add("entangled")
    if has_ended_fault(model, answer):
        found.add("fault-calls")
    if words[0] == "transfer" and any(space and page >= HIGH >> model.machine.page_log for space, page in model.machine.places):
        found.add("high-pages")
    return answer, found


def needs_of(text, frames=FRAMES):
    """What a list needs, found by executing it on the slow model."""
    model, found = StepLines(frames), set()
    for line in text.splitlines():
        if line.strip() and not line.startswith("#"):
            found |= step(model, line)[1]
    return found
