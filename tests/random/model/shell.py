"""The answers to a script, line by line: the commands, the served threads, sigma0's table and the tables of regions."""
import symbols
from machine import SIGMA0_ID, Machine
from steps import RIGHTS
from words import ANY_THREAD, ERROR_TAG, FULL_RIGHTS, NIL_THREAD, PAGE_LOG, SPACE_LOG, WORDS, Refused, read_fpage, write_fpage

ROOT = 2
NUMBERS = 1 << 18
COMPLETE_WINDOW = 0x10
NIL_ITEM = (0x80, 8, 0)
ONE_ITEM = 0x80
RECEIVE_AT_ONCE = 0x04000000
REGIONS = 64
MESSAGE_ITEMS = 31
PLAN_ITEMS = 64 * MESSAGE_ITEMS
ACTS = 256
LONGEST_LINE = 4096
NO_SPACE = (1 << 64) - 1
DIGITS = {10: set("0123456789"), 16: set("0123456789abcdefABCDEF")}
LONGEST_NUMBER = {10: 10, 16: 8}
NAMES = 64
LONGEST_NAME = 24
LETTERS = set("abcdefghijklmnopqrstuvwxyzABCDEFGHIJKLMNOPQRSTUVWXYZ")
WORDS_IN_PLACES = {"nil", "any", "new", "all", "none", "never", "zero", "tag", "map", "grant"} | set(RIGHTS.values())


def ident(number):
    return number * 16384 + 1


def fault_of(words, page_log):
    """Returns the access and the page of a fault message, or None if the message is not one."""
    label, counts = words[0] >> 16, words[0] & 0xFFF
    if counts == 2 and 0xFFE0 <= label <= 0xFFE7:
        return label & FULL_RIGHTS, words[1] >> page_log
    return None


class Sigma0:
    """sigma0's table: the space that owns each frame."""

    def __init__(self, frames, page_log):
        self.frames = frames
        self.page_log = page_log
        self.owners = {}

    def answer(self, space, words):
        fault = fault_of(words, self.page_log)
        if fault:
            asked = read_fpage(write_fpage(fault[1] << self.page_log, self.page_log, 0))
        elif words[0] == 0xFFA00002 and words[2] == 0:
            asked = read_fpage(words[1] & ~15)
        else:
            asked = None
        pages = asked.pages(self.page_log) if asked else range(0)
        if not pages or pages[-1] >= self.frames:
            return NIL_ITEM
        if any(self.owners.get(page, space) != space for page in pages):
            return NIL_ITEM
        self.owners.update((page, space) for page in pages)
        return (ONE_ITEM, asked.base | 8, write_fpage(asked.base, asked.log, FULL_RIGHTS))


def region_answer(regions, words, page_log):
    fault = fault_of(words, page_log)
    if fault:
        access, page = fault
        for first, source, count, rights in regions:
            if first <= page < first + count and rights & access == access:
                at = (source + page - first) << page_log
                return (ONE_ITEM, page << page_log | 8, write_fpage(at, page_log, rights))
    return NIL_ITEM


def plan_messages(source, target, count, rights, page_log):
    """Returns the messages that move exactly a region with the fewest map items: each moves the largest allowed block."""
    if count == 0:
        raise Refused("N1")
    pages = 1 << (SPACE_LOG - page_log)
    if source + count > pages or target + count > pages:
        raise Refused("N2")
    if rights == 0:
        raise Refused("N3")
    items = []
    page = source
    while page < source + count:
        log = 0
        while is_allowed(page, log + 1, source, target, count):
            log += 1
        items.append(((target + page - source) << page_log, write_fpage(page << page_log, log + page_log, rights)))
        page += 1 << log
        if len(items) > PLAN_ITEMS:
            raise Refused("N4")
    if count == pages:
        items = [(0, write_fpage(0, 1, rights))]
    return [message_words(items[first : first + MESSAGE_ITEMS]) for first in range(0, len(items), MESSAGE_ITEMS)]


def message_words(items):
    """The words of a message with these map items."""
    words = [2 * len(items) << 6]
    for k, (base, fpage) in enumerate(items):
        words += [base | 8 | (k + 1 < len(items)), fpage]
    return tuple(words)


def is_allowed(page, log, source, target, count):
    """Whether the 2^log pages from this one on lie in the region, and are a block at both ends."""
    there = target + page - source
    return page + (1 << log) <= source + count and page % (1 << log) == 0 and there % (1 << log) == 0


class BadTokens(Exception):
    """A token that cannot be read, or too few or too many tokens."""


class Tokens:
    """The tokens of a line after its command, taken one by one."""

    def __init__(self, tokens, page_log, names):
        self.left = list(tokens)
        self.page_log = page_log
        self.names = names

    def take(self):
        if not self.left:
            raise BadTokens
        return self.left.pop(0)

    def number(self, below=1 << 32):
        token = self.take()
        digits, base = (token[2:], 16) if token.startswith("0x") else (token, 10)
        if not 1 <= len(digits) <= LONGEST_NUMBER[base] or not set(digits) <= DIGITS[base]:
            raise BadTokens
        number = int(digits, base)
        if number >= below:
            raise BadTokens
        return number

    def thread(self):
        if self.left and self.left[0] in self.names:
            return self.names[self.take()]
        return self.number(NUMBERS)

    def new_name(self):
        token = self.take()
        letters_and_more = LETTERS | DIGITS[10] | {"-"}
        if not 1 <= len(token) <= LONGEST_NAME or token[0] not in LETTERS or not set(token) <= letters_and_more:
            raise BadTokens
        if token in COMMANDS or token in WORDS_IN_PLACES:
            raise BadTokens
        return token

    def word_or(self, names):
        if self.left and self.left[0] in names:
            return names[self.take()]
        return ident(self.thread())

    def who(self):
        return self.word_or({"nil": NIL_THREAD, "any": ANY_THREAD})

    def pager(self):
        return self.word_or({"nil": NIL_THREAD})

    def rights(self):
        token = self.take()
        found = [number for number, text in RIGHTS.items() if text == token]
        if not found:
            raise BadTokens
        return found[0]

    def symbol(self, read, *tokens):
        """What `read` makes of these tokens."""
        try:
            return read(*tokens)
        except symbols.Misspelled:
            raise BadTokens from None

    def window(self):
        return self.symbol(symbols.window, self.take(), self.page_log)

    def timeouts(self):
        return self.symbol(symbols.timeouts, self.take())

    def words(self):
        return tuple(self.symbol(symbols.words, self.left, self.page_log))

    def revoked(self):
        if not 1 <= len(self.left) <= 1 + WORDS:
            raise BadTokens
        return self.symbol(symbols.revoked, self.left, self.page_log)

    def end(self):
        if self.left:
            raise BadTokens


class Shell:
    """The machine of a script. `answer` returns the text of the answer to a line, a string with one character for each byte."""

    def __init__(self, frames, page_log=PAGE_LOG):
        self.machine = Machine(frames, page_log)
        self.sigma0 = Sigma0(frames, page_log)
        self.served = set()
        self.regions = {}
        self.names = {}
        self.steps = 0
        self.line = 0
        self.out = []

    def answer(self, line, is_cut=False):
        """The answer to a line, given without its newline."""
        self.line += 1
        self.out = []
        try:
            self.carry_out(line, is_cut)
        except BadTokens:
            self.refuse("S2")
        except Refused as refusal:
            self.refuse(refusal.text())
        return "".join(text + "\n" for text in self.out)

    def refuse(self, text):
        self.out.append(f"line {self.line} refused {text}")

    def carry_out(self, line, is_cut):
        if is_cut:
            raise Refused("S4")
        if len(line) > LONGEST_LINE:
            raise Refused("S3")
        tokens = [token for token in line.split(" ") if token]
        if not tokens or line.startswith("#"):
            return
        command = getattr(self, "do_" + tokens[0], None) if tokens[0] in COMMANDS else None
        if command is None:
            raise Refused("S1")
        command(Tokens(tokens[1:], self.machine.page_log, self.names))

    # commands

    def do_thread(self, tokens):
        number = tokens.thread()
        space = tokens.word_or({"new": ident(number)})
        pager = tokens.pager()
        tokens.end()
        self.enter(ROOT, ("create", ident(number), space, pager))

    def do_recv(self, tokens):
        number, partner, window = tokens.thread(), tokens.who(), tokens.window()
        tokens.end()
        self.enter(number, ("ipc", NIL_THREAD, partner, 0, window, ()))

    def do_send(self, tokens):
        number, to, words = tokens.thread(), tokens.who(), tokens.words()
        self.enter(number, ("ipc", to, NIL_THREAD, 0, 0, words))

    def do_ipc(self, tokens):
        number, to, partner, timeouts, window = tokens.thread(), tokens.who(), tokens.who(), tokens.timeouts(), tokens.window()
        self.enter(number, ("ipc", to, partner, timeouts, window, tokens.words()))

    def do_unmap(self, tokens):
        number = tokens.thread()
        self.enter(number, ("unmap", *tokens.revoked()))

    def do_setpager(self, tokens):
        number, pager = tokens.thread(), tokens.pager()
        tokens.end()
        self.enter(ROOT, ("setpager", ident(number), pager))

    def do_delete(self, tokens):
        number = tokens.thread()
        tokens.end()
        self.enter(ROOT, ("delete", ident(number)))

    def do_fault(self, tokens):
        number, address, ip, access = tokens.thread(), tokens.number(), tokens.number(), tokens.rights()
        tokens.end()
        self.enter(number, ("fault", address, ip, access))

    def do_delegate(self, tokens):
        number, to = tokens.thread(), tokens.who()
        messages = self.planned(tokens)
        if len(messages) > 1:
            raise Refused("N5", len(messages))
        self.enter(number, ("ipc", to, NIL_THREAD, 0, 0, messages[0]))

    def do_part(self, tokens):
        number, to, part = tokens.thread(), tokens.who(), tokens.number()
        messages = self.planned(tokens)
        if part >= len(messages):
            raise Refused("N6", len(messages))
        self.enter(number, ("ipc", to, NIL_THREAD, 0, 0, messages[part]))

    def planned(self, tokens):
        """The messages of the plan of the region that the line's last tokens name."""
        source, target, count, rights = tokens.number(), tokens.number(), tokens.number(), tokens.rights()
        tokens.end()
        return plan_messages(source, target, count, rights, self.machine.page_log)

    def do_serve(self, tokens):
        number = tokens.thread()
        tokens.end()
        self.enter(number, ("ipc", NIL_THREAD, ANY_THREAD, 0, 0, ()), serves=True)

    def do_region(self, tokens):
        number, first, source, count, rights = tokens.thread(), tokens.number(), tokens.number(), tokens.number(), tokens.rights()
        tokens.end()
        self.known(number)
        regions = self.regions.setdefault(number, [])
        if count == 0 or max(first, source) + count > self.machine.page_count or rights == 0:
            raise Refused("P4")
        if any(first < other[0] + other[2] and other[0] < first + count for other in regions):
            raise Refused("P1")
        if len(regions) == REGIONS:
            raise Refused("P3")
        regions.append((first, source, count, rights))
        self.out.append("region ok")

    def do_show(self, tokens):
        number, first, count = tokens.thread(), tokens.number(), tokens.number()
        tokens.end()
        shown = 0
        for page, mapping in self.machine.pages(self.known(number).space):
            if first <= page < first + count:
                self.out.append(f"page {page} frame {mapping.frame} {RIGHTS[mapping.rights]}")
                shown += 1
        self.out.append(f"shown {shown}")

    def do_parent(self, tokens):
        number, page = tokens.thread(), tokens.number()
        tokens.end()
        mapping = self.machine.places.get((self.known(number).space, page))
        if mapping is None:
            self.out.append("absent")
        elif mapping.parent is None:
            self.out.append("parent none")
        else:
            self.out.append(f"parent {mapping.parent[0]} {mapping.parent[1]}")

    def do_name(self, tokens):
        name, number = tokens.new_name(), tokens.thread()
        tokens.end()
        if name not in self.names and len(self.names) == NAMES:
            raise Refused("S5")
        self.names[name] = number
        self.out.append(f"named {number}")

    def do_reply(self, tokens):
        number = tokens.thread()
        tokens.end()
        thread = self.known(number)
        if thread.phase is not None:
            self.out.append(f"{number} waits")
        elif thread.reply is None:
            self.out.append(f"{number} none")
        else:
            self.out.append(f"{number} {reply_text(thread.reply)}")

    def do_timeout(self, tokens):
        self.end_wait("timeout", tokens)

    def do_cancel(self, tokens):
        self.end_wait("cancel", tokens)

    def do_unordered(self, tokens):
        tokens.end()

    def do_finally(self, tokens):
        tokens.end()

    def do_never(self, tokens):
        tokens.take()

    def do_always(self, tokens):
        self.do_never(tokens)

    def do_steps(self, tokens):
        tokens.end()
        self.out.append(f"steps {self.steps}")

    def known(self, number):
        thread = self.machine.threads.get(number)
        if thread is None:
            raise Refused("K2")
        return thread

    # the calls of a line, and of the served threads after it

    def enter(self, number, call, serves=False):
        self.waiting = number
        answer = self.machine.start(number, call)
        self.steps += 1
        self.tell(answer)
        if serves:
            self.served.add(number)
        if call[0] == "delete":
            self.forget_ended()
        self.go_on()
        self.serve()
        if self.waiting is not None:
            self.out.append(f"{number} waits")

    def end_wait(self, kind, tokens):
        """Ends the wait of a thread by a step that no thread's call begins."""
        number = tokens.thread()
        tokens.end()
        self.waiting = None
        answer = getattr(self.machine, kind)(number)
        self.steps += 1
        self.out.append(f"{kind} {number}")
        self.tell(answer)
        self.serve()

    def serve(self):
        """The served threads act, one after another."""
        for _ in range(ACTS):
            running = [n for n in sorted(self.served) if self.machine.threads[n].phase is None]
            if not running:
                break
            try:
                answer = self.machine.start(running[0], self.act(running[0]))
            except Refused as refusal:
                self.out.append(f"{running[0]} refused {refusal.text()}")
                break
            self.steps += 1
            self.tell(answer)
            self.go_on()

    def act(self, number):
        """The call that a served thread enters."""
        reply = self.machine.threads[number].reply
        if reply is None or reply[0] != "ipc" or reply[1] & ERROR_TAG:
            return ("ipc", NIL_THREAD, ANY_THREAD, 0, 0, ())
        _, tag, _, sender, words = reply
        message = (tag, *words)
        if self.machine.threads[number].ident == SIGMA0_ID:
            there = self.machine.named(sender)
            space = NO_SPACE if there is None else self.machine.threads[there].space
            answer = self.sigma0.answer(space, message)
        else:
            answer = region_answer(self.regions.get(number, []), message, self.machine.page_log)
        return ("ipc", sender, ANY_THREAD, RECEIVE_AT_ONCE, 0, answer)

    def go_on(self):
        while (step := self.machine.enabled()) is not None:
            kind, *numbers = step
            outcome, ended = getattr(self.machine, kind)(*numbers)
            self.steps += 1
            self.out.append(" ".join(map(str, step)) + (f" {outcome}" if kind == "transfer" else ""))
            self.tell((outcome, ended))

    def tell(self, answer):
        for number, reply in answer[1]:
            self.out.append(f"{number} {reply_text(reply)}")
            if number == self.waiting:
                self.waiting = None

    def forget_ended(self):
        self.served &= set(self.machine.threads)
        self.regions = {number: regions for number, regions in self.regions.items() if number in self.machine.threads}

    def questions(self):
        """Returns the lines that query everything that is visible."""
        lines = ["steps", *(f"reply {number}" for number in sorted(self.machine.threads))]
        told = set()
        for number in sorted(self.machine.threads):
            space = self.machine.threads[number].space
            if space not in told:
                told.add(space)
                lines.append(f"show {number} 0 {self.machine.page_count}")
                lines += [f"parent {number} {page}" for page, _ in self.machine.pages(space)]
        return lines


COMMANDS = {name[3:] for name in dir(Shell) if name.startswith("do_")}


def reply_text(reply):
    kind, *rest = reply
    if kind == "ipc":
        tag, error, partner, words = rest
        whose = "nil" if partner == NIL_THREAD else str(partner >> 14)
        return f"ipc {tag:08x} {error} {whose}" + "".join(f" {word:08x}" for word in words)
    texts = {"hit": "fault hit", "answered": "fault answered", "failed": "fault failed", "unmapped": "unmap ok", "controlled": "control ok", "gone": "gone"}
    return " ".join([texts[kind], *map(str, rest)])
