"""Makes random lists of kernel steps and random scripts that reach deep states: chains, wide trees, grants under grants, entangled
messages, long queues, deletions under waiting partners, served faults and delegations.

A maker looks at the model, so most of what it makes can be done; some of it can't, and some can't even be read.
"""
import symbols
from machine import ROOT_SPACE, Sending
from words import ANY_THREAD

ROOT = 2
COMPLETE = 0x10
NEVER, SEND_AT_ONCE, RECEIVE_AT_ONCE = 0, 0x04000000, 0x0400
LONGEST_MESSAGE = 31
# how many tokens after a command's name stand for threads
THREAD_PLACES = {"thread": 3, "setpager": 2, "delete": 1, "recv": 2, "send": 2, "ipc": 3, "delegate": 2, "part": 2, "unmap": 1, "show": 1, "parent": 1,
                 "fault": 1, "region": 1, "serve": 1, "reply": 1, "timeout": 1, "cancel": 1}
COMMON_NAMES = ["pager", "a", "B", "worker-1", "Worker-1", "x" * 24]
OTHER_NAMES = ["nil", "any", "new", "all", "none", "never", "zero", "tag", "map", "grant", "rwx", "r--", "-w-", "send", "name", "reply", "steps", "x" * 25, "4", "a_b",
               "1a", "a:b", "-", "a-", "sends", "Nil", "r-w", "rwxr", "sigma0", "root", "timeout", "cancel"]
MOST_REFUSALS = 30


def ident(number):
    return number * 16384 + 1


def pools(pages):
    """Returns where pages are placed that are passed on: at the ends of a space with this number of pages, across a border between two
    tables of 2,048 pages, and across a border between groups of 64 or 1,024 pages."""
    return [range(0, 12), range(0, 40), range(2040, 2060), range(pages - 16, pages), range(4, 9), range(60, 68), range(1020, 1028)]


class Maker:
    """The common part of the generators of step lists and scripts: words, partners, and the kinds of lines with their weights."""

    CANCELS = 0.05  # the share of lines that end a wait; the suite has none

    def __init__(self, random, model):
        self.random = random
        self.model = model
        self.machine = model.machine
        self.page_log = self.machine.page_log
        self.pages = self.machine.page_count
        self.pool = random.choice(pools(self.pages))
        self.most_threads = random.choice([4, 6, 9, 12])
        self.grants = random.choice([0.1, 0.3, 0.6])
        self.largest = self.page_log + random.choice([0, 1, 3])
        self.planned = []
        self.refusals = 0
        self.weights = [weight * random.choice([0.1, 1, 1, 4]) for weight in self.PLANS.values()]

    def line(self):
        """Returns the next line: one of the current plan, or one that ends the wait of a thread if few threads run, or any line."""
        if self.planned and self.random.random() < 0.97:
            return self.planned.pop(0)
        if (len(self.free()) < 3 or self.machine.threads[ROOT].phase) and self.random.random() < 0.8:
            return self.freeing_line()
        if not self.planned and self.random.random() < 0.1:
            name = self.random.choices(list(self.PLANS), self.weights)[0]
            self.planned = list(getattr(self, "plan_" + name)())
        return self.any_line()

    def hear(self, answer):
        """Takes the answer to the last line. If a line of a plan was refused, the plan is mostly dropped."""
        self.refusals = self.refusals + 1 if "refused" in answer else 0
        if self.refusals and self.random.random() < 0.3:
            self.planned = []

    def is_stuck(self):
        """Returns whether no thread seems to continue any more, as when root and sigma0 wait for each other."""
        return self.refusals > MOST_REFUSALS

    # threads

    def thread(self):
        """Returns a thread number, mostly that of a thread that exists."""
        if self.random.random() < 0.03:
            return self.random.randrange(0, 70)
        return self.random.choice(list(self.machine.threads))

    def free(self):
        """Returns the running threads, except root, which must keep running so that it can create and delete others."""
        return [number for number, thread in self.machine.threads.items() if thread.phase is None and number != ROOT]

    def running(self):
        runs = self.free()
        if not runs or self.random.random() < 0.03:
            return self.thread()
        shows = {space for space, _ in self.machine.places}
        with_pages = [number for number in runs if self.machine.threads[number].space in shows]
        return self.random.choice(with_pages if with_pages and self.random.random() < 0.5 else runs)

    def waiting(self):
        return [number for number, thread in self.machine.threads.items() if thread.phase is not None]

    def any_cancel(self, _=None):
        """Returns a line that cancels a wait, mostly one of a thread that waits."""
        waiting = self.waiting()
        number = self.random.choice(waiting) if waiting and self.random.random() < 0.9 else self.thread()
        return f"{self.random.choice(['timeout', 'cancel'])} {number}"

    def blocked(self, waiting):
        """Returns a waiting thread, and a running one that could end its wait; or a thread that root is to delete, and None."""
        threads = self.machine.threads
        number = ROOT if threads[ROOT].phase is not None else self.random.choice(waiting)
        phase = threads[number].phase
        partner = phase.partner if isinstance(phase, Sending) else self.machine.named(phase.partner)
        if partner is None:
            partner = self.random.choice(self.free() or [ROOT])
        if number > ROOT and (threads[partner].phase is not None or self.random.random() < 0.5):
            return number, None
        if threads[partner].phase is not None and partner > ROOT:
            return partner, None
        return number, partner

    def partner_to_send(self, number):
        """Returns the receiver of a message, mostly a thread that waits for it."""
        waits = [n for n in self.machine.threads if self.machine.accepts(n, number)] if number in self.machine.threads else []
        return self.random.choice(waits) if waits and self.random.random() < 0.7 else self.thread()

    def new_number(self):
        free = [n for n in range(3, 3 + self.most_threads) if n not in self.machine.threads]
        return self.random.choice(free) if free and self.random.random() < 0.95 else self.thread()

    # words

    def page(self):
        return self.random.choice(self.pool)

    def page_of(self, number):
        """Returns a present page of the thread's space, or any page."""
        thread = self.machine.threads.get(number)
        pages = self.machine.pages(thread.space) if thread else []
        return self.random.choice(pages)[0] if pages and self.random.random() < 0.9 else self.page()

    def rights(self):
        return self.random.choice([7, 7, 7, 7, 6, 5, 4, 3, 2, 1, 0])

    def fpage(self, page, rights):
        """Returns a word for an fpage that has this page, in any of its forms."""
        chance = self.random.random()
        if chance < 0.02:
            return self.random.choice([rights, 0x10 | rights, 0x200 | rights | self.page() << self.page_log, 0xA0 | rights, 0xB0 | rights])
        if chance < 0.03:
            return self.random.getrandbits(32)
        log = self.page_log if self.random.random() < 0.6 else self.random.randint(10, self.largest)
        word = page << self.page_log | log << 4 | rights | self.random.choice([0, 0, 0, 8])
        return word if self.random.random() < 0.8 else word | self.random.getrandbits(self.page_log - 10) << 10

    def window(self):
        chance = self.random.random()
        if chance < 0.75:
            return COMPLETE
        if chance < 0.85:
            return 0
        return self.fpage(self.page(), self.random.randrange(16)) if chance < 0.98 else self.random.getrandbits(10)

    def item(self, number):
        kind = 10 if self.random.random() < self.grants else 8
        if self.random.random() < 0.005:
            kind = self.random.randrange(16)
        middle = self.random.getrandbits(10) & 0x3F0 if self.random.random() < 0.1 else 0
        source = self.page_of(number)
        target = source if self.random.random() < 0.2 else self.page()
        return [target << self.page_log | middle | kind | self.random.getrandbits(1), self.fpage(source, self.rights())]

    def message(self, number):
        """A message's words: a tag, some words, some items, and now and then words that are not counted, or too few."""
        random = self.random
        untyped = random.choice([0, 0, 0, 1, 2, 5])
        items = random.choice([0, 1, 1, 1, 1, 2, 2, 3, 5]) if random.random() < 0.97 else random.randint(6, LONGEST_MESSAGE)
        untyped = min(untyped, 63 - 2 * items)
        words = [random.getrandbits(16) << 16 | 2 * items << 6 | untyped]
        words += [random.getrandbits(32) for _ in range(untyped)]
        for _ in range(items):
            words += self.item(number)
        chance = random.random()
        if chance < 0.02 and len(words) < 60:
            words += [random.getrandbits(32) for _ in range(random.randint(1, 4))]
        elif chance < 0.03:
            words.pop()
        elif chance < 0.04 and words:
            words[0] ^= 1 << random.randrange(32)
        return words

    def timeouts(self):
        chance = self.random.random()
        if chance < 0.5:
            return NEVER
        return self.random.choice([SEND_AT_ONCE, RECEIVE_AT_ONCE, SEND_AT_ONCE | RECEIVE_AT_ONCE, 1 if chance > 0.98 else NEVER])

    def unmap_words(self, number):
        count = self.random.choice([1, 1, 1, 2, 3, 8])
        words = [self.fpage(self.page_of(number), self.rights()) for _ in range(count)]
        control = count - 1 | self.random.choice([0, 0x40]) | self.random.choice([0, 0, 0x80])
        if self.random.random() < 0.02:
            control ^= 1 << self.random.randrange(6)
        return control, words

    def pair(self, count=2):
        """Returns this number of different running threads, or fewer if there are not as many. The first one has a page."""
        numbers = self.free() if self.random.random() < 0.95 else list(self.machine.threads)
        self.random.shuffle(numbers)
        shows = {space for space, _ in self.machine.places}
        numbers.sort(key=lambda number: self.machine.threads[number].space not in shows)
        return ((numbers or [1]) * count)[:count]

    # plans

    def sharing(self):
        """Returns two running threads of one space, with pages if there are such threads, or any two."""
        runs = self.free()
        pairs = [(a, b) for a in runs for b in runs if a != b and self.machine.threads[a].space == self.machine.threads[b].space]
        shows = {space for space, _ in self.machine.places}
        pairs = [pair for pair in pairs if self.machine.threads[pair[0]].space in shows] or pairs
        return list(self.random.choice(pairs)) if pairs else self.pair()

    def plan_family(self):
        """A space maps a page within itself, and then passes on the page with its descendants in one message, mostly by grants."""
        giver, taker = self.sharing()
        if self.machine.threads[giver].space != self.machine.threads[taker].space:
            taker = self.new_number()
            yield self.join(taker, giver)
        other = self.random.choice([number for number in self.free() if number not in (giver, taker)] or [taker])
        pages = [self.page_of(giver)]
        for _ in range(self.random.choice([1, 2, 3])):
            page = self.page() if self.random.random() < 0.8 else self.random.choice(pages)
            yield from self.hand_on(giver, taker, self.one_item(self.random.choice(pages), page, self.random.choice([7, 7, 6, 5])))
            pages.append(page)
        self.random.shuffle(pages)
        words = [2 * len(pages) << 6]
        for page, at in zip(pages, self.random.sample(self.pool, min(len(pages), len(self.pool)))):
            words += [at << self.page_log | self.random.choice([8, 10, 10]), page << self.page_log | self.page_log << 4 | self.rights()]
        yield from self.hand_on(giver, other, words)

    def plan_ranges(self):
        """Sends two ranges in one message, often within one space, of pages that sigma0 passed on as a range before. Then revokes some."""
        giver, taker = self.sharing() if self.random.random() < 0.4 else self.pair()
        log = self.random.choice([1, 2, 3, 6])
        begin = self.page() >> log << log
        if giver != 1:
            yield from self.hand_on(1, giver, self.one_range(0, begin, log, 7))
        words = [4 << 6]
        for kind in (8, self.random.choice([8, 8, 10])):
            some = self.random.choice([log, max(log - 1, 0)])
            source = (begin + self.random.choice([0, 0, 1 << some])) % self.pages
            words += self.one_range(source, self.page(), some, self.rights(), kind)[1:]
        yield from self.hand_on(giver, taker, words)
        yield self.any_unmap(self.random.choice([giver, taker]))

    def plan_rows(self):
        """Scatters pages around the borders of groups of 64 pages and of tables of 2,048, and passes on large ranges that have them. Later
        ranges often land on pages of earlier ones. Giver and taker are often in one space, with source and target in one table."""
        random = self.random
        giver, taker = self.sharing() if random.random() < 0.4 else self.pair()
        if giver == 1:
            giver, taker = taker, giver
        area = random.choice([0, 0, 1 << 12, self.pages - (1 << 12)])
        spots = random.choice([range(60, 68), range(2040, 2056), [*range(60, 68), *range(2040, 2056), *range(4090, 4096)]])
        source = self.page_of(1)
        for _ in range(random.choice([1, 2])):
            log = random.choice([0, 0, 1, 2])
            begins = sorted({area + spot >> log << log for spot in spots})
            chosen = random.sample(begins, min(len(begins), random.choice([2, 5, 8])))
            words = [2 * len(chosen) << 6]
            for begin in chosen:
                words += self.one_range(random.choice([source, self.page_of(1)]), begin, log, random.choice([7, 7, 6, 5]))[1:]
            yield from self.hand_on(1, giver, words)
        for _ in range(random.choice([1, 2, 3])):
            log = random.choice([2, 3, 5, 6, 7, 10, 11, 12])
            begin = area + random.choice(list(spots)) >> log << log
            onto = random.choice([begin, begin ^ 1 << log, area ^ 1 << 12, self.page()]) % self.pages
            words = [2 << 6, *self.one_range(begin, onto, log, self.rights(), random.choice([8, 8, 10]))[1:]]
            if random.random() < 0.4:
                words[0] = 4 << 6
                words += self.one_range(begin ^ 1 << log, onto ^ 1 << log, log, self.rights(), random.choice([8, 8, 10]))[1:]
            yield from self.hand_on(giver, taker, words)
            if random.random() < 0.3:
                giver, taker = taker, giver
        yield self.any_unmap(random.choice([giver, taker]))

    def one_range(self, source, target, log, rights, kind=8):
        """A message of one item of 2^log pages, of which the first has this page."""
        first = source >> log << log
        return [0x80, target << self.page_log | kind, first << self.page_log | (self.page_log + log) << 4 | rights]

    def one_item(self, source, target, rights, kind=8):
        return [0x80, target << self.page_log | kind, source << self.page_log | self.page_log << 4 | rights]

    def plan_chain(self):
        giver, taker = self.pair()
        page, at = self.page_of(giver), self.page()
        for _ in range(self.random.choice([4, 12, 30, 60])):
            yield from self.hand_on(giver, taker, self.one_item(page, at, self.random.choice([7, 7, 7, 6, 5])))
            page, at = at, (at + 1) % self.pages
            giver, taker = taker, giver
        yield self.any_unmap(self.random.choice([giver, taker]))

    def plan_tree(self):
        giver, taker, other = self.pair(3)
        page, at = self.page_of(giver), self.random.choice([self.page(), 2048])
        width = self.random.choice([3, 10, LONGEST_MESSAGE])
        words = [2 * width << 6]
        for k in range(width):
            words += [(at + k) % self.pages << self.page_log | 8, page << self.page_log | self.page_log << 4 | self.rights()]
        yield from self.hand_on(giver, taker, words)
        for k in range(0, width, 3):
            yield from self.hand_on(taker, other, self.one_item((at + k) % self.pages, (at + width + k) % self.pages, 7))
        yield self.any_unmap(giver)

    def plan_grants(self):
        """Grants a page with children from thread to thread, with fewer rights each time, and maps it to others in between."""
        giver, taker, other = self.pair(3)
        page = self.page_of(giver)
        for rights in (7, self.random.choice([7, 6, 5]), self.random.choice([6, 4, 3]), self.random.choice([4, 2, 0])):
            yield from self.hand_on(giver, other, self.one_item(page, self.page(), 7))
            at = self.page()
            yield from self.hand_on(giver, taker, self.one_item(page, at, rights, 10))
            giver, taker, other = taker, other, giver
            page = at


class StepMaker(Maker):
    """Makes lists of kernel steps."""

    PLANS = {"chain": 2, "tree": 1, "grants": 2, "family": 3, "ranges": 2, "rows": 3, "queue": 0.2, "fault": 1, "spaces": 1}

    def any_line(self):
        random = self.random
        step = self.machine.enabled()
        if self.CANCELS and random.random() < self.CANCELS:
            return self.any_cancel()
        if step is not None and random.random() < 0.75:
            return " ".join(map(str, step))
        if step is not None and random.random() < 0.6:
            return f"expire {random.choice(step[1:])}"
        if random.random() < 0.08:
            return random.choice([f"transfer {self.thread()} {self.thread()}", f"expire {self.thread()}"])
        number = self.running()
        kind = random.choices(["ipc", "unmap", "fault", "create", "setpager", "delete"], [60, 8, 8, 8, 3, 4])[0]
        return getattr(self, "any_" + kind)(number)

    def freeing_line(self):
        """Ends the wait of a thread: it gets a message, its message is received, or it is deleted; or creates another thread."""
        random = self.random
        step = self.machine.enabled()
        if step is not None:
            return " ".join(map(str, step))
        waiting = self.waiting()
        if not waiting or (len(self.machine.threads) < self.most_threads and random.random() < 0.6):
            return self.any_create(ROOT)
        if self.CANCELS and random.random() < 3 * self.CANCELS:
            return self.any_cancel()
        number, partner = self.blocked(waiting)
        if partner is None:
            return f"start 2 delete {ident(number):#x}"
        if isinstance(self.machine.threads[number].phase, Sending):
            return self.ipc(partner, 0, ANY_THREAD, RECEIVE_AT_ONCE, self.window(), [])
        return self.ipc(partner, self.machine.threads[number].ident, 0, SEND_AT_ONCE, 0, self.message(partner))

    def ident_of(self, number):
        """The id of a thread, or one that names no thread."""
        chance = self.random.random()
        if chance < 0.02:
            return self.random.choice([0, ANY_THREAD, 1, ident(number) + 1, ident(number) + 64, number * 16384, self.random.getrandbits(32)])
        thread = self.machine.threads.get(number)
        return thread.ident if thread else ident(number)

    def any_ipc(self, number):
        to = self.ident_of(self.partner_to_send(number)) if self.random.random() < 0.6 else 0
        partner = 0
        if to == 0 or self.random.random() < 0.4:
            partner = ANY_THREAD if self.random.random() < 0.6 else self.ident_of(self.thread())
        return self.ipc(number, to, partner, self.timeouts(), self.window(), self.message(number) if to else [])

    def ipc(self, number, to, partner, timeouts, window, words):
        front = f"start {number} ipc {to:#x} {partner:#x} {timeouts:#x} {window:#x}"
        return " ".join([front] + [f"{word:#x}" for word in words[:64]])

    def any_unmap(self, number):
        control, words = self.unmap_words(number)
        return " ".join([f"start {number} unmap {control:#x}"] + [f"{word:#x}" for word in words])

    def any_fault(self, number):
        address = self.page_of(number) if self.random.random() < 0.3 else self.page()
        return f"start {number} fault {address << self.page_log | self.random.getrandbits(12):#x} {self.random.getrandbits(32):#x} {self.rights()}"

    def any_create(self, number):
        if len(self.machine.threads) >= self.most_threads and self.random.random() < 0.9:
            return self.any_delete(number)
        number = self.new_number()
        word = ident(number) if self.random.random() < 0.8 else self.ident_of(number)
        space = word if self.random.random() < 0.5 else self.ident_of(self.thread())
        return self.create(word, space, self.ident_of(self.thread()))

    def controller(self):
        """Mostly root, or another thread of its space."""
        chance = self.random.random()
        home = [number for number, thread in self.machine.threads.items() if thread.space == ROOT_SPACE]
        return ROOT if chance < 0.65 else self.random.choice(home) if chance < 0.95 else self.thread()

    def create(self, word, space, pager):
        return f"start {self.controller()} create {word:#x} {space:#x} {pager:#x}"

    def join(self, number, other):
        return f"start 2 create {ident(number):#x} {self.ident_of(other):#x} 0x4001"

    def any_setpager(self, _):
        return f"start {self.controller()} setpager {self.ident_of(self.thread()):#x} {self.ident_of(self.thread()):#x}"

    def any_delete(self, _):
        caller = self.controller()
        victim = caller if self.random.random() < 0.25 else self.thread()
        return f"start {caller} delete {self.ident_of(victim):#x}"

    # plans

    def hand_on(self, giver, taker, words):
        """The giver's message to the taker, which waits for it."""
        yield self.ipc(taker, 0, ANY_THREAD, 0, COMPLETE, [])
        yield self.ipc(giver, self.ident_of(taker), 0, 0, 0, words)
        yield f"transfer {giver} {taker}"

    def plan_queue(self):
        """Starts as many senders as there can be. Some of them have a zero timeout, one is deleted, and one receives in turn."""
        receiver = self.random.choice([1, 2, 3])
        for number in range(3, 66):
            if number not in self.machine.threads:
                yield f"start 2 create {ident(number):#x} {ident(self.random.choice([1, 2, number])):#x} 0x4001"
        senders = self.random.sample(range(3, 67), 60)
        for number in senders:
            timeouts = SEND_AT_ONCE if self.random.random() < 0.05 else NEVER
            partner = self.random.choice([0, 0, ident(receiver), ANY_THREAD])
            yield self.ipc(number, ident(receiver), partner, timeouts, COMPLETE, [number << 16])
        for number in senders[:10]:
            partner = ANY_THREAD if self.random.random() < 0.5 else ident(number)
            yield self.ipc(receiver, 0, partner, RECEIVE_AT_ONCE, 0, [])
            yield f"transfer {self.random.choice(senders)} {receiver}"
            yield f"transfer {senders[0] if partner == ANY_THREAD else number} {receiver}"
            yield f"start 2 delete {ident(self.random.choice(senders)):#x}"
        yield f"start 2 delete {ident(receiver):#x}"
        for number in senders[10:]:
            if self.random.random() < 0.9:
                yield f"start 2 delete {ident(number):#x}"

    def plan_fault(self):
        pager, user = self.pair()
        yield f"start 2 setpager {self.ident_of(user):#x} {self.ident_of(pager):#x}"
        yield self.ipc(pager, 0, ANY_THREAD, 0, self.window(), [])
        at = self.page()
        yield f"start {user} fault {at << self.page_log | 0x678:#x} 0x400100 {self.rights()}"
        yield f"transfer {user} {pager}"
        if self.random.random() < 0.2:
            yield f"start 2 delete {self.ident_of(self.random.choice([pager, user])):#x}"
        words = self.one_item(self.page_of(pager), at, self.rights(), self.random.choice([8, 8, 10]))
        yield self.ipc(pager, self.ident_of(user), ANY_THREAD, SEND_AT_ONCE, 0, words)
        yield f"transfer {pager} {user}"

    def plan_spaces(self):
        """A thread gets pages in a space of its own, passes them on, and is deleted while others wait for it."""
        number = self.new_number()
        giver, taker = self.pair()
        yield self.create(ident(number), ident(number), 0x4001)
        at = self.page()
        yield from self.hand_on(giver, number, self.one_item(self.page_of(giver), at, 7))
        yield from self.hand_on(number, taker, self.one_item(at, self.page(), self.rights(), self.random.choice([8, 10])))
        yield self.ipc(giver, ident(number), ANY_THREAD, 0, COMPLETE, self.one_item(self.page_of(giver), at, 7))
        yield self.ipc(taker, 0, ident(number), 0, COMPLETE, [])
        yield f"start 2 delete {ident(number):#x}"


class ScriptMaker(Maker):
    """Makes scripts."""

    PLANS = {"chain": 2, "tree": 1, "grants": 2, "family": 3, "ranges": 2, "rows": 3, "queue": 0.2, "serve": 2, "pagers": 4, "regions": 0.3, "spaces": 1, "names": 0.1}

    def line(self):
        """Returns the next line, often with symbolic tokens in place of words and with names in place of threads."""
        if not self.planned and self.random.random() < 0.04:
            return self.naming()
        return self.with_names(self.with_symbols(super().line()))

    def naming(self):
        """Returns a line that gives a name to a thread."""
        name = self.random.choice(COMMON_NAMES if self.random.random() < 0.8 else OTHER_NAMES)
        return self.with_names(f"name {name} {self.thread()}", first=2)

    def with_names(self, line, first=1):
        """The line with names in place of some threads, and now and then with a name in another place."""
        tokens, names = line.split(), self.model.names
        for place in range(first, 1 + max(first, THREAD_PLACES.get(tokens[0], 0) if tokens else 0)):
            own = [name for name, number in names.items() if place < len(tokens) and tokens[place] == str(number)]
            if own and self.random.random() < 0.6:
                tokens[place] = self.random.choice(own)
                line = " ".join(tokens)
        if len(tokens) > 1 and self.random.random() < 0.004:
            tokens[self.random.randrange(1, len(tokens))] = self.random.choice(COMMON_NAMES + OTHER_NAMES)
            line = " ".join(tokens)
        return line

    def with_symbols(self, line):
        """The line, often with symbolic tokens in place of words, and now and then with a damaged token."""
        tokens = line.split()
        if self.random.random() < 0.5 or not all(map(symbols.is_number, tokens[4 if tokens[:1] == ["ipc"] else 3 :])):
            return line
        spelled = self.spelled(tokens)
        if len(spelled) > 3 and self.random.random() < 0.02:
            place = self.random.randrange(3, len(spelled))
            spelled[place] = self.damaged(spelled[place])
        return " ".join(spelled)

    def spelled(self, tokens):
        """The tokens of a line, with symbolic tokens where these have the same words."""
        command = tokens[0] if tokens else ""
        words = [int(token, 0) for token in tokens[4 if command == "ipc" else 3 :]]
        labelled = self.random.random() < 0.8
        if command == "recv" and words:
            return tokens[:3] + [symbols.window_text(words[0], self.page_log)]
        if command == "send":
            return tokens[:3] + symbols.message_tokens(words, self.page_log, labelled)
        if command == "unmap":
            control = symbols.control_text(int(tokens[2], 0)) if self.random.random() < 0.5 else tokens[2]
            return [*tokens[:2], control, *(symbols.fpage_text(word, self.page_log) for word in words)]
        if command == "ipc" and len(words) > 1:
            texts = [symbols.timeouts_text(words[0]), symbols.window_text(words[1], self.page_log)]
            return tokens[:4] + texts + symbols.message_tokens(words[2:], self.page_log, labelled)
        return tokens

    def damaged(self, token):
        """The token with one of its characters left out, doubled or replaced."""
        place = self.random.randrange(len(token))
        middle = self.random.choice(["", token[place] * 2, *"rwx-+>:,0179"])
        return token[:place] + middle + token[place + 1 :] or "x"

    def any_line(self):
        random = self.random
        if random.random() < 0.01:
            return random.choice(["", "  ", "# a comment", "frob 1", "show 1 0", "send 1", "recv 1 any 0x20", "parent 1 4294967296", "thread 0 new nil"])
        number = self.running()
        kinds = ["send", "recv", "ipc", "unmap", "fault", "thread", "setpager", "delete", "delegate", "part", "region", "serve", "show", "parent", "reply", "cancel"]
        kind = random.choices(kinds, [22, 14, 14, 8, 8, 6, 2, 3, 6, 3, 3, 3, 2, 2, 2, 4])[0]
        return getattr(self, "any_" + kind)(number)

    def freeing_line(self):
        """Ends the wait of a thread: it gets a message, its message is received, or it is deleted; or creates another thread."""
        random = self.random
        waiting = [number for number in self.waiting() if number not in self.model.served]
        if not waiting or (len(self.machine.threads) < self.most_threads and random.random() < 0.6):
            return self.any_thread(ROOT)
        if self.CANCELS and random.random() < 3 * self.CANCELS:
            return self.any_cancel()
        number, partner = self.blocked(waiting)
        if partner is None:
            return f"delete {number}"
        if isinstance(self.machine.threads[number].phase, Sending):
            return f"ipc {partner} nil any {RECEIVE_AT_ONCE:#x} {self.window():#x}"
        return f"ipc {partner} {number} nil {SEND_AT_ONCE:#x} 0" + self.words(self.message(partner))

    def who(self, number):
        return self.random.choice(["nil", "any"]) if self.random.random() < 0.02 else number

    def words(self, words):
        return "".join(f" {word:#x}" for word in words[:64])

    def any_send(self, number):
        return f"send {number} {self.who(self.partner_to_send(number))}" + self.words(self.message(number))

    def any_recv(self, number):
        partner = "any" if self.random.random() < 0.6 else self.thread()
        return f"recv {number} {partner} {self.window():#x}"

    def any_ipc(self, number):
        to = self.who(self.partner_to_send(number))
        partner = self.random.choice([to, "any", self.thread(), "nil"])
        return f"ipc {number} {to} {partner} {self.timeouts():#x} {self.window():#x}" + self.words(self.message(number))

    def any_unmap(self, number):
        control, words = self.unmap_words(number)
        return f"unmap {number} {control:#x}" + self.words(words)

    def any_fault(self, number):
        address = self.page() << self.page_log | self.random.getrandbits(self.page_log)
        return f"fault {number} {address:#x} {self.random.getrandbits(32):#x} {self.rights_text()}"

    def rights_text(self):
        return "".join(self.random.choice([c, c, c, "-"]) for c in "rwx")

    def any_thread(self, number):
        if len(self.machine.threads) >= self.most_threads and self.random.random() < 0.9:
            return self.any_delete(number)
        space = "new" if self.random.random() < 0.6 else self.thread()
        pager = "nil" if self.random.random() < 0.1 else self.thread()
        return f"thread {self.new_number()} {space} {pager}"

    def join(self, number, other):
        return f"thread {number} {other} 1"

    def any_setpager(self, _):
        return f"setpager {self.thread()} {self.thread()}"

    def any_delete(self, _):
        return f"delete {self.thread()}"

    def any_delegate(self, number):
        return f"delegate {number} {self.who(self.partner_to_send(number))} {self.delegated(number)}"

    def any_part(self, number):
        part = self.random.choice([0, 0, 1, 2, 63, 64, 0xFFFFFFFF])
        return f"part {number} {self.who(self.partner_to_send(number))} {part} {self.delegated(number)}"

    def delegated(self, number):
        """The tokens of a region of the thread's pages."""
        count = self.random.choice([0, 1, 2, 3, 5, 8, 13, 30, 40, 64, 1984, 1985, 1986, 4096, self.pages])
        return f"{self.page_of(number)} {self.page()} {count} {self.rights_text()}"

    def any_region(self, _):
        count = self.random.choice([0, 1, 1, 2, 4, self.pages]) if self.random.random() < 0.3 else self.random.randint(1, 3)
        number = self.thread()
        return f"region {number} {self.page()} {self.page_of(number)} {count} {self.rights_text()}"

    def any_serve(self, number):
        return f"serve {number}"

    def any_show(self, number):
        return f"show {number} {self.page()} {self.random.choice([0, 1, 5, self.pages, 0xFFFFFFFF])}"

    def any_parent(self, number):
        return f"parent {number} {self.page_of(number)}"

    def any_reply(self, _):
        return f"reply {self.thread()}"

    # plans

    def hand_on(self, giver, taker, words):
        yield f"recv {taker} {self.random.choice(['any', giver])} 0x10"
        yield f"send {giver} {taker}" + self.words(words)

    def plan_queue(self):
        receiver = self.random.choice([1, 2, 3])
        for number in range(3, 66):
            if number not in self.machine.threads:
                yield f"thread {number} {self.random.choice([1, 2, 'new'])} 1"
        senders = self.random.sample(range(3, 67), 60)
        for number in senders:
            timeouts = SEND_AT_ONCE if self.random.random() < 0.05 else NEVER
            partner = self.random.choice(["nil", "nil", receiver, "any"])
            yield f"ipc {number} {receiver} {partner} {timeouts:#x} 0x10 {number << 16:#x}"
        for number in senders[:10]:
            yield f"recv {receiver} {self.random.choice(['any', number])} 0"
            yield f"delete {self.random.choice(senders)}"
        yield f"delete {receiver}"
        for number in senders[10:]:
            if self.random.random() < 0.9:
                yield f"delete {number}"

    def frame(self):
        """Returns one of a few frames of sigma0, so that many threads request the same one."""
        return self.random.randrange(min(self.model.sigma0.frames, 6))

    def plan_serve(self):
        """Serves sigma0: threads fault and request frames."""
        yield "serve 1"
        for _ in range(self.random.randint(2, 8)):
            number, page = self.running(), self.frame()
            yield f"setpager {number} 1"
            yield f"fault {number} {page << self.page_log:#x} 0 {self.rights_text()}"
            asked = self.fpage(page, self.rights())
            yield f"ipc {self.running()} 1 1 0 {self.window():#x} 0xffa00002 {asked:#x} {self.random.choice([0, 0, 0, 1])}"

    def plan_pagers(self):
        """Serves sigma0, a pager whose pager is sigma0, and a second pager whose pager is the first one. Threads fault to them, and one of
        them may be deleted and created again."""
        pagers = [number for number in self.free() if number != 1]
        if len(pagers) < 3:
            return
        first, second, *users = self.random.sample(pagers, min(len(pagers), 5))
        yield "serve 1"
        yield f"setpager {first} 1"
        yield f"setpager {second} {first}"
        at = self.frame()
        pages = {}
        for pager, behind in ((first, 1), (second, first)):
            yield f"ipc {pager} {behind} {behind} 0 0x10 0xffe40002 {at << self.page_log:#x} 0"
            pages[pager] = self.page()
            yield f"region {pager} {pages[pager]} {at} {self.random.randint(1, 4)} {self.rights_text()}"
            yield f"serve {pager}"
            at = pages[pager]
        for number in users * 2:
            pager = self.random.choice([first, second])
            yield f"setpager {number} {pager}"
            page = (pages[pager] + self.random.choice([0, 0, 0, 1, 5])) % self.pages
            yield f"fault {number} {page << self.page_log:#x} 0x400100 {self.rights_text()}"
        if self.random.random() < 0.4:
            yield f"delete {first}"
            yield f"thread {first} {self.random.choice(['new', 1])} 1"
            yield self.random.choice([f"region {first} {pages[first]} {self.page()} 2 rwx", f"show {first} 0 1"])
            yield f"serve {first}"
            yield f"fault {users[0]} {pages[first] << self.page_log:#x} 0 {self.rights_text()}"

    def plan_names(self):
        """Gives as many names as a script can have, and some more."""
        for k in self.random.sample(range(70), 70):
            yield f"name n{k} {self.thread()}"

    def plan_regions(self):
        """Fills a table of regions."""
        number = self.thread()
        for k in range(self.random.choice([3, 3, 5, 66])):
            yield f"region {number} {2 * k} {self.page()} {self.random.choice([1, 1, 2, 3])} {self.rights_text()}"

    def plan_spaces(self):
        number = self.new_number()
        giver, taker = self.pair()
        yield f"thread {number} new 1"
        at = self.page()
        yield from self.hand_on(giver, number, self.one_item(self.page_of(giver), at, 7))
        yield from self.hand_on(number, taker, self.one_item(at, self.page(), self.rights(), self.random.choice([8, 10])))
        yield f"ipc {giver} {number} any 0 0x10" + self.words(self.one_item(self.page_of(giver), at, 7))
        yield f"recv {taker} {number} 0x10"
        yield f"delete {number}"
