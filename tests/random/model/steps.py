"""The answers to a step list, line by line."""
from machine import Machine
from words import PAGE_LOG, Refused

RIGHTS = {number: "".join(c if number & bit else "-" for c, bit in zip("rwx", (4, 2, 1))) for number in range(8)}


def reply_text(reply):
    kind, *rest = reply
    if kind == "ipc":
        tag, error, partner, words = rest
        return f"ipc {tag:08x} {error} {partner:08x}" + "".join(f" {word:08x}" for word in words)
    return " ".join(str(part) for part in reply)


class StepLines:
    """The machine of a step list. `answer` returns the text of the answer to a line."""

    def __init__(self, frames, page_log=PAGE_LOG):
        self.machine = Machine(frames, page_log)

    def answer(self, line):
        word, *rest = line.split()
        if word in ("start", "transfer", "expire", "timeout", "cancel"):
            return self.step(word, rest)
        return getattr(self, "tell_" + word)(*map(number_of, rest))

    def step(self, word, rest):
        try:
            if word == "start":
                outcome, ended = self.machine.start(number_of(rest[0]), call_of(rest[1], [number_of(token) for token in rest[2:]]))
            else:
                outcome, ended = getattr(self.machine, word)(*map(number_of, rest))
        except Refused as refusal:
            return f"refused {refusal.text()}\n"
        return "".join([outcome, "\n"] + [f"{number} {reply_text(reply)}\n" for number, reply in ended])

    def tell_enabled(self):
        step = self.machine.enabled()
        return "enabled " + (" ".join(map(str, step)) if step else "none") + "\n"

    def tell_reply(self, number):
        thread = self.machine.threads.get(number)
        if thread is None or thread.phase is not None or thread.reply is None:
            return "none\n"
        return reply_text(thread.reply) + "\n"

    def tell_space(self, number):
        thread = self.machine.threads.get(number)
        return f"space {thread.space}\n" if thread else "none\n"

    def tell_pages(self, space):
        lines = []
        for page, mapping in self.machine.pages(space):
            parent = f"{mapping.parent[0]} {mapping.parent[1]}" if mapping.parent else "none"
            lines.append(f"page {page} frame {mapping.frame} {RIGHTS[mapping.rights]} {parent}\n")
        return "".join(lines) + f"shown {len(lines)}\n"

    def questions(self):
        """Returns the lines that query everything that is visible, and a thread and a space that do not exist."""
        numbers = sorted(self.machine.threads) + [0, max(self.machine.threads) + 1]
        return (
            ["enabled"]
            + [f"reply {number}" for number in numbers]
            + [f"space {number}" for number in numbers]
            + [f"pages {space}" for space in range(self.machine.next_space + 1)]
        )


def call_of(kind, numbers):
    """A call by its kind and its numbers; the words of an Ipc and of an Unmap are one tuple."""
    fixed = {"ipc": 4, "unmap": 1}.get(kind)
    if fixed is None:
        return (kind, *numbers)
    return (kind, *numbers[:fixed], tuple(numbers[fixed:]))


def number_of(token):
    return int(token, 0)
