"""What the lab answers to the questions of its page: a run of a script or step list, its state after a step, plans, and the meaning of words.

No answer depends on an earlier one: each question carries the script, which is run again up to the step that the page shows.
"""
from __future__ import annotations

from typing import Any, Callable, Dict, Iterator, List, Optional, Tuple, Union

from . import _library
from ._library import array, library
from .kernel import Kernel
from .lab_steps import StepList, is_step_list
from .outcomes import SearchEnd
from .outcomes import orders as search
from .plans import Region
from .refusals import Refused, TooLong
from .scripts import Event, Script
from .shared import SharedKernel
from .words import MAX_FRAMES, PAGE_BYTES, SMALL_PAGE_BYTES, Fpage, Message, Rights, ThreadId

#: The lab's limits: bytes of a script, events of its run, lines of answers, mappings of a state, and states that a search visits.
MOST_BYTES = 1 << 18
MOST_EVENTS = 20_000
MOST_ANSWERS = 50_000
MOST_MAPPINGS = 50_000
MOST_STATES = 100_000

# the largest numbers of lines, characters of a line, answers of a line, refused lines and items of a plan that an answer has
_LINES, _CHARACTERS, _ANSWERS, _REFUSALS, _ITEMS = 120, 300, 64, 64, 256

# the words of the page for the ends of a search
_ENDS = {SearchEnd.ALL_ORDERS: "all", SearchEnd.MOST_STATES: "most", SearchEnd.MEMORY: "memory", SearchEnd.HISTORY: "history"}

_S_TEXTS = {
    "S1": "the command is unknown",
    "S2": "the line has too few tokens, too many, or an invalid one",
    "S3": "the line is longer than 4,096 bytes",
    "S4": "the line does not end with a newline",
    "S5": "the script already has 64 names",
    "N5": "the plan has more than one message",
    "N6": "the plan has no message with this number",
}

_READINGS = ("message", "fpage", "window")


class Bad(Exception):
    """A question that the lab does not answer; the text says why."""


def whole(asked: Dict[str, Any], name: str, below: int, other: Optional[int] = None) -> int:
    """Returns the number that a question has under this name. Raises Bad if it is missing or out of range."""
    value = asked.get(name, other)
    if type(value) is not int or not 0 <= value < below:
        raise Bad(f"{name} is a number below {below:,}")
    return value


def text_of(asked: Dict[str, Any]) -> str:
    """Returns the script of a question. Raises Bad if it is missing or too long."""
    text = asked.get("script")
    if not isinstance(text, str):
        raise Bad("there is no script")
    if len(text.encode("utf-8", "surrogateescape")) > MOST_BYTES:
        raise Bad(f"the lab takes scripts of up to {MOST_BYTES:,} bytes; l4 run takes any")
    return text


def page_bytes_of(asked: Dict[str, Any]) -> int:
    """Returns the page size of a question. Raises Bad if it is not 4,096 or 1,024."""
    value = whole(asked, "pageBytes", 1 << 32, PAGE_BYTES)
    if value not in (PAGE_BYTES, SMALL_PAGE_BYTES):
        raise Bad(f"a page has {PAGE_BYTES} or {SMALL_PAGE_BYTES} bytes")
    return value


def lines_of(text: str) -> List[str]:
    """Returns the lines of a script, whose last line may lack its newline."""
    return text.removesuffix("\n").split("\n") if text else []


def cut(text: str) -> str:
    return text if len(text) <= _CHARACTERS else f"{text[:_CHARACTERS]}.."


def cut_list(texts: List[str]) -> List[str]:
    texts = [cut(text) for text in texts]
    return texts if len(texts) <= _ANSWERS else [*texts[:_ANSWERS], f".. and {len(texts) - _ANSWERS:,} more"]


class Run:
    """The events of a run of a script or step list, up to the lab's limits."""

    def __init__(self, asked: Dict[str, Any]) -> None:
        self.text = text_of(asked)
        made: Callable[..., Union[Script, StepList]] = StepList if is_step_list(self.text) else Script
        self.script = made(whole(asked, "frames", MAX_FRAMES + 1, 256), page_bytes_of(asked))
        self.notes: List[str] = []

    def __iter__(self) -> Iterator[Event]:
        answers = 0
        for count, event in enumerate(self.script.run(self.text), 1):
            yield event
            answers += len(event.texts)
            if count == MOST_EVENTS or answers > MOST_ANSWERS:
                self.notes = [f"The lab stops on line {event.line:,}, after {count:,} events and {answers:,} answers; `l4 run` executes the rest."]
                return


def _step(event: Event) -> Dict[str, Any]:
    """Returns a step: its line of a step list, its answers, the line that caused it, and its message in words."""
    if event.call is not None:
        return {"text": f"start {event.thread} {event.call.line}", "answers": ["started", *event.texts], "line": event.line}
    first, *ended = event.texts
    if event.transfer is None:
        return {"text": first, "answers": ["expired" if event.cancel is None else "canceled", *ended], "line": event.line}
    words, _, outcome = first.rpartition(" ")
    return {"text": words, "answers": [outcome, *ended], "line": event.line, "says": cut(str(event.message))}


def _meaning(code: str) -> str:
    """Returns what a code means."""
    return _S_TEXTS.get(code) or _library.refusal_text(ord(code[0]) << 8 | ord(code[1])) or "the call is refused"


def _refusal(event: Event) -> Optional[Dict[str, Any]]:
    """Returns the refusal of a line, if the event is one."""
    words = event.texts[0].split() if event.texts else []
    if words[:1] != ["line"]:
        return None
    return {"line": event.line, "code": " ".join(words[3:]), "means": _meaning(words[3])}


def run(asked: Dict[str, Any]) -> Dict[str, Any]:
    """Returns the steps of a run, and its refused lines, each with the step that was the last one then, and the names of threads."""
    events, steps, refusals, count = Run(asked), [], [], 0
    texts = lines_of(events.text)
    for event in events:
        if event.is_step:
            steps.append({**_step(event), "number": len(steps) + 1, "at": len(steps) + 1})
        refusal = _refusal(event)
        if refusal:
            count += 1
            more = {"text": texts[event.line - 1], "at": len(steps), "names": sorted(events.script.names)}
            refusals += [{**refusal, **more}] if len(refusals) < _REFUSALS else []
    return {"steps": steps, "refusals": {"count": count, "first": refusals}, "notes": events.notes, "lineCount": len(texts)}


def _runs(kernel: Kernel, space: int, most: int) -> Tuple[List[List[Any]], int]:
    """Returns the pages of a space in runs, as the page has them, and the number of mappings that were examined."""
    runs: List[List[Any]] = []
    count = 0
    for count, it in enumerate(kernel.mappings(space), 1):
        if count > most:
            break
        parent = (it.parent.space, it.parent.page) if it.parent else (None, None)
        last = runs[-1] if runs else None
        passed = last[1] if last else 0
        follows = last and (last[0] + passed, last[2] + passed, last[3], last[4]) == (it.place.page, it.frame, str(it.rights), parent[0])
        if last and follows and (parent[1] is None or last[5] + passed == parent[1]):
            last[1] += 1
        else:
            runs.append([it.place.page, 1, it.frame, str(it.rights), *parent])
    return runs, count


def state(kernel: Kernel) -> Dict[str, Any]:
    """Returns the pages of every space, and whether all mappings were examined."""
    spaces, left = [], MOST_MAPPINGS
    for space in kernel.spaces():
        runs, count = _runs(kernel, space, max(left, 0))
        left -= count
        spaces.append({"space": space, "runs": runs})
    return {"spaces": spaces, "isWhole": left >= 0}


def _regions(script: Union[Script, StepList]) -> List[Dict[str, Any]]:
    return [
        {"thread": thread, "first": region.target, "source": region.source, "count": region.count, "rights": str(region.rights)}
        for thread, pager in sorted(script.pagers.items())
        for region in pager.regions
    ]


class _Place:
    """The state of a run after a step and before it, and what has been answered by then: the line that caused the step, and the last line that
    has begun. After the last step, all lines have begun."""

    def __init__(self, events: Run, at: int) -> None:
        self.at, self.count, self.line, self.begun = at, 0, 0, 0
        self.old = self.now = state(events.script.kernel)
        self.answers: Dict[int, List[str]] = {}
        #: The number of steps by the end of each line.
        self.ends: Dict[int, int] = {}
        self._note(events.script)
        for event in events:
            self.count += event.is_step
            if event.is_step and self.count in (at - 1, at):
                self.old, self.now = self.now, state(events.script.kernel)
            is_current = event.line == self.line and self.count > at
            if not is_current:
                self.answers.setdefault(event.line, []).extend(event.texts)
            self.ends[event.line] = self.count
            if self.count > at:
                continue
            self.line = event.line if event.is_step else self.line
            if self.count < at or event.line == self.line:
                self.begun = self.line
                self._note(events.script)
        if self.count <= at:
            self.begun = len(lines_of(events.text))
            self._note(events.script)

    def _note(self, script: Union[Script, StepList]) -> None:
        self.regions, self.served = _regions(script), sorted(script.served)


def view(asked: Dict[str, Any]) -> Dict[str, Any]:
    """Returns the state of a run after a step and before it, and the lines around the one of that step with their answers."""
    events = Run(asked)
    place = _Place(events, whole(asked, "at", 1 << 32))
    if place.at > place.count:
        return view({**asked, "at": place.count})
    notes = [] if place.now["isWhole"] else [f"Only the pages of the first {MOST_MAPPINGS:,} mappings are shown."]
    return {
        "at": place.at,
        "count": place.count,
        "line": place.line,
        "begun": place.begun,
        "lines": _lines(events.text, place),
        "now": place.now,
        "old": place.old if place.at else place.now,
        "regions": place.regions,
        "served": place.served,
        "notes": [*events.notes, *notes],
    }


def _lines(text: str, place: _Place) -> List[Dict[str, Any]]:
    """Returns the lines around the last one that has begun, with their answers, each with the number of steps by its end."""
    texts = lines_of(text)
    first = max(0, min(place.begun - _LINES // 2, len(texts) - _LINES))
    lines, end = [], 0
    for number in range(1, first + min(_LINES, len(texts)) + 1):
        end = place.ends.get(number, end)
        if number > first:
            shown = {"number": number, "at": end, "text": cut(texts[number - 1]), "isLater": number > place.begun}
            lines.append({**shown, "answers": cut_list(place.answers.get(number, []))})
    return lines


def _recorded(events: Run, at: int) -> SharedKernel:
    """Returns a kernel that has executed the calls of the first steps, and has kept their history."""
    script = events.script
    kernel = SharedKernel(script.kernel.frames, script.page_bytes)
    given, steps = set(), 0
    for event in events:
        steps += event.is_step
        if steps > at:
            break
        if event.cancel is not None:
            kernel._end_call(library.l4_lock_timeout if event.cancel.timed_out else library.l4_lock_cancel, event.cancel.thread)
        if event.call is None or event.thread is None:
            continue
        if event.thread not in given:
            given.add(event.thread)
            kernel.seat(event.thread)
        kernel._lock.answer(library.l4_lock_take, event.thread)
        words = event.call.words
        told = kernel._lock.answer(library.l4_lock_enter, event.thread, event.call.given(), array(words), len(words))
        if told.refusal:
            raise Refused(told.refusal, told.detail)
    return kernel


def why(asked: Dict[str, Any]) -> Dict[str, Any]:
    """Returns how a page of a space got there, in the lines of `l4 why`, and for each line the step that it names, if it names one.

    The library executes a call with all steps that follow it. Between two of these steps, the answer names the last one.
    """
    at, space, page = (whole(asked, name, below) for name, below in (("at", 1 << 32), ("space", 1 << 64), ("page", 1 << 32)))
    kernel = _recorded(Run(asked), at)
    steps = kernel._lock.answer(library.l4_lock_length).count
    if steps > at:
        return {"lines": [f"known after step {steps}, the last one that follows from this call"], "steps": [steps]}
    links = kernel.provenance(space, page)
    if links is None:
        return {"lines": ["absent"], "steps": [None]}
    first = links[0].source.page if links else page
    return {"lines": [f"sigma0 page {first}", *map(str, links), f"page {page}"], "steps": [None, *(link.entry + 1 for link in links), None]}


def plan(asked: Dict[str, Any]) -> Dict[str, Any]:
    """Returns the plan of a region, the pages that prove that no plan is shorter, and the result of checking both."""
    numbers = (whole(asked, name, 1 << 32) for name in ("source", "target", "count"))
    region, page_bytes = Region(*numbers, Rights.of_bits(whole(asked, "rights", 8))), page_bytes_of(asked)
    try:
        found = region.plan(page_bytes)
    except TooLong as refused:
        region.check_too_long(refused.pages, page_bytes)
        return {"text": f"{refused}", "verdict": "proved too-long", "items": [], "pages": refused.pages[:_ITEMS]}
    except Refused as refused:
        return {"text": f"{refused}", "verdict": "", "items": [], "pages": []}
    region.check(found.words(), found.pages(), page_bytes)
    items, place = [], 0
    for item, page in zip(found.items(), found.pages()):
        count = len(item.fpage.range_of(page_bytes))
        items.append({"place": place, "pages": count, "page": page, "text": str(item)})
        place += count
    return {"text": str(found), "verdict": f"proved {found.item_count}", "items": items, "pages": found.pages()[:_ITEMS]}


def decode(asked: Dict[str, Any]) -> Dict[str, Any]:
    """Returns what words mean."""
    words, reading = asked.get("words"), asked.get("reading")
    if not isinstance(words, list) or not 1 <= len(words) <= 65 or not all(type(word) is int and 0 <= word < 1 << 32 for word in words):
        raise Bad("words is a list of 1 to 65 words")
    if reading not in _READINGS:
        raise Bad(f"reading is one of {', '.join(_READINGS)}")
    if reading == "message":
        return {"lines": [str(Message(tuple(words)))]}
    try:
        return {"lines": [str(Fpage.read(word & ~0xF if reading == "window" else word)) for word in words]}
    except ValueError:
        return {"lines": [f"no fpage in {words[0]:#010x}"]}


def orders(asked: Dict[str, Any]) -> Dict[str, Any]:
    """Returns the outcomes of a plan over all orders of its calls, each with the script of an order that produces it, and the rules that it
    breaks."""
    most = min(whole(asked, "most", 1 << 32, MOST_STATES), MOST_STATES)
    found = search(text_of(asked), whole(asked, "frames", MAX_FRAMES + 1, 256), page_bytes_of(asked), most)
    return {
        "end": _ENDS[found.end],
        "orders": f"{found.order_count or 0:,}",
        "states": found.state_count,
        "outcomeCount": len(found.outcomes),
        "outcomes": [{"answers": cut_list(list(it.answers)), "witness": it.witness, "broken": cut_list(list(it.broken))} for it in found.outcomes[:_ITEMS]],
    }


ANSWERS: Dict[str, Callable[[Dict[str, Any]], Dict[str, Any]]] = {"/run": run, "/view": view, "/why": why, "/plan": plan, "/decode": decode, "/orders": orders}
