"""Symbolic tokens as a script spells them, and words as symbolic tokens."""
import re

from words import FULL_RIGHTS, SPACE_LOG, WORDS, write_fpage

NUMBER = r"(0x[0-9a-fA-F]{1,8}|[0-9]{1,10})"
RUN = re.compile(rf"{NUMBER}(?:\+{NUMBER})?")
WINDOWS = {"all": 0x10, "none": 0}
TIMEOUTS = {"never": 0, "zero": 0x400}
KINDS = {"map": 8, "grant": 10}
CONTROLS = {"unmap": 0, "flush": 64}
LABELS = 1 << 16


class Misspelled(Exception):
    """A token that is neither a number nor a symbolic token, or that names nothing."""


def number(text):
    """The number that a text spells."""
    if not re.fullmatch(NUMBER, text) or int(text, 16 if text.startswith("0x") else 10) >= 1 << 32:
        raise Misspelled
    return int(text, 16 if text.startswith("0x") else 10)


def is_number(text):
    try:
        number(text)
    except Misspelled:
        return False
    return True


def rights(text):
    if not re.fullmatch("[r-][w-][x-]", text):
        raise Misspelled
    return sum(bit for bit, letter in zip((4, 2, 1), text) if letter != "-")


def pages(text, granted, page_log, always_counted=False):
    """The word of FIRST+COUNT, or of FIRST alone, with these rights."""
    found = RUN.fullmatch(text)
    if not found or (always_counted and found[2] is None):
        raise Misspelled
    first, count = number(found[1]), number(found[2] or "1")
    log = count.bit_length() - 1
    if count != 1 << max(log, 0) or first % count or first + count > 1 << (SPACE_LOG - page_log):
        raise Misspelled
    if log + page_log == SPACE_LOG:
        return write_fpage(0, 1, granted)
    return write_fpage(first << page_log, log + page_log, granted)


def window(token, page_log):
    if is_number(token):
        return number(token)
    return WINDOWS[token] if token in WINDOWS else pages(token, 0, page_log, True)


def fpage(token, page_log):
    if is_number(token):
        return number(token)
    run, colon, granted = token.partition(":")
    if not colon:
        raise Misspelled
    return pages(run, rights(granted), page_log)


def timeouts(token):
    if is_number(token):
        return number(token)
    send, comma, receive = token.partition(",")
    if send not in TIMEOUTS or (comma and receive not in TIMEOUTS):
        raise Misspelled
    return TIMEOUTS[send] << 16 | TIMEOUTS[receive if comma else send]


def control(token):
    """The control word of unmap:COUNT or flush:COUNT."""
    if is_number(token):
        return number(token)
    name, colon, count = token.partition(":")
    if name not in CONTROLS or not 1 <= number(count) <= 64:
        raise Misspelled
    return number(count) - 1 | CONTROLS[name]


def revoked(tokens, page_log):
    """The control word and the fpages of an Unmap: as many as the word counts, unless all tokens are numbers."""
    word, fpages = control(tokens[0]), [fpage(token, page_log) for token in tokens[1:]]
    if not all(map(is_number, tokens)) and len(fpages) != (word & 63) + 1:
        raise Misspelled
    return word, tuple(fpages)


def item(token, page_log):
    """The two words of an item after which none follows."""
    found = re.fullmatch("(map|grant):([^>]*)>([^:]*):(.*)", token, re.DOTALL)
    if not found:
        raise Misspelled
    second = pages(found[2], rights(found[4]), page_log)
    base = number(found[3])
    if base >= 1 << (SPACE_LOG - page_log):
        raise Misspelled
    return base << page_log | KINDS[found[1]], second


def label(token):
    """The label of tag:LABEL."""
    if not token.startswith("tag:") or number(token[4:]) >= LABELS:
        raise Misspelled
    return number(token[4:])


def words(tokens, page_log):
    """The words of a message's tokens: the tag as a number or tag:LABEL, then numbers, and then items."""
    if not tokens:
        return []
    symbolic = [not is_number(token) for token in tokens[1:]]
    if symbolic != sorted(symbolic):
        raise Misspelled
    untyped = [number(token) for token in tokens[1:] if is_number(token)]
    items = [item(token, page_log) for token in tokens[1 + len(untyped) :]]
    typed = [word for place, (first, second) in enumerate(items) for word in (first | (place + 1 < len(items)), second)]
    if 1 + len(untyped) + len(typed) > WORDS:
        raise Misspelled
    tag = number(tokens[0]) if is_number(tokens[0]) else label(tokens[0]) << 16 | len(typed) << 6 | len(untyped)
    return [tag, *untyped, *typed]


# from words to tokens


def rights_text(bits):
    return "".join(letter if bits & bit else "-" for bit, letter in ((4, "r"), (2, "w"), (1, "x")))


def run_text(word, page_log):
    """FIRST+COUNT for the word of an fpage of whole pages, or None if no such text has this word."""
    log, base = word >> 4 & 63, word & ~0x3FF
    if log == 1 and base == 0:
        log = SPACE_LOG
    first, count = base >> page_log, 1 << max(log - page_log, 0)
    text = f"{first}+{count}"
    try:
        return text if pages(text, word & FULL_RIGHTS, page_log) == word else None
    except Misspelled:
        return None


def fpage_text(word, page_log):
    run = run_text(word, page_log)
    return f"{word:#x}" if run is None else f"{run}:{rights_text(word & FULL_RIGHTS)}"


def control_text(word):
    texts = {value: text for text, value in CONTROLS.items()}
    return f"{texts[word & 64]}:{(word & 63) + 1}" if word < 128 else f"{word:#x}"


def window_text(word, page_log):
    texts = {value: text for text, value in WINDOWS.items()}
    run = None if word & 15 else run_text(word, page_log)
    return texts.get(word) or run or f"{word:#x}"


def timeouts_text(word):
    texts = {value: text for text, value in TIMEOUTS.items()}
    halves = [texts.get(half) for half in (word >> 16, word & 0xFFFF)]
    return f"{word:#x}" if None in halves else ",".join(halves)


def item_text(first, second, page_log):
    """The token of an item's words, whose lowest bit is ignored, or None if no token has these words."""
    kinds = {value: text for text, value in KINDS.items()}
    run = run_text(second, page_log)
    kind = kinds.get(first & 0x3FE)
    if run is None or kind is None or first >> 10 << 10 & ((1 << page_log) - 1):
        return None
    return f"{kind}:{run}>{first >> page_log}:{rights_text(second & FULL_RIGHTS)}"


def message_tokens(found, page_log, labelled):
    """The tokens of a message's words: items and, if it is labelled, the tag's label, if these have exactly these words; otherwise numbers."""
    plain = [f"{word:#x}" for word in found]
    if not found:
        return plain
    untyped, typed = found[0] & 63, found[0] >> 6 & 63
    if len(found) != 1 + untyped + typed or typed % 2:
        return plain
    pairs = [found[place : place + 2] for place in range(1 + untyped, len(found), 2)]
    tag = f"tag:{found[0] >> 16}" if labelled else plain[0]
    tokens = [tag, *plain[1 : 1 + untyped], *(item_text(*pair, page_log) for pair in pairs)]
    return tokens if None not in tokens and words(tokens, page_log) == list(found) else plain
