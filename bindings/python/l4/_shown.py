"""Text and HTML forms of words and tables."""
from __future__ import annotations

import html
from typing import Any, Iterable, Sequence


def hexadecimal(words: Iterable[int]) -> str:
    """Returns the words, each as 0x and eight hexadecimal digits."""
    return " ".join(f"{word:#010x}" for word in words)


def bytes_of(log: int) -> str:
    """Returns 2^log bytes as text, from 1 KiB on."""
    unit = log // 10
    return f"{1 << log - 10 * unit} {('bytes', 'KiB', 'MiB', 'GiB')[unit]}"


def counted(count: int, name: str) -> str:
    """Returns a count with the singular or plural of the name."""
    return f"{count:,} {name}" if count == 1 else f"{count:,} {name}s"


def table(caption: str, head: Sequence[str], rows: Iterable[Sequence[Any]]) -> str:
    """Returns a table as HTML."""
    lines = [("th", head), *(("td", row) for row in rows)]
    cells = ("".join(f"<{tag}>{html.escape(str(cell))}</{tag}>" for cell in row) for tag, row in lines)
    return f"<table><caption>{html.escape(caption)}</caption>{''.join(f'<tr>{row}</tr>' for row in cells)}</table>"
