"""The guide in the page: sections of the documents as HTML.

The page is one file, which people send to each other, so it has its guide in itself. The documents use a part of Markdown: headings,
paragraphs, lists of one level, tables, code and links. A link to another document becomes its text, because that document is not in the file.
"""
import html
import re

# the sections: the name of each, its title, and the headings in a document; None for the whole document
SECTIONS = (
    ("page", "How to use this page", "user-guide.md", ("A run in a browser",)),
    ("scripts", "Scripts", "user-guide.md", ("Scripts", "Commands of a script", "Symbolic tokens", "Names of threads", "Answers of a script", "Order of steps")),
    ("litmus", "Litmus tests", "user-guide.md", ("Every order of calls", "Rules of a litmus test", "The states of a litmus test")),
    ("servers", "Litmus tests of servers and pagers", "litmus.md", None),
    ("codes", "Codes", "user-guide.md", ("Codes",)),
    ("glossary", "Glossary", "glossary.md", ("Pages and mappings", "Steps and calls", "Servers and plans", "Programs and tests")),
)
HEADING = re.compile(r"(#+) (.*)")
LIST = re.compile(r"(-|\d+\.) ")


def plain(text):
    """A text without code: its links, and what is bold or slanted."""
    text = html.escape(text, quote=False)
    text = re.sub(r"\[([^\]]*)\]\((https?:[^)]*)\)", r'<a href="\2">\1</a>', text)
    text = re.sub(r"\[([^\]]*)\]\([^)]*\)", r"\1", text)
    return re.sub(r"\*([^*]+)\*", r"<em>\1</em>", re.sub(r"\*\*([^*]+)\*\*", r"<strong>\1</strong>", text))


def inline(text):
    """A text with code between backquotes, which links may have in them."""
    codes = []
    marked = re.sub(r"`([^`]*)`", lambda it: codes.append(it[1]) or f"\0{len(codes) - 1}\0", text)
    return re.sub("\0(\\d+)\0", lambda it: f"<code>{html.escape(codes[int(it[1])], quote=False)}</code>", plain(marked))


def cells(row):
    """The cells of a table's row. A bar in code, or behind a backslash, is part of its cell."""
    parts = re.findall(r"(?:`[^`]*`|\\\||[^|`])+", row.strip().removeprefix("|").removesuffix("|"))
    return [inline(it.strip().replace("\\|", "|")) for it in parts]


def table(rows):
    head, _, *others = rows
    lines = ["<div class='wide'><table><thead><tr>", *(f"<th>{it}</th>" for it in cells(head)), "</tr></thead><tbody>"]
    lines += [f"<tr>{''.join(f'<td>{it}</td>' for it in cells(row))}</tr>" for row in others]
    return "".join([*lines, "</tbody></table></div>"])


def listed(lines):
    """A list of one level, whose items go on in lines behind two blanks."""
    items = []
    for line in lines:
        found = LIST.match(line)
        if found:
            items.append(line[found.end() :])
        else:
            items[-1] += f" {line.strip()}"
    name = "ul" if lines[0].startswith("-") else "ol"
    return f"<{name}>{''.join(f'<li>{inline(it)}</li>' for it in items)}</{name}>"


def block(lines):
    """A paragraph, a list or a table."""
    if lines[0].startswith("|"):
        return table(lines)
    return listed(lines) if LIST.match(lines[0]) else f"<p>{inline(' '.join(lines))}</p>"


def parts(text):
    """The parts of a document: each is a heading, code, or a block of lines. An image is left out, with the paragraph that leads to it."""
    text = re.sub(r"(^[^\n]*:\n\n)?^!\[[^\]]*\]\([^)]*\)\n", "", text, flags=re.M)
    for number, piece in enumerate(re.split(r"^```\w*\n(.*?)^```\n", text, flags=re.M | re.S)):
        if number % 2:
            yield "code", piece
            continue
        for lines in re.split(r"\n\s*\n", piece.strip("\n")):
            found = HEADING.match(lines)
            if lines.strip():
                yield ("heading", found[2]) if found else ("block", lines.split("\n"))


def written(text, headings):
    """The sections of a document below these headings, or all of it."""
    lines, is_in = [], headings is None
    for kind, it in parts(text):
        if kind == "heading":
            is_in = headings is None or it in headings
            lines += [f"<h4>{inline(it)}</h4>"] if is_in else []
        elif is_in:
            lines.append(f"<pre>{html.escape(it, quote=False)}</pre>" if kind == "code" else block(it))
    return "\n".join(lines)


def guide(docs):
    """The guide, whose sections are closed at first."""
    files = {name: (docs / name).read_text(encoding="utf-8") for _, _, name, _ in SECTIONS}
    for _, title, name, headings in SECTIONS:
        missing = [it for it in headings or () if ("heading", it) not in parts(files[name])]
        if missing:
            raise ValueError(f"docs/{name} has no heading {missing[0]!r}, which the page's section {title!r} takes")
    return "".join(f'<details><summary id="guide-{name}">{title}</summary>\n{written(files[file], headings)}\n</details>\n' for name, title, file, headings in SECTIONS)
