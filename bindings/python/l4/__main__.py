"""The command line: executes a step list and prints its answers or a drawing, judges the answers of another kernel, or shows the run of a
script in a browser."""
from __future__ import annotations

import argparse
import sys
import webbrowser
from contextlib import nullcontext
from typing import BinaryIO, ContextManager, List, Optional, Tuple

from . import draw
from .judge import Adapter, Agreement, Difference, Follower, Report, Uncompared, Unfit, requests, shrink, unanswered
from .kernel import Kernel
from .lab import Lab, read_script
from .lab_answers import MOST_BYTES
from .lab_steps import read_history
from .lists import Unread, replay
from .refusals import Refused
from .segments import BadSegments
from .words import PAGE_BYTES, SMALL_PAGE_BYTES


def parse(words: Optional[List[str]]) -> argparse.Namespace:
    parser = argparse.ArgumentParser(
        prog="python -m l4",
        description="Executes a step list from standard input (l4_steps --help describes the language), judges the answers of another kernel, or shows a "
        "script (l4 --help) in a browser.",
    )
    parser.add_argument("--frames", type=int, default=256, help="number of frames of the machine, 1 to 4096 [default: %(default)s]")
    parser.add_argument("--page-size", type=int, choices=(PAGE_BYTES, SMALL_PAGE_BYTES), default=PAGE_BYTES, help="size of a page in bytes [default: %(default)s]")
    commands = parser.add_subparsers(dest="command", required=True)
    commands.add_parser("steps", help="answer each line as l4_steps does")
    tree = commands.add_parser("tree", help="execute the list, then print the mapping tree of a frame as DOT text")
    tree.add_argument("frame", type=int)
    space = commands.add_parser("space", help="execute the list, then print the mappings of a space as DOT text")
    space.add_argument("space", type=int)
    judged = commands.add_parser("judge", help="compare the answers of another kernel, as l4 judge does, and shorten a list that differs")
    judged.add_argument("list", nargs="?", metavar="FILE", help="a step list with answers in lines that begin with '# ' [default: standard input]")
    judged.add_argument("--against", metavar="LIST", help="the steps and queries that the list must have, each with its answers")
    judged.add_argument("--partial", action="store_true", help="accept steps and queries without answers")
    judged.add_argument("--all", action="store_true", help="print every difference, not only the first")
    judged.add_argument("--follow", action="store_true", help="print the last calls of the threads concerned below each difference")
    judged.add_argument("--with", dest="command_line", metavar="COMMAND", help="judge what this command of the shell writes for the list, against the list")
    judged.add_argument("--shrink", action="store_true", help="leave out lines until the answers of COMMAND agree without any single one, and print that list")
    lab = commands.add_parser("lab", help="show the run of a script in a browser until interrupted")
    lab.add_argument("script", nargs="?", help="a file with a script or step list, which you can edit on the page")
    lab.add_argument("--from", dest="segments", nargs="+", metavar="SEGMENTS", help="show the history in these files, which `l4 run --history-to` wrote")
    lab.add_argument("--port", type=int, default=0, help="port of 127.0.0.1 for the page [default: a free one]")
    lab.add_argument("--no-open", action="store_true", help="do not open a browser")
    options = parser.parse_args(words)
    if options.command == "judge" and options.shrink and options.command_line is None:
        parser.error("--shrink needs --with COMMAND")
    if options.command == "judge" and options.against and options.command_line is not None:
        parser.error("--with COMMAND judges against the list itself, without --against")
    if options.command == "judge" and (options.all or options.follow) and options.command_line is not None:
        parser.error("--with COMMAND prints the first difference alone, without --all and --follow")
    if options.command == "lab" and options.segments and options.script:
        parser.error("the lab shows a script or, with --from, files of segments")
    return options


def opened(name: Optional[str]) -> ContextManager[BinaryIO]:
    """Opens a file, or standard input if no file is named."""
    if name:
        return open(name, "rb")
    return nullcontext(sys.stdin.buffer)


def lines_of(name: Optional[str]) -> List[bytes]:
    """Returns the lines of a file, or of standard input if no file is named."""
    with opened(name) as file:
        return file.readlines()


def follow(options: argparse.Namespace) -> int:
    """Judges a list, and prints each difference as soon as its line has been read. Returns the exit status."""
    wanted = requests(lines_of(options.against)) if options.against else None

    def show(reports: List[Report]) -> None:
        for report in reports:
            print(report if options.follow else report.difference, flush=True)

    with Kernel(options.frames, options.page_size) as kernel, opened(options.list) as file:
        follower = Follower(kernel, wanted, options.partial, options.all)
        for line in file:
            show(follower.read(line))
        show(follower.end())
    if not follower.differs:
        print(follower.agreement())
    return int(follower.differs)


def pass_judgement(options: argparse.Namespace) -> int:
    """Judges a list, or the answers of a command to it. Returns the exit status."""
    if options.command_line is None:
        return follow(options)
    adapter = Adapter(options.command_line, options.frames, options.page_size, options.partial)
    given = unanswered(lines_of(options.list))
    verdict, text = adapter.judge(given)
    if isinstance(verdict, Difference) and options.shrink:
        verdict, text = adapter.judge(shrink(adapter, given))
        sys.stdout.write(text.decode("latin-1"))
        print(f"## {verdict}")
    else:
        print(verdict)
    return int(not isinstance(verdict, Agreement))


def run(options: argparse.Namespace) -> None:
    """Executes the step list on standard input, and prints what the command asks for."""
    with Kernel(options.frames, options.page_size) as kernel:
        for line in replay(kernel, sys.stdin.buffer):
            if options.command == "steps":
                print(line)
        if options.command == "tree":
            sys.stdout.write(str(draw.frame(kernel, options.frame)))
        if options.command == "space":
            sys.stdout.write(str(draw.space(kernel, options.space)))


def given(options: argparse.Namespace) -> Tuple[str, int, int]:
    """Returns the text that the lab shows first, and the frames and the page size of its kernel."""
    if not options.segments:
        Kernel(options.frames, options.page_size).close()
        return read_script(options.script) if options.script else "", options.frames, options.page_size
    text, shown, count = read_history(options.segments, MOST_BYTES)
    if len(shown.entries) < count:
        print(f"The lab shows the first {len(shown.entries):,} of {count:,} steps; `l4 history --from` prints all.")
    return text, shown.frames, shown.page_bytes


def show(options: argparse.Namespace) -> None:
    """Serves the lab's page until the program is interrupted."""
    with Lab(*given(options), options.port) as lab:
        print(f"The lab is at {lab.address} until it is interrupted.", flush=True)
        if not options.no_open:
            webbrowser.open(lab.address)
        try:
            lab.serve_forever()
        except KeyboardInterrupt:
            pass


def main(words: Optional[List[str]] = None) -> int:
    options = parse(words)
    try:
        if options.command == "judge":
            return pass_judgement(options)
        if options.command == "lab":
            show(options)
        else:
            run(options)
    except Uncompared as why:
        print(f"error: {why}", file=sys.stderr)
        return 5
    except (Refused, Unread, Unfit, BadSegments, ValueError, OSError, OverflowError) as why:
        sys.stdout.flush()
        print(f"error: {why}", file=sys.stderr)
        return 2
    return 0


if __name__ == "__main__":
    sys.exit(main())
