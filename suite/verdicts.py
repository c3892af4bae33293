"""What came of the lists of a suite: verdicts as lines of a file, and as a table, in the Test Anything Protocol and as JUnit's XML."""
import collections
from typing import NamedTuple
from xml.sax.saxutils import escape, quoteattr

PASSED, DIFFERS, NOT_RUN = RESULTS = "passed", "differs", "not run"


class Verdict(NamedTuple):
    """What came of a list: its name, one of the three results, the reason if it did not pass, and how many answers were compared if it did."""

    name: str
    result: str
    reason: str = ""
    answers: int = 0


def line_of(verdict):
    """A verdict as one line: the name, the result, the number of answers and the reason, with tabs between them."""
    reason = "".join(c if c.isprintable() else "?" for c in verdict.reason)
    return f"{verdict.name}\t{verdict.result}\t{verdict.answers}\t{reason}"


def verdict_in(line):
    """The verdict that a line has. Raises ValueError if it has none."""
    name, result, answers, reason = line.split("\t")
    if result not in RESULTS or name.count("/") != 1:
        raise ValueError(line)
    return Verdict(name, result, reason, int(answers))


def merged(verdicts):
    """The verdicts by name. Of several verdicts on one list, the worst counts, so the order in which they were found does not matter."""
    worst = {}
    for verdict in verdicts:
        known = worst.setdefault(verdict.name, verdict)
        worst[verdict.name] = max(known, verdict, key=lambda each: (RESULTS.index(each.result), each.reason, -each.answers))
    return [worst[name] for name in sorted(worst)]


def all_pass(verdicts):
    return all(verdict.result == PASSED for verdict in verdicts)


def table(verdicts):
    """The verdicts counted by folder, with the number of answers that were compared in the lists that passed, and below them why a list did not pass."""
    counts = collections.defaultdict(collections.Counter)
    for verdict in verdicts:
        for row in (verdict.name.split("/")[0], "all"):
            counts[row][verdict.result] += 1
            counts[row]["answers"] += verdict.answers
    total = counts.pop("all")
    lines = [f"{'folder':<14}{PASSED:>8}{DIFFERS:>9}{NOT_RUN:>9}{'answers':>9}"]
    lines += [f"{row:<14}{count[PASSED]:>8}{count[DIFFERS]:>9}{count[NOT_RUN]:>9}{count['answers']:>9}" for row, count in [*counts.items(), ("all", total)]]
    return lines + [f"{verdict.name}: {verdict.reason}" for verdict in verdicts if verdict.result != PASSED]


def tap(verdicts):
    """The verdicts in the Test Anything Protocol."""
    lines = [f"1..{len(verdicts)}"]
    for number, verdict in enumerate(verdicts, 1):
        lines.append(f"{'ok' if verdict.result == PASSED else 'not ok'} {number} - {verdict.name.replace('#', chr(92) + '#')}")
        lines += [f"# {verdict.reason}"] if verdict.reason else []
    return lines


def junit(verdicts):
    """The verdicts as JUnit's XML."""
    failed = sum(verdict.result == DIFFERS for verdict in verdicts)
    errors = sum(verdict.result == NOT_RUN for verdict in verdicts)
    lines = ['<?xml version="1.0" encoding="UTF-8"?>', f'<testsuite name="suite" tests="{len(verdicts)}" failures="{failed}" errors="{errors}">']
    for verdict in verdicts:
        folder, name = verdict.name.split("/")
        case = f"  <testcase classname={quoteattr(folder)} name={quoteattr(name)}"
        reason = "".join(c if c.isprintable() else "?" for c in verdict.reason)
        what = "failure" if verdict.result == DIFFERS else "error"
        lines.append(f"{case}/>" if verdict.result == PASSED else f"{case}><{what}>{escape(reason)}</{what}></testcase>")
    return [*lines, "</testsuite>"]


def print_verdicts(verdicts, options):
    """Prints the table, or TAP with --tap, and writes JUnit's XML to the file of --junit."""
    print("\n".join(tap(verdicts) if options.tap else table(verdicts)))
    if options.junit:
        options.junit.write_text("\n".join(junit(verdicts)) + "\n")
