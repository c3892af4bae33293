"""What the test programs share: the programs under test, what a test needs, how cases are run and counted, and how failures are printed.

A test program prints each case that fails, with what was expected, what came instead and the command that repeats it. After that it
prints a line 'skipped: NAME (REASON)' for each part that it left out, a line 'N cases executed a program', and last 'N passed, N failed'. Its
exit status is 1 if a case failed. Tests build no program of the crates, prove nothing and install nothing.
"""
import argparse
import contextlib
import difflib
import os
import pathlib
import shlex
import shutil
import subprocess
import sys
from typing import NamedTuple

TOP = pathlib.Path(__file__).resolve().parents[1]
# the programs under test: the variable that names another file, and the commands that build the program with proofs and without them
PROGRAMS = {
    "l4": ("L4", "make", "make try"),
    "l4_steps": ("L4_STEPS", "make", "make try"),
    "l4_checker": ("L4_CHECKER", "make test-programs", None),
    "l4_growths": ("L4_GROWTHS", "make test-programs", None),
    "l4_resumed": ("L4_RESUMED", "make test-programs", None),
}
# other files under test: the proved one with the command that builds it, and the same for the one without proofs
FILES = {
    "the C library": (("crates/l4_c/out/libl4_c.a", "make"), ("out/unproved/lib/libl4.a", "make try-library")),
    "the page": (("web/l4.html", "make web"), ("out/unproved/l4.html", "make try-web")),
    "l4 as Rattle's own compiler builds it": (("crates/l4/out/l4.by-rattle", "make test-programs"), None),
    "l4_steps as Rattle's own compiler builds it": (("crates/l4_steps/out/l4_steps.by-rattle", "make test-programs"), None),
}
ENVIRONMENT = """environment: The proved programs are tested if they are there, and otherwise those of `make try`. UNPROVED=yes tests only what was built
without proofs, and UNPROVED=no only what was proved. L4, L4_STEPS, L4_CHECKER, L4_GROWTHS and L4_RESUMED name other programs"""
SECONDS = 600
MOST_LINES, MOST_BYTES = 12, 2000


def forms(need):
    """The file of a program or of another product with proofs, and the one without, each with the command that builds it, or None."""
    if need in FILES:
        return FILES[need]
    _, proved, tried = PROGRAMS[need]
    return (f"crates/{need}/out/{need}", proved), tried and (f"out/unproved/{need}", tried)


def is_unproved(need):
    """Whether a product is tested as it was built without proofs: if it is there, and the proved one is not. UNPROVED decides otherwise."""
    proved, tried = forms(need)
    choice = os.environ.get("UNPROVED")
    if tried is None or choice == "no":
        return False
    return choice == "yes" or not (TOP / proved[0]).is_file() and (TOP / tried[0]).is_file()


def product(need):
    """The file of a product under test."""
    return TOP / forms(need)[is_unproved(need)][0]


def program(name):
    """The file of a program under test."""
    return pathlib.Path(os.environ.get(PROGRAMS[name][0]) or product(name)).absolute()


def shown(path):
    """A path as it is printed: from the top of the repository, if it is in there."""
    path = pathlib.Path(path)
    return str(path.relative_to(TOP)) if path.is_relative_to(TOP) else str(path)


def is_product(need):
    return need in PROGRAMS or need in FILES


def lacking(need):
    """Why a program, file or tool is not there; None if it is."""
    if not is_product(need):
        return None if shutil.which(need) else f"no {need}"
    if (program(need) if need in PROGRAMS else product(need)).is_file():
        return None
    variable = PROGRAMS[need][0] if need in PROGRAMS else None
    if variable and os.environ.get(variable):
        return f"{os.environ[variable]} is not there, which {variable} names"
    proved, tried = forms(need)
    commands = f"`{proved[1]}` builds it" + (f", and `{tried[1]}` builds it without proofs" if tried else "")
    return f"{need} is not built: {commands}"


def parser(text, cases=False):
    """The command line of a test program. Its description is the help."""
    made = argparse.ArgumentParser(prog=shown(pathlib.Path(sys.argv[0]).resolve()), description=text, epilog=ENVIRONMENT, formatter_class=argparse.RawDescriptionHelpFormatter)
    if cases:
        made.add_argument("--case", metavar="TEXT", help="run only the cases whose names contain TEXT")
    return made


class Result(NamedTuple):
    """What a program did."""

    status: int
    out: str
    err: str = ""

    def __str__(self):
        said = "".join(f", {name} {text[:MOST_BYTES]!r}" for name, text in (("standard output", self.out), ("standard error", self.err)) if text)
        return f"status {self.status}{said or ', nothing written'}"


def run(words, given="", out=None, seconds=SECONDS, **settings):
    """Runs a program on a text or on a file. Its output goes to a file, if one is named. The settings are variables of its environment."""
    words = [str(program(word) if place == 0 and word in PROGRAMS else word) for place, word in enumerate(words)]
    environment = dict(os.environ, **{name: str(value) for name, value in settings.items()})
    how = {"stderr": subprocess.PIPE, "env": environment, "timeout": seconds, "cwd": TOP}
    with contextlib.ExitStack() as files:
        if isinstance(given, pathlib.Path):
            # a folder can be opened too, and then every read fails
            how["stdin"] = os.open(given, os.O_RDONLY)
            files.callback(os.close, how["stdin"])
        else:
            how["input"] = given.encode("latin-1")
        how["stdout"] = files.enter_context(open(out, "wb")) if out else subprocess.PIPE
        done = subprocess.run(words, **how)
    return Result(done.returncode, (done.stdout or b"").decode("latin-1"), done.stderr.decode("latin-1"))


def run_open(words, given, seconds=SECONDS):
    """Runs a program on a text, with its input left open behind it. One that waits for more input is ended after this time."""
    with subprocess.Popen([program(words[0]), *words[1:]], stdin=subprocess.PIPE, stdout=subprocess.PIPE, stderr=subprocess.PIPE, cwd=TOP) as process:
        process.stdin.write(given.encode("latin-1"))
        process.stdin.flush()
        try:
            status = process.wait(seconds)
        except subprocess.TimeoutExpired:
            process.kill()
            status = f"none after {seconds} seconds"
        return Result(status, process.stdout.read().decode("latin-1"), process.stderr.read().decode("latin-1"))


def command(words, given=""):
    """The shell command that does the same from the top of the repository; None if its input is too long to print."""
    text = shlex.join(shown(program(word)) if place == 0 and word in PROGRAMS else shown(word) for place, word in enumerate(words))
    if isinstance(given, pathlib.Path):
        return f"{text} < {shlex.quote(shown(given))}"
    if given and (len(given) > 300 or not given.isascii()):
        return None
    return f"printf %s {shlex.quote(given)} | {text}" if given else f"{text} < /dev/null"


def variables():
    """The assignments by which this run tests other programs, as words in front of a command."""
    names = ["UNPROVED", *(variable for variable, _, _ in PROGRAMS.values())]
    return "".join(f"{name}={shlex.quote(os.environ[name])} " for name in names if os.environ.get(name))


def differences(wanted, got):
    """The lines in which two texts differ."""
    lines = list(difflib.unified_diff(wanted.splitlines(), got.splitlines(), "expected", "actual", n=1, lineterm=""))
    more = [f".. {len(lines) - MOST_LINES} more lines"] if len(lines) > MOST_LINES else []
    return "\n".join(lines[:MOST_LINES] + more)


class Report:
    """The cases of a test program: how many passed and failed, how many of them executed a program or another product under test, and what
    was left out. `only` is the value of --case; `cases`, whether the program takes --case."""

    def __init__(self, only=None, cases=False):
        self.passed = self.failed = self.executed = 0
        # whether a product that a part needs was there: then cases execute it, unless they say otherwise
        self.executes = False
        self.skips, self.only, self.cases = [], only, cases

    def wants(self, name):
        return self.only is None or self.only in name

    def own_command(self, name):
        """The command that repeats a case: this test program."""
        words = [shown(pathlib.Path(sys.argv[0]).resolve()), *sys.argv[1:], *(["--case", name] if self.cases else [])]
        return variables() + shlex.join(words)

    def case(self, name, ok, *details, repeat=None, executes=None):
        """Counts a case. The details of one that failed are pairs of a title and a text. `executes` says whether it executed a product."""
        self.executed += self.executes if executes is None else executes
        if ok:
            self.passed += 1
            return
        self.failed += 1
        print(f"FAILED {name}")
        for title, text in [*details, ("repeat", repeat or self.own_command(name))]:
            lines = str(text)[: 2 * MOST_BYTES].splitlines() or [""]
            print(f"    {title}: {lines[0]}" if len(lines) == 1 else "\n".join([f"    {title}:", *(f"        {line}" for line in lines)]))
        sys.stdout.flush()

    def same(self, name, wanted, got, file=None, repeat=None, executes=None):
        """Counts a case that passes if two results, or two values, are the same."""
        details = [("file", shown(file))] if file else []
        if isinstance(wanted, Result) and isinstance(got, Result):
            details += [("expected", f"status {wanted.status}"), ("actual", f"status {got.status}")]
            streams_of = (("standard output", wanted.out, got.out), ("standard error", wanted.err, got.err))
            details += [(f"{stream} differs", differences(due, came)) for stream, due, came in streams_of if due != came]
        else:
            details += [("expected", wanted), ("actual", got)]
        self.case(name, wanted == got, *details, repeat=repeat, executes=executes)

    def runs(self, name, words, given, wanted, file=None):
        """Runs a program, and counts a case that passes if it does what is wanted."""
        if self.wants(name):
            self.same(name, wanted, run(words, given), file, command(words, given))

    def skip(self, name, reason):
        self.skips.append((name, reason))

    def can(self, name, *needs):
        """Whether all that a part needs is there. Otherwise the part is skipped."""
        reasons = list(dict.fromkeys(filter(None, map(lacking, needs))))
        if reasons:
            self.skip(name, "; ".join(reasons))
        elif any(map(is_product, needs)):
            self.executes = True
        return not reasons

    def end(self):
        """Prints what was left out and the counts, and gives the exit status."""
        for name, reason in self.skips:
            print(f"skipped: {name} ({reason})")
        print(f"{self.executed} cases executed a program")
        print(f"{self.passed} passed, {self.failed} failed")
        return 1 if self.failed else 0


def begin(text, name, *needs, cases=True):
    """The report of a test program that has no options of its own. Ends here if what the program needs is not there."""
    options = parser(text, cases).parse_args()
    report = Report(options.case if cases else None, cases)
    if not report.can(name, *needs):
        sys.exit(report.end())
    return report


def counted(number, noun):
    """A number with its noun, which has an `s` unless the number is 1."""
    return f"{number} {noun}{'' if number == 1 else 's'}"


def agreement(steps, answers):
    """What `l4 judge` prints for a list without differences."""
    return f"agrees: {counted(steps, 'step')}, {counted(answers, 'answer')}\n"


def beside(file, ending, without=""):
    """The text of the file that has another ending."""
    other = file.with_suffix(ending)
    return other.read_bytes().decode("latin-1") if other.is_file() else without


def errors(file, read=None):
    """The expected standard error: NAME.err, which names standard input. If a file is read instead, it names that file."""
    text = beside(file, ".err")
    return text.replace("standard input", f"'{shown(read)}'") if read else text


def install(folder):
    """Installs the C library, as it was built last, into a folder. Gives what goes wrong, or None."""
    proofs = "UNPROVED=yes" if is_unproved("the C library") else "UNPROVED="
    done = subprocess.run(["make", "-s", "BUILT=yes", proofs, "install-library", f"PREFIX={folder}"], cwd=TOP, capture_output=True, text=True)
    return (done.stdout + done.stderr)[-MOST_BYTES:] or f"status {done.returncode}" if done.returncode else None


def streams(folder):
    """Builds the library that makes reads, writes and allocations fail (streams.c)."""
    made = os.path.join(folder, "streams.so")
    source = TOP / "tests/programs/streams.c"
    subprocess.run([os.environ.get("CC", "gcc"), "-O2", "-shared", "-fPIC", "-o", made, source], check=True)
    return made
