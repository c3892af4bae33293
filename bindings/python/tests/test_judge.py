"""The judge: the lists of the suite agree, each kind of difference is found, and lists are shortened. The kernels that are judged are those of
tests/suite at the top of the repository: the slow model, as it is and with one rule changed."""
import contextlib
import io
import select
import subprocess
import sys
import unittest
from pathlib import Path

from l4 import UNKNOWN, Agreement, Call, Difference, Judge, Kernel, Message, Start, ThreadId, Transfer
from l4.__main__ import main
from l4.judge import Adapter, Follower, OtherStep, Uncompared, Unfit, judge, shrink, unanswered
from l4.lists import Unread

TOP = Path(__file__).resolve().parents[3]
SUITE, JUDGED = TOP / "suite", TOP / "tests/judged"
KERNEL = f"{sys.executable} {TOP}/tests/suite/kernel"

SENDS = """start 1 ipc 0x8001 0 0 0 0x70000
# started
start 2 ipc 0 0xffffffff 0 0
# started
"""
ENDS = ["done", "1 ipc 00000000 0 00000000", "2 ipc 00070000 0 00004001"]


def lines(text):
    return text.encode("latin-1").splitlines(keepends=True)


def answers(*told):
    return "".join(f"# {line}\n" for line in told)


def l4(*words, given=b""):
    done = subprocess.run([sys.executable, "-m", "l4", "judge", *words], input=given, stdout=subprocess.PIPE, stderr=subprocess.PIPE)
    return done.returncode, done.stdout.decode(), done.stderr.decode()


class Lists(unittest.TestCase):
    def of(self, text, against=None, partial=False):
        with Kernel() as kernel:
            return judge(kernel, lines(text), None if against is None else lines(against), partial)

    def test_the_suite_agrees(self):
        files = sorted(SUITE.glob("*/*.steps"))
        self.assertGreaterEqual(len(files), 40)
        for file in files:
            text = file.read_text()
            steps = sum(line.startswith(("start ", "transfer ", "expire ", "timeout ", "cancel ")) for line in text.splitlines())
            with self.subTest(file.name):
                self.assertEqual(self.of(text), Agreement(steps, sum(line.startswith("# ") for line in text.splitlines())))

    def test_differences(self):
        transfer = SENDS + "transfer 1 2\n"
        for told, wanted in [
            (ENDS, "agrees: 3 steps, 5 answers"),
            ([], "line 5: transfer 1 2: expected done, found no answer"),
            (["done", UNKNOWN, ENDS[2]], "agrees: 3 steps, 4 answers"),
            ([UNKNOWN] * 3, "agrees: 3 steps, 2 answers"),
            (["entangled", *ENDS[1:]], "line 6: transfer 1 2: expected done, found entangled"),
            ([UNKNOWN, UNKNOWN, "2 gone"], "line 8: transfer 1 2: expected 2 ipc 00070000 0 00004001, found 2 gone"),
            (ENDS[:2], "line 7: transfer 1 2: expected 2 ipc 00070000 0 00004001, found no further answer"),
            (["done"], "line 6: transfer 1 2: expected 1 ipc 00000000 0 00000000, found no further answer"),
            ([*ENDS, "2 gone"], "line 9: transfer 1 2: expected no further answer, found 2 gone"),
            ([*ENDS, UNKNOWN], "line 9: transfer 1 2: expected no further answer, found ?"),
        ]:
            with self.subTest(told):
                self.assertEqual(str(self.of(transfer + answers(*told))), wanted)

    def test_a_step_that_is_not_enabled(self):
        found = self.of(SENDS + "## it is the other one\n\ntransfer 2 1\n# done\n")
        self.assertEqual(str(found), "line 8: transfer 2 1: expected refused K1 (enabled transfer 1 2), found done")
        self.assertEqual(str(self.of("expire 1\n# expired\n")), "line 2: expire 1: expected refused K1 (enabled none), found expired")

    def test_queries_are_judged(self):
        self.assertEqual(self.of("enabled\n# enabled none\nspace 2\n# space 1\n"), Agreement(0, 2))
        self.assertEqual(str(self.of("space 2\n# space 2\n")), "line 2: space 2: expected space 1, found space 2")

    def test_answers_that_are_left_out(self):
        for text, wanted in [
            ("space 2\nspace 1\n# space 0\n", "line 1: space 2: expected space 1, found no answer"),
            ("space 1\n# space 0\nspace 2\n#space 1\n", "line 3: space 2: expected space 1, found no answer"),
        ]:
            with self.subTest(text):
                self.assertEqual(str(self.of(text)), wanted)
                self.assertEqual(str(self.of(text, partial=True)), "agrees: 0 steps, 1 answer")
        transfer = SENDS + "transfer 1 2\n# done\nspace 2\n"
        self.assertEqual(str(self.of(transfer, partial=True)), "line 6: transfer 1 2: expected 1 ipc 00000000 0 00000000, found no further answer")
        for text, partial in [("space 1\nspace 2\n", True), ("space 1\n# ?\n", False)]:
            with self.subTest(text), self.assertRaises(Uncompared):
                self.of(text, partial=partial)

    def test_steps_that_are_not_those_of_the_list(self):
        given = "## two queries\nspace 1\n\nspace 2\n# space 7\n"
        first, second = "space 1\n# space 0\n", "space 2\n# space 1\n"
        for text, wanted in [
            (first + second, "agrees: 0 steps, 2 answers"),
            ("## TEXT\n" + first + "\n" + second, "agrees: 0 steps, 2 answers"),
            ("", "line 1: expected space 1, found the end of the list"),
            ("## space 1\n", "line 2: expected space 1, found the end of the list"),
            (first, "line 3: expected space 2, found the end of the list"),
            (second, "line 1: expected space 1, found space 2"),
            (first + "space 3\n# none\n" + second, "line 3: expected space 2, found space 3"),
            (first + "space  2\n# space 1\n", "line 3: expected space 2, found space  2"),
            (first + second + "enabled\n# enabled none\n", "line 5: expected the end of the list, found enabled"),
            (first + "space 2\n", "line 3: space 2: expected space 1, found no answer"),
            ("space 1\nspace 3\n", "line 1: space 1: expected space 0, found no answer"),
        ]:
            with self.subTest(text):
                self.assertEqual(str(self.of(text, given)), wanted)
        self.assertEqual(self.of(first, given), OtherStep(3, "space 2", None))
        self.assertEqual(str(self.of("", "## nothing\nspace 1\n", True)), "line 1: expected space 1, found the end of the list")
        with self.assertRaises(Unread) as caught:
            self.of(first, "space 1")
        self.assertEqual(str(caught.exception), "line 1 does not end with a newline")

    def test_lists_that_are_refused(self):
        for text, wanted in [
            ("", "line 1: the list has no step or query"),
            ("## only a comment\n", "line 2: the list has no step or query"),
            ("# a comment\nenabled\n", "line 1 is an answer without a step or query above it"),
            ("enabled\nfrob\n", "line 2 is not a valid step or query"),
            ("space 1\nspace 2", "line 2 does not end with a newline"),
            ("enabled\n# enabled none\ntransfer 1 2", "line 3 does not end with a newline"),
            ("enabled\n# " + "x" * 4095 + "\n", "line 2 is longer than 4096 bytes"),
        ]:
            with self.subTest(text[:40]), self.assertRaises(Unread) as caught:
                self.of(text)
            self.assertEqual(str(caught.exception), wanted)

    def test_a_difference_comes_before_a_later_line_that_is_refused(self):
        self.assertEqual(str(self.of("space 2\n# space 2\nfrob\n")), "line 2: space 2: expected space 1, found space 2")


class Steps(unittest.TestCase):
    def test_values_and_lines(self):
        watch = Judge()
        self.assertIsNone(watch.compare(Start(1, Call.send(ThreadId.ROOT, Message.of(7))), ["started"]))
        self.assertIsNone(watch.compare(Start(2, Call.receive()), ["started"]))
        self.assertEqual(
            watch.compare(Transfer(1, 2), ["done", ENDS[1], "2 ipc 00070000 0 00000000"]),
            Difference("transfer 1 2", 2, ENDS[2], "2 ipc 00070000 0 00000000"),
        )
        self.assertIsNone(watch.compare("enabled", ["enabled none"]))
        self.assertEqual((watch.steps, watch.answers), (3, 6))

    def test_the_state_follows_the_definition_after_a_difference(self):
        watch = Judge()
        self.assertEqual(watch.compare("start 2 create 0xc001 0xc001 0", ["refused H1"]), Difference("start 2 create 0xc001 0xc001 0", 0, "started", "refused H1"))
        self.assertIsNone(watch.compare("space 3", ["space 2"]))

    def test_lines_that_are_not_steps(self):
        for line in ("frob", "", "start", "transfer 1", "# done"):
            with self.subTest(line), self.assertRaises(ValueError):
                Judge().compare(line, ["done"])

    def test_an_answer_without_lines_differs(self):
        found = Judge().compare("space 2")
        self.assertEqual(found, Difference("space 2", 0, "space 1", None))
        self.assertEqual(str(found), "space 2: expected space 1, found no answer")


class Shrinking(unittest.TestCase):
    def shrunk(self, name, wrong):
        """The shortened list, of which no line can be left out."""
        adapter = Adapter(f"{KERNEL} --wrong {wrong}", 256, 4096)
        short = shrink(adapter, unanswered(lines((SUITE / f"{name}.steps").read_text())))
        self.assertTrue(adapter.disagrees(short))
        for place in range(len(short)):
            self.assertFalse(adapter.disagrees(short[:place] + short[place + 1 :]), short[place])
        return short

    def test_no_line_can_be_left_out(self):
        self.assertEqual(
            self.shrunk("timeouts/receive_after_send", "timeouts"),
            ["start 1 ipc 0 0xffffffff 0 0", "start 2 ipc 0x4001 0x4001 0x4000400 0 0x1 0x7", "transfer 2 1", "enabled"],
        )
        self.assertEqual(len(self.shrunk("grants/moves_the_page", "grants")), 9)

    def test_commands_that_are_unfit(self):
        for command, wanted in [
            ("exit 3", "the command ended with status 3"),
            ("sleep 5", "the command took more than 0.2 seconds"),
        ]:
            with self.subTest(command):
                adapter = Adapter(command, 256, 4096, seconds=0.2 if "sleep" in command else 60)
                with self.assertRaises(Unfit) as caught:
                    adapter.judge(["space 1"])
                self.assertEqual(str(caught.exception), wanted)
                self.assertFalse(adapter.disagrees(["space 1"]))

    def test_a_command_that_writes_other_steps(self):
        adapter = Adapter("echo enabled", 256, 4096)
        self.assertEqual(str(adapter.judge(["space 1"])[0]), "line 1: expected space 1, found enabled")
        self.assertFalse(adapter.disagrees(["space 1"]))


class Following(unittest.TestCase):
    def test_the_lists_of_l4_judge(self):
        """The lists of tests/judged, with what `l4 judge` prints for each. Errors name the same line, in other words."""
        files = sorted(JUDGED.glob("*.steps"))
        self.assertGreaterEqual(len(files), 40)
        for file in files:
            out, err = io.StringIO(), io.StringIO()
            with self.subTest(file.name), contextlib.redirect_stdout(out), contextlib.redirect_stderr(err):
                status = main(self.words(file))
                self.assertEqual((str(status), out.getvalue()), (self.wanted(file, "status") or "0", self.wanted(file, "out")))
                wanted = self.wanted(file, "err").replace(":", " ").split()
                self.assertEqual(err.getvalue().replace(":", " ").split()[:3], wanted[:3])

    @staticmethod
    def wanted(file, suffix):
        path = file.with_suffix(f".{suffix}")
        return path.read_text().rstrip() if suffix == "status" and path.exists() else path.read_text() if path.exists() else ""

    def words(self, file):
        """The words of the command line for a list. Options of the machine stand before the command."""
        options = self.wanted(file, "options").split()
        machine = [word for name, value in zip(options, options[1:]) if name in ("--frames", "--page-size") for word in (name, value)]
        rest = [word for word in options if word not in machine]
        against = ["--against", str(file.with_suffix(".list"))] if file.with_suffix(".list").exists() else []
        return [*machine, "judge", *rest, *against, str(file)]

    def test_a_difference_is_reported_before_the_next_line(self):
        given = (JUDGED / "follow.steps").read_bytes()
        with subprocess.Popen([sys.executable, "-m", "l4", "judge", "--follow"], stdin=subprocess.PIPE, stdout=subprocess.PIPE) as process:
            process.stdin.write(given)
            process.stdin.flush()
            self.assertTrue(select.select([process.stdout], [], [], 600)[0])
            said = process.stdout.readline()
            process.stdin.close()
            self.assertEqual((said + process.stdout.read()).decode(), (JUDGED / "follow.out").read_text())
            self.assertEqual(process.wait(600), 1)

    def test_counts(self):
        follower = Follower(Kernel(), every=True)
        for line in lines(SENDS + "transfer 1 2\n" + answers("done", UNKNOWN, "2 gone")):
            follower.read(line)
        self.assertEqual((follower.lines, follower.steps, follower.answers, follower.differs), (8, 3, 4, True))
        self.assertEqual(follower.end(), [])


class Command(unittest.TestCase):
    def test_a_list(self):
        agrees = (SUITE / "timeouts/send.steps").read_bytes()
        self.assertEqual(l4(given=agrees), (0, "agrees: 2 steps, 4 answers\n", ""))
        differs = agrees.replace(b"8000 2", b"8000 3")
        self.assertEqual(l4(given=differs)[:2], (1, "line 8: expire 2: expected 2 ipc 00008000 2 00000000, found 2 ipc 00008000 3 00000000\n"))
        self.assertEqual(l4(given=b"# done\n"), (2, "", "error: line 1 is an answer without a step or query above it\n"))
        self.assertEqual(l4(given=b"space 1\n"), (1, "line 1: space 1: expected space 0, found no answer\n", ""))
        self.assertEqual(l4("--partial", given=b"space 1\n"), (5, "", "error: no answer was compared\n"))

    def test_against_a_list(self):
        file = SUITE / "timeouts/send.steps"
        self.assertEqual(l4("--against", str(file), given=file.read_bytes()), (0, "agrees: 2 steps, 4 answers\n", ""))
        status, out, err = l4("--against", str(file))
        self.assertEqual((status, err), (1, ""))
        self.assertRegex(out, "^line 1: expected start .*, found the end of the list\n$")
        self.assertEqual(l4("--against", str(file), "--with", KERNEL)[0], 2)

    def test_with_a_command(self):
        file = str(SUITE / "timeouts/receive.steps")
        self.assertEqual(l4(file, "--with", KERNEL), (0, "agrees: 2 steps, 4 answers\n", ""))
        self.assertEqual(l4(file, "--with", KERNEL, "--shrink"), (0, "agrees: 2 steps, 4 answers\n", ""))
        status, out, err = l4(file, "--with", f"{KERNEL} --wrong timeouts")
        self.assertEqual((status, err), (1, ""))
        self.assertEqual(out, "line 5: enabled: expected enabled expire 2, found enabled none\n")
        status, out, err = l4(file, "--with", f"{KERNEL} --wrong timeouts", "--shrink")
        self.assertEqual((status, err), (1, ""))
        self.assertIn("start 2 ipc 0 0xffffffff 0x400 0\n# started\n", out)
        self.assertEqual(len(out.splitlines()), 5)

    def test_words_that_are_refused(self):
        self.assertEqual(l4("--shrink")[0], 2)
        self.assertIn("--shrink needs --with COMMAND", l4("--shrink")[2])
        self.assertEqual(l4("no such file")[0], 2)
        self.assertEqual(l4(given=b"enabled\n", *("--with", "exit 3")), (2, "", "error: the command ended with status 3\n"))


if __name__ == "__main__":
    unittest.main()
