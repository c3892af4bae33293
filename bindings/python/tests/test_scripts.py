"""Scripts are answered as l4 run answers them: tests/scripts at the top of the repository has each script with what it prints (.out), and
the words of its command line (.words)."""
import unittest
from pathlib import Path

from l4 import PAGE_BYTES
from l4.scripts import MOST_STEPS, Script

SCRIPTS = Path(__file__).resolve().parents[3] / "tests" / "scripts"


def answers(text, *given):
    return "".join(f"{line}\n" for event in Script(*given).run(text) for line in event.texts)


def options(file):
    """The number of frames and the bytes of a page that a command line gives."""
    words = file.read_text().split() if file.exists() else []
    given = dict(zip(words[::2], map(int, words[1::2])))
    return given.get("--frames", 256), given.get("--page-size", PAGE_BYTES)


class Scripts(unittest.TestCase):
    def test_each_script_is_answered_as_the_program_answers_it(self):
        scripts = sorted(SCRIPTS.glob("*.script"))
        self.assertGreaterEqual(len(scripts), 115)
        for script in scripts:
            with self.subTest(script.name):
                got = answers(script.read_bytes().decode("utf-8", "surrogateescape"), *options(script.with_suffix(".words")))
                self.assertEqual(got, script.with_suffix(".out").read_text())

    def test_the_state_after_each_step(self):
        script = Script(256)
        seen = []
        for event in script.run("recv 2 any 0x10\nsend 1 2 0x80 0x20008 0x100c7\nshow 2 0 64\n"):
            seen.append((event.line, event.is_step, event.transfer is not None, len(list(script.kernel.mappings(1)))))
        wanted = [(1, True, False, 0), (1, False, False, 0), (2, True, False, 0), (2, True, True, 1), (3, False, False, 1)]
        self.assertEqual((seen, script.steps), (wanted, 3))

    def test_a_long_history_refuses_calls(self):
        script = Script(1)
        script.steps = MOST_STEPS + 1
        texts = [text for line in ("recv 2 any 0", "recv 3 any 0", "cancel 2", "steps") for event in script.line(line) for text in event.texts]
        self.assertEqual(texts, ["line 1 refused L1", "line 2 refused K2", "line 3 refused L1", f"steps {MOST_STEPS + 1}"])


if __name__ == "__main__":
    unittest.main()
