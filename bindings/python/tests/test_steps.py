"""Lists of steps are answered as l4_steps answers them: tests/steps at the top of the repository has each list with what it prints (.out),
its standard error (.err) and its exit status (.status). Of standard error, only the number of the line is compared."""
import re
import subprocess
import sys
import unittest
from pathlib import Path

from l4 import Kernel
from l4.lists import Unread, replay

LISTS = Path(__file__).resolve().parents[3] / "tests" / "steps"


def l4(*words, lines=b""):
    done = subprocess.run([sys.executable, "-m", "l4", *words], input=lines, stdout=subprocess.PIPE, stderr=subprocess.PIPE)
    return done.returncode, done.stdout, done.stderr


def known(file, other):
    return file.read_bytes() if file.exists() else other


def named_line(message):
    """The number of the line that an error message names."""
    return re.findall(rb"^error: line (\d+)", message)


class Lists(unittest.TestCase):
    def test_each_list_is_answered_as_the_program_answers_it(self):
        lists = sorted(LISTS.glob("*.steps"))
        self.assertGreaterEqual(len(lists), 14)
        for steps in lists:
            status = int(known(steps.with_suffix(".status"), b"0"))
            wanted = status, steps.with_suffix(".out").read_bytes(), named_line(known(steps.with_suffix(".err"), b""))
            with self.subTest(steps.name):
                status, out, err = l4("steps", lines=steps.read_bytes())
                self.assertEqual((status, out, named_line(err)), wanted)

    def test_lines_that_are_not_steps(self):
        words = " ".join("1" for _ in range(65))
        lines = f"""spaces 1;Space 1;space;space 1 2;space x;space -1;space +1;space 1_0;space 0x;space 0X1;space 0x123456789;space 4294967296
space 00000000001;space\t1; # no comment;start;start 1;start 1 call;start 1 ipc 0 0 0;start x ipc 0 0 0 0;start 1 fault 0 0 8;start 1 fault 0 0
start 1 unmap;start 1 create 1 2;start 1 setpager 1;start 1 delete;start 1 delete 1 2;transfer 1;transfer 1 2 3;expire;timeout;cancel 1 2;enabled 1;reply;pages 0 0
pages all;start 1 ipc 0 0 0 0 {words};start 1 unmap 0 {words}"""
        for line in lines.replace("\n", ";").split(";"):
            with self.subTest(line):
                answers = replay(Kernel(), f"space 1\n{line}\nspace 2\n".encode().splitlines(True))
                self.assertEqual(next(answers), "space 0")
                with self.assertRaisesRegex(Unread, "^line 2 is not a valid step or query$"):
                    next(answers)

    def test_drawings(self):
        lines = (LISTS / "faulting.steps").read_bytes()
        status, out, err = l4("tree", "101", lines=lines)
        self.assertEqual((status, err), (0, b""))
        self.assertIn(b'"0:101" -> "2:101";\n    "2:101" -> "3:5";\n', out)
        status, out, err = l4("space", "3", lines=lines)
        self.assertIn(b'"3:5" [label="space 3\\npage 5\\nframe 101\\nr-x"];', out)
        self.assertEqual(l4("tree", "256", lines=lines), (2, b"", b"error: there is no frame 256: the machine has 256 frames, numbered from 0\n"))
        self.assertEqual(l4("space", "9", lines=lines), (2, b"", b"error: there is no space 9, but 0, 1, 2, 3\n"))

    def test_frames(self):
        self.assertEqual(l4("--frames", "1", "steps", lines=b"pages 0\n"), (0, b"page 0 frame 0 rwx none\nshown 1\n", b""))
        status, out, err = l4("--frames", "0", "steps")
        self.assertEqual((status, out, err), (2, b"", b"error: K6: the number of frames must be from 1 to 4,096\n"))

    def test_page_size(self):
        fault = b"start 1 fault 0x5678 0 4\n"
        self.assertEqual(l4("--frames", "21", "--page-size", "1024", "steps", lines=fault), (0, b"started\n1 failed 4\n", b""))
        self.assertEqual(l4("--frames", "22", "--page-size", "1024", "steps", lines=fault), (0, b"started\n1 hit\n", b""))
        self.assertEqual(l4("--page-size", "2048", "steps")[0], 2)


if __name__ == "__main__":
    unittest.main()
