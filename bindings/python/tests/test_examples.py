"""The examples print what the files beside them say."""
import subprocess
import sys
import unittest
from pathlib import Path

EXAMPLES = Path(__file__).resolve().parents[1] / "examples"


class Examples(unittest.TestCase):
    def test_each_example_prints_its_output(self):
        for program in sorted(EXAMPLES.glob("*.py")):
            with self.subTest(program.name):
                done = subprocess.run([sys.executable, str(program)], stdout=subprocess.PIPE, text=True, timeout=600)
                self.assertEqual((done.returncode, done.stdout), (0, program.with_suffix(".out").read_text()))


if __name__ == "__main__":
    unittest.main()
