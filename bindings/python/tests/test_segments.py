"""Files of segments, and the lab over them."""
import hashlib
import struct
import subprocess
import sys
import tempfile
import unittest
from pathlib import Path

from l4 import Entry, Outcome, Transfer
from l4.lab_answers import MOST_BYTES, run, view, why
from l4.lab_steps import is_step_list, read_history
from l4.segments import BadSegments, check, join, read

FILES = Path(__file__).resolve().parents[3] / "tests" / "segments"
MESSAGE = "start 2 ipc 0x00000000 0xffffffff 0x00000000 0x00000000\nstart 1 ipc 0x00008001 0x00000000 0x00000000 0x00000000 0x00070000\ntransfer 1 2\n"


def file_of(name):
    """The bytes of a file that was worked out by hand."""
    lines = (FILES / f"{name}.hex").read_text().splitlines()
    return bytes.fromhex("".join(line.partition("#")[0] for line in lines))


def sealed(data):
    """The file with the checksum of its other bytes."""
    return data[:-32] + hashlib.sha256(data[:-32]).digest()


class Segments(unittest.TestCase):
    def fails(self, place, code, work, *values):
        with self.assertRaises(BadSegments) as caught:
            work(*values)
        self.assertEqual((caught.exception.args[0], caught.exception.args[1][:2]), (place, code))

    def test_a_file_is_read(self):
        (segment,) = read(file_of("message"))
        self.assertEqual((segment.frames, segment.page_bytes, segment.first), (256, 4096, 0))
        self.assertEqual("".join(f"{entry}\n" for entry in segment.entries), MESSAGE)
        self.assertEqual(segment.entries[2], Entry(1, Transfer(1, 2), Outcome.DELIVERED, (1, 2)))
        check(join([segment]))

    def test_every_kind_of_call_is_read(self):
        (segment,) = read(file_of("every_call"))
        kinds = {str(entry).split()[2] for entry in segment.entries if str(entry).startswith("start")}
        self.assertEqual(kinds, {"ipc", "fault", "unmap", "create", "setpager", "delete"})
        check(join([segment]))

    def test_a_file_that_is_cut_off_or_altered_is_refused(self):
        whole = file_of("message")
        for length in range(len(whole)):
            with self.assertRaises(BadSegments):
                read(whole[:length])
        for place in range(len(whole)):
            with self.assertRaises(BadSegments):
                read(whole[:place] + bytes([whole[place] ^ 1]) + whole[place + 1 :])
        for cut in (b"", b"LS", b"LSG4", b"LSG4" + bytes(27)):
            self.fails("byte 0", "F8", read, cut)
        for other in (b"X", b"LSX", b"LSG5", bytes(31)):
            self.fails("byte 0", "F1", read, other)
        self.fails("byte 0", "F1", read, b"X" + whole[1:])
        self.fails("byte 8", "F3", read, sealed(whole[:8] + struct.pack("<I", 0) + whole[12:]))
        self.fails("byte 12", "F4", read, sealed(whole[:12] + struct.pack("<I", 512) + whole[16:]))
        self.fails(f"byte {len(whole) - 32}", "F7", read, whole[:-1] + bytes([whole[-1] ^ 1]))

    def test_segments_follow_each_other(self):
        (segment,) = read(file_of("message"))
        self.assertEqual(len(read(file_of("message") * 2)), 2)
        self.fails("segment 1", "J3", join, [segment, segment])
        self.fails("segment 1", "J1", join, [segment, type(segment)(16, 4096, 3, ())])
        self.fails("segment 1", "J2", join, [segment, type(segment)(256, 1024, 3, ())])
        self.fails("segment 0", "J3", join, [type(segment)(256, 4096, 3, ())])

    def test_entries_are_executed_again(self):
        (segment,) = read(file_of("message"))
        first, second, last = segment.entries
        self.fails("entry 2", "J5", check, type(segment)(256, 4096, 0, (first, second, Entry(1, last.step, Outcome.DELIVERED, (1,)))))
        self.fails("entry 1", "th", check, type(segment)(256, 4096, 0, (first, last)))


class LabFiles(unittest.TestCase):
    def text_of(self, *names):
        with tempfile.TemporaryDirectory() as folder:
            files = [Path(folder, name) for name in names]
            for file in files:
                file.write_bytes(file_of(file.name))
            return read_history([str(file) for file in files], MOST_BYTES)

    def test_the_lab_shows_the_history_in_a_file(self):
        text, shown, count = self.text_of("message")
        self.assertEqual((text, shown.frames, count), (MESSAGE, 256, 3))
        steps = run({"script": text})["steps"]
        answers = [["started"], ["started"], ["done", "1 ipc 00000000 0 nil", "2 ipc 00070000 0 1"]]
        self.assertEqual([(step["text"], step["answers"]) for step in steps], list(zip(MESSAGE.splitlines(), answers)))
        self.assertEqual(steps[2]["says"], "label 0x0007")
        shown = view({"script": text, "at": 2})
        self.assertEqual((shown["at"], shown["count"], shown["line"]), (2, 3, 2))

    def test_the_lab_explains_how_a_page_got_there(self):
        map_page = "start 2 ipc 0 0xffffffff 0 0x10\nstart 1 ipc 0x8001 0 0 0 0x80 0x20008 0x100c7\ntransfer 1 2\n"
        self.assertEqual(why({"script": map_page, "at": 3, "space": 1, "page": 32})["lines"][1], "entry 2 transfer 1 2 map 16 32 rwx rwx")

    def test_lines_that_are_refused(self):
        told = run({"script": "start 2 ipc 0 0xffffffff 0 0\ntransfer 2 1\nstart 2 fly\nenabled\n# a comment\n"})
        self.assertEqual(([step["line"] for step in told["steps"]], [it["code"] for it in told["refusals"]["first"]]), ([1], ["K1", "B5"]))

    def test_a_step_list_is_told_from_a_script(self):
        self.assertTrue(is_step_list(MESSAGE) and is_step_list("# a comment\n\nstart 2 delete 0\n"))
        self.assertFalse(is_step_list("") or is_step_list("recv 2 any 0\nstart 2\n") or is_step_list("# start\n"))

    def test_the_command_names_what_is_wrong(self):
        with tempfile.NamedTemporaryFile() as file:
            file.write(b"LSG4")
            file.flush()
            done = subprocess.run([sys.executable, "-m", "l4", "lab", "--no-open", "--from", file.name], capture_output=True, text=True)
        self.assertEqual((done.returncode, done.stderr), (2, "error: byte 0: F8: the segment is cut off\n"))


if __name__ == "__main__":
    unittest.main()
