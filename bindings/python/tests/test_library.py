"""The structs, constants, functions and texts are the header's and the library's."""
import ctypes
import os
import re
import subprocess
import sys
import unittest
from pathlib import Path

from l4 import Refused, _library
from l4._handles import all_items

PACKAGE = Path(__file__).resolve().parents[1]
HEADER = Path(__file__).resolve().parents[3] / "include" / "l4.h"

TYPES = {
    "void": None,
    "uint32_t": ctypes.c_uint32,
    "uint64_t": ctypes.c_uint64,
    "size_t": ctypes.c_size_t,
    "char *": ctypes.c_char_p,
    "const char *": ctypes.c_char_p,
    "uint32_t *": ctypes.POINTER(ctypes.c_uint32),
    "const uint32_t *": ctypes.POINTER(ctypes.c_uint32),
    "uint64_t *": ctypes.POINTER(ctypes.c_uint64),
    "uint8_t *": ctypes.c_char_p,
    "const uint8_t *": ctypes.c_char_p,
    **{struct.__name__: struct for struct in _library.STRUCTS},
}


def in_python(kind):
    """The type that the header names."""
    if kind in TYPES:
        return TYPES[kind]
    target = re.fullmatch(r"(?:const )?(l4_\w+) \*", kind)
    return ctypes.POINTER(TYPES[target.group(1)])


def declared():
    """The functions of the header."""
    found = {}
    for result, name, parameters in re.findall(r"^(\w+) (l4_\w+)\((.*)\);$", HEADER.read_text(), re.MULTILINE):
        kinds = [re.fullmatch(r"(.*?)\w+", parameter).group(1).strip() for parameter in parameters.split(", ") if parameter != "void"]
        found[name] = in_python(result), [in_python(kind) for kind in kinds]
    return found


def layout():
    """What tests/embedding/bindings_layout.c prints."""
    for struct in _library.STRUCTS:
        yield f"size {struct.__name__} {ctypes.sizeof(struct)}"
        for name, _ in struct._fields_:
            yield f"offset {struct.__name__} {name} {getattr(struct, name).offset}"
    for name, value in vars(_library).items():
        if name.startswith("L4_"):
            yield f"constant {name} {value}"


class Library(unittest.TestCase):
    def test_functions_are_those_of_the_header(self):
        self.assertEqual(_library.FUNCTIONS, declared())

    @unittest.skipUnless("L4_LAYOUT" in os.environ, "tests/embedding/bindings runs it, with the layout that a C compiler gives in L4_LAYOUT")
    def test_structs_and_constants_are_those_of_the_header(self):
        self.assertEqual(sorted(layout()), sorted(Path(os.environ["L4_LAYOUT"]).read_text().splitlines()))

    def test_versions(self):
        class Fake:
            def __init__(self, version):
                self.l4_version = lambda: version

        for version in (1_000, 1_001, 1_999):
            _library.check_version("libl4.so", Fake(version))
        for version in (999, 2_000, 1_000_000, 1_001_000):
            with self.assertRaisesRegex(ImportError, "libl4.so is libl4 .*, but this package needs libl4 0.1.0"):
                _library.check_version("libl4.so", Fake(version))
        with self.assertRaisesRegex(ImportError, "no function l4_version"):
            _library.check_version("libl4.so", object())

    def test_texts(self):
        self.assertEqual(_library.refusal_code(_library.L4_NO_MEMORY), "NoMemory")
        self.assertEqual(_library.refusal_text(_library.L4_K6), "the number of frames must be from 1 to 4,096")
        self.assertEqual((_library.refusal_code(0), _library.refusal_text(0x1234)), ("", ""))

    def test_another_file_is_not_loaded(self):
        for file, why in (("libc.so.6", "is not the library of this package: it has no function l4_version"), (__file__, "can't be loaded")):
            environment = {**os.environ, "L4_LIBRARY": file, "PYTHONPATH": str(PACKAGE)}
            done = subprocess.run([sys.executable, "-c", "import l4"], env=environment, stderr=subprocess.PIPE, text=True)
            self.assertEqual(done.returncode, 1)
            self.assertIn(f"\nImportError: {file} {why}", done.stderr)
            self.assertIn("set L4_LIBRARY to its file", done.stderr)

    def test_numbers_have_at_most_32_bits(self):
        self.assertEqual(_library.number(0xFFFFFFFF, "a word"), 0xFFFFFFFF)
        for value in (-1, 1 << 32):
            with self.assertRaises(ValueError):
                _library.number(value, "a word")
        with self.assertRaises(TypeError):
            _library.number("1", "a word")

    def test_memory_may_run_out_for_a_count_alone(self):
        refusals = [_library.L4_NO_MEMORY, _library.L4_OK]
        with self.assertRaises(Refused) as raised:
            all_items(ctypes.c_char, lambda out, room: _library.l4_count(refusal=refusals.pop(0), count=9))
        self.assertEqual((raised.exception.code, refusals), ("NoMemory", [_library.L4_OK]))


if __name__ == "__main__":
    unittest.main()
