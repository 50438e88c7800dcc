"""Tests of what an import of the package says about a library that it cannot use."""
import os
import pathlib
import subprocess
import sys
import tempfile
import unittest

import rr
from rr import _library


def imported(path):
    """Returns the last line of what a program says that imports the package with this library."""
    env = {**os.environ, "RR_SO": str(path), "PYTHONPATH": str(pathlib.Path(rr.__file__).parents[1])}
    ran = subprocess.run([sys.executable, "-c", "import rr"], env=env, capture_output=True, text=True, check=False)
    return ran.returncode, (ran.stderr.strip().splitlines() or [""])[-1]


class TestLibrary(unittest.TestCase):
    def setUp(self):
        room = tempfile.TemporaryDirectory()
        self.addCleanup(room.cleanup)
        self.file = pathlib.Path(room.name) / "librr.so"

    def assert_refused(self, name, *words):
        status, said = imported(self.file)
        self.assertEqual(status, 1)
        self.assertRegex(said, rf"^rr\._errors\.{name}: {self.file} ")
        for word in words:
            self.assertIn(word, said)

    def compiled(self, text):
        source = self.file.with_suffix(".c")
        source.write_text(text)
        subprocess.run(["cc", "-shared", "-fPIC", str(source), "-o", str(self.file)], check=True)

    def test_the_library_that_is_used_is_taken(self):
        self.assertEqual(imported(_library._path()), (0, ""))

    def test_a_missing_library_is_named(self):
        self.assert_refused("LibraryMissing", "is missing")

    def test_another_version_is_named(self):
        self.compiled("unsigned rr_version(void) { return 12345; }")
        self.assert_refused("LibraryVersion", "has 1.23.45", f"needs {rr.__version__}")
        self.compiled("unsigned rr_nothing(void) { return 0; }")
        self.assert_refused("LibraryVersion", "has no version")

    def test_another_processor_is_named(self):
        told = bytearray(_library._path().read_bytes())
        told[18:20] = (183).to_bytes(2, "little")  # AArch64, in the header of an ELF file
        self.file.write_bytes(told)
        self.assert_refused("LibraryProcessor", "is for x86_64 and Linux")


if __name__ == "__main__":
    unittest.main()
