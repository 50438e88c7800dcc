"""What the tests of the bindings share: where they build, how they run programs, and how they count what passed."""
import os
import pathlib
import re
import subprocess
import threading
import time

ROOT = pathlib.Path(__file__).resolve().parents[2]
BINDINGS = ROOT / "bindings"
HEADER = BINDINGS / "c" / "include" / "rr.h"

WARNINGS = ["-Wall", "-Wextra", "-Werror", "-pedantic"]
C = ["cc", "-std=c11", "-O2", *WARNINGS]
CPP = ["g++", "-std=c++17", "-O2", *WARNINGS, "-x", "c++"]

VALGRIND = ["valgrind", "-q", "--error-exitcode=9"]
MEMORY = [*VALGRIND, "--leak-check=full", "--show-leak-kinds=all", "--errors-for-leak-kinds=all"]
RACES = [*VALGRIND, "--tool=helgrind"]


class Tally:
    """Counts what passed and what failed, and says so. Threads may share it."""

    def __init__(self):
        self.passed = self.failed = 0
        self._lock = threading.Lock()

    def note(self, is_well, said):
        with self._lock:
            print(("ok: " if is_well else "FAILED: ") + said, flush=True)
            if is_well:
                self.passed += 1
            else:
                self.failed += 1
        return is_well

    def end(self):
        """Prints the last line, and returns the status."""
        print(f"{self.passed} passed, {self.failed} failed")
        return 1 if self.failed else 0


class Room:
    """The folder in which all is built, and the variables with which programs run."""

    def __init__(self, folder, reference):
        self.folder, self.reference = pathlib.Path(folder), reference
        self.lib, self.target = self.folder / "lib", self.folder / "target"
        self.env = {
            **{name: value for name, value in os.environ.items() if name != "PYTHONDONTWRITEBYTECODE"},
            "RR_LIB_DIR": str(self.lib),
            "RR_SO": str(self.lib / "librr.so"),
            "CARGO_TARGET_DIR": str(self.target),
            "CARGO_NET_OFFLINE": "true",
            "PYTHONPYCACHEPREFIX": str(self.folder / "pycache"),
            "PYTHONPATH": str(BINDINGS / "python"),
        }

    def run(self, words, folder=ROOT, seconds=300, env=None):
        """Runs a program. Returns its status (none if it does not begin or end), its output and its faults."""
        how = {"capture_output": True, "text": True, "errors": "replace", "env": env or self.env, "cwd": folder, "timeout": seconds}
        try:
            ran = subprocess.run([str(it) for it in words], check=False, **how)
        except subprocess.TimeoutExpired:
            return None, "", f"it did not end within {seconds} seconds"
        except FileNotFoundError as error:
            return None, "", str(error)
        return ran.returncode, ran.stdout, ran.stderr

    def compiled(self, compiler, source, name, library=None):
        """Compiles a program and links it with the archive. Returns its path, and what the compiler said if it failed."""
        program = self.folder / name
        libraries = ["-x", "none", library or self.lib / "librr.a", "-pthread"]
        includes = [f"-I{HEADER.parent}", f"-I{BINDINGS / 'cpp' / 'include'}"]
        status, output, faults = self.run([*compiler, *includes, source, *libraries, "-o", program])
        return program, "" if status == 0 else output + faults or "the compiler failed"

    def check_program(self, tally, name, compiler, source, wanted, runners=((),)):
        """Compiles a program and runs it by each of some runners, and compares what it prints."""
        program, faults = self.compiled(compiler, source, re.sub(r"\W+", "_", name))
        if faults:
            tally.note(False, f"{name}: {faults}")
            return
        for words in runners:
            status, output, faults = self.run([*words, program])
            is_well = status == 0 and faults == "" and re.fullmatch(wanted, output) is not None
            how = f" under {words[0]}" if words else ""
            if not tally.note(is_well, f"{name}{how}: status {status}, {output.strip().splitlines()[-1:]}"):
                print(output + faults)


def timed(check):
    """Returns the check, after which it says how long it took."""

    def run(room, tally):
        started = time.monotonic()
        check(room, tally)
        print(f"{check.__name__} took {time.monotonic() - started:.0f} seconds", flush=True)

    return run
