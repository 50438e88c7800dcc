#!/usr/bin/env python3
"""Builds the library for C, C++, Rust and Python in a folder of its own, tests it from each of these, and tests the release.

    tests/bindings.py        after `rt ci`, over the libraries and the program `rr` that it left
    tests/bindings.py RR     with another build of the program `rr`

RR_ARCHIVES may name a folder with the archives, as for `bindings/build`. What stands in rr.h is compared with what the libraries
define, and with how C, C++, Rust, Python and the proved crate lay it out. The last line is 'N passed, M failed'.
"""
import os
import pathlib
import re
import shutil
import subprocess
import sys
import tempfile
import threading
import time

ROOT = pathlib.Path(__file__).resolve().parent.parent

sys.path.insert(0, str(ROOT / "bindings" / "tests"))
import cpp  # noqa: E402 (its folder stands in the line above)
import release  # noqa: E402
import sequences  # noqa: E402
from room import BINDINGS, C, CPP, HEADER, MEMORY, RACES, Room, Tally, timed  # noqa: E402

TOOLS = ["ar", "cargo", "cc", "clang++", "cmake", "g++", "ld", "nm", "objcopy", "pkg-config", "python3", "readelf", "valgrind"]

# What the libraries need of the C library.
NEEDED = ["free", "malloc", "memmove", "memset", "realloc"]

# What the examples print.
EXAMPLES = {
    "request_response": "the server received 21\nthe client received 42\n",
    "streaming": "".join(f"response {it} of 1 byte: {10 * it}\n" for it in range(1, 6)) + "the server has stopped\n",
    "in_place": "256 shades: 16 black pixels, 16 white ones\n",
    "threads": release.C_THREADS,
}

# What those in Python print.
PYTHON_EXAMPLES = {"threads": cpp.EXAMPLES["threads"], "stream": cpp.EXAMPLES["stream"], "tasks": "3\n2\n1\n"}

# What the tests in C print, and what valgrind looks for in them: nothing in one that has an allocator of its own.
TESTS = {
    "codes": (r"19 codes came\n", MEMORY),
    "vectors": (r"the examples hold\n", MEMORY),
    "places": (r"payloads lie where they were written\n", MEMORY),
    "threads": (r"10000 turns of two threads\n", RACES),
    "refuse": (r"[1-9]\d* requests for memory were refused, one in each run\n", None),
    "time": (r"(c(-copy)? \d+ \d+\.\d \d+\n){6}", None),
}

# How many sequences of commands are compared for each language, and how many of them under valgrind or sanitizers.
SEQUENCES, VALGRIND_SEQUENCES = 1000, 40

# How many scripts threads carry out, and how many threads.
LOGS, THREADS = 200, 4

# For how many seconds the C calls are fuzzed.
FUZZED = 120


def lines_of(text):
    """Returns the sorted lines of a text."""
    return sorted(text.splitlines())


def difference(wanted, told):
    """Returns what one list has and the other has not, in words."""
    missing, more = sorted(set(wanted) - set(told)), sorted(set(told) - set(wanted))
    return "".join(f"; {name}: {', '.join(it[:6])}" for name, it in (("missing", missing), ("more", more)) if it)


def declared_functions():
    """Returns the functions that rr.h declares, without those that it defines."""
    return re.findall(r"^(?:uint32_t|void) (rr_\w+)\(", HEADER.read_text(), re.M)


def declared_names():
    """Returns the structs, fields, constants with their values, and functions of defaults that stand in rr.h."""
    text = re.sub(r"/\*.*?\*/", "", HEADER.read_text(), flags=re.S)
    names = [f"{name} {value}" for name, value in re.findall(r"\b(RR_\w+) = (\d+)", text)]
    for body, name in re.findall(r"^typedef struct \w+ \{(.*?)\} (\w+);", text, re.M | re.S):
        names += [name, *(f"{name}.{field}" for field in re.findall(r"(\w+)(?:\[\d+\])?;", body))]
    return names + re.findall(r"^static inline rr_\w+ (rr_\w+_default)\(", text, re.M)


def build_libraries(room, tally):
    """Proves rr_c and builds the libraries, here and in a copy of this checkout. Returns whether they are there."""
    status, output, faults = room.run([BINDINGS / "build", room.lib], seconds=3600)
    if not tally.note(status == 0, f"bindings/build: {output.strip()}"):
        print(faults)
        return False
    if "RR_ARCHIVES" in room.env:
        return True
    proved = re.search(r"^logic=proved functions=\d+ axioms=3 ", faults, re.M)
    axioms = re.search(r"^axioms libc: libc::heap::rattle_alloc, libc::heap::rattle_dealloc, libc::heap::rattle_realloc \(3 of", faults, re.M)
    if not tally.note(proved is not None and axioms is not None, f"rr_c is proved over three axioms: {proved[0] if proved else 'not proved'}"):
        print(faults)
    copy, again = room.folder / "copy", room.folder / "again"
    shutil.copytree(ROOT, copy, ignore=shutil.ignore_patterns(".git", "incremental", "lib", "target"))
    status, _, faults = room.run([copy / "bindings" / "build", again], seconds=3600)
    same = status == 0 and all((again / it).read_bytes() == (room.lib / it).read_bytes() for it in ("librr.a", "librr.so"))
    if not tally.note(same, "a second build, in another folder, makes the same libraries, byte for byte"):
        print(faults)
    shutil.rmtree(copy)
    return True


def check_symbols(room, tally):
    """Compares what the libraries define with what rr.h declares, and what they need of others with `NEEDED`."""
    archive, shared = [room.lib / "librr.a"], ["--dynamic", room.lib / "librr.so"]
    for name, words in (("librr.a", archive), ("librr.so", shared)):
        for what, flag, wanted in (("defines", "--defined-only", declared_functions()), ("needs", "--undefined-only", NEEDED)):
            _, output, _ = room.run(["nm", "--extern-only", "--format=posix", flag, *words])
            told = re.findall(r"^(\w+)(?:@\S+)? [^wv\s]\b", output, re.M)
            is_well = sorted(told) == sorted(wanted)
            tally.note(is_well, f"{name} {what} {len(told)} symbols, and should {len(wanted)}{difference(wanted, told)}")
    _, output, _ = room.run(["readelf", "--dynamic", "--program-headers", "--wide", room.lib / "librr.so"])
    hardened = [r"FLAGS.*BIND_NOW", r"GNU_RELRO", r"GNU_STACK\s.*\sRW\s"]
    tally.note(all(re.search(it, output) for it in hardened), "librr.so binds at once, has read-only relocations and no executable stack")


def check_layouts(room, tally):
    """Compares how each language lays the structs out, and what it takes the constants for."""
    source = BINDINGS / "c" / "tests" / "layout.c"
    status, wanted, faults = room.run([room.compiled(C, source, "layout")[0]])
    wanted = lines_of(wanted)
    names = [it if it.startswith("RR_") else it.split()[0] for it in wanted]
    declared = declared_names()
    is_well = status == 0 and sorted(names) == sorted(declared)
    tally.note(is_well, f"layout.c prints what rr.h declares, {len(declared)} names{difference(declared, names)}{faults}")
    others = {
        "C++": [room.compiled(CPP, source, "layout_cpp")[0]],
        "Rust": [room.target / "debug" / "layout"],
        "Python": [sys.executable, BINDINGS / "python" / "tests" / "layout.py"],
    }
    for language, words in others.items():
        status, told, faults = room.run(words) if pathlib.Path(words[0]).exists() else (None, "", "it was not built")
        is_well = status == 0 and lines_of(told) == wanted
        tally.note(is_well, f"{language} lays out and counts as C does{difference(wanted, lines_of(told))} {faults}".rstrip())
    check_proved_layout(room, wanted, tally)


def check_proved_layout(room, wanted, tally):
    """Compares how the proved crate lays its structs out with what the header says. It has no constants of its own."""
    structs = [it for it in wanted if re.match(r"rr_\w+_t\b", it)]
    status, told, faults = room.run([sys.executable, BINDINGS / "tests" / "proved_layout.py"])
    is_well = status == 0 and structs != [] and lines_of(told) == structs
    said = difference(structs, lines_of(told))
    tally.note(is_well, f"the proved crate lays {len(structs)} structs and fields out as C does{said} {faults}".rstrip())


def check_c(room, tally):
    """Runs the examples and tests in C."""
    for name, output in EXAMPLES.items():
        room.check_program(tally, f"{name}.c, example", C, BINDINGS / "c" / "examples" / f"{name}.c", re.escape(output), ((), MEMORY))
    for name, (output, valgrind) in TESTS.items():
        runners = ((), valgrind) if valgrind else ((),)
        room.check_program(tally, f"{name}.c", C, BINDINGS / "c" / "tests" / f"{name}.c", output, runners)


def check_cargo(room, tally):
    """Runs the tests of the crate `rr`, those in its documents too, and its examples."""
    for name, words in (("tests", ["--lib", "--tests"]), ("tests in documents", ["--doc"])):
        status, output, faults = room.run(["cargo", "test", "--quiet", *words], BINDINGS / "rust")
        passed = sum(int(it) for it in re.findall(r"^test result: ok\. (\d+) passed; 0 failed", output, re.M))
        if not tally.note(status == 0 and passed > 0, f"the crate's {name}: status {status}, {passed} passed"):
            print(output + faults)
    examples = sorted(it.stem for it in (BINDINGS / "rust" / "examples").glob("*.rs"))
    for name in examples:
        status, output, faults = room.run(["cargo", "run", "--quiet", "--release", "--example", name], BINDINGS / "rust")
        is_well = status == 0 and output != "" and faults == ""
        tally.note(is_well, f"the crate's example {name}: status {status}, {output.strip().splitlines()[-1:]} {faults}".rstrip())


def build_scripts(room, tally):
    """Builds what carries out scripts in Rust, and what prints the layout."""
    status, output, faults = room.run(["cargo", "build", "--quiet", "--bins"], BINDINGS / "rust-script")
    if not tally.note(status == 0, "the crate `rr` is compiled for the scripts"):
        print(output + faults)


def check_python(room, tally):
    """Runs the tests of the package `rr`, and its examples."""
    words = [sys.executable, "-W", "error", "-m", "unittest", "discover", "--start-directory", "tests"]
    status, output, faults = room.run(words, BINDINGS / "python")
    ran = re.search(r"^Ran (\d+) tests", faults, re.M)
    if not tally.note(status == 0 and ran is not None and int(ran[1]) > 0, f"Python: status {status}, {ran[0] if ran else 'no tests'}"):
        print(output + faults)
    for name, wanted in PYTHON_EXAMPLES.items():
        status, output, faults = room.run([sys.executable, "-W", "error", BINDINGS / "python" / "examples" / f"{name}.py"])
        is_well = (status, output, faults) == (0, wanted, "")
        tally.note(is_well, f"the package's example {name}: status {status}, {output.strip().splitlines()[-1:]} {faults}".rstrip())


def check_sequences(room, tally):
    """Compares what each language replies to random scripts with what the proved program replies."""
    if not room.reference.is_file():
        tally.note(False, f"{room.reference} is missing, with whose replies those of the bindings are compared")
        return
    c, c_faults = room.compiled(C, BINDINGS / "c" / "tests" / "script.c", "script")
    source = BINDINGS / "cpp" / "tests" / "script.cpp"
    (plus, plus_faults), (checked, checked_faults) = (room.compiled(it, source, f"script_{it[0]}") for it in (cpp.GCC, cpp.ADDRESSES))
    if c_faults or plus_faults or checked_faults:
        tally.note(False, f"the scripts: {c_faults}{plus_faults}{checked_faults}")
    # Memory that the address sanitizer refuses is no error here: it says so in a file.
    refusing = ["env", f"ASAN_OPTIONS=allocator_may_return_null=1:log_path={room.folder / 'sanitizer'}"]
    scripts = [
        ("C", SEQUENCES, "c", [c]),
        ("C under valgrind", VALGRIND_SEQUENCES, "valgrind", [*MEMORY, c]),
        ("C++", SEQUENCES, "c++", [plus]),
        ("C++ under sanitizers", VALGRIND_SEQUENCES, "sanitizers", [*refusing, checked]),
        ("Rust", SEQUENCES, "rust", [room.target / "debug" / "rr-script"]),
        ("Python", SEQUENCES, "python", [sys.executable, BINDINGS / "python" / "tests" / "script.py"]),
    ]
    for name, count, seed, driver in scripts:
        words = [sys.executable, BINDINGS / "tests" / "sequences.py", room.reference, count, seed, *driver]
        _, output, faults = room.run(words, seconds=600)
        counts = re.search(r"^(\d+) passed, (\d+) failed\n\Z", output, re.M)
        print(f"{name}:\n{output[: counts.start()] if counts else output}{faults}", end="", flush=True)
        if counts:
            tally.passed += int(counts[1])
            tally.failed += int(counts[2])
        else:
            tally.note(False, f"the sequences of {name} did not end")


def replies_of(words, lines):
    """Returns the lines that a program prints to these lines, and whether it ended well and without a word of complaint."""
    text = "".join(f"{it}\n" for it in lines)
    ran = subprocess.run([str(it) for it in words], input=text, capture_output=True, text=True, timeout=60, check=False)
    return ran.stdout.splitlines(), ran.returncode == 0 and ran.stderr == ""


def check_threads(room, tally):
    """Compares what threads reply that share a service with what the proved program replies to the commands in the order of their log."""
    driver = [room.target / "debug" / "rr-script", "--threads", THREADS]
    commands = differ = moved = 0
    for seed in range(LOGS if room.reference.is_file() else 0):
        lines, replies, _ = sequences.grown(room.reference, f"threads-{seed}")
        if replies[0] != "done":
            continue
        log, ended = replies_of(driver, lines)
        made = [it.split(" -> ") for it in log]
        wanted, _ = replies_of([room.reference, "script"], [it[0] for it in made])
        commands, moved = commands + len(made), moved + ([it[0] for it in made] != lines)
        is_same = ended and len(made) == len(lines) and [it[-1] for it in made] == [sequences.told_as(it) for it in wanted]
        differ += not is_same
    said = f"{commands} commands of {THREADS} threads, {moved} scripts in another order, {differ} with other replies"
    tally.note(commands > 0 and moved > 0 and differ == 0, said)


class Fuzz:
    """Fuzzes the C calls beside the model of the rules, while the other checks run."""

    def __init__(self, room):
        words = [BINDINGS / "fuzz" / "run", FUZZED, room.folder]
        self._ended = None
        self._thread = threading.Thread(target=lambda: self._keep(room.run(words, seconds=FUZZED + 300)))
        self._thread.start()

    def _keep(self, ended):
        self._ended = ended

    def end(self, tally):
        """Waits for it, and notes what came out."""
        self._thread.join()
        status, _, faults = self._ended
        runs = re.search(r"^stat::number_of_executed_units: (\d+)", faults, re.M)
        if not tally.note(status == 0 and runs is not None, f"the fuzzer's model agrees with the calls: {runs[1] if runs else 0} runs"):
            print(faults[-3000:])


# All checks of the libraries, in their order.
CHECKS = [
    *(check_symbols, build_scripts, check_layouts, check_c, cpp.check_calls, cpp.check_document, cpp.check_misuse),
    *(check_cargo, cpp.check_versions, check_python, release.check_release, check_sequences, check_threads),
]


def main(words):
    started, tally = time.monotonic(), Tally()
    # `cargo` may be installed for this user alone.
    os.environ["PATH"] += os.pathsep + str(pathlib.Path.home() / ".cargo" / "bin")
    missing = [it for it in TOOLS if shutil.which(it) is None]
    if missing:
        tally.note(False, f"{', '.join(missing)}: missing, and needed to test the bindings")
        return tally.end()
    reference = words[0] if words else ROOT / "crates" / "rr" / "out" / "rr"
    with tempfile.TemporaryDirectory() as folder:
        room = Room(folder, pathlib.Path(reference).resolve())
        if build_libraries(room, tally):
            fuzz = Fuzz(room)
            for check in CHECKS:
                timed(check)(room, tally)
            fuzz.end(tally)
    taken = round(time.monotonic() - started)
    print(f"the bindings took {taken // 60} minutes and {taken % 60} seconds")
    return tally.end()


if __name__ == "__main__":
    sys.exit(main(sys.argv[1:]))
