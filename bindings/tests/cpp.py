"""Tests of `rr.hpp`: each call, threads, misuse that a program or a compiler refuses by name, the examples, and another version."""
import concurrent.futures
import os
import re
import signal

from room import BINDINGS, MEMORY, WARNINGS

CPP = BINDINGS / "cpp"

# Without exceptions and without types at run time, and with both.
GCC = ["g++", "-std=c++17", "-O2", *WARNINGS, "-fno-exceptions", "-fno-rtti"]
CLANG = ["clang++", "-std=c++17", "-O1", "-g", *WARNINGS]
ADDRESSES = [*CLANG, "-fsanitize=address,undefined", "-fno-sanitize-recover=all"]
RACES = [*CLANG, "-fsanitize=thread"]

# What the examples print.
EXAMPLES = {
    "threads": "the server received 21\nthe client received 42\n",
    "stream": "1\n2\n4\n8\n16\n32\nthe server has stopped\n",
    "slices": "256 shades: 16 black pixels, 16 white ones\n",
}

# What a program says that misuses the ports, by its number in misuse.cpp.
ENDED = {
    1: "rr: payload: MovedFrom",
    2: "rr: payload_mut: MovedFrom",
    3: "rr: has_requests: MovedFrom",
    4: "rr: sent again: MovedFrom",
    5: "rr: value: RR_LOAN_EXCEEDS_MAX_LOANS",
    6: "rr: error: the result has a value",
}

# What a compiler says of the misuse that it refuses, by its number in misuse.cpp.
REFUSED = {
    1: "deleted",
    2: "deleted",
    3: "in a service of one thread nobody could send meanwhile",
    4: "a payload is trivially copyable",
    5: "a value is loaned by loan_uninit",
    6: "nodiscard",
    7: "a user header is 16 bytes",
    8: "in a service of one thread nobody could make room meanwhile",
    9: "read-only",
}


def check_calls(room, tally):
    """Runs the tests and the examples, as GCC and as clang compile them, with its sanitizers."""
    calls, threads = CPP / "tests" / "calls.cpp", CPP / "tests" / "threads.cpp"
    jobs = [
        ("calls.cpp", GCC, calls, "the calls hold\n", ((), MEMORY)),
        ("calls.cpp, addresses and undefined behaviour", ADDRESSES, calls, "the calls hold\n", ((),)),
        ("threads.cpp", GCC, threads, "the threads hold\n", ((),)),
        ("threads.cpp, addresses and undefined behaviour", ADDRESSES, threads, "the threads hold\n", ((),)),
        ("threads.cpp, races", RACES, threads, "the threads hold\n", ((),)),
        ("time.cpp", GCC, CPP / "tests" / "time.cpp", r"(c\+\+(-shared)? 8 \d+\.\d 20000\n){2}", ((),)),
    ]
    for name, output in EXAMPLES.items():
        source = CPP / "examples" / f"{name}.cpp"
        jobs += [(f"{name}.cpp, {it[0]}", it, source, re.escape(output), ((),)) for it in (GCC, RACES)]
    with concurrent.futures.ThreadPoolExecutor(len(os.sched_getaffinity(0))) as pool:
        for done in [pool.submit(room.check_program, tally, *job) for job in jobs]:
            done.result()


def check_document(room, tally):
    """Compiles and runs the example at the head of `rr.hpp`."""
    head, _, _ = (CPP / "include" / "rr.hpp").read_text().partition("/// Ports and messages are moved")
    example = re.findall(r"^/// {5}(.*)$", head, re.M)
    source = room.folder / "document.cpp"
    body = "\n".join([*example[1:], "return response && **response == 42 ? 0 : 1;"])
    source.write_text(f"{example[0]}\nint main() {{\n{body}\n}}\n")
    room.check_program(tally, "the example of rr.hpp", GCC, source, "")


def check_misuse(room, tally):
    """Checks that misuse ends a program, or is not compiled, and that the error is named."""
    source = CPP / "tests" / "misuse.cpp"
    program, faults = room.compiled(GCC, source, "misuse")
    told = {it: room.run([program, it]) for it in range(len(ENDED) + 1)} if not faults else {}
    wanted = {0: (0, "well\n", ""), **{it: (-signal.SIGABRT, "", f"{said}\n") for it, said in ENDED.items()}}
    tally.note(told == wanted, f"misuse.cpp ends {len(ENDED)} programs by name {faults or ''}".rstrip())
    if told != wanted:
        print(told)
    with concurrent.futures.ThreadPoolExecutor(len(os.sched_getaffinity(0))) as pool:
        compiled = pool.map(lambda it: room.compiled([*GCC, f"-DMISUSE={it}"], source, f"misuse_{it}")[1], REFUSED)
    wrong = {it: said[-2000:] for (it, word), said in zip(REFUSED.items(), compiled) if word not in said}
    tally.note(not wrong, f"misuse.cpp is not compiled in {len(REFUSED)} ways, each with its reason {wrong or ''}".rstrip())


def other_library(room):
    """Returns a folder with an archive of another version."""
    folder = room.folder / "other"
    folder.mkdir()
    (folder / "version.c").write_text("unsigned rr_version(void) { return 90807; }\n")
    for words in (
        ["objcopy", "--redefine-sym", "rr_version=rr_own_version", room.lib / "librr.a", "librr.a"],
        ["cc", "-c", "version.c"],
        ["ar", "r", "librr.a", "version.o"],
    ):
        status, _, faults = room.run(words, folder)
        assert status == 0, faults
    return folder


def check_versions(room, tally):
    """Checks that all have one version, and that C++ and Rust refuse a library of another one."""
    _, version, _ = room.run([BINDINGS / "version"])
    files = {"rust/Cargo.toml": r'^version = "(.*)"', "python/rr/_version.py": r'^VERSION = "(.*)"'}
    told = [re.search(it, (BINDINGS / file).read_text(), re.M)[1] for file, it in files.items()]
    tally.note(told == [version.strip()] * 2, f"rr.h, the crate and the package have version {version.strip()}, {told}")
    folder = other_library(room)
    program, faults = room.compiled(GCC, CPP / "tests" / "misuse.cpp", "other_version", folder / "librr.a")
    status, _, said = room.run([program]) if not faults else (None, "", faults)
    tally.note((status, said) == (-signal.SIGABRT, "rr: a call is done: LibraryVersion\n"), f"C++ refuses another version: {said.strip()}")
    words = ["cargo", "run", "--quiet", "--example", "threads"]
    status, _, said = room.run(words, BINDINGS / "rust", env={**room.env, "RR_LIB_DIR": str(folder)})
    wanted = f"librr.a has version 9.8.7, and the crate rr needs {version.strip()}"
    tally.note(status not in (0, None) and wanted in said, f"Rust refuses another version: status {status}, {wanted in said}")
