#!/usr/bin/env python3
"""Refuses every request for memory in turn, to the programs that the gate proved and built, and judges what each then does.

    tests/memory/run.py                after `rt ci`: crates/rr_test_memory/out/rr_test_memory and crates/rr/out/rr
    tests/memory/run.py REFUSED RR     other builds of the two programs

The last line is 'N passed, M failed'. What a run may do stands beside each judge. docs/DECISIONS.md says what this does not reach.
"""
import os
import re
import subprocess
import sys
import tempfile
from concurrent.futures import ThreadPoolExecutor

import rows

HERE = os.path.dirname(os.path.abspath(__file__))
ROOT = os.path.dirname(os.path.dirname(HERE))


class Program:
    """A program, of whose requests for memory one is refused."""

    def __init__(self, path, library, room):
        self.path, self.library, self.room = path, library, room

    def run(self, words, text=b"", refused=0):
        """Returns the status (none if it does not end), the output and the fault of a run, and whether a request was refused in it."""
        with tempfile.TemporaryFile(dir=self.room) as told:
            env = {"LD_PRELOAD": self.library, "REFUSE": str(refused), "REFUSED_TO": str(told.fileno())}
            how = {"capture_output": True, "env": env, "pass_fds": [told.fileno()], "timeout": 60}
            try:
                ran = subprocess.run([self.path, *words], input=text, **how)
            except subprocess.TimeoutExpired:
                return None, b"", b"it did not end", True
            return ran.returncode, ran.stdout, ran.stderr, os.fstat(told.fileno()).st_size == 1

    def refused_in_turn(self, words, text=b""):
        """Gives what each run does whose first, second, .. request is refused, until none is."""
        for number in range(1, 100_000):
            status, output, fault, was_refused = self.run(words, text, number)
            if not was_refused:
                return
            yield number, status, output, fault


# What each story's call returns if memory is refused; nothing if it takes none, or goes on without.
WANTS = {
    "CreateClient": "ClientError(UnableToCreateDataSegment)",
    "CreateServer": "ServerError(UnableToCreateDataSegment)",
    "Loan-request-PowerOfTwo": "LoanError(OutOfMemory)",
    "Loan-request-BestFit": "LoanError(OutOfMemory)",
    "Loan-response-PowerOfTwo": "LoanError(OutOfMemory)",
    "Loan-response-BestFit": "LoanError(OutOfMemory)",
    "LoanDefault-request-of-40": "LoanError(OutOfMemory)",
    "LoanDefault-response-of-40": "LoanError(OutOfMemory)",
    "Payload-of-3": "NoMemory",
    "run": '"OutOfMemory"',
    "least_pool": "OutOfMemory",
    "copied-of-three": '"AllocError"',
    "create-client": "Client(UnableToCreateDataSegment)",
    "create-client-again": "Client(UnableToCreateDataSegment)",
    "create-server": "Server(UnableToCreateDataSegment)",
    "create-server-again": "Server(UnableToCreateDataSegment)",
    "first-CreateClient": "ClientError(UnableToCreateDataSegment)",
    "first-Release": "NoMemory",
    "fifth-Payload": "NoMemory",
    "fifth-SendCopy": "NoMemory",
}


def judge_story(name, wanted, status, output):
    """Returns 'before', 'went on' or 'refused', or None if the run did what it may not.

    If memory for what comes before the call was refused, nothing of the story is printed, and the status is 4. Else the story is as
    it was with ample memory; or the call returned want of memory by its name, then what it would have returned at first, and all
    after it is the same."""
    if output == b"" and status == 4:
        return "before"
    if status != 0:
        return None
    if output == wanted:
        return "went on"
    lines, told = output.decode().split("\n"), wanted.decode().split("\n")
    want = WANTS.get(name)
    if lines[:1] + lines[2:] == told and lines[1] == want:
        return "refused"
    return None


def judge_book(name, wanted, status, output):
    """Returns what `judge_story` does, of a call that goes into a history.

    After `NoMemory` history and seat have the length that they had, and the call made again gives the first reply and one entry more.
    Another want of memory is an entry as other replies are."""
    if output == b"" and status == 4:
        return "before"
    if status != 0:
        return None
    if output == wanted:
        return "went on"
    lines, (call, reply, counts) = output.decode().splitlines(), wanted.decode().splitlines()
    entries = int(re.match(r"\((\d+), \1\)$", counts)[1])
    first = {WANTS.get(name): entries, "NoMemory": entries - 1}.get(lines[1])
    if first is None:
        return None
    again = [reply, f"({first + 1}, {first + 1})"]
    shown = [f"({first}, {first})"] if call.startswith("call book") else []
    return "refused" if lines == [call, lines[1], *shown, *again] else None


class Tally:
    """Counts what passed and what failed, and says so."""

    def __init__(self):
        self.passed = self.failed = 0

    def note(self, is_well, said):
        print(("ok: " if is_well else "FAILED: ") + said, flush=True)
        if is_well:
            self.passed += 1
        else:
            self.failed += 1


def counted(ends):
    """Returns how often each end came, in words."""
    return ", ".join(f"{ends.count(it)} {it}" for it in ("before", "refused", "ended", "went on") if it in ends) or "no request"


def tell_story(program, group, name):
    """Refuses each request of a story in turn. Returns whether each run is well, and what was done."""
    judge = judge_book if group in ("book", "hub") and name != "new" else judge_story
    status, wanted, _, _ = program.run([group, name])
    if status != 0 or not wanted.startswith(f"call {group} {name}\n".encode()):
        return False, f"{group} {name}: ended with status {status} where nothing was refused"
    ends = []
    for number, status, output, _ in program.refused_in_turn([group, name]):
        ends.append(judge(name, wanted, status, output))
        if ends[-1] is None:
            return False, f"{group} {name}: request {number} refused, status {status}, {output.decode(errors='replace')!r}"
    if (name in WANTS) != ("refused" in ends):
        return False, f"{group} {name}: {counted(ends)}"
    want = f" ({WANTS[name]})" if name in WANTS else ""
    return True, f"{group} {name}{want}: {counted(ends)}"


def tell_row(program, row):
    """Refuses each request of a row in turn. Returns whether each run is well, what was done, and how many requests were refused."""
    text = row.text.encode()

    def run(text, refused=0):
        status, output, fault, _ = program.run(row.words, text, refused)
        return status, output.decode(errors="replace"), fault.decode(errors="replace")

    whole = run(text)
    if whole != (row.status, row.output, row.fault):
        return False, f"{row.name}: where nothing was refused, {whole}", 0
    left, ends = {}, []

    def run_without(place):
        if place not in left:
            left[place] = run(rows.without(row.text, place).encode())
        return left[place]

    for number, status, output, fault in program.refused_in_turn(row.words, text):
        ends.append(rows.judge(row, whole, status, output.decode(errors="replace"), fault.decode(errors="replace"), run_without))
        if ends[-1] is None:
            return False, f"{row.name}: request {number} refused, status {status}, {output!r}, {fault!r}", len(ends)
    return bool(ends), f"{row.name}: {counted(ends)}", len(ends)


def tell_stories(program, tally, pool):
    """Refuses memory to each story that the program tells."""
    status, output, _, _ = program.run([])
    names = re.findall(r"^call (\S+) (\S+)$", output.decode(), re.M)
    tally.note(status == 0 and set(WANTS) <= {name for _, name in names}, f"the program tells {len(names)} stories")
    for is_well, said in pool.map(lambda it: tell_story(program, *it), names):
        tally.note(is_well, said)


def tell_rows(program, tally, pool):
    """Refuses memory to each row of scripts."""
    every = rows.all_rows()
    requests = 0
    for is_well, said, count in pool.map(lambda row: tell_row(program, row), every):
        tally.note(is_well, said)
        requests += count
    print(f"{len(every)} rows: {requests} requests were refused, one in each run", flush=True)


def main(words):
    refused, rr = words or [os.path.join(ROOT, "crates", it, "out", it) for it in ("rr_test_memory", "rr")]
    tally = Tally()
    with tempfile.TemporaryDirectory() as room:
        library = os.path.join(room, "refuse.so")
        subprocess.run(["cc", "-O1", "-Wall", "-Werror", "-shared", "-fPIC", "-o", library, os.path.join(HERE, "refuse.c")], check=True)
        with ThreadPoolExecutor(os.cpu_count()) as pool:
            tell_stories(Program(refused, library, room), tally, pool)
            tell_rows(Program(rr, library, room), tally, pool)
        status, output, fault, _ = Program(rr, library, room).run([b"\xff"])
        usage = b"usage: rr script or rr threads K or rr least N\n"
        tally.note((status, output, fault) == (3, b"", usage), "a word that is not UTF-8 is none of the program's")
        status, output, fault, _ = Program(rr, library, room).run(["threads", "100000"])
        tally.note((status, output, fault) == (0, b"5000050000\n", b""), "two threads exchange as often as they may")
    print(f"{tally.passed} passed, {tally.failed} failed")
    return 1 if tally.failed else 0


if __name__ == "__main__":
    sys.exit(main(sys.argv[1:]))
