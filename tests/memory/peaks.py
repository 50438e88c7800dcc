#!/usr/bin/env python3
"""Measures the peak memory of round trips at shared hubs, with the program `rr_bench` that the gate proved and built: by commands of one
thread and of four, and through ports by two threads that sleep. It doesn't grow with them. Measures too what a server takes of a processor
that waits for a second.

    tests/memory/peaks.py      after `rt ci`

The last line is 'N passed, M failed'.
"""
import os
import subprocess
import sys
import tempfile

HERE = os.path.dirname(os.path.abspath(__file__))
ROOT = os.path.dirname(os.path.dirname(HERE))
BUILT = os.path.join(ROOT, "crates", "rr_bench", "out", "rr_bench")

# By how many kilobytes the peak of many may be above that of few.
ROOM = 128


# The peaks of equal runs differ by up to 240 kilobytes, and so the highest of so many runs is taken. Few have more runs than many: else
# one high peak of many could be chance.
RUNS_OF_FEW, RUNS_OF_MANY = 40, 10


class Form:
    """What the program makes: its word before the number, how many few and many are, and what is printed for how many."""

    def __init__(self, word, few, many, output):
        self.word, self.few, self.many, self.output = word, few, many, output


def sum_of(count):
    """Returns 1 + 2 + .. + count: each answer is one more than what was asked."""
    return count * (count + 1) // 2


FORMS = [
    Form("trips", 1_000, 300_000, lambda it: f"shared, threads: 1, bytes: 8: {it} round trips come to {sum_of(it)}"),
    Form("four", 1_000, 100_000, lambda it: f"shared, threads: 4, bytes: 8: {it} round trips come to {4 * sum_of(it)}"),
    Form("sleep", 1_000, 100_000, lambda it: f"threads-sleep, threads: 2, bytes: 8: {it} round trips come to {sum_of(it)}"),
]

# How many seconds of a processor an idle server may take.
IDLE = 0.01


class Tally:
    """Counts what passed and what failed, and says so."""

    def __init__(self):
        self.passed = self.failed = 0

    def note(self, is_well, said):
        print(("ok: " if is_well else "FAILED: ") + said, flush=True)
        if is_well:
            self.passed += 1
        else:
            self.failed += 1


def run(meter, form, count):
    """Returns whether a run with so many ends well with the right sum, what it did, and its peak memory in kilobytes."""
    ran = subprocess.run([meter, BUILT, form.word, str(count)], stdout=subprocess.PIPE, env={}, timeout=300)
    output, _, peak = ran.stdout.decode().rstrip("\n").rpartition("\n")
    is_right = ran.returncode == 0 and output == form.output(count)
    return is_right, f"status {ran.returncode}, {output!r}", int(peak or 0)


def highest(meter, form, count, runs, tally):
    """Runs the program so often. Notes whether each run is right. Returns the highest peak."""
    ran = [run(meter, form, count) for _ in range(runs)]
    peak = max(it[2] for it in ran)
    wrong = [said for is_right, said, _ in ran if not is_right]
    tally.note(not wrong, f"{wrong[0] if wrong else ran[0][1]}, a peak of {peak} kB")
    return peak


def idle():
    """Lets a server wait for a second. Returns its status and how many seconds of a processor it took."""
    child = subprocess.Popen([BUILT, "idle"], env={})
    _, status, used = os.wait4(child.pid, 0)
    return status, used.ru_utime + used.ru_stime


def main():
    tally = Tally()
    with tempfile.TemporaryDirectory() as room:
        meter = os.path.join(room, "peak")
        subprocess.run(["cc", "-O1", "-Wall", "-Werror", "-o", meter, os.path.join(HERE, "peak.c")], check=True)
        for form in FORMS:
            few = highest(meter, form, form.few, RUNS_OF_FEW, tally)
            many = highest(meter, form, form.many, RUNS_OF_MANY, tally)
            tally.note(many <= few + ROOM, f"{form.many} take {many - few} kB more than {form.few}")
    status, used = idle()
    tally.note(status == 0 and used <= IDLE, f"status {status}, a server that waited for a second took {used * 1000:.1f} milliseconds")
    print(f"{tally.passed} passed, {tally.failed} failed")
    return 1 if tally.failed else 0


if __name__ == "__main__":
    sys.exit(main())
