#!/usr/bin/env python3
"""Runs a command and counts the processor minutes of `rt` by crate: proof, tests and edits.

    tests/minutes.py FILE COMMAND ..    runs the command, writes the minutes to FILE, and prints them as a table
    tests/minutes.py --table FILE       prints the table
    tests/minutes.py --check            compares docs/FIGURES.md with what tests/figures.py makes of docs/minutes.json and docs/figures.json
    tests/minutes.py --write            writes that page

What `rt ci` takes from an earlier run costs nothing, and stands in no row. The minutes are those of /proc, looked at every two seconds; what
that misses of the whole stands under `other`. The status is that of the command.
"""
import collections
import datetime
import json
import os
import pathlib
import resource
import subprocess
import sys
import time

import figures

ROOT = pathlib.Path(__file__).resolve().parent.parent
MINUTES = ROOT / "docs" / "minutes.json"
TICKS = os.sysconf("SC_CLK_TCK")
KINDS = ["proof", "tests", "edits"]


def read(path):
    """Returns what a file of /proc says, or nothing if its process has ended."""
    try:
        return pathlib.Path(path).read_bytes()
    except OSError:
        return b""


def processes():
    """Returns the parent, the birth and the ticks of each process."""
    found = {}
    for pid in filter(str.isdigit, os.listdir("/proc")):
        fields = read(f"/proc/{pid}/stat").rpartition(b")")[2].split()
        if fields:
            found[int(pid)] = int(fields[1]), int(fields[19]), int(fields[11]) + int(fields[12])
    return found


def below(top, found):
    """Returns the processes below one."""
    inside, grew = {top}, True
    while grew:
        more = {pid for pid, (parent, _, _) in found.items() if parent in inside and pid not in inside}
        inside, grew = inside | more, bool(more)
    return inside


def task(pid):
    """Returns the crate that a process of `rt` is at work on, and whether on its proof, its tests or an edit, or none."""
    words = read(f"/proc/{pid}/cmdline").decode(errors="replace").split("\0")
    if "--crate-name" not in words[:-1]:
        return None
    try:
        is_edit = "rt-edit" in os.readlink(f"/proc/{pid}/cwd")
    except OSError:
        return None
    kind = "edits" if is_edit else "tests" if "--test" in words else "proof"
    return words[words.index("--crate-name") + 1], kind


class Counter:
    """Counts the seconds of the processes below one."""

    def __init__(self, top):
        self.top, self.last, self.tasks, self.used = top, {}, {}, collections.Counter()

    def look(self):
        """Adds what each process used since the last look. A process without a crate of its own counts for its parent's."""
        found = processes()
        for pid in below(self.top, found):
            if pid not in found:
                continue
            parent, born, ticks = found[pid]
            key = pid, born
            if self.tasks.get(key) is None:
                self.tasks[key] = task(pid) or next((it for (other, _), it in self.tasks.items() if other == parent and it), None)
            if self.tasks[key]:
                self.used[self.tasks[key]] += (ticks - self.last.get(key, 0)) / TICKS
            self.last[key] = ticks


def measure(words):
    """Runs a command. Returns its status, and what it took."""
    began = time.monotonic()
    child = subprocess.Popen(words)
    counter = Counter(child.pid)
    while child.poll() is None:
        counter.look()
        time.sleep(2)
    spent = resource.getrusage(resource.RUSAGE_CHILDREN)
    counter.used["other", "proof"] = max(0, spent.ru_utime + spent.ru_stime - sum(counter.used.values()))
    minutes = collections.defaultdict(dict)
    for (crate, kind), seconds in counter.used.items():
        if seconds >= 3:
            minutes[crate][kind] = round(seconds / 60, 1)
    version = subprocess.run(["rt", "version"], capture_output=True, text=True, check=True).stdout.strip()
    told = {
        "date": datetime.date.today().isoformat(),
        "kit": version,
        "processors": os.cpu_count(),
        "wall": round((time.monotonic() - began) / 60),
        "crates": minutes,
    }
    return child.returncode, told


def order():
    """Returns the crates as crates.txt lists them."""
    lines = (ROOT / "crates.txt").read_text().splitlines()
    return [it.split(":")[0].split()[0] for it in lines if it.strip() and not it.startswith("#")]


def table(told):
    """Returns the minutes as a table."""
    place = {name: at for at, name in enumerate(order())}
    sums = {kind: sum(it.get(kind, 0) for it in told["crates"].values()) for kind in KINDS}
    how = f"{told['wall']} minutes of wall" if told["wall"] else "parts of several runs, with others beside them"
    lines = [
        f"Processor minutes of `rt ci` ({told['date']}, {told['kit']}, {told['processors']} processors, {how}):",
        "",
        "| Crate | Proof | Tests | Edits |",
        "|---|---|---|---|",
    ]
    for name in sorted(told["crates"], key=lambda it: (place.get(it, len(place)), it)):
        spent = told["crates"][name]
        lines.append(f"| `{name}` | " + " | ".join(f"{spent[it]:.1f}" if it in spent else "" for it in KINDS) + " |")
    lines.append(f"| all, {sum(sums.values()):.0f} | " + " | ".join(f"{sums[it]:.0f}" for it in KINDS) + " |")
    return "\n".join(lines) + "\n"


def page():
    """Returns the page of figures with the minutes of docs/minutes.json."""
    return figures.page(table(json.loads(MINUTES.read_text())))


def main(words):
    if words[0] == "--table":
        print(table(json.loads(pathlib.Path(words[1]).read_text())), end="")
        return 0
    if words[0] == "--write":
        figures.PAGE.write_text(page())
        return 0
    if words[0] == "--check":
        is_same = figures.PAGE.is_file() and page() == figures.PAGE.read_text()
        print("" if is_same else "docs/FIGURES.md is not what its sources make: run tests/minutes.py --write\n", end="")
        print(f"{int(is_same)} passed, {int(not is_same)} failed")
        return int(not is_same)
    status, told = measure(words[1:])
    pathlib.Path(words[0]).write_text(json.dumps(told, indent=1) + "\n")
    print(table(told), end="", flush=True)
    return status


if __name__ == "__main__":
    sys.exit(main(sys.argv[1:]))
