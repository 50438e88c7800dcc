#!/usr/bin/env python3
"""Compares a program that carries out scripts by the bindings with `rr script`: random scripts have to give the same replies.

    sequences.py RR COUNT SEED DRIVER..

RR is the program `rr`; DRIVER, with its words, reads a script as `rr script` does. Each line of a script is chosen after RR's replies to
those before, so that most lines name what there is. The table tells how often each reply came; in 1000 sequences or more each of a list
has to come often. The last line is 'N passed, M failed'.
"""
import collections
import concurrent.futures
import os
import random
import subprocess
import sys

LINES = 60

# How often each reply in `WANTED` has to come, in so many sequences.
OFTEN, MANY = 10, 1000

# No `usize` of 64 bits counts so many bytes of several slots, and no memory has so many.
HUGE = 2**62

LOAN_ERRORS = ["OutOfMemory", "ExceedsMaxLoans", "ExceedsMaxLoanSize"]

# Replies by their words that are no numbers; before a flag stands its command.
WANTED = [
    *("done", "created", "loaned", "pending", "active", "sent", "response", "none", "count", "user", "data", "id", "retry", "discard"),
    *("request-header", "response-header"),
    *(f"{it} {flag}" for it in ("push", "set", "ready", "has", "conn", "hinted") for flag in ("true", "false")),
    *(f"error {it}" for it in ("ZeroLimit", "LimitsTooLarge", "UnableToCreateDataSegment")),
    *(f"error {it}" for it in ("ExceedsMaxSupportedClients", "ExceedsMaxSupportedServers")),
    *(f"error {cause}{it}" for cause in ("", "SendError LoanError ", "LoanError ") for it in LOAN_ERRORS),
    *(f"error {it}" for it in ("ExceedsMaxActiveRequests", "SendError UnableToDeliver", "UnableToDeliver", "ExceedsMaxBorrows")),
    *(f"refused {it}" for it in ("Unknown", "WrongKind", "Incomplete")),
]

# Kinds as docs/RULES.md has them: C `Client`, S `Server`, qu and q a request on loan, P `PendingResponse`, a `ActiveRequest`, ru and r a
# response on loan, R `Response`.
HANDLES = ["qu", "q", "P", "a", "ru", "r", "R"]

# Commands on a number: how often they come, what they are for, and the words after the number.
CALLS = {
    "loan": (9, ["C", "a"], ["len"]),
    "default": (7, ["C", "a"], ["len"]),
    "copy": (18, ["C", "a"], ["byte"]),
    "push": (9, ["qu", "ru"], ["byte"]),
    "set": (4, ["qu", "q", "ru", "r"], ["index", "byte"]),
    "uset": (4, ["qu", "q", "ru", "r"], ["header"]),
    "init": (7, ["qu", "ru"], []),
    "ready": (4, ["q", "r"], []),
    "send": (10, ["q", "r"], []),
    "recv": (9, ["S", "P"], []),
    "has": (4, ["S", "P"], []),
    "conn": (4, ["P", "a"], []),
    "hint": (2, ["P"], []),
    "hinted": (4, ["a"], []),
    "count": (3, ["P"], []),
    "head": (4, HANDLES, []),
    "user": (4, HANDLES, []),
    "data": (6, HANDLES, []),
    "origin": (4, ["a", "R"], []),
    "strategy": (2, ["C", "S"], []),
    "maxlen": (2, ["C", "S"], []),
    "update": (1, ["C", "S"], []),
    "drop": (9, [*HANDLES, *HANDLES, "C", "S"], []),
}


class Script:
    """Chooses the lines of a script, and knows what lives from the replies to them."""

    def __init__(self, seed):
        self.random = random.Random(seed)
        self.kinds = {}
        self.highest = 0

        # Where servers are lazy and clients leave their requests, queues get full.
        self.is_lazy = self.random.random() < 0.25
        self.follows = None

    def hub(self):
        """Returns the first line."""
        limits = [self.random.choice([1, 1, 2, 2, 3]) for _ in range(6)]
        fault = self.random.random()
        if fault < 0.03:
            limits[self.random.randrange(6)] = 0
        elif fault < 0.05:
            limits[self.random.choice([1, 2, 3])] = 2**64 - 1
        flags = "".join(it for it in "qpf" if self.random.random() < 0.4) or "-"
        expired = [self.random.choice([0, 1, 1, 2]) for _ in range(2)]
        return " ".join(map(str, ["hub", "sliced", *limits, flags, *expired]))

    def port(self, name):
        """Returns a line that creates a port."""
        length = HUGE if self.random.random() < 0.03 else self.random.choice([0, 1, 1, 2, 4])
        strategy = self.random.choice(["retry", "discard"])
        growth = self.random.choice(["static", "static", "best", "pow2"])
        pool = self.random.choice(["-", "-", 1, 2, 3])
        words = [name, strategy, length, growth, pool]
        if name == "server":
            words.append(2**64 - 1 if self.random.random() < 0.02 else self.random.choice([0, 1, 1, 2, 3]))
        return " ".join(map(str, words))

    def word(self, what):
        """Returns a word after a number."""
        if what == "len":
            return HUGE if self.random.random() < 0.05 else self.random.choice([0, 1, 1, 1, 2, 2, 3, 5])
        if what == "index":
            return self.random.choice([0, 0, 1, 1, 2, 3, 256, 2**32])
        return self.random.randrange(2**64 if what == "header" else 256)

    def named(self, kinds):
        """Returns the number of something of one of these kinds, or now and then of something else, or of nothing."""
        chance = self.random.random()
        if chance < 0.02:
            return self.random.choice([self.highest + 1, 2**64 - 1, self.random.randrange(2**64)])
        if chance < 0.06:
            return self.random.randrange(self.highest + 1)
        if chance < 0.10 and self.kinds:
            return self.random.choice(list(self.kinds))
        fitting = [number for number, kind in self.kinds.items() if kind in kinds]
        return self.random.choice(fitting) if fitting else None

    def line(self, place):
        """Returns the line at a place, from 1."""
        if place <= 2 and self.random.random() < 0.9:
            return self.port(["client", "server"][place - 1])
        line, self.follows = self.follows, None
        while line is None:
            if self.random.random() < 0.04:
                return self.port(self.random.choice(["client", "server"]))
            name = self.random.choices(list(CALLS), [it[0] for it in CALLS.values()])[0]
            line = self.call(name, self.random.choice(CALLS[name][1]))
        return line

    def call(self, name, kind):
        """Returns a command on something of this kind, as far as there is something."""
        number = self.named([kind])
        return None if number is None else " ".join(map(str, [name, number, *map(self.word, CALLS[name][2])]))

    def go_on(self, told, number):
        """Chooses now and then what follows a reply, so that requests are answered and answers are received."""
        chance = self.random.random()
        if told == "pending" and chance < (0.5 if self.is_lazy else 0.1):
            self.follows = f"drop {number}"
        elif told == "pending" and chance < 0.6 and not self.is_lazy:
            self.follows = self.call("recv", "S")
        elif told == "active" and chance < 0.5:
            self.follows = f"copy {number} {self.word('byte')}"
        elif told == "sent" and chance < 0.5:
            self.follows = self.call("copy", "a") if self.is_lazy else self.call("recv", "P")
        elif told == "loaned" and chance < 0.2:
            self.follows = f"{self.random.choice(['init', 'ready', 'push', 'send'])} {number}"
            self.follows += f" {self.word('byte')}" if self.follows.startswith("push") else ""

    def note(self, line, reply):
        """Takes note of what a command did."""
        command, told = line.split(), reply.split()
        numbers = [int(it) for it in told[1:] if it.isdigit()]
        if told[0] == "created":
            self.kinds[numbers[0]] = "C" if command[0] == "client" else "S"
        elif told[0] in ("loaned", "pending", "active", "response"):
            kind = {"pending": "P", "active": "a", "response": "R"}.get(told[0])
            side = "q" if self.kinds.get(int(command[1])) == "C" else "r"
            self.kinds[numbers[0]] = kind or side + ("u" if command[0] == "loan" else "")
        elif command[0] == "init" and told[0] == "done":
            self.kinds[int(command[1])] = self.kinds[int(command[1])][0]
        elif command[0] == "drop" and told[0] == "done" or command[0] == "send" and told[0] in ("sent", "error"):
            del self.kinds[int(command[1])]
        if told[0] in ("created", "loaned", "pending", "active", "sent"):
            self.highest = max(self.highest, numbers[0])
        if numbers:
            self.go_on(told[0], numbers[0])


def grown(reference, seed):
    """Returns a script, RR's replies to it, and RR's status."""
    script = Script(seed)
    lines, replies = [], []
    with subprocess.Popen([reference, "script"], stdin=subprocess.PIPE, stdout=subprocess.PIPE, stderr=subprocess.DEVNULL) as rr:
        for place in range(LINES + 1):
            lines.append(script.line(place) if place else script.hub())
            rr.stdin.write(f"{lines[-1]}\n".encode())
            rr.stdin.flush()
            replies.append(rr.stdout.readline().decode().rstrip("\n"))
            if not replies[-1] or place == 0 and replies[0] != "done":
                break
            script.note(lines[-1], replies[-1])
        rr.stdin.close()
        return lines, replies, rr.wait(timeout=60)


def told_as(reply):
    """Returns a reply as a driver tells it: which request an active request belongs to is not told."""
    return reply.rpartition(" ")[0] if reply.startswith("active ") else reply


def kind_of(line, reply):
    """Returns a reply's words that are no numbers, after the command if it is a flag."""
    words = [it for it in reply.split() if not it.isdigit()]
    return " ".join([line.split()[0], *words] if words in (["true"], ["false"]) else words)


def compare(reference, driver, seed):
    """Returns the kinds of replies to a script, and what the driver does otherwise, or None."""
    lines, replies, status = grown(reference, seed)
    text = "".join(f"{it}\n" for it in lines).encode()
    ran = subprocess.run(driver, input=text, capture_output=True, timeout=60, check=False)
    kinds = [kind_of(line, reply) for line, reply in zip(lines, replies)]
    wanted, told = [told_as(it) for it in replies], ran.stdout.decode(errors="replace").splitlines()
    if wanted == told and status == ran.returncode and (ran.stderr == b"" or status == 4):
        return kinds, None
    at = next((at for at, (one, other) in enumerate(zip(wanted, told)) if one != other), min(len(wanted), len(told)))
    said = [f"{line} -> {reply}" for line, reply in zip(lines[:at], wanted)]
    said.append(f"{lines[at] if at < len(lines) else 'the end'} -> {wanted[at:at + 1]}, and the driver {told[at:at + 1]}")
    said.append(f"status {status}, and the driver {ran.returncode} {ran.stderr.decode(errors='replace')!r}")
    return kinds, "\n".join(said)


def main(reference, count, seed, *driver):
    kinds, faults, passed, failed = collections.Counter(), [], 0, 0
    with concurrent.futures.ProcessPoolExecutor(len(os.sched_getaffinity(0))) as pool:
        ran = pool.map(compare, *zip(*((reference, driver, f"{seed}-{at}") for at in range(int(count)))), chunksize=5)
        for at, (came, fault) in enumerate(ran):
            kinds.update(came)
            if fault:
                faults.append(f"sequence {seed}-{at}:\n{fault}")
    for kind, often in sorted(kinds.items()):
        print(f"{often:7} {kind}")
    for fault in faults[:3]:
        print(fault)
    said = [(not faults, f"{count} sequences of {kinds.total()} commands, {len(faults)} with other replies")]
    if int(count) >= MANY:
        rare = [it for it in WANTED if kinds[it] < OFTEN]
        said.append((not rare, f"of {len(WANTED)} kinds of replies these came less than {OFTEN} times: {', '.join(rare) or 'none'}"))
    for is_well, what in said:
        print(("ok: " if is_well else "FAILED: ") + what)
        passed, failed = (passed + 1, failed) if is_well else (passed, failed + 1)
    print(f"{passed} passed, {failed} failed")
    return 1 if failed else 0


if __name__ == "__main__":
    sys.exit(main(*sys.argv[1:]))
