#!/usr/bin/env python3
"""Plays the examples of docs/RULES.md through the program `rr`, which has to print the replies that stand behind `->`.

    tests/rules.py [PROGRAM]    after `rt ci`: crates/rr/out/rr

An example without a `hub` line begins with the three lines of the first block. Where several lines make a hub, each is played by itself. The
last line is 'N passed, M failed'.
"""
import pathlib
import re
import subprocess
import sys

ROOT = pathlib.Path(__file__).resolve().parent.parent
BLOCK = re.compile(r"^```\n(.*?)^```$", re.M | re.S)


def examples():
    """Yields each example: its lines, and their replies."""
    blocks = [[line.split(" -> ") for line in it.splitlines()] for it in BLOCK.findall((ROOT / "docs" / "RULES.md").read_text())]
    for rows in blocks:
        if all(line.startswith("hub ") for line, _ in rows):
            yield from ([row] for row in rows)
        else:
            yield rows if rows[0][0].startswith("hub ") else blocks[0] + rows


def main(words):
    program = words[0] if words else ROOT / "crates" / "rr" / "out" / "rr"
    passed = failed = 0
    for rows in examples():
        ran = subprocess.run([program, "script"], input="\n".join(line for line, _ in rows) + "\n", capture_output=True, text=True, check=False)
        replies = ran.stdout.splitlines()
        if replies == [reply for _, reply in rows]:
            passed += 1
            continue
        failed += 1
        at = next((at for at, (_, reply) in enumerate(rows) if at >= len(replies) or replies[at] != reply), len(rows))
        line = " -> ".join(rows[at]) if at < len(rows) else "its end"
        print(f"docs/RULES.md: {line}: the program prints {replies[at] if at < len(replies) else 'nothing'}, status {ran.returncode}")
    print(f"{passed} passed, {failed} failed")
    return failed > 0


if __name__ == "__main__":
    sys.exit(main(sys.argv[1:]))
