#!/usr/bin/env python3
"""Makes a bundle of what `rt ci` passed here, and proves the quick start over it in a fresh clone.

    tests/bundle.py        after `rt ci`

The last line is 'N passed, M failed'.
"""
import pathlib
import resource
import subprocess
import sys
import tempfile
import time

ROOT = pathlib.Path(__file__).resolve().parent.parent
HELLO = pathlib.Path("crates") / "rr_hello"

# How many seconds of processors the first proof takes at most, on a slow machine with work beside it too. The crates below take more
# than 1,500 there, so a bundle that isn't taken fails. On a quiet machine of four processors a user waits less than three minutes.
MOST = 300


def spent():
    """Returns the seconds of processors that the commands so far took."""
    used = resource.getrusage(resource.RUSAGE_CHILDREN)
    return used.ru_utime + used.ru_stime


def run(folder, *words):
    """Runs a command. Returns its status and its output."""
    ran = subprocess.run(words, cwd=folder, capture_output=True, text=True, check=False)
    print(ran.stdout[-2000:] + ran.stderr[-2000:] if ran.returncode else "", end="", flush=True)
    return ran.returncode, ran.stdout


def main():
    checks = []
    with tempfile.TemporaryDirectory() as room:
        file, clone = f"{room}/bundle.tar.gz", pathlib.Path(room) / "a clone"
        status, said = run(ROOT, "./bundle", "make", file)
        checks.append((status == 0, f"a bundle is made: {said.strip()}"))
        run(ROOT, "git", "clone", "-q", ROOT, clone)
        status, said = run(clone, "./bundle", "take", file)
        checks.append((status == 0, f"a fresh clone takes it: {said.strip()}"))
        before, begun = spent(), time.monotonic()
        status, _ = run(clone / HELLO, "rt", "check")
        seconds, waited = round(spent() - before), round(time.monotonic() - begun)
        checks.append((status == 0 and seconds <= MOST,
                       f"the quick start is proved, status {status}, in {waited} seconds, {seconds} of processors"))
        status, said = run(clone / HELLO, "rt", "run")
        checks.append((status == 0 and said.endswith((ROOT / HELLO / "stdout").read_text()), f"it prints what it should, status {status}"))
    for is_well, said in checks:
        print(("ok: " if is_well else "FAILED: ") + said)
    passed = sum(is_well for is_well, _ in checks)
    print(f"{passed} passed, {len(checks) - passed} failed")
    return int(passed < len(checks))


if __name__ == "__main__":
    sys.exit(main())
