#!/usr/bin/env python3
"""run_cases.py PROGRAM [CASE..]: runs PROGRAM on every sheet of tests/cases and compares its output byte for byte.

The last line is `N passed, M failed`; the exit status is 1 where one failed."""
import subprocess
import sys
from pathlib import Path

CASES = Path(__file__).resolve().parent / "cases"
SECONDS = 60


def differs(program, case):
    """None where the output is the expected one, else what to show of it."""
    want = case.with_suffix(".out").read_bytes()
    try:
        done = subprocess.run([program], input=case.read_bytes(), stdout=subprocess.PIPE, timeout=SECONDS)
    except subprocess.TimeoutExpired:
        return f"no end within {SECONDS} s"
    if done.returncode != 0:
        return f"exit status {done.returncode}"
    if done.stdout == want:
        return None
    return f"want {shown(want)} got {shown(done.stdout)}"


def shown(output):
    return repr(output[:60])


def main(program, names):
    cases = [CASES / f"{name}.in" for name in names] or sorted(CASES.glob("*.in"))
    failed = 0
    for case in cases:
        found = differs(program, case)
        if found:
            failed += 1
            print(f"case {case.stem}: {found}")
    print(f"cases: {len(cases) - failed} passed, {failed} failed")
    return 1 if failed or not cases else 0


if __name__ == "__main__":
    if len(sys.argv) < 2:
        sys.exit(__doc__)
    sys.exit(main(sys.argv[1], sys.argv[2:]))
