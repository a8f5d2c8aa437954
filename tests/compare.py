#!/usr/bin/env python3
"""compare.py [--program FILE] [--library FILE] [--seed N] [--only NAME]: the library against the second program.

Sheets go through the whole program, calls through the C interface; each answer and each buffer is compared with what
the second program says. A mismatch is shown with its comparison and seed. The last line is `N passed, M failed`,
where N and M count sheets and calls; the exit status is 1 where one failed, or a refusal was met too seldom.
`--library second` or `--program second` puts the second program itself in the place of ours, to try the harness."""
import argparse
import multiprocessing
import os
import random
import subprocess
import sys
from collections import Counter
from pathlib import Path

import generate
from door import Door, Trespass
from second import calls
from second.program import kitsettle

TARGET = Path(__file__).resolve().parent.parent / "target"
SECONDS = 30  # for one run of the program
OFTEN = 20  # times that each refusal has to be met
CHUNK = 20  # seeds of one job
SPREAD = 1_000_000  # seed N of a run starts at N times this
SHOWN = 20  # mismatches shown


class Ours:
    """What is compared: the built program and the shared library."""

    def __init__(self, program, library):
        self.program = program
        self.door = calls if library == "second" else Door(library)

    def output(self, text):
        if self.program == "second":
            return kitsettle(text)
        done = subprocess.run([self.program], input=text, stdout=subprocess.PIPE, timeout=SECONDS)
        return done.stdout if done.returncode == 0 else b"exit status %d" % done.returncode


# ---- comparisons: each takes ours and a seed and gives what was met (labels) and a mismatch or None

def same(want, got):
    return None if want == got else f"want {short(want)}\n      got  {short(got)}"


def short(value):
    text = repr(value)
    return text if len(text) <= 400 else text[:400] + " .."


def compare_text(ours, text):
    """One sheet through the program, and through the reader with all its buffers."""
    want = kitsettle(text)
    found = same(want, ours.output(text))
    rng = random.Random(len(text))
    lent = [[rng.randint(0, 9)] * length for length in calls.BUFFERS]
    found = found or same(calls.read(text, *lent), ours.door.read(text, *lent))
    return met(want), found and f"{found}\n      sheet {short(text)}"


def met(output):
    """The refusals that an output shows, or `accepted`."""
    lines = (line.split(b"\t") for line in output.split(b"\n"))
    numbers = {int(fields[1]) for fields in lines if fields[0] == b"refused"}
    return [f"refusal {number}" for number in sorted(numbers)] if numbers else ["accepted"]


def plain(ours, seed):
    return compare_text(ours, generate.plain(seed).text())


def crowded(ours, seed):
    return compare_text(ours, generate.crowded(seed).text())


def damaged(ours, seed):
    return compare_text(ours, generate.damaged(seed))


def compare_call(ours, name, arguments):
    want = getattr(calls, name)(**arguments)
    number = want if name == "earlier" else want[0]
    try:
        found = same(want, getattr(ours.door, name)(**arguments))
    except Trespass as trespass:
        found = f"wrote {trespass}"
    label = f"answer {number}" if name == "earlier" else f"refusal {number}" if number else "accepted"
    return [label], found and f"{found}\n      call {short(arguments)}"


def complete(ours, seed):
    return compare_call(ours, "complete", generate.complete_call(seed))


def settle(ours, seed):
    return compare_call(ours, "settle", generate.settle_call(seed))


def earlier(ours, seed):
    return compare_call(ours, "earlier", generate.earlier_call(seed))


def lengths(ours, seed):
    """The reader with a buffer of another length: refusal 3, line 0, all untouched."""
    rng = random.Random(f"lengths {seed}")
    text = generate.damaged(seed)
    lent = [[rng.randint(1, 9)] * length for length in calls.BUFFERS]
    spoiled = rng.randrange(4)
    lent[spoiled] = [5] * max(0, calls.BUFFERS[spoiled] + rng.choice((-1, 1, -12, 12, -calls.BUFFERS[spoiled])))
    names = ("sizes", "costs", "swaps", "loads")
    return compare_call(ours, "read", {"text": text, **dict(zip(names, lent))})


# name: the comparison, how many seeds a round, and the refusals that have to be met often
COMPARISONS = {
    "plain": (plain, 2500, (10,)),
    "crowded": (crowded, 70, (8,)),
    "damaged": (damaged, 6500, (1, 2, 3, 4, 5, 6, 7, 10, 11, 12, 13)),
    "complete": (complete, 2500, (1, 2, 3, 4, 5, 6, 7, 8)),
    "settle": (settle, 4000, (1, 2, 3, 4, 5, 9, 10)),
    "earlier": (earlier, 6000, ()),
    "lengths": (lengths, 200, (3,)),
}


# ---- running them

ours_here = None  # of a worker


def start_worker(program, library):
    global ours_here
    ours_here = Ours(program, library)


def run_chunk(job):
    """The seeds of one chunk: labels met, and the mismatches with their seeds."""
    name, first, count = job
    labels, mismatches = Counter(), []
    for seed in range(first, first + count):
        try:
            found, mismatch = COMPARISONS[name][0](ours_here, seed)
        except subprocess.TimeoutExpired:
            found, mismatch = [], f"no end within {SECONDS} s"
        labels.update(found)
        if mismatch:
            mismatches.append((seed, mismatch))
    return name, count, labels, mismatches


def chunks(name, seed):
    """The jobs of one comparison."""
    number, first = COMPARISONS[name][1], seed * SPREAD
    return [(name, first + at, min(CHUNK, number - at)) for at in range(0, number, CHUNK)]


class Tally:
    def __init__(self):
        self.passed, self.failed, self.labels = Counter(), Counter(), {}

    def add(self, name, count, labels, mismatches):
        self.passed[name] += count - len(mismatches)
        self.failed[name] += len(mismatches)
        self.labels.setdefault(name, Counter()).update(labels)
        for seed, mismatch in mismatches:
            if sum(self.failed.values()) <= SHOWN:
                print(f"mismatch: {name} seed {seed}\n      {mismatch}", flush=True)

    def seldom(self, often):
        """The refusals that were not met often enough."""
        return [f"{name}: refusal {number} met {self.labels[name][f'refusal {number}']} times"
                for name in self.labels for number in COMPARISONS[name][2]
                if self.labels[name][f"refusal {number}"] < often]

    def report(self, often):
        for name in self.labels:
            labels = ", ".join(f"{label} {count}" for label, count in sorted(self.labels[name].items(), key=order))
            print(f"{name}: {self.passed[name]} passed, {self.failed[name]} failed ({labels})")
        seldom = self.seldom(often)
        for line in seldom:
            print(f"too seldom: {line}")
        passed, failed = sum(self.passed.values()), sum(self.failed.values())
        print(f"comparisons: {passed} passed, {failed + len(seldom)} failed")
        return 1 if failed or seldom or not passed else 0


def order(item):
    return [int(word) if word.isdigit() else 0 for word in item[0].split()], item[0]


def run(jobs, program, library, tally):
    """Runs the jobs on all cores."""
    with multiprocessing.Pool(os.cpu_count(), start_worker, (program, library)) as pool:
        for done in pool.imap_unordered(run_chunk, jobs):
            tally.add(*done)


def arguments():
    parser = argparse.ArgumentParser(description=__doc__, formatter_class=argparse.RawDescriptionHelpFormatter)
    parser.add_argument("--program", default=str(TARGET / "bin" / "kitsettle"))
    parser.add_argument("--library", default=str(TARGET / "lib" / "libkitsettle.so"))
    parser.add_argument("--seed", type=int, default=1)
    parser.add_argument("--only", choices=sorted(COMPARISONS))
    return parser.parse_args()


def main():
    asked = arguments()
    names = [asked.only] if asked.only else list(COMPARISONS)
    print(f"seed {asked.seed}", flush=True)
    tally = Tally()
    run([job for name in names for job in chunks(name, asked.seed)], asked.program, asked.library, tally)
    return tally.report(OFTEN)


if __name__ == "__main__":
    sys.exit(main())
