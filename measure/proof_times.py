#!/usr/bin/env python3
"""Runs a command that proves crates, and tells what each proof took and which chain of crates the run had to wait for.

usage: proof_times.py [--to FILE] COMMAND [WORD..]

For example `proof_times.py ./ctreplay crates/ctreplay/data/c.pcap` in a fresh clone, or `proof_times.py rt ci --anew`. Twice a second it reads from
/proc which of the prover's processes run below the command, and for which crate. Of each crate it prints the seconds of a processor for its
functions, for its tests, for the base of its wrong bodies (what is proved before they are tried) and for the wrong bodies, and when the first
of its proofs began and the last ended, by the clock. Below the table: the sums; the clock; the longest chain of crates, each of
which waits for the one before it; and, from the end backwards, the crates whose proofs the run stood waiting for. With --to it writes the
table to FILE as lines `CRATE FUNCTIONS TESTS BASE WRONG`, in seconds, from which .ci/touched tells what a change costs. The status is the
command's.
"""
import argparse
import os
import subprocess
import sys
import time

TOP = os.path.dirname(os.path.dirname(os.path.realpath(__file__)))
sys.path.insert(0, os.path.join(TOP, ".ci"))
from wrong_bodies import own_crates

TICKS = os.sysconf("SC_CLK_TCK")
KINDS = ("functions", "tests", "base", "wrong")
STEP = 0.5


def kind_of(words, folder):
    """What a process of the prover proves, by its words and the folder in which it runs: the kit tries a wrong body in one of its own."""
    if "--test" in words:
        return "tests"
    kept = words[words.index("--incremental") + 1] if "--incremental" in words else ""
    if not os.path.basename(folder).startswith("rt-edit-") and "/more-" not in kept:
        return "functions"
    return "base" if os.path.basename(kept) == "seed" else "wrong"


def processes():
    """Of each process its parent, and of the prover's the crate, what it proves, and the seconds of a processor that it and its children took."""
    parents, provers = {}, {}
    for name in filter(str.isdigit, os.listdir("/proc")):
        try:
            with open(f"/proc/{name}/stat", encoding="utf-8", errors="replace") as file:
                fields = file.read().rpartition(")")[2].split()
            parents[int(name)] = int(fields[1])
            with open(f"/proc/{name}/cmdline", encoding="utf-8", errors="replace") as file:
                words = file.read().split("\0")
            if os.path.basename(words[0]) == "rattle" and "--crate-name" in words:
                crate = words[words.index("--crate-name") + 1]
                kind = kind_of(words, os.readlink(f"/proc/{name}/cwd"))
                provers[int(name), fields[19]] = crate, kind, sum(map(int, fields[11:15])) / TICKS
        except OSError:
            continue
    return parents, provers


def is_below(process, root, parents):
    while process and process != root:
        process = parents.get(process)
    return process == root


class Watch:
    """What the prover did below a command, by crate and by what it proved."""

    def __init__(self):
        self.taken, self.begun, self.ended = {}, {}, {}

    def look(self, root, now):
        parents, provers = processes()
        for (process, started), (crate, kind, seconds) in provers.items():
            # (a process of the prover may start others: their time is its own)
            if is_below(process, root, parents) and (parents.get(process), crate) not in {(it, of) for (it, _), (of, _, _) in provers.items()}:
                self.taken[crate, kind, process, started] = seconds
                self.begun.setdefault((crate, kind), now)
                self.ended[crate, kind] = now

    def seconds(self, crate, kind):
        return sum(it for (of, what, *_), it in self.taken.items() if (of, what) == (crate, kind))

    def span(self, crate, kinds):
        times = [(self.begun[crate, kind], self.ended[crate, kind]) for kind in kinds if (crate, kind) in self.begun]
        return (min(it[0] for it in times), max(it[1] for it in times)) if times else None


def watched(command):
    """The watch over a command, the seconds that it took by the clock, and its status."""
    watch, begun = Watch(), time.monotonic()
    child = subprocess.Popen(command)
    while child.poll() is None:
        try:
            watch.look(child.pid, time.monotonic() - begun)
            time.sleep(STEP)
        except KeyboardInterrupt:
            # (the command got it too, and what was measured until then is told)
            child.wait()
    return watch, time.monotonic() - begun, child.returncode


def longest_chain(uses, watch):
    """The crates of the chain whose functions took most together, lowest first, and their seconds."""
    best = {}

    def of(crate):
        if crate not in best:
            below = max((of(it) for it in uses[crate]), key=lambda it: it[1], default=([], 0))
            best[crate] = [*below[0], crate], below[1] + watch.seconds(crate, "functions")
        return best[crate]

    return max((of(it) for it in uses), key=lambda it: it[1])


def waited_for(uses, watch):
    """From the last proof of functions backwards: the crate below it that ended last, and so on. Lowest first."""
    ended = {it: watch.ended[it, "functions"] for it in uses if (it, "functions") in watch.ended}
    found = [max(ended, key=ended.get)] if ended else []
    while found and (below := [it for it in uses[found[-1]] if it in ended]):
        found.append(max(below, key=ended.get))
    return found[::-1]


def minutes(seconds):
    return f"{seconds / 60:.1f}"


def rows_of(uses, watch):
    """Of each crate that was proved: its name and the seconds of each kind."""
    rows = [(it, *(watch.seconds(it, kind) for kind in KINDS)) for it in uses]
    return [row for row in rows if sum(row[1:])]


def tell(uses, watch, clock):
    print(f"{'crate':16} {'functions':>9} {'tests':>7} {'base':>7} {'wrong':>7}   began to ended (minutes)")
    rows = rows_of(uses, watch)
    for crate, *taken in rows:
        first, last = watch.span(crate, KINDS)
        print(f"{crate:16} {taken[0]:9.0f} {taken[1]:7.0f} {taken[2]:7.0f} {taken[3]:7.0f}   {minutes(first)} to {minutes(last)}")
    sums = [sum(row[at] for row in rows) for at in range(1, 5)]
    print(f"{'in all':16} " + " ".join(f"{it:{width}.0f}" for it, width in zip(sums, (9, 7, 7, 7))))
    print(f"processor: {minutes(sum(sums))} minutes; clock: {minutes(clock)}")
    chain, taken = longest_chain(uses, watch)
    print(f"longest chain: {minutes(taken)} minutes of a processor: " + ", ".join(f"{it} {watch.seconds(it, 'functions'):.0f}" for it in chain))
    waited = [f"{it} {minutes(watch.begun[it, 'functions'])} to {minutes(watch.ended[it, 'functions'])}" for it in waited_for(uses, watch)]
    print("waited for, by the clock: " + ", ".join(waited))


def write(uses, watch, name):
    with open(name, "w", encoding="utf-8") as file:
        for crate, *taken in rows_of(uses, watch):
            file.write(" ".join([crate, *(f"{it:.0f}" for it in taken)]) + "\n")


def main():
    words = argparse.ArgumentParser(prog="proof_times.py", description=__doc__.partition("\n")[0])
    words.add_argument("--to", metavar="FILE")
    words.add_argument("command", nargs=argparse.REMAINDER)
    given = words.parse_args()
    if not given.command:
        words.error("which command?")
    uses = own_crates(TOP)
    try:
        watch, clock, status = watched(given.command)
    except OSError as error:
        print(f"proof_times.py: {given.command[0]}: {error.strerror}", file=sys.stderr)
        return 127
    tell(uses, watch, clock)
    if given.to:
        write(uses, watch, given.to)
    return status


if __name__ == "__main__":
    sys.exit(main())
