#!/usr/bin/env python3
"""Measures the built program, and writes each figure with its command, the commit, the date and the machine to FIGURES.md.

usage: figures.py [--runs N] [--peer FILE] [--to FILE] [--only WORD]

Times are processor seconds, user and system, of the whole program: medians of N runs (7), in which the commands take turns, so
that a busy machine is busy for all. Memory is the most that was resident. Instructions are callgrind's, of the difference of two
runs, where there is valgrind. With --peer a C program of the same design, which is not part of the repository, is compiled from that
file and runs in turn with them: its words are `design 0 PACKETS THREADS 1 notes merge text=FILE`. So does softflowd, where it is
there. All write to /dev/null. The captures are written by udp_capture.py to a folder that is removed again. A tree with changes is
refused, since nobody else has it. Nothing is compared with a bar: the reader does that.
"""
import argparse
import datetime
import os
import platform
import re
import shutil
import statistics
import subprocess
import sys
import tempfile
import time

HERE = os.path.dirname(os.path.realpath(__file__))
TOP = os.path.dirname(HERE)
PROGRAM = os.path.join(TOP, "crates", "ctreplay", "out", "ctreplay")
QUIET = {"stdin": subprocess.DEVNULL, "stdout": subprocess.DEVNULL}
MADE = "--make 0 --packets {} --threads {}"


def words_of(text, room):
    return text.replace("ROOM", room).split()


def run(program, words):
    """The processor's seconds, the clock's, and the most resident memory in MB of one run."""
    begun = time.monotonic()
    child = subprocess.Popen([program, *words], **QUIET)
    _, status, used = os.wait4(child.pid, 0)
    if status:
        sys.exit(f"figures.py: {' '.join([program, *words])}: status {os.waitstatus_to_exitcode(status)}")
    return used.ru_utime + used.ru_stime, time.monotonic() - begun, used.ru_maxrss / 1024


def instructions(words):
    """What callgrind counts of a run."""
    with tempfile.TemporaryDirectory() as room:
        name = os.path.join(room, "counts")
        grind = ["valgrind", "--tool=callgrind", f"--callgrind-out-file={name}", PROGRAM, *words]
        subprocess.run(grind, stderr=subprocess.DEVNULL, check=True, **QUIET)
        with open(name, encoding="utf-8") as file:
            return int(re.search(r"^summary: (\d+)", file.read(), re.MULTILINE)[1])


def count_instructions(rows):
    if not shutil.which("valgrind"):
        print("skipped: instructions: there is no valgrind", file=sys.stderr)
        return
    few, many = 16384, 32768
    for name, more in (("with a summary", " --summary"), ("with the text", ""), ("with a summary and a listener", " --summary --listen")):
        least, most = (instructions((MADE.format(packets, 1) + more).split()) for packets in (few, many))
        rows.append((f"instructions a made packet {name}", f"{(most - least) / (many - few):,.1f}", f"callgrind: ({MADE.format(many, 1)} less {MADE.format(few, 1)}){more}"))
    whole = instructions(MADE.format(262144, 1).split())
    rows.append(("instructions a packet of a whole made run with the text", f"{whole / 262144:,.1f}", f"callgrind: {MADE.format(262144, 1)}"))


TIMES = (
    ("262,144 made packets with the text, one thread", MADE.format(262144, 1)),
    ("262,144 made packets with a summary, one thread", MADE.format(262144, 1) + " --summary"),
    ("65,536 made packets with the text, one thread", MADE.format(65536, 1)),
    ("65,536 made packets of each of four threads, with the text", MADE.format(65536, 4)),
    ("65,536 made packets with a summary, one thread", MADE.format(65536, 1) + " --summary"),
    ("65,536 made packets of each of four threads, with a summary", MADE.format(65536, 4) + " --summary"),
    ("100,000 packets in 5,000 flows", "ROOM/short.pcap"),
    ("262,144 packets in 65,536 flows, each expired between its packets", "ROOM/long.pcap"),
)
PEERS = (("the C program: 262,144 made packets with the text, one thread", 262144, 1), ("the C program: 65,536 made packets of each of four threads, with the text", 65536, 4))
MEMORY = (
    ("1,000,000 packets in 1,000 flows, a summary", "--summary ROOM/million.pcap"),
    ("1,000,000 packets in 1,000 flows, the text", "ROOM/million.pcap"),
    ("4,000,000 packets in 1,000 flows, a summary", "--summary ROOM/millions.pcap"),
    ("4,000,000 packets in 1,000 flows, the text", "ROOM/millions.pcap"),
)


def capture(room, name, packets, flows):
    subprocess.run([sys.executable, os.path.join(HERE, "udp_capture.py"), str(packets), str(flows), os.path.join(room, name)], check=True)


def measure_times(rows, room, runs, peer):
    capture(room, "short.pcap", 100_000, 5_000)
    capture(room, "long.pcap", 262_144, 65_536)
    commands = [(name, PROGRAM, words_of(text, room), text) for name, text in TIMES]
    for name, packets, threads in PEERS if peer else ():
        text = f"design 0 {packets} {threads} 1 notes merge text=/dev/null"
        commands.append((name, peer, words_of(text, room), text))
    if shutil.which("softflowd"):
        commands.append(("softflowd: 262,144 packets in 65,536 flows", "softflowd", ["-r", f"{room}/long.pcap"], "softflowd -r long.pcap"))
    found = {name: [] for name, *_ in commands}
    for _ in range(runs):
        for name, program, words, _ in commands:
            found[name].append(run(program, words)[:2])
    for name, _, _, text in commands:
        used, clock = (statistics.median(part) for part in zip(*found[name]))
        rows.append((f"seconds: {name}", f"{used:.3f} of the processor, {clock:.3f} by the clock", text.replace("ROOM/", "")))
    for kind, one, four in (("the text", TIMES[2][0], TIMES[3][0]), ("a summary", TIMES[4][0], TIMES[5][0])):
        clock = [statistics.median(part[1] for part in found[name]) for name in (one, four)]
        rows.append((f"work of four threads, that of one being 1, with {kind}", f"{4 * clock[0] / clock[1]:.2f}", "four times the clock's seconds of one by those of four"))


def measure_memory(rows, room):
    capture(room, "million.pcap", 1_000_000, 1_000)
    capture(room, "millions.pcap", 4_000_000, 1_000)
    for name, text in MEMORY:
        rows.append((f"MB: {name}", f"{run(PROGRAM, words_of(text, room))[2]:,.0f}", text.replace("ROOM/", "")))


def said(*words):
    ran = subprocess.run(words, cwd=TOP, capture_output=True, text=True, check=False)
    if ran.returncode:
        sys.exit(f"figures.py: {' '.join(words)}: {ran.stderr.strip()}")
    return ran.stdout.strip()


def machine():
    try:
        with open("/proc/cpuinfo", encoding="utf-8") as file:
            model = re.search(r"^model name\s*: (.*)", file.read(), re.MULTILINE)[1]
    except (OSError, TypeError):
        model = platform.processor()
    return f"{os.cpu_count()} processors, {model}, Linux {platform.release()}, load {os.getloadavg()[0]:.1f} at the end"


def page(rows, runs):
    lines = [
        "# Figures", "",
        "Written by `figures.py`, which says how each is measured; no one edits it. On another machine others will be found: compare within one table.", "",
        f"Commit {said('git', 'rev-parse', '--short', 'HEAD')}, {datetime.date.today()}, {machine()}. Seconds are medians of {runs} runs. The program's words stand in the last column;",
        "`short.pcap`, `long.pcap`, `million.pcap` and `millions.pcap` are written by `udp_capture.py` with the numbers of the first.", "",
        "| Figure | Value | Words |", "|---|---|---|",
    ]
    return "\n".join(lines + [f"| {name} | {value} | `{words}` |" for name, value, words in rows]) + "\n"


def main():
    parser = argparse.ArgumentParser(usage=__doc__.split("\n\n", maxsplit=2)[1].removeprefix("usage: "))
    parser.add_argument("--runs", type=int, default=7)
    parser.add_argument("--peer")
    parser.add_argument("--to", default=os.path.join(HERE, "FIGURES.md"))
    parser.add_argument("--only", choices=("instructions", "times", "memory"))
    asked = parser.parse_args()
    if not os.access(PROGRAM, os.X_OK):
        sys.exit(f"figures.py: {PROGRAM} is not built: ./ctreplay builds it")
    if said("git", "status", "--porcelain", "--", ".", ":!measure/FIGURES.md", ":!unlanded"):
        sys.exit("figures.py: the tree has changes: commit them first")
    if os.path.getmtime(PROGRAM) < float(said("git", "log", "-1", "--format=%ct", "--", "crates", "crates.txt")):
        sys.exit(f"figures.py: {PROGRAM} is older than its sources: ./ctreplay builds it")
    rows = []
    with tempfile.TemporaryDirectory() as room:
        peer = os.path.join(room, "peer") if asked.peer else None
        if peer:
            subprocess.run(["cc", "-O2", "-pthread", "-w", asked.peer, "-o", peer], check=True)
        if asked.only in (None, "instructions"):
            count_instructions(rows)
        if asked.only in (None, "times"):
            measure_times(rows, room, asked.runs, peer)
        if asked.only in (None, "memory"):
            measure_memory(rows, room)
    with open(asked.to, "w", encoding="utf-8") as file:
        file.write(page(rows, asked.runs))
    print(f"{len(rows)} figures: {asked.to}")


main()
