"""Checks that the tools' work grows as the report does, times its logarithm. Used by .ci/tools.

What is counted is lines of Python that run, for a report and for one four times as long, of each of three kinds; and each tool
reads a report of 300,000 lines to its end with a limit of processor time that a square of it would be far beyond.
"""
import functools
import math
import os
import resource

import made_packets as made
import replay_files as files
from checking import TOOLS, count, counted_lines, module, report_of, run, write

START = 1_000_000_000_000_000
SERVERS = 20
LIMIT = 60
SLACK = 1.15


def client(number):
    return f"10.{number >> 16 & 255}.{number >> 8 & 255}.{number & 255}"


def capture_of(room, name, packets, clients):
    """Queries of so many clients in turn to some servers, with answers to some; the later ones meet entries past their deadline."""
    chosen = []
    for at in range(packets):
        number = at % clients
        query = at % 5 != 4
        ends = (client(number), 1024 + number % 50_000, f"198.51.100.{1 + number % SERVERS}", 53)
        data = made.udp(*ends) if query else made.udp(*ends[2:], *ends[:2])
        chosen.append((START + at * 60_000_000 // clients, data))
    return made.write(f"{room}/{name}.pcap", chosen)


def assured_capture(room, packets):
    """Some clients whose flows are assured, and then queries of others, which find no place in a table of so many entries."""
    chosen, clients = [], packets // 16
    for number in range(clients):
        ends = (client(number), 1024, "198.51.100.1", 53)
        chosen += [made.udp(*ends), made.udp(*ends[2:], *ends[:2]), made.udp(*ends)]
    chosen += [made.udp(client(clients + at % (packets // 4)), 1024, "198.51.100.1", 53) for at in range(packets - len(chosen))]
    return made.write(f"{room}/assured{packets}.pcap", [(START + at * 1000, data) for at, data in enumerate(chosen)]), clients


def kinds_of(room, packets):
    """Reports of one size: most flows NOPORT, most dropped, most FULL, and all let in."""
    clients = packets // 8
    capture = capture_of(room, f"work{packets}", packets, clients)
    rules = write(room, f"work{packets}.rules", f"snat -p udp to 192.0.2.1:2000-{2000 + clients // SERVERS // 4}\n")
    yield "NOPORT", capture, rules, report_of(room, "--rules", rules, capture, name=f"noport{packets}")
    none = write(room, "none.rules", "snat -p icmp to 192.0.2.1\n")
    yield "dropped", capture, none, report_of(room, "--entries", str(clients // 3), capture, name=f"dropped{packets}")
    held, entries = assured_capture(room, packets)
    yield "FULL", held, none, report_of(room, "--entries", str(entries), held, name=f"full{packets}")
    yield "all let in", capture, none, report_of(room, capture, name=f"all{packets}")


def words_of(room, name, capture, rules, report):
    last = str(os.path.getsize(report) and len(files.read_capture(capture)) - 1)
    return {
        "check": ["--rules", rules, report, capture],
        "refused": ["--rules", rules, "--all", report, capture],
        "draw": ["--rules", rules, "--to", f"{room}/work", report, capture],
        "why": ["--rules", rules, "--report", report, capture, "--", last],
        "table": ["--at", str(START + 30_000_000), report, capture],
        "compare": [report, report, capture],
        "from-inside": ["--rules", rules, "--to", f"{room}/work.pcap", capture],
        "page": ["--rules", rules, "--to", f"{room}/work.html", report, capture],
    }[name]


def counted_of(name, words):
    """Lines that run for these words. gnuplot does not run, nor ."""
    loaded = module(name)
    if name == "draw":
        loaded.Picture.draw = lambda self: None
    return counted_lines(loaded.main, words)


def check_counted(room):
    small, large = 1200, 4800
    grown = 4 * math.log(large) / math.log(small) * SLACK
    for (kind, *one), (_, *other) in zip(kinds_of(room, small), kinds_of(room, large)):
        with open(other[2], encoding="utf-8") as file:
            lines = sum(1 for line in file if (" NEW " if kind == "all let in" else f" {kind}") in line)
        count(f"a report of {kind}: it has {lines} such lines", lines > large // 8, lines)
        for name in ("check", "refused", "draw", "why", "table", "compare", "from-inside", "page"):
            if name == "from-inside" and kind != "NOPORT":
                continue
            before, after = (counted_of(name, words_of(room, name, *it)) for it in (one, other))
            good = before > small and after < grown * before
            count(f"tools/{name}: work for four times the report, {kind}: {after / before:.2f} times", good, f"{before} {after}")


def check_large(room):
    """Reports of 300,000 lines, two thirds of which are of packets that were refused."""
    capture = capture_of(room, "large", 212_000, 45_000)
    rules = write(room, "large.rules", "snat -p udp to 192.0.2.1:2000-2099\n")
    report = report_of(room, "--rules", rules, capture, name="large")
    with open(report, encoding="utf-8") as file:
        lines = sum(1 for _ in file)
    count("a report of 300,000 lines", 290_000 < lines < 400_000, lines)
    limit = functools.partial(resource.setrlimit, resource.RLIMIT_CPU, (LIMIT, LIMIT))
    for name in ("check", "refused", "why", "table", "compare", "from-inside", "page"):
        ran = run([os.path.join(TOOLS, name), *words_of(room, name, capture, rules, report)], preexec_fn=limit)
        good = ran.returncode in (0, 1) and not ran.stderr and len(ran.stdout) > 30
        count(f"tools/{name}: {lines} lines", good, f"status {ran.returncode}: {ran.stderr}")


def check_all(room):
    check_counted(room)
    check_large(room)
