#!/usr/bin/env python3
"""Runs the built program many times on the worked flows of docs/FORMATS.md with several captures at once, and checks each
report with report_check.py, whose head says what that checks.

usage: thread_rows.py [--runs N] [--jobs N] [--times N] [--program FILE] [--only WORD] [--keep FOLDER]
       thread_rows.py --self-test

Without --runs each case runs 1000 times, without --jobs one run at a time. With --times each thread has so many times as
many flows: where a line says that few changes of thread stand between two events, one thread was done before the next
began, and more flows are wanted. Without --program it is the program of
../ctreplay, which is built if it is not there. --only takes the cases whose name has the word. A report that is refused is
kept in the folder of --keep, with its inputs, and the script goes on with the next case; it ends with status 1 then.

--self-test runs no program. It checks the examples of README.md and docs/FORMATS.md, damages them, and wants each damage
refused.

The cases: a query and its answer, a control connection of FTP, a script, and an office behind one address, each with flows
of each thread's own ("apart") and with the same flows on all threads in another order ("same"); one flow of UDP on four
threads; pools that are too small for eight threads, and one of forty places in which the flows of four drop each other.
Apart, each thread's events and verdicts are those of the example, but for numbers and points. Buckets are 1, 16 or 16384,
from run to run, every second run has --listen, and two of four have --rewrite. Besides, the cases "zones": the same flows, addresses, rules and FTP sessions in four zones on four threads,
with places for all: the first words of each thread's verdicts, and the rows of `-L -w` for its zone, are those of its capture
replayed alone. Also where rules have few ports, so that each zone's clients compete for them.
"""
import argparse
import functools
import os
import re
import struct
import subprocess
import sys
import tempfile
import time
from collections import namedtuple
from concurrent.futures import ThreadPoolExecutor

from report_check import check, report_alone
from tracker_rules import Refused, inputs_of, want, zone_text

HERE = os.path.dirname(os.path.abspath(__file__))
TOP = os.path.dirname(HERE)
DATA = os.path.join(TOP, "crates", "ctreplay", "data")
BUCKETS = (1, 16, 16384)
BEGUN = 1_000_000_000
# How many flows each thread has of a row.
FLOWS = {"query": 24, "sweep": 16, "ftp": 8, "office": 4}
# What is to be so of a run's history and report beside the checker's rules: `holds` says it.
Case = namedtuple("Case", "name captures rules script entries holds zones", defaults=[None])
SWEEP = """wait
-L
-D -p udp
-C
-F
-G -p tcp -s 10.0.0.1 -d 10.0.0.2 --sport 40000 --dport 80
-L
"""


def read_bytes(*names):
    with open(os.path.join(*names), "rb") as file:
        return file.read()


def read_text(*names):
    return read_bytes(*names).decode()


def example(name, begin):
    """The block of a document that begins so."""
    blocks = re.findall(r"```\n(.*?)```", read_text(TOP, name), re.S)
    return next(block for block in blocks if block.startswith(begin))


# Captures.

HEADER = struct.pack("<IHHIIII", 0xA1B2C3D4, 2, 4, 0, 0, 65535, 101)


def packet(proto, ends, body):
    source, destination = ends
    head = struct.pack(">BBHHHBBHII", 0x45, 0, 20 + len(body), 0, 0, 64, proto, 0, source, destination)
    return head + body


def query(client, server, port, back=False):
    """A query of UDP from the client, or its answer."""
    ends, ports = ((server, client), (53, port)) if back else ((client, server), (port, 53))
    return packet(17, ends, struct.pack(">HHHH", *ports, 8, 0))


def opening(client, server):
    return packet(6, (client, server), struct.pack(">HHIIBBHHH", 40000, 80, 0, 0, 0x50, 2, 0, 0, 0))


def record(moment, frame):
    return struct.pack("<IIII", moment // 1_000_000, moment % 1_000_000, len(frame), len(frame)) + frame


def capture(sent):
    return HEADER + b"".join(record(moment, frame) for moment, frame in sent)


def packets_of(data):
    """The moments and IP packets of a capture."""
    link = struct.unpack("<I", data[20:24])[0]
    sent, at = [], 24
    while at < len(data):
        seconds, micros, length, _ = struct.unpack("<IIII", data[at : at + 16])
        frame = data[at + 16 : at + 16 + length]
        sent.append((seconds * 1_000_000 + micros, frame[14:] if link == 1 else frame))
        at += 16 + length
    return sent


def moved(sent, old, new):
    """The packets with other addresses: those that begin with the first three bytes begin with the others. So do those that a
    payload names."""
    names = [",".join(str(part) for part in parts).encode() + b"," for parts in (old, new)]
    change = lambda address: new + address[3:] if address[:3] == old else address
    others = []
    for moment, frame in sent:
        ends = change(frame[12:16]) + change(frame[16:20])
        frame = frame[:12] + ends + frame[20:].replace(*names)
        total = struct.pack(">H", len(frame))
        others.append((moment, frame[:2] + total + frame[4:]))
    return others


# The worked flows, each a row: its packets, the three bytes of the addresses that change from flow to flow, and its report.
Row = namedtuple("Row", "name sent base rules report")


def rows():
    asked = packets_of(read_bytes(DATA, "c.pcap"))
    opened = asked + [(1_001_000_000, opening(0x0A000001, 0x0A000002))]
    formats = "docs/FORMATS.md"
    office = read_text(DATA, "office.rules")
    answered = read_text(TOP, "crates", "ctreplay", "stdout")
    ftp = packets_of(read_bytes(DATA, "ftp.pcap"))
    masked = packets_of(read_bytes(DATA, "office.pcap"))
    return {
        "query": Row("query", asked, b"\x0a\0\0", "", answered),
        "sweep": Row("sweep", opened, b"\x0a\0\0", "", None),
        "ftp": Row("ftp", ftp, b"\x0a\0\0", "", example(formats, "events 11\n0 confirm 0.0 tcp")),
        "office": Row("office", masked, bytes((198, 51, 100)), office, example(formats, "events 19")),
    }


def flow_base(row, flow):
    """The three bytes of the addresses of this flow of the row. The first is that of the row."""
    return (int.from_bytes(row.base, "big") + flow).to_bytes(3, "big")


def flow_of(row, flow):
    return moved(row.sent, row.base, flow_base(row, flow))


def captures_apart(row, threads):
    flows = FLOWS[row.name]
    return [
        capture([one for flow in range(flows) for one in flow_of(row, thread * flows + flow)]) for thread in range(threads)
    ]


def captures_same(row, threads):
    """All threads begin with one flow, and then go on in other orders."""
    flows = FLOWS[row.name]
    orders = [sorted(range(flows), key=lambda flow: flow * (2 * thread + 1) % flows) for thread in range(threads)]
    return [capture([one for flow in order for one in flow_of(row, flow)]) for order in orders]


# What is so of each run of a case.


def parts_of(report, count):
    """The events and verdicts of each flow of each thread, so many packets, with ids counted among them, without points."""
    lines, ids, parts = report.splitlines(), {}, {}
    events = int(lines[0].split()[1])

    def part_for(thread, packet):
        key = int(thread), packet // count
        return parts.setdefault(key, []), ids.setdefault(key, {})

    def renamed(pattern, names, text):
        return re.sub(pattern, lambda found: f"{found[1]}={names.get(found[2], '?')}", text)

    for line in lines[1 : 1 + events]:
        number, word, who, rest = line.split(" ", 3)
        thread, _, packet = who.partition(".")
        if thread != "s":
            part, names = part_for(thread, int(packet))
            names[number] = len(names)
            text = renamed(r"(^id|master|expect|replaces)=(\d+)", names, rest)
            part.append(f"{names[number]} {word} {int(packet) % count} {text}")
    for line in lines[1 + events :]:
        word, _, rest = line.partition(" ")
        if word == "script":
            break
        if word == "thread":
            thread = rest.split()[0]
            continue
        part, names = part_for(thread, int(word))
        text = renamed(r"(id|expect|clash)=(\d+)", names, rest)
        part.append(f"{int(word) % count} " + re.sub(r" @\d+", "", text))
    return {key: "\n".join(part) for key, part in parts.items()}


def is_as_alone(row, threads):
    """Each flow of a thread has the events and verdicts that it has alone."""
    count, flows = len(row.sent), FLOWS[row.name]
    alone = parts_of(row.report, count)[0, 0]
    text = lambda base: ".".join(str(piece) for piece in base) + "."

    def holds(history, report):
        parts = parts_of(report, count)
        for thread in range(threads):
            for flow in range(flows):
                base = flow_base(row, thread * flows + flow)
                got = parts[thread, flow].replace(text(base), text(row.base))
                want(got == alone, f"flow {flow} of thread {thread} is not as it is alone")

    return holds


def any_history(history, report):
    """Whatever is well-formed."""


def is_one_entry(history, report):
    want(history.kinds.count("confirm") == 1 and history.live_counts[-1] == 1, "there is not one entry")


def is_swept(threads):
    """Each thread has left two entries in each flow, of which the script finds all, and deletes them."""
    flows = threads * FLOWS["sweep"]

    def holds(history, report):
        lines = report[report.index("\nscript 6\n") :].splitlines()
        heads = [line.partition(" @")[0] for line in lines if re.match(r"\d+ [a-z]", line)]
        wanted = [f"0 list {2 * flows}", f"1 deleted {flows}", f"2 count {flows}", f"3 flushed {flows}", "4 get 0", "5 list 0"]
        want(heads == wanted, f"the script is answered {heads}")
        want(history.live_counts[-1] == 0, "entries are left")

    return holds


def is_full(entries, threads, word):
    """No place is lost: each has an entry at the end, but for one that each thread may have given back last of all, after
    another one had dropped the entry in it. The report has this word too."""

    def holds(history, report):
        live = history.live_counts[-1]
        want(entries - threads < live <= entries, f"{live} are live at the end, of {entries}")
        want(word in report, f"no line has {word}")

    return holds


# Zones of which one is none that is said, and two are the least and the greatest that are.
ZONES = (7, 0, 65535, 1)


def first_words(report, thread):
    """The first words of a thread's verdicts."""
    lines = report.splitlines()
    begin = next(at for at, line in enumerate(lines) if line.startswith(f"thread {thread} packets "))
    count = int(lines[begin].split()[3])
    return [line.split(" ")[1] for line in lines[begin + 1 : begin + 1 + count]]


def rows_of_zones(report):
    """The rows of each list, and of each deletion, of the script, without points, in an order that is no run's."""
    found, rows = {}, []
    for line in report[report.index("\nscript ") :].splitlines()[2:]:
        if " src=" in line:
            rows.append(line.rpartition(" @")[0])
        else:
            rows = found.setdefault(int(line.split(" ")[0]), [])
    return [sorted(rows) for _, rows in sorted(found.items())]


def zone_script(zones):
    """Lists each zone's entries, deletes those of the first, and lists all zones again."""
    lists = [f"-L -w {zone}" for zone in zones]
    return "\n".join(["wait", *lists, f"-D -w {zones[0]}", *lists]) + "\n"


def is_as_each_alone(zones):
    """Each capture's verdicts have the first words, and its zone the rows, that they have where it is replayed alone; a deletion in
    the first zone leaves those of the others."""

    def holds(history, report, alone):
        rows, count = rows_of_zones(report), len(zones)
        for thread, (zone, one) in enumerate(zip(zones, alone)):
            want(first_words(report, thread) == first_words(one, 0), f"the verdicts of thread {thread} are not those of its capture alone")
            mine = rows_of_zones(one)[0]
            want(mine and rows[thread] == mine, f"the rows of zone {zone} are not those of its capture alone")
            want(rows[count + 1 + thread] == ([] if thread == 0 else mine), f"behind the deletion zone {zone} has other rows")
        want(rows[count] == rows[0], "what was deleted is not the first zone")

    return holds


def rival_captures(threads):
    """Clients of one network that ask for two servers through a rule of few ports, one after the other and again, in each thread."""
    sent = [
        (BEGUN + 1000 * (200 * turn + 5 * client + server), query(0x0A000001 + client, 0x0A010001 + server, 5000 + client % 3, back))
        for turn in range(2)
        for client in range(12)
        for server in range(2)
        for back in (False,)
    ]
    return [capture(sent)] * threads


def zone_cases(row):
    """The same captures in each of four zones, through one file of rules."""
    few = "snat -s 10.0.0.0/24 -p udp to 192.0.2.1:5000-5004\n"
    office = captures_same(row["office"], 4)
    made = {
        "query": (captures_same(row["query"], 4), ""),
        "ftp": (captures_same(row["ftp"], 4), ""),
        "office": (office, row["office"].rules),
        "equal": ([office[0]] * 4, row["office"].rules),
        "ftp-equal": (captures_same(row["ftp"], 1) * 4, ""),
        "ports": (rival_captures(4), few),
    }
    return [
        Case(f"zones-{name}", captures, rules, zone_script(ZONES), 4096, is_as_each_alone(ZONES), ZONES)
        for name, (captures, rules) in made.items()
    ]


def pool_captures(threads, flows, rounds, turns=(False, True)):
    """Each thread asks for flows of its own, and again after they are expired. Each turn of a flow is a query, or an answer."""
    return [
        capture(
            [
                (BEGUN + 100_000_000 * turn + flow, query(0x0A000000 + 256 * thread + flow, 0x0A010001, 5000, back))
                for turn in range(rounds)
                for flow in range(flows)
                for back in turns
            ]
        )
        for thread in range(threads)
    ]


def all_cases():
    row = rows()
    sweep = captures_apart(row["sweep"], 4)
    beside = SWEEP.replace("wait\n", "") + "-L\n-D -p tcp\n-C\n-L expect\nexpire 1100000000\n-L\n-F\n-C\n"
    one_flow = capture(
        [(1_000_000_000 + 1000 * turn, query(0x0A000001, 0x0A000002, 5000, turn % 2 == 1)) for turn in range(100)]
    )
    cases = []
    for name in ("query", "ftp", "office"):
        one = row[name]
        cases.append(Case(f"{name}-apart", captures_apart(one, 4), one.rules, "", 2048, is_as_alone(one, 4)))
        cases.append(Case(f"{name}-same", captures_same(one, 4), one.rules, "", 2048, any_history))
    ftp_script = "-L expect\n-D -p tcp\n" * 8
    return cases + [
        Case("sweep-apart", sweep, "", SWEEP, 2048, is_swept(4)),
        Case("sweep-beside", captures_same(row["sweep"], 4), "", beside, 2048, any_history),
        Case("ftp-beside", captures_same(row["ftp"], 3), "", ftp_script, 2048, any_history),
        Case("one-flow", [one_flow] * 4, "", "", 2048, is_one_entry),
        Case("pool-once", pool_captures(8, 60, 1), "", "", 120, is_full(120, 8, " dropped\n")),
        Case("pool-again", pool_captures(8, 24, 4), "", "", 80, is_full(80, 8, " dropped\n")),
        Case("pool-assured", pool_captures(8, 60, 1, (False, True, False)), "", "", 120, is_full(120, 8, " FULL @")),
        Case("pool-same", pool_captures(1, 40, 3) * 8, "", "-C\n-L\nwait\n-C\n", 34, any_history),
        Case("pool-drops", pool_captures(2, 60, 2) * 2, "", "", 40, any_history),
        # Flows of four zones that are the same drop each other: room is shared.
        Case("pool-zones", pool_captures(1, 60, 2) * 4, "", "", 40, any_history, ZONES),
        *zone_cases(row),
    ]


# The runs.


def place(case, folder):
    """Writes the inputs of a case, and gives the words of a run, but for the buckets."""
    words = []
    for option, text in (("--rules", case.rules), ("--script", case.script)):
        if text:
            name = os.path.join(folder, option[2:])
            with open(name, "w", encoding="ascii") as file:
                file.write(text)
            words += [option, name]
    words += ["--entries", str(case.entries)]
    if case.zones:
        words += ["--zones", ",".join(str(zone) for zone in case.zones)]
    for thread, data in enumerate(case.captures):
        words.append(os.path.join(folder, f"{thread}.pcap"))
        with open(words[-1], "wb") as file:
            file.write(data)
    return words


def is_heard(number):
    """Whether the run of this number has a listener."""
    return number % 2 == 1


def is_rewritten(number):
    """Whether the run of this number says how packets leave."""
    return number % 4 >= 2


def run_once(program, words, number):
    own = ["--buckets", str(BUCKETS[number % len(BUCKETS)])] + ["--listen"] * is_heard(number) + ["--rewrite"] * is_rewritten(number)
    done = subprocess.run([program] + own + words, capture_output=True, text=True, timeout=600, check=False)
    if done.returncode:
        return number, None, f"status {done.returncode}: {done.stderr.strip()}"
    return number, done.stdout, None


def changes_of(report):
    """How often two events that stand side by side are of two threads."""
    lines = report.splitlines()
    makers = [line.split(" ", 3)[2].split(".")[0] for line in lines[1 : 1 + int(lines[0].split()[1])]]
    return sum(one != other for one, other in zip(makers, makers[1:]))


def judged(case, inputs, report):
    """Why a report is refused, or none."""
    try:
        case.holds(check(report, inputs), report_alone(report))
    except Refused as fault:
        return str(fault)
    return None


def keep(folder, case, number, report, why):
    name = os.path.join(folder, f"{case.name}-{number}")
    os.makedirs(name, exist_ok=True)
    place(case, name)
    for file_name, text in (("report", report or ""), ("why", why + "\n")):
        with open(os.path.join(name, file_name), "w", encoding="ascii") as file:
            file.write(text)


def reports_alone(case, program):
    """The report of each capture replayed alone in its zone, which lists that."""
    found = []
    for data, zone in zip(case.captures, case.zones):
        one = case._replace(captures=[data], zones=[zone], script=f"wait\n-L -w {zone}\n")
        with tempfile.TemporaryDirectory() as folder:
            _, report, why = run_once(program, place(one, folder), 0)
        if why:
            sys.exit(f"thread_rows: {case.name}: a capture alone: {why}")
        found.append(report)
    return found


def run_case(case, given):
    """Runs a case. Gives whether each report was good."""
    begin, changes, words = time.time(), [], {}
    inputs = inputs_of(case.captures, case.rules, case.script, case.entries, zones=case.zones)
    with tempfile.TemporaryDirectory() as folder, ThreadPoolExecutor(given.jobs) as pool:
        if case.name.startswith("zones-"):
            case = case._replace(holds=functools.partial(case.holds, alone=reports_alone(case, given.program)))
        line = place(case, folder)
        for begun in range(0, given.runs, 50):
            numbers = range(begun, min(begun + 50, given.runs))
            for number, report, why in pool.map(lambda n: run_once(given.program, line, n), numbers):
                why = why or judged(case, inputs._replace(listen=is_heard(number), rewrite=is_rewritten(number)), report)
                if why:
                    print(f"{case.name}: run {number} is refused: {why}", flush=True)
                    if given.keep:
                        keep(given.keep, case, number, report, why)
                    return False
                changes.append(changes_of(report))
                for word in re.findall(r"^\d+ ([A-Z_]+(?: state| new)?) .*@", report, re.M):
                    words[word] = words.get(word, 0) + 1
    middle = sorted(changes)[len(changes) // 2]
    counts = ", ".join(f"{word} {count}" for word, count in sorted(words.items()))
    print(
        f"{case.name}: {given.runs} runs in {time.time() - begin:.0f} s, all good; changes of thread between two events"
        f" {min(changes)} to {max(changes)}, in the middle {middle}; verdicts {counts}",
        flush=True,
    )
    return True


# The test of the checker.


# The query and its answer on two threads, of which the second was late.
MERGED = """events 3
0 confirm 0.0 udp src=10.0.0.1 dst=10.0.0.2 sport=5000 dport=53 src=10.0.0.2 dst=10.0.0.1 sport=53 dport=5000 until=1030000000
1 touch 0.1 id=0 reply until=1120500000 replied
2 touch 1.1 id=0 reply until=1120500000 replied
thread 0 packets 2
0 NEW id=0 @1
1 ESTABLISHED_REPLY id=0 @2
thread 1 packets 2
0 MERGED id=0 @1
1 ESTABLISHED_REPLY id=0 @3
script 0
"""

# A table of four entries: a flow that is not assured makes room, four that are assured do not, and one past its deadline does.
DROPS = """events 16
0 confirm 0.0 udp src=10.0.0.1 dst=10.1.0.1 sport=5000 dport=53 src=10.1.0.1 dst=10.0.0.1 sport=53 dport=5000 until=1030000000
1 touch 0.1 id=0 reply until=1120001000 replied
2 touch 0.2 id=0 original until=1120002000 replied assured
3 confirm 0.3 udp src=10.0.0.1 dst=10.1.0.1 sport=5001 dport=53 src=10.1.0.1 dst=10.0.0.1 sport=53 dport=5001 until=1031000000
4 touch 0.4 id=3 reply until=1121001000 replied
5 touch 0.5 id=3 original until=1121002000 replied assured
6 confirm 0.6 udp src=10.0.0.1 dst=10.1.0.1 sport=5002 dport=53 src=10.1.0.1 dst=10.0.0.1 sport=53 dport=5002 until=1032000000
7 touch 0.7 id=6 reply until=1122001000 replied
8 touch 0.8 id=6 original until=1122002000 replied assured
9 confirm 0.9 udp src=10.0.0.1 dst=10.1.0.1 sport=5003 dport=53 src=10.1.0.1 dst=10.0.0.1 sport=53 dport=5003 until=1033000000
10 destroy 0.10 id=9 dropped
11 confirm 0.10 udp src=10.0.0.1 dst=10.1.0.1 sport=5004 dport=53 src=10.1.0.1 dst=10.0.0.1 sport=53 dport=5004 until=1034000000
12 touch 0.11 id=11 reply until=1124001000 replied
13 touch 0.12 id=11 original until=1124002000 replied assured
14 destroy 0.14 id=11 dropped
15 confirm 0.14 udp src=10.0.0.1 dst=10.1.0.1 sport=5006 dport=53 src=10.1.0.1 dst=10.0.0.1 sport=53 dport=5006 until=1163000000
thread 0 packets 15
0 NEW id=0 @1
1 ESTABLISHED_REPLY id=0 @2
2 ESTABLISHED id=0 @3
3 NEW id=3 @4
4 ESTABLISHED_REPLY id=3 @5
5 ESTABLISHED id=3 @6
6 NEW id=6 @7
7 ESTABLISHED_REPLY id=6 @8
8 ESTABLISHED id=6 @9
9 NEW id=9 @10
10 NEW id=11 @12
11 ESTABLISHED_REPLY id=11 @13
12 ESTABLISHED id=11 @14
13 FULL @14 @14
14 NEW id=15 @16
script 0
"""
# A table of two entries: a flow makes room for a connection that was expected.
CLAIMED = """events 9
0 confirm 0.0 tcp src=10.0.0.1 dst=10.1.0.1 sport=40000 dport=21 src=10.1.0.1 dst=10.0.0.1 sport=21 dport=40000 until=1120000000 state=SYN_SENT helper
1 touch 0.1 id=0 reply until=1060001000 state=SYN_RECV replied
2 touch 0.2 id=0 original until=433000002000 state=ESTABLISHED replied assured
3 touch 0.3 id=0 original until=433000003000 state=ESTABLISHED replied assured
4 expect 0.3 master=0 src=10.1.0.1 dst=10.0.0.1 dport=51201 until=1300003000
5 confirm 0.4 udp src=10.0.0.1 dst=10.1.0.1 sport=5000 dport=53 src=10.1.0.1 dst=10.0.0.1 sport=53 dport=5000 until=1030004000
6 destroy 0.5 id=5 dropped
7 claim 0.5 expect=4 master=0
8 confirm 0.5 tcp src=10.1.0.1 dst=10.0.0.1 sport=20 dport=51201 src=10.0.0.1 dst=10.1.0.1 sport=51201 dport=20 until=1120005000 state=SYN_SENT master=0
thread 0 packets 6
0 NEW id=0 @1
1 ESTABLISHED_REPLY id=0 @2
2 ESTABLISHED id=0 @3
3 ESTABLISHED id=0 @4 ftp expect=4
4 NEW id=5 @6
5 RELATED id=8 @9
script 0
"""
# Two threads: the one entry was assured while the second thread looked for one that may go.
ASSURED = """events 3
0 confirm 0.0 udp src=10.0.0.1 dst=10.1.0.1 sport=5000 dport=53 src=10.1.0.1 dst=10.0.0.1 sport=53 dport=5000 until=1030000000
1 touch 0.1 id=0 reply until=1120001000 replied
2 touch 0.2 id=0 original until=1120002000 replied assured
thread 0 packets 3
0 NEW id=0 @1
1 ESTABLISHED_REPLY id=0 @2
2 ESTABLISHED id=0 @3
thread 1 packets 1
0 FULL @1 @3
script 0
"""
# Two threads: the second drops the one entry, and the first has the place.
LOST = """events 3
0 confirm 0.0 udp src=10.0.0.1 dst=10.1.0.1 sport=5000 dport=53 src=10.1.0.1 dst=10.0.0.1 sport=53 dport=5000 until=1030000000
1 destroy 1.0 id=0 dropped
2 confirm 0.1 udp src=10.0.0.1 dst=10.1.0.1 sport=5001 dport=53 src=10.1.0.1 dst=10.0.0.1 sport=53 dport=5001 until=1031000000
thread 0 packets 2
0 NEW id=0 @1
1 NEW id=2 @3
thread 1 packets 1
0 FULL @1 @3
script 0
"""

# So few entries are full already where each other pass may keep four places: of six there are two.
FEW = """events 4
0 confirm 0.0 udp src=10.0.0.1 dst=10.1.0.1 sport=5000 dport=53 src=10.1.0.1 dst=10.0.0.1 sport=53 dport=5000 until=1030000000
1 confirm 0.1 udp src=10.0.0.1 dst=10.1.0.1 sport=5001 dport=53 src=10.1.0.1 dst=10.0.0.1 sport=53 dport=5001 until=1031000000
2 destroy 0.2 id=1 dropped
3 confirm 0.2 udp src=10.0.0.1 dst=10.1.0.1 sport=5002 dport=53 src=10.1.0.1 dst=10.0.0.1 sport=53 dport=5002 until=1032000000
thread 0 packets 3
0 NEW id=0 @1
1 NEW id=1 @2
2 NEW id=3 @4
script 0
"""

# The query and its answer in zone 1 on one thread, and in zone 2 on the other; and a script.
ZONED = """events 5
0 confirm 0.0 udp src=10.0.0.1 dst=10.0.0.2 sport=5000 dport=53 src=10.0.0.2 dst=10.0.0.1 sport=53 dport=5000 until=1030000000 zone=1
1 confirm 1.0 udp src=10.0.0.1 dst=10.0.0.2 sport=5000 dport=53 src=10.0.0.2 dst=10.0.0.1 sport=53 dport=5000 until=1030000000 zone=2
2 touch 0.1 id=0 reply until=1120500000 replied
3 touch 1.1 id=1 reply until=1120500000 replied
4 destroy s.3 id=1 deleted
thread 0 packets 2
0 NEW id=0 @1
1 ESTABLISHED_REPLY id=0 @3
thread 1 packets 2
0 NEW id=1 @2
1 ESTABLISHED_REPLY id=1 @4
script 5
0 list 1 @4 @4
udp      17 120 src=10.0.0.1 dst=10.0.0.2 sport=5000 dport=53 src=10.0.0.2 dst=10.0.0.1 sport=53 dport=5000 zone=2 @4
1 get 1 @4
udp      17 120 src=10.0.0.1 dst=10.0.0.2 sport=5000 dport=53 src=10.0.0.2 dst=10.0.0.1 sport=53 dport=5000 zone=1 @4
2 get 0 @4
3 deleted 1 @4 @5
udp      17 120 src=10.0.0.1 dst=10.0.0.2 sport=5000 dport=53 src=10.0.0.2 dst=10.0.0.1 sport=53 dport=5000 zone=2 @4
4 list 1 @5 @5
udp      17 120 src=10.0.0.1 dst=10.0.0.2 sport=5000 dport=53 src=10.0.0.2 dst=10.0.0.1 sport=53 dport=5000 zone=1 @5
"""
ZONED_SCRIPT = """wait
-L -w 2
-G -w 1 -p udp -s 10.0.0.1 -d 10.0.0.2 --sport 5000 --dport 53
-G -p udp -s 10.0.0.1 -d 10.0.0.2 --sport 5000 --dport 53
-D -w 2
-L
"""


def in_two_zones(report, zones):
    """A report of one capture, twice: on two threads, one behind the other, in these zones."""
    lines = report.splitlines()
    count = int(lines[0].split()[1])
    events, threads = [], []
    for thread, zone in enumerate(zones):
        later = lambda found, base=thread * count: f"{found[1]}{int(found[2]) + base}"
        for line in lines[1 : 1 + count]:
            number, word, who, rest = line.split(" ", 3)
            rest = re.sub(r"((?:^id|\bmaster|\bexpect|\breplaces)=)(\d+)", later, rest)
            said = zone_text(zone) if word in ("confirm", "expect") else ""
            events.append(f"{len(events)} {word} {thread}.{who[2:]} {rest}{said}")
        verdicts = [re.sub(r"(\b(?:id|expect)=|@)(\d+)", later, line) for line in lines[2 + count : -1]]
        threads += [f"thread {thread} packets {len(verdicts)}", *verdicts]
    return "\n".join([f"events {len(events)}", *events, *threads, "script 0"]) + "\n"


def asked(*steps):
    """A capture of queries of UDP and of answers, each with its moment and the client's port; a negative port is an answer."""
    return capture([(BEGUN + moment, query(0x0A000001, 0x0A010001, abs(port), port < 0)) for moment, port in steps])


def expected():
    """A control connection that names an end, a query, and the connection to that end."""
    ends, back, text = (0x0A000001, 0x0A010001), (0x0A010001, 0x0A000001), b"PORT 10,0,0,1,200,1\r\n"
    segments = [(ends, 40000, 21, 2, b""), (back, 21, 40000, 18, b""), (ends, 40000, 21, 16, b""), (ends, 40000, 21, 24, text), None, (back, 20, 51201, 2, b"")]
    bodies = [query(*ends, 5000) if one is None else segment(*one) for one in segments]
    return capture([(BEGUN + 1000 * index, one) for index, one in enumerate(bodies)])


def segment(ends, source, destination, flags, data):
    return packet(6, ends, struct.pack(">HHIIBBHHH", source, destination, 0, 0, 0x50, flags, 0, 0, 0) + data)


def drop_damages():
    """Of a table that is full."""
    second = 1_000_000
    whole = [(at * second + turn * 1000, port) for at, own in enumerate((5000, 5001, 5002)) for turn, port in enumerate((own, -own, own))]
    whole += [(3 * second, 5003), (4 * second, 5004), (4 * second + 1000, -5004), (4 * second + 2000, 5004), (5 * second, 5005), (133 * second, 5006)]
    last = DROPS[DROPS.index("14 destroy") : DROPS.index("thread 0")]
    swapped = CLAIMED[CLAIMED.index("6 destroy") : CLAIMED.index("8 confirm")]
    drop, claim = (line[2:] for line in swapped.splitlines())
    # Here the second packet drops the first one's entry, and then the third one finds room.
    moved = FEW[FEW.index("1 confirm") : FEW.index("3 confirm")]
    early = "1 destroy 0.1 id=0 dropped\n" + moved[: moved.index("2 destroy")].replace("1 confirm", "2 confirm", 1)
    room, lost = inputs_of([asked(*whole)], entries=4), inputs_of([asked((0, 5000), (second, 5001)), asked((0, 5002))], entries=9)
    return [
        (
            DROPS,
            room,
            [
                ("10 destroy 0.10 id=9 dropped", "10 destroy 0.10 id=0 dropped"),
                ("10 destroy 0.10 id=9 dropped", "10 destroy 0.10 id=9 expired"),
                ("14 destroy 0.14 id=11 dropped", "14 destroy 0.14 id=11 expired"),
                # Of four that are past their deadline each may go; at the packet before that none may.
                ("14 destroy 0.14 id=11 dropped", "14 destroy 0.13 id=11 dropped"),
                ("13 FULL @14 @14", "13 FULL @14"),
                ("13 FULL @14 @14", "13 FULL @13 @14"),
                ("13 FULL @14 @14", "13 FULL @14 @15"),
                ("13 FULL @14 @14", "13 NOPORT @14 @14"),
                ("13 FULL @14 @14", "13 MERGED id=11 @14"),
                (last + "thread 0", "14 destroy 0.14 id=11 dropped\n15 destroy 0.14 id=6 dropped\nthread 0", "14 NEW id=15 @16", "14 FULL @14 @16"),
                (last, "", "events 16", "events 14", "14 NEW id=15 @16", "14 FULL @14 @14"),
            ],
        ),
        (FEW, inputs_of([asked((0, 5000), (second, 5001), (2 * second, 5002))], entries=6), [(moved, early, "1 NEW id=1 @2", "1 NEW id=2 @3")]),
        (CLAIMED, inputs_of([expected()], entries=2), [(swapped, f"6 {claim}\n7 {drop}\n"), ("6 destroy 0.5 id=5", "6 destroy 0.5 id=0")]),
        (
            ASSURED,
            inputs_of([asked((0, 5000), (1000, -5000), (2000, 5000)), asked((0, 5002))], entries=9),
            [("0 FULL @1 @3", "0 FULL @1 @2"), ("0 FULL @1 @3", "0 FULL @0 @3"), ("0 FULL @1 @3", "0 FULL @3 @1"), ("0 FULL @1 @3", "0 FULL id=0 @1 @3")],
        ),
        (
            LOST,
            lost,
            [
                ("0 FULL @1 @3", "0 FULL @1 @2"),
                ("0 FULL @1 @3", "0 FULL @0 @3"),
                ("0 FULL @1 @3", "0 FULL @2 @3"),
                ("0 FULL @1 @3", "0 FULL @1 @1"),
                ("0 FULL @1 @3", "0 INVALID new @3"),
                ("id=0 dropped", "id=0 flushed"),
            ],
        ),
    ]


def told_report(count, heard):
    """The report of so many queries, each of a flow of its own, of which a listener was told of so many."""
    ends = lambda port: f"src=10.0.0.1 dst=10.0.0.2 sport={port} dport=53 src=10.0.0.2 dst=10.0.0.1 sport=53 dport={port}"
    events = [f"{n} confirm 0.{n} udp {ends(5000 + n)} until={BEGUN + n + 30_000_000}" for n in range(count)]
    verdicts = [f"{n} NEW id={n} @{n + 1}" for n in range(count)]
    lines = [f"events {count}", *events, f"thread 0 packets {count}", *verdicts, "script 0", f"heard 0 {heard} of {count}", "heard s 0 of 0"]
    return "\n".join(lines) + "\n"


def heard_damages(data):
    """Of what a listener heard: fewer events than a queue holds, and more; a script whose one event is behind `wait`, or before."""
    flushed, many = example("docs/FORMATS.md", "events 3\n0 confirm 0.0 udp src=10.0.0.1 dst=10.0.0.2 sport=5000 dport=53"), 1500
    queries = [capture([(BEGUN + n, query(0x0A000001, 0x0A000002, 5000 + n)) for n in range(many)])]
    first, last = "heard 0 2 of 2\n", "heard s 0 of 0\n"
    return [
        (
            flushed,
            inputs_of(data("c.pcap"), "", "wait\n-F\n", listen=True),
            [
                (first, ""),
                (last, ""),
                (first, "", last, ""),
                (first + last, last + first),
                (first, first + first),
                (last, last + last),
                (last, last + "\n"),
                (first, "heard 0 1 of 2\n"),
                (first, "heard 0 3 of 2\n"),
                (first, "heard 0 3 of 3\n"),
                (first, "heard 0 1 of 1\n"),
                (first, "heard 0 02 of 2\n"),
                (first, "heard 0 2 of 2 \n"),
                (first, "heard 0 2 from 2\n"),
                (first, "heard 1 2 of 2\n"),
                (last, "heard 1 0 of 0\n"),
                (last, "heard s 1 of 1\n"),
                (last, "heard s 0 of 1\n"),
            ],
        ),
        (
            flushed.replace(last, "heard s 1 of 1\n"),
            inputs_of(data("c.pcap"), "", "-F\n", listen=True),
            [("heard s 1 of 1\n", last), ("heard s 1 of 1\n", "heard s 0 of 1\n")],
        ),
        (flushed.replace(first + last, ""), inputs_of(data("c.pcap"), "", "wait\n-F\n"), [("@2 @3\n", "@2 @3\n" + first + last)]),
        (
            told_report(many, 1024),
            inputs_of(queries, listen=True),
            [(f"1024 of {many}", f"1023 of {many}"), (f"1024 of {many}", f"{many + 1} of {many}"), (f"1024 of {many}", "1024 of 1024")],
        ),
        (told_report(many, many), inputs_of(queries, listen=True), [(f"{many} of {many}", f"0 of {many}")]),
    ]


def rewrite_damages(data):
    """Of how packets leave: the session of docs/FORMATS.md, and one of which no packet leaves in another way."""
    report = example("docs/FORMATS.md", "events 7\n0 confirm 0.0 tcp src=10.0.0.1 dst=10.0.0.2 sport=40000 dport=21")
    inputs = inputs_of(data("port.pcap"), data("port.rules")[0].decode(), rewrite=True)
    first, second, third = (line + "\n" for line in report.splitlines()[-3:])
    ftp = example("docs/FORMATS.md", "events 11")
    return [
        (
            report,
            inputs,
            [
                ("rewrite 3\n" + first + second + third, ""),
                ("rewrite 3\n" + first + second + third, "rewrite 0\n"),
                ("rewrite 3\n", "rewrite 2\n"),
                ("rewrite 3\n", ""),
                ("rewrite 3\n", "rewrite 03\n"),
                (first, ""),
                (second, "", "rewrite 3", "rewrite 2"),
                (second + third, third + second),
                (third, third + third),
                (third, third + "\n"),
                (third, third + "rewrite 0\n"),
                ("ack=1024>1023", "ack=1024>1024"),
                ("ack=1024>1023", "ack=1023>1023"),
                ("seq=1023>1024", "seq=1023>1023"),
                ("seq=1023>1024", "seq=1023>1025"),
                ("seq=1001>1001", "seq=1001>1002"),
                (" text=50", " text=70"),
                ("0d0a\n", "0d0A\n"),
                ("0d0a\n", "0d0a0a\n"),
                (second[:-1], second[:-1] + " text=kept"),
                (first[first.index(" text="):], " text=kept\n"),
                (first[first.index(" text="):], "\n"),
                ("\n0.4 id=0 reply", "\n0.4 id=0 original"),
                ("\n0.4 id=0 reply", "\n0.4 id=1 reply"),
                ("\n0.4 id=0 reply", "\n1.4 id=0 reply"),
                ("\n0.5 id=0", "\n0.05 id=0"),
                ("rewrite 3\n", "rewrite 4\n0.2 id=0 original seq=1001>1001 ack=5001>5001\n"),
                ("dst=192.0.2.1 dport=40001", "dst=10.0.0.1 dport=40001"),
            ],
        ),
        (report[: report.index("rewrite 3")], inputs._replace(rewrite=False), [("script 0\n", "script 0\nrewrite 0\n"), ("script 0\n", "script 0\nrewrite 3\n" + first + second + third)]),
        (ftp + "rewrite 0\n", inputs_of(data("ftp.pcap"), rewrite=True), [("rewrite 0\n", ""), ("rewrite 0\n", "rewrite 1\n" + first)]),
    ]


def zone_damages(data):
    """Of the same flows and FTP sessions in two zones."""
    row = ZONED[ZONED.index("udp      17") : ZONED.index(" zone=2 @4")]
    ftp = in_two_zones(example("docs/FORMATS.md", "events 11"), (0, 65535))
    return [
        (
            ZONED,
            inputs_of(data("c.pcap", "c.pcap"), "", ZONED_SCRIPT, zones=(1, 2)),
            [
                ("until=1030000000 zone=1", "until=1030000000"),
                ("until=1030000000 zone=1", "until=1030000000 zone=2"),
                ("until=1030000000 zone=1", "until=1030000000 zone=01"),
                ("until=1030000000 zone=1", "until=1030000000 zone=1 "),
                ("until=1030000000 zone=1", "zone=1 until=1030000000"),
                ("until=1030000000 zone=2", "until=1030000000 zone=1"),
                ("until=1030000000 zone=2", "until=1030000000 zone=0"),
                ("2 touch 0.1 id=0", "2 touch 0.1 id=1"),
                ("3 touch 1.1 id=1", "3 touch 1.1 id=0"),
                ("3 touch 1.1 id=1 reply until=1120500000 replied", "3 touch 1.1 id=1 reply until=1120500000 replied zone=2"),
                ("4 destroy s.3 id=1 deleted", "4 destroy s.3 id=0 deleted"),
                ("4 destroy s.3 id=1 deleted", "4 destroy s.3 id=1 deleted zone=2"),
                ("1 ESTABLISHED_REPLY id=0 @3", "1 ESTABLISHED_REPLY id=1 @3"),
                ("0 NEW id=1 @2", "0 MERGED id=0 @2"),
                ("0 NEW id=1 @2", "0 CLASH id=0 @2"),
                ("0 list 1 @4 @4\n" + row + " zone=2", "0 list 1 @4 @4\n" + row + " zone=1"),
                ("0 list 1 @4 @4\n" + row + " zone=2", "0 list 1 @4 @4\n" + row),
                ("0 list 1 @4 @4\n" + row + " zone=2 @4", "0 list 1 @4 @4\n" + row + " @4 zone=2"),
                ("0 list 1 @4 @4\n" + row + " zone=2 @4\n", "0 list 0 @4 @4\n"),
                ("0 list 1 @4 @4\n", "0 list 2 @4 @4\n" + row + " zone=1 @4\n"),
                ("1 get 1 @4\n" + row + " zone=1 @4\n", "1 get 0 @4\n"),
                ("1 get 1 @4\n" + row + " zone=1", "1 get 1 @4\n" + row + " zone=2"),
                ("2 get 0 @4\n", "2 get 1 @4\n" + row + " @4\n"),
                ("2 get 0 @4\n", "2 get 1 @4\n" + row + " zone=1 @4\n"),
                ("3 deleted 1 @4 @5\n" + row + " zone=2", "3 deleted 1 @4 @5\n" + row + " zone=1"),
                ("4 list 1 @5 @5\n" + row + " zone=1", "4 list 1 @5 @5\n" + row + " zone=2"),
                ("4 list 1 @5 @5\n" + row + " zone=1 @5\n", "4 list 0 @5 @5\n"),
            ],
        ),
        (
            ftp,
            inputs_of(data("ftp.pcap", "ftp.pcap"), zones=(0, 65535)),
            [
                ("until=304000000 zone=65535", "until=304000000"),
                ("until=304000000 zone=65535", "until=304000000 zone=65536"),
                ("4 expect 0.3 master=0", "4 expect 0.3 master=11"),
                ("15 expect 1.3 master=11", "15 expect 1.3 master=0"),
                (" replaces=15 zone=65535", " zone=65535 replaces=15"),
                (" replaces=15 zone=65535", " replaces=6 zone=65535"),
                ("19 claim 1.6 expect=17 master=11", "19 claim 1.6 expect=6 master=0"),
                ("state=SYN_SENT master=11 zone=65535", "state=SYN_SENT master=0 zone=65535"),
                ("state=SYN_SENT master=11 zone=65535", "state=SYN_SENT zone=65535"),
                ("state=SYN_SENT helper zone=65535", "state=SYN_SENT zone=65535 helper"),
                ("3 ESTABLISHED id=11 @15 ftp expect=15", "3 ESTABLISHED id=11 @15 ftp clash=6 @16"),
                ("3 ESTABLISHED id=11 @15 ftp expect=15", "3 ESTABLISHED id=11 @15 ftp expect=4"),
            ],
        ),
    ]


def damages():
    """Examples, each with its inputs and damages: texts of the report, and what stands in the place of each."""
    data = lambda *names: [read_bytes(DATA, name) for name in names]
    rules, script = read_text(DATA, "nat.rules"), read_text(DATA, "demo.script")
    both = inputs_of(data("nat.pcap", "icmp.pcap"), rules, script)
    office = inputs_of(data("office.pcap"), read_text(DATA, "office.rules"))
    return [
        (
            example("README.md", "events 6"),
            both,
            [
                ("1 confirm 0.0", "2 confirm 0.0"),
                ("2 touch 1.1 id=0", "2 touch 1.1 id=1"),
                ("5 destroy s.1 id=0", "5 destroy s.1 id=3"),
                ("5 destroy s.1", "5 destroy s.2"),
                ("5 destroy s.1", "5 destroy 0.2"),
                ("3 touch 0.1 id=1 reply", "3 touch 0.1 id=1 original"),
                ("3 touch 0.1", "3 touch 0.3"),
                ("4 confirm 0.2", "4 confirm 0.0"),
                ("sport=53 dport=5001 until", "sport=53 dport=5000 until"),
                ("until=1120500000", "until=1120500001"),
                ("1 ESTABLISHED_REPLY id=1 @4", "1 ESTABLISHED id=1 @4"),
                ("1 ESTABLISHED_REPLY id=1 @4", "1 ESTABLISHED_REPLY id=1 @3"),
                ("1 ESTABLISHED_REPLY id=1 @4", "1 ESTABLISHED_REPLY id=0 @4"),
                ("2 NEW id=4 @5", "2 NEW id=4 @7"),
                ("2 NEW id=4 @5", "2 FULL @5 @5"),
                ("2 INVALID new @4", "2 INVALID new @2"),
                # Behind `wait` the list looked at point 5: no packet was answered behind that.
                ("2 INVALID new @4", "2 INVALID new @6"),
                ("2 INVALID new @4", "2 IGNORED id=0 @4"),
                ("thread 1 packets 3", "thread 1 packets 2"),
                ("0 list 3 @5 @5", "0 list 3 @4 @5"),
                ("1 deleted 1 @5 @6", "1 deleted 0 @5 @6"),
                ("2 count 2 @6", "2 count 3 @6"),
                ("2 count 2 @6", "2 count 3 @5"),
                (" 30 src=10.0.0.2", " 29 src=10.0.0.2"),
            ],
        ),
        (
            MERGED,
            inputs_of(data("c.pcap", "c.pcap")),
            [
                ("0 MERGED id=0 @1", "0 CLASH id=0 @1"),
                ("0 MERGED id=0 @1", "0 MERGED id=0 @0"),
                ("0 MERGED id=0 @1", "0 MERGED id=0 @3"),
                ("0 MERGED id=0 @1", "0 FULL @1 @1"),
                ("0 MERGED id=0 @1", "0 NEW id=0 @1"),
                ("1 ESTABLISHED_REPLY id=0 @2", "1 MERGED id=0 @2"),
            ],
        ),
        (
            example("docs/FORMATS.md", "events 19"),
            office,
            [
                ("17 claim 0.16 expect=16", "17 claim 0.16 expect=15"),
                (" master=12\nthread", "\nthread"),
                ("dport=40001 until=224", "dport=40002 until=224"),
                (" helper", ""),
                ("state=LAST_ACK", "state=TIME_WAIT"),
                ("ftp expect=16", "ftp address"),
                (" @16 ftp expect=16", " @16"),
                ("16 RELATED id=18", "16 NEW id=18"),
            ],
        ),
        *drop_damages(),
        *zone_damages(data),
        *heard_damages(data),
        *rewrite_damages(data),
    ]


def self_test():
    """Whether each example is good, and each damage is refused."""
    tried, missed = 0, 0
    for report, inputs, changes in damages():
        check(report, inputs)
        for change in changes:
            damaged = report
            for old, new in zip(change[::2], change[1::2]):
                want(damaged.count(old) >= 1, f"the example has no {old}")
                damaged = damaged.replace(old, new, 1)
            tried += 1
            try:
                check(damaged, inputs)
                missed += 1
                print(f"self-test: not refused: {', '.join(change[1::2])} in the place of {', '.join(change[::2])}")
            except Refused as fault:
                print(f"refused: {fault}")
    print(f"self-test: {tried - missed} of {tried} damages refused")
    return missed == 0


def found_program():
    program = os.path.join(TOP, "crates", "ctreplay", "out", "ctreplay")
    if not os.access(program, os.X_OK):
        subprocess.run([os.path.join(TOP, "ctreplay"), os.path.join(DATA, "c.pcap")], stdout=subprocess.DEVNULL, check=True)
    return program


def main():
    parser = argparse.ArgumentParser(description="Runs the program many times on several captures, and checks each report.")
    parser.add_argument("--runs", type=int, default=1000)
    parser.add_argument("--jobs", type=int, default=1)
    parser.add_argument("--times", type=int, default=1)
    parser.add_argument("--program")
    parser.add_argument("--only", default="")
    parser.add_argument("--keep")
    parser.add_argument("--self-test", action="store_true")
    given = parser.parse_args()
    if given.self_test:
        sys.exit(0 if self_test() else 1)
    given.program = given.program or found_program()
    FLOWS.update({name: given.times * flows for name, flows in FLOWS.items()})
    cases = [case for case in all_cases() if given.only in case.name]
    if not cases or min(given.runs, given.jobs, given.times) < 1:
        sys.exit("thread_rows: no such case, or no runs")
    good = [run_case(case, given) for case in cases]
    sys.exit(0 if all(good) else 1)


if __name__ == "__main__":
    main()
