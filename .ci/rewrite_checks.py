"""Checks of how packets of FTP leave: the word, what docs/FORMATS.md shows, generated sessions against rules of their own, damaged
lines, and what the tools say. Used by .ci/tools.

The rules here are those of measure/rewrite_rules.py, from docs/FORMATS.md. Beside them stands a model that knows no numbers: it
rewrites a stream byte by byte, and tells a place's number by the length of what is in front of it.
"""
import os
import random
import re
import shutil
import struct
import sys

import made_packets as made
from checking import DATA, EXAMPLES, PROGRAM, TOP, count, module, read, refuses, report_of, run, tool, wants, write
from zone_checks import blocks

sys.path.insert(0, os.path.join(TOP, "measure"))
import report_check
import rewrite_rules
import tracker_rules

START = 1_000_000_000_000_000
WRAP = 1 << 32
CAPTURE, PORT = os.path.join(DATA, "c.pcap"), [os.path.join(DATA, "port.rules"), os.path.join(DATA, "port.pcap")]
LIMIT = 60
SESSIONS = 40
SERVER = "198.51.100.21"
RULES = "dnat -p tcp -d 203.0.113.5 --dport 21 to 192.168.1.9\nsnat -s 192.168.1.0/24 to 203.0.113.5\nsnat -s 10.0.0.0/8 to 203.0.113.5\n"


def rewritten(*words, **how):
    """A run of the program, which is ended where it does not end."""
    return run(["timeout", str(LIMIT), PROGRAM, "--rewrite", *words], **how)


def without(text):
    """A report or a summary without the lines of how packets leave, and these lines."""
    at = text.index("\nrewrite ") + 1
    return text[:at], text[at:].splitlines(keepends=True)


# The word, and what is printed


def check_formats():
    """The two blocks of the section."""
    text = read(TOP, "docs", "FORMATS.md").split("\n### How packets of FTP leave\n")[1].split("\n### ")[0]
    found, words = blocks(text), ["--rules", *PORT]
    for own, wanted in zip(([], ["--listen", "--summary"]), found):
        ran = rewritten(*own, *words)
        count(f"docs/FORMATS.md: --rewrite {' '.join(own)}", (ran.returncode, ran.stdout, ran.stderr) == (0, wanted, ""), ran.stdout + ran.stderr)
    count("docs/FORMATS.md: two examples of how packets leave", len(found) == 2, len(found))


def check_words():
    line = "ctreplay: the words are not of the stated form\n"
    for words in (["--rewrite", "--rewrite", CAPTURE], ["--rewrite=1", CAPTURE], ["--rewrite=", CAPTURE], ["--rewrit", CAPTURE], ["-rewrite", CAPTURE], ["--rewrite"]):
        ran = run([PROGRAM, *words])
        count(f"--rewrite: {' '.join(words[:2])} is refused", (ran.returncode, ran.stdout, ran.stderr) == (1, "", line), ran.stdout + ran.stderr)
    wanted = run([PROGRAM, CAPTURE]).stdout + "rewrite 0\n"
    for words in ([CAPTURE, "--rewrite"], ["--rewrite", "--", CAPTURE], ["--entries", "1", "--rewrite", "--buckets=1", CAPTURE]):
        ran = run([PROGRAM, *words])
        count(f"--rewrite: {' '.join(word for word in words if word != CAPTURE)}", (ran.returncode, ran.stdout, ran.stderr) == (0, wanted, ""), ran.stdout + ran.stderr)
    ran = run([PROGRAM, "--", "--rewrite"])
    count("--rewrite: behind -- it is a capture", (ran.returncode, ran.stderr) == (3, "ctreplay: --rewrite: open failed\n"), ran.stderr)
    ran = rewritten("--make", "2", "--packets", "8", "--threads", "2", "--summary")
    count("--rewrite: a made workload", ran.returncode == 0 and ran.stdout.endswith("\nrewrite 0\n"), ran.stdout + ran.stderr)


def check_whole():
    """The report or the summary is as without the word."""
    cases = [["--rules", "office.rules", "office.pcap"], ["--defrag", "--rules", "large.rules", "large.pcap"], ["--zones", "7", CAPTURE], ["--rules", *PORT]]
    for words in cases:
        for more in ([], ["--summary"]):
            plain, whole = run([PROGRAM, *more, *words]).stdout, rewritten(*more, *words).stdout
            report, lines = without(whole)
            count(f"--rewrite: {' '.join([*more, *map(os.path.basename, words)])} is as without it", report == plain and lines, whole[-300:])
    ran = rewritten("--rules", "office.rules", "--script", "table.script", "office.pcap")
    report = without(ran.stdout)[0]
    count("--rewrite: a report that is kept", report == read(EXAMPLES, "office.report"), ran.stdout[-300:])


def check_not_written():
    if not os.path.exists("/dev/full"):
        print("skipped: --rewrite where writing fails: there is no /dev/full")
        return
    ran = run(["bash", "-c", 'exec "$0" "$@" >/dev/full', PROGRAM, "--rewrite", "--rules", *PORT])
    count("--rewrite: where writing fails", (ran.returncode, ran.stderr) == (4, "ctreplay: write failed\n"), f"status {ran.returncode}: {ran.stderr}")


# A model of edits that knows bytes alone


class Stream:
    """A stream of bytes of which some are replaced: `marks` has of each byte how many leave in its place, and `inside` which places
    are strictly inside what is replaced."""

    def __init__(self, length):
        self.marks, self.inside = [1] * length, set()

    def add(self, start, old, new):
        self.marks[start : start + old] = [new] + [0] * (old - 1)
        self.inside.update(range(start + 1, start + old))

    def moves(self):
        """Of each place where it leaves: as long as the first bytes then are; of one inside an edit as its start."""
        lengths, place = [], 0
        for at, mark in enumerate(self.marks):
            lengths.append(lengths[-1] if at in self.inside else place)
            place += mark
        return lengths

    def backs(self, most):
        """Of each place of what leaves the last place that is not inside an edit, of those that leave no later."""
        moves, found, at = self.moves(), [], 0
        for place in range(most):
            while at + 1 < len(moves) and moves[at + 1] <= place:
                at += 1
            found.append(max(one for one in range(at + 1) if one not in self.inside) if at in self.inside else at)
        return found


def check_edits():
    """The rules' edits against the bytes of a stream, around each edit, and over the end of the numbers."""
    chance, wrong, tried = random.Random(7), [], 0
    for turn in range(40):
        base = chance.choice([0, 1000, WRAP - 1, WRAP - 200, chance.randrange(WRAP)])
        edits, stream, place = rewrite_rules.Edits(base), Stream(600), 0
        for _ in range(chance.randrange(1, 8)):
            start = place + chance.choice([0, 1, 2, chance.randrange(40)])
            old, new = chance.randrange(1, 24), chance.randrange(1, 24)
            stream.add(start, old, new)
            wrong += [] if edits.add((base + start) % WRAP, old, new) else [("add", turn)]
            place = start + old
        moves, backs = stream.moves(), stream.backs(300)
        for at in range(300):
            tried += 2
            if edits.forward((base + at) % WRAP) != (base + moves[at]) % WRAP:
                wrong.append(("forward", turn, at))
            if edits.back((base + at) % WRAP) != (base + backs[at]) % WRAP:
                wrong.append(("back", turn, at))
    count(f"how packets leave: the rules of the checks are those of bytes, {tried} numbers", not wrong, wrong[:5])


# Sessions


class Side:
    """One direction of a connection: its ends as the router meets them, and the next number."""

    def __init__(self, source, first, target, second, seq):
        self.ends, self.next, self.sent = (source, first, target, second), seq, []


class Session:
    """A control connection: packets are added one by one, each by its side."""

    def __init__(self, chance, client, port, is_inside=True):
        self.chance, self.named = chance, client if is_inside else "192.168.1.9"
        seqs = [chance.choice([1000, WRAP - 3, WRAP - 40, chance.randrange(WRAP)]) for _ in range(2)]
        if is_inside:
            forth, back = (client, port, SERVER, 21), (SERVER, 21, "203.0.113.5", port)
        else:
            forth, back = (client, port, "203.0.113.5", 21), ("192.168.1.9", 21, client, port)
        self.sides = {"original": Side(*forth, seqs[0]), "reply": Side(*back, seqs[1])}
        self.packets, self.number = [], 0
        for side, flags in (("original", "S"), ("reply", "SA"), ("original", "A")):
            self.send(side, flags)

    def send(self, name, flags="A", data=b"", at=None):
        """A segment at its side's next number, or at an earlier one."""
        side, other = self.sides[name], self.sides["reply" if name == "original" else "original"]
        seq = side.next if at is None else at
        if at is None:
            side.next = (side.next + len(data) + ("S" in flags)) % WRAP
            side.sent.append((seq, data))
        self.packets.append(segment(*side.ends, seq, other.next if "A" in flags else 0, flags, data))

    def step(self):
        """One thing that a client, a server or a path may do."""
        self.number += 1
        port, name = self.chance.randrange(1, 65536), self.chance.choice(["original", "original", "original", "reply"])
        kind = self.chance.choice(["end", "end", "end", "end", "again", "again", "overlap", "plain", "old", "other", "cut"])
        if kind in ("end", "other"):
            self.send(name, "AP", self.command(name, port, self.named if kind == "end" else "10.9.9.9"))
        elif kind == "plain":
            self.send(name, "AP", b"NOOP\r\n" * self.chance.randrange(1, 4))
        elif kind == "cut":
            self.send(name, "AP", self.command(name, port, self.named)[:-3])
        else:
            seq, data = self.chance.choice(self.sides[name].sent)
            shift = self.chance.choice([-2, -1, 1, 2, 5]) if kind == "overlap" else 0
            data = self.command(name, port, self.named) if kind == "overlap" else data
            self.send(name, "AP" if data else "A", data, (seq + shift) % WRAP)
        self.send("reply" if name == "original" else "original")

    def command(self, name, port, address):
        six = ",".join([*address.split("."), str(port // 256), str(port % 256)])
        forms = {
            "original": [f"PORT {six}\r\n", f"port {six}\nRETR x\r\n", f"EPRT |1|{address}|{port}|\r\n", f"eprt |1|{address}|0{port % 1000}|\r", f"PORT 0{six}\r\n"],
            "reply": [f"227 ({six}).\r\n", f"227 Entering Passive Mode {six}\r\n", f"229 Extended (|||{port}|)\r\n"],
        }
        return self.chance.choice(forms[name]).encode()


def segment(source, first, target, second, seq, ack, flags, data):
    """A segment with these numbers, and with no right checksum."""
    packet = made.tcp(source, first, target, second, flags, data)
    return packet[:24] + struct.pack(">II", seq, ack) + packet[32:]


def session_capture(room, name, sessions, chance):
    """A capture of sessions whose packets are mixed, each session in its order."""
    left, packets = [list(one.packets) for one in sessions], []
    while any(left):
        own = chance.choice([one for one in left if one])
        packets.append((START + 1000 * len(packets), own.pop(0)))
    return made.write(os.path.join(room, f"{name}.pcap"), packets)


def judged(capture_names, words, rules):
    """Why a report of the program is refused by the rules of the checks, or nothing; and its lines."""
    ran = rewritten(*words, *capture_names)
    if ran.returncode or ran.stderr:
        return f"status {ran.returncode}: {ran.stderr}", []
    captures = []
    for name in capture_names:
        with open(name, "rb") as file:
            captures.append(file.read())
    inputs = tracker_rules.inputs_of(captures, rules, rewrite=True)
    try:
        report_check.check(ran.stdout, inputs)
    except tracker_rules.Refused as fault:
        return str(fault), []
    return "", without(ran.stdout)[1]


def check_sessions(room):
    """Sessions by chance: commands of each form and length, sent again, overlapping, old, in both directions, over the end of the
    numbers; and two connections at a time."""
    rules, counts, wrong = write(room, "sessions.rules", RULES), {"lines": 0, "texts": 0, "kept": 0, "moved": 0}, []
    for turn in range(SESSIONS):
        chance = random.Random(turn)
        clients = [("192.168.1.10", 40000, True), ("10.0.0.2", 40001, True), ("198.51.100.7", 50000, False)]
        sessions = [Session(chance, *one) for one in chance.sample(clients, 2)]
        for _ in range(chance.randrange(3, 40)):
            chance.choice(sessions).step()
        why, lines = judged([session_capture(room, "session", sessions, chance)], ["--rules", rules], RULES)
        wrong += [f"{turn}: {why}"] if why else []
        counts["lines"] += len(lines) - 1
        counts["texts"] += sum(" text=" in line for line in lines)
        counts["kept"] += sum("text=kept" in line for line in lines)
        counts["moved"] += sum(bool(re.search(r"=(\d+)>(?!\1\b)", line)) for line in lines)
    count(f"--rewrite: {SESSIONS} sessions by chance leave as the rules say", not wrong, wrong[:3])
    count(f"--rewrite: in these sessions there is each kind of line: {counts}", min(counts.values()) > 20, counts)


def check_many_edits(room):
    """The edit behind the 64th of a direction is refused, and numbers go on by the 64; the other direction has its own."""
    rules, session = write(room, "sessions.rules", RULES), Session(random.Random(1), "10.0.0.2", 40001)
    for turn in range(70):
        session.send("original", "AP", f"PORT 10,0,0,2,100,{turn}\r\n".encode())
        session.send("reply")
    why, lines = judged([session_capture(room, "many", [session], random.Random(1))], ["--rules", rules], RULES)
    kept = [line for line in lines if line.endswith(" text=kept\n")]
    last = re.search(r" seq=(\d+)>(\d+) ", kept[-1]) if kept else None
    good = not why and len(kept) == 6 and (int(last[2]) - int(last[1])) % WRAP == 64 * 3
    count("--rewrite: 64 edits of a direction, and six that are refused", good, why or lines[-3:])


def check_threads(room):
    """The packets of each side in a capture of its own: each run's lines are those of its own history."""
    rules, chance = write(room, "sessions.rules", RULES), random.Random(3)
    for turn in range(5):
        session = Session(chance, "10.0.0.2", 40001)
        for _ in range(30):
            session.step()
        names = []
        for name in ("original", "reply"):
            source = made.socket.inet_aton(session.sides[name].ends[0])
            own = [(START + 1000 * at, data) for at, data in enumerate(session.packets) if data[12:16] == source]
            names.append(made.write(os.path.join(room, f"{name}.pcap"), own))
        why, lines = judged(names, ["--rules", rules], RULES)
        count(f"--rewrite: both sides in captures of their own, run {turn}", not why, why)


def check_ids(room):
    """A connection that is opened again has no edit of the old one; and one without the helper has none."""
    first, second = (Session(random.Random(turn), "10.0.0.2", 40001) for turn in (1, 2))
    for one, word in ((first, "PORT 10,0,0,2,1,1\r\n"), (second, "NOOP\r\n")):
        one.send("original", "AP", word.encode())
        one.send("original", "AF")
        one.send("reply", "AF")
        one.send("original")
    packets = [(START + 1000 * at, data) for at, data in enumerate(first.packets + second.packets)]
    name, rules = made.write(os.path.join(room, "again.pcap"), packets), write(room, "sessions.rules", RULES)
    why, lines = judged([name], ["--rules", rules], RULES)
    places = [int(re.match(r"0\.(\d+) ", line)[1]) for line in lines[1:]]
    count("--rewrite: a connection that is opened again", not why and places and max(places) < len(first.packets), why or lines)
    ran = rewritten("--ftp", "2121", "--rules", rules, name)
    count("--rewrite: a connection without the helper", ran.stdout.endswith("\nrewrite 0\n"), ran.stdout[-200:])


# Reports with damaged lines


def damages(lines):
    """Of the three lines of port.pcap: what, lines in place of these, and what the refusal says."""
    head, first, second, third = lines
    yield "no line", head, "'rewrite 3', and there are 0 lines"
    yield "a line too few", head + first + second, "'rewrite 3', and there are 2 lines"
    yield "another number", "rewrite 2\n" + first + second + third, "'rewrite 2', and there are 3 lines"
    yield "no number", "rewrite\n" + first + second + third, "'rewrite' does not say how many"
    yield "two heads", head + head + first + second, "'rewrite 3' is no line of how a packet leaves"
    yield "another order", head + second + first + third, f"'{second.rstrip()}', but the first line of a connection has a new text"
    yield "a packet left out", "rewrite 2\n" + first + third, "there is no line of packet 0.4 of entry 0"
    yield "a packet twice", "rewrite 4\n" + first + second + second + third, "there is no line of packet 0.5 of entry 0"
    yield "another packet", head + first.replace("0.3", "0.2") + second + third, "by its verdict the packet names no end that is expected"
    yield "no such packet", head + first + second + third.replace("0.5", "0.6"), "there is no line of packet 0.5 of entry 0"
    yield "another thread", head + first + second + third.replace("0.5", "1.5"), "there is no line of packet 0.5 of entry 0"
    yield "another entry", head + first + second + third.replace("id=0", "id=1"), "there is no line of packet 0.5 of entry 0"
    yield "the other direction", head + first + second.replace("reply", "original") + third, "but the packet goes the other way"
    yield "another sequence number", head + first + second + third.replace("1023>", "1022>"), "but the packet has the numbers 1023 and 5001"
    yield "another acknowledgment number", head + first + second.replace("1024>", "1025>") + third, "but the packet has the numbers 5001 and 1024"
    yield "no new text", head + first.split(" text=")[0] + "\n" + second + third, "but the first line of a connection has a new text"
    yield "its own text", head + first.split(" text=")[0] + " text=" + b"PORT 10,0,0,1,156,65\r\n".hex() + "\n" + second + third, "but that is the payload that the packet has"
    yield "a text of another packet", head + first + second.rstrip() + " text=41\n" + third, "by its verdict the packet names no end"
    yield "a number of 33 bits", head + first + second + third.replace(">1024", ">4294967296"), "has a number that no segment has"
    for text in ("0.5 id=0", "0.5 id=0 original seq=1023 ack=5001", third.rstrip() + " text=", third.rstrip() + " text=0", third.rstrip() + " text=0A", third.rstrip() + " ", "00.5" + third.rstrip()[3:], third.rstrip().replace("original", "forth"), third.rstrip() + " text=none"):
        yield f"{text!r}", f"{head}{first}{second}{text}\n", f"'{text}' is no line of how a packet leaves"


def check_damages(room):
    rules, capture = PORT
    name = report_of(room, "--rewrite", "--rules", rules, capture, name="leaving.report")
    report, lines = without(read(name))
    wants("tools/check: of how packets leave it says nothing", tool("check", "--rules", rules, name, capture), 0)
    for number, (what, after, refusal) in enumerate(damages(lines)):
        changed = write(room, "damaged.report", report + after)
        texts = (f"{room}/damaged.report: the report is cut or changed", refusal)
        refuses(f"tools/check: how packets leave, {what}", tool("check", changed, capture), *texts)
        if number % 6 == 0:
            for word, words in (("refused", []), ("draw", []), ("page", []), ("table", ["--at", "0"]), ("compare", [name])):
                refuses(f"tools/{word}: how packets leave, {what}", tool(word, *words, changed, capture), *texts)
            refuses(f"tools/why: how packets leave, {what}", tool("why", "--report", changed, capture, "--", "0"), *texts)


# What the tools say of a report with these lines


def check_tools(room):
    rules, capture = PORT
    leaving = report_of(room, "--rewrite", "--listen", "--rules", rules, capture, name="leaving.report")
    plain = report_of(room, "--rules", rules, capture, name="staying.report")
    wants("tools/compare: with how packets leave and without", tool("compare", leaving, plain, capture), 0, "no flow, verdict or translation differs")
    for word, before in (("check", ["--rules", rules]), ("refused", ["--rules", rules]), ("table", ["--at", "5000000"])):
        one, other = (tool(word, *before, report, capture) for report in (leaving, plain))
        good = (one.returncode, one.stdout, one.stderr) == (other.returncode, other.stdout, other.stderr) and "Traceback" not in one.stderr
        count(f"tools/{word}: the same with how packets leave", good and one.returncode < 2, one.stdout + one.stderr)
    said = [("3", "it leaves with the payload 'PORT 192,0,2,1,156,65\\r\\n'"), ("4", "it leaves with ack 1023 in place of 1024"), ("5", "it leaves with seq 1024 in place of 1023")]
    for number, text in said:
        wants(f"tools/why: how packet {number} leaves", tool("why", "--report", leaving, capture, "--", number), 0, text)
        wants(f"tools/why: how packet {number} leaves, replayed", tool("why", "--rewrite", "--rules", rules, capture, "--", number), 0, text)
    ran = tool("why", "--report", plain, capture, "--", "3")
    count("tools/why: nothing of how a packet leaves without the word", ran.returncode == 0 and "leaves" not in ran.stdout, ran.stdout)
    wants("tools/page: with how packets leave", tool("page", "--to", f"{room}/leaving.html", leaving, capture), 0, "leaving.html: ")
    if shutil.which("gnuplot"):
        wants("tools/draw: with how packets leave", tool("draw", "--to", f"{room}/leaving", leaving, capture), 0, "leaving-entries")


def check_kept(room):
    session, rules = Session(random.Random(1), "10.0.0.2", 40001), write(room, "sessions.rules", RULES)
    session.send("original", "AP", b"PORT 10,0,0,2,100,1\r\n")
    seq = session.sides["original"].sent[-1][0]
    session.send("original", "AP", b"PORT 10,0,0,2,100,2\r\n", (seq + 4) % WRAP)
    name = session_capture(room, "kept", [session], random.Random(1))
    report = report_of(room, "--rewrite", "--rules", rules, name, name="kept.report")
    wants("tools/check: an edit that is refused", tool("check", report, name), 1, "1 packet of FTP (packet 4) would leave with the address that it names")
    wants("tools/why: an edit that is refused", tool("why", "--report", report, name, "--", "4"), 0, "the payload that it has, as its edit was refused")


def check_hints():
    hint, line = module("hint").hint_of, "ctreplay: the words are not of the stated form"
    cases = [
        (["--rewrite", "--rewrite", "c.pcap"], "--rewrite stands twice"),
        (["--rewrite=1", "c.pcap"], "--rewrite has no value"),
        (["--rewrite"], "no capture is named"),
        (["--rewrit", "c.pcap"], "the first word that is not known is --rewrit"),
        (["--rewrite", "--make", "1", "--packets", "4"], "--make needs --packets and --threads"),
    ]
    for words, text in cases:
        said = hint(1, line, words)
        count(f"tools/hint: {' '.join(words)}", " [--rewrite] " in said and said.endswith(text), said)


def check_all(room):
    check_formats()
    check_words()
    check_whole()
    check_not_written()
    check_edits()
    check_sessions(room)
    check_many_edits(room)
    check_threads(room)
    check_ids(room)
    check_damages(room)
    check_tools(room)
    check_kept(room)
    check_hints()
