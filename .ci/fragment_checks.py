"""Checks of fragments that are put together: a recording through a kernel's NAT, what docs/FORMATS.md shows, small captures
made at random, and what the tools say. Used by .ci/tools."""
import os
import random
import re
import struct

import made_packets as made
from checking import EXAMPLES, PROGRAM, TOP, count, counted_lines, module, read, refuses, report_of, run, tool, wants, write
import fragments
import replay_files as files
import zone_checks

START = 1_000_000_000_000_000
SECOND = 1_000_000
SEED, CAPTURES = 20, 60
LARGE = ["--rules", "large.rules"]
CLIENT, SERVER = "10.0.0.1", "10.0.0.2"


# The recording


def bytes_of(name):
    with open(os.path.join(EXAMPLES, name), "rb") as file:
        return file.read()


def check_answer():
    """Behind its header each datagram to the client's socket is what that socket received."""
    answer = bytes_of("large.answer")
    for name in ("large.pcap", "large.in.pcap", "large.out.pcap"):
        whole = fragments.Reassembly(files.read_capture(os.path.join(EXAMPLES, name)))
        datagrams = [whole.frames[index].data for index in whole.completed]
        found = [data[28:] for data in datagrams if data[9] == 17 and data[22:24] == (40050).to_bytes(2, "big")]
        count(f"examples/large: the datagram in {name} is what the socket received", len(answer) > 4000 and found == [answer], [len(data) for data in found])
        good = all(data[:2] == b"\x45\0" and int.from_bytes(data[2:4], "big") == len(data) and not fragments.is_fragment(data) for data in datagrams)
        sums = [made.checksum(transport(data)) for data in datagrams]
        count(f"examples/large: the checksums of UDP and ICMP over the datagrams in {name} are right", good and len(sums) == 3 and not any(sums), sums)


def transport(data):
    """What the checksum of UDP or ICMP covers, with the checksum: over all of it the sum is 0."""
    return data[20:] if data[9] == 1 else data[12:20] + struct.pack(">BBH", 0, data[9], len(data) - 20) + data[20:]


def check_kernel(room):
    ran = run([PROGRAM, "--defrag", *LARGE, "--script", "table.script", "large.pcap"])
    report = read(EXAMPLES, "large.report")
    count("examples/large: the report that is kept", ran.stdout == report and ran.returncode == 0, ran.stdout + ran.stderr)
    kernel = zone_checks.rows_of(read(EXAMPLES, "large.table").splitlines())
    rows = zone_checks.rows_of(report.split("\nscript 1\n")[1].splitlines()[1:])
    count("examples/large: the kernel's table", len(kernel) == 3 and rows == kernel, rows ^ kernel)
    new = zone_checks.began(read(EXAMPLES, "large.events").splitlines())
    count("examples/large: the kernel's new entries", len(new) == 3 and zone_checks.confirmed(report) == new, zone_checks.confirmed(report) ^ new)
    without = read(report_of(room, *LARGE, "--script", "table.script", "large.pcap"))
    lost = kernel - zone_checks.rows_of(without.split("\nscript 1\n")[1].splitlines()[1:])
    count("examples/large: without --defrag the echo and the answer are lost", sorted(row[0] for row in lost) == ["icmp", "udp"], lost)
    ran = tool("rules-from-iptables", "--ignore-interfaces", "large.iptables")
    count("tools/rules-from-iptables: large", ran.stdout == read(EXAMPLES, "large.rules") and ran.returncode == 0, ran.stdout)


# What docs/FORMATS.md shows


def check_formats(room):
    """The two frames of the document are a capture, whose report with --defrag stands there too."""
    text = read(TOP, "docs", "FORMATS.md").split("\n### Fragments that are put together\n")[1].split("\n### ")[0]
    frames, report = zone_checks.blocks(text)
    moments = re.findall(r", at ([\d.]+) s,", text)
    data = [bytes.fromhex(line) for line in frames.splitlines()]
    count("docs/FORMATS.md: two frames and their moments", len(data) == len(moments) == 2, moments)
    capture = made.write(f"{room}/formats.pcap", [(round(float(moment) * SECOND), frame) for moment, frame in zip(moments, data)])
    ran = run([PROGRAM, "--defrag", capture])
    count("docs/FORMATS.md: what --defrag makes of them", (ran.returncode, ran.stdout, ran.stderr) == (0, report, ""), ran.stdout + ran.stderr)
    ran = run([PROGRAM, capture])
    wanted = f"events 0\nthread 0 packets 2\n0 {files.FRAGMENT}\n1 {files.FRAGMENT}\nscript 0\n"
    count("docs/FORMATS.md: the same without --defrag", (ran.returncode, ran.stdout, ran.stderr) == (0, wanted, ""), ran.stdout + ran.stderr)
    for words in (["--defrag", "--defrag", capture], ["--defrag=1", capture], ["--defrag="], ["--defrag"]):
        ran = run([PROGRAM, *words])
        count(f"--defrag: {' '.join(words[:2])} is refused", (ran.returncode, ran.stdout) == (1, "") and "not of the stated form" in ran.stderr, ran.stderr)


# Small captures made at random


def piece(packet, low, high, number, more=False, options=b""):
    """A fragment with these bytes of a packet's data, and an identification; more come behind it, or it has the end of the data."""
    body = packet[20 + low : 20 + high]
    front = bytes([0x45 + len(options) // 4, 0]) + (20 + len(options) + len(body)).to_bytes(2, "big")
    place = ((more or high < len(packet) - 20) << 13) + low // 8
    return front + struct.pack(">HH", number, place) + packet[8:20] + options + body


def last_piece(packet, low, high, number):
    """The same as the last one, whatever comes behind it."""
    data = piece(packet, low, high, number, True)
    return data[:6] + (low // 8).to_bytes(2, "big") + data[8:]


def cuts_of(dice, size):
    """Spans that cover so many bytes; at times one is given twice, reaches into the next, or is left out."""
    places = sorted({0, *(8 * dice.randrange(1, size // 8 + 1) for _ in range(dice.randrange(1, 4)))} - {size})
    spans = list(zip(places, [*places[1:], size]))
    if dice.random() < 0.3:
        spans.append(dice.choice(spans))
    if dice.random() < 0.3:
        low, high = dice.choice(spans)
        spans.append((max(0, low - 8), min(size, high + (-high) % 8 + 8)))
    if dice.random() < 0.15:
        spans.remove(dice.choice(spans))
    return spans


def packet_at_random(dice):
    """A packet of few flows, so that some are answered."""
    ends = [(CLIENT, 5000 + dice.randrange(2)), (SERVER, 53)]
    (source, first), (target, second) = ends if dice.random() < 0.6 else ends[::-1]
    data = dice.randbytes(dice.randrange(24, 90))
    kind = dice.random()
    if kind < 0.6:
        return made.udp(source, first, target, second, data)
    if kind < 0.8:
        return made.echo(CLIENT, SERVER, 8, 7, data) if source == CLIENT else made.echo(SERVER, CLIENT, 0, 7, data)
    return made.tcp(source, first, target, second, "S" if source == CLIENT else "SA", data)


def spoiled(dice, frame):
    """A fragment that at times has another byte, more data than comes before others, or options."""
    turn = dice.random()
    if turn < 0.06 and len(frame) > 20:
        return frame[:-1] + bytes([frame[-1] ^ 1])
    if turn < 0.10:
        return frame[:2] + (len(frame) + 1).to_bytes(2, "big") + frame[4:] + b"x"
    return frame


def frames_at_random(dice):
    """Moments and packets: datagrams in pieces, of few identifications, out of order, and the time going on by leaps."""
    moment, sent = START, []
    for _ in range(dice.randrange(2, 7)):
        packet, number = packet_at_random(dice), dice.randrange(3)
        options = b"\x01" * 4 * dice.randrange(3) if dice.random() < 0.3 else b""
        pieces = [spoiled(dice, piece(packet, low, high, number, options=options)) for low, high in cuts_of(dice, len(packet) - 20)]
        if dice.random() < 0.6:
            dice.shuffle(pieces)
        leap = dice.choice((0, 1000, SECOND, 29_999_999, 30_000_000))
        for place, data in enumerate(pieces):
            moment += leap if place == 1 else 1000
            sent.append((moment, data))
        if dice.random() < 0.5:
            sent.append((moment, packet_at_random(dice)))
    return sent


def write_frames(name, sent, link, dice=None):
    """A capture of these packets, under Ethernet or not; at times one is cut by the capture, or has bytes behind it."""
    front = bytes(12) + b"\x08\x00" if link == 1 else b""
    frames = []
    for moment, data in sent:
        turn = dice.random() if dice else 1
        kept = data[: dice.randrange(20, len(data))] if turn < 0.03 and len(data) > 21 else data
        behind = b"\xff" * 6 if 0.03 <= turn < 0.2 else b""
        frames.append(files.Frame(moment, link, front + kept + behind, len(front + data + behind)))
    files.write_capture(name, frames, link)
    return name


def check_random(room):
    """The report with --defrag is that of the module's datagrams: the program's report, without the word, of a capture of these."""
    dice, met, wrong, datagrams, partly = random.Random(SEED), {}, [], 0, 0
    for number in range(CAPTURES):
        link = (1, 101)[number % 2]
        capture = write_frames(f"{room}/random.pcap", frames_at_random(dice), link, dice)
        frames = files.read_capture(capture)
        whole = fragments.Reassembly(frames)
        plain = [frame.data[14:] if frame.link == 1 else frame.data for frame in whole.frames]
        made_whole = write_frames(f"{room}/whole.pcap", [(frame.moment, data) for frame, data in zip(whole.frames, plain)], 101)
        found, wanted = (run([PROGRAM, *words]) for words in (["--defrag", capture], [made_whole]))
        texts = [line.split(" ", 1)[1] for line in found.stdout.split(" packets ")[1].splitlines()[1:-1]] if found.returncode == 0 else []
        stayed = {index for index, text in enumerate(texts) if text == files.FRAGMENT}
        if found.stdout != wanted.stdout or found.returncode or stayed != set(whole.left()) | whole.parts():
            wrong.append(number)
        datagrams += len(whole.completed)
        partly += any(len(group.pieces) > 2 for group in whole.completed.values())
        for why in whole.left().values():
            met[why] = met.get(why, 0) + 1
    count(f"--defrag: the reports of {CAPTURES} captures made at random (seed {SEED}) are those of the module's datagrams", not wrong, wrong)
    kinds = {"a hole", "30 s", "pieces that disagree", "cut by the capture", "wrong in itself"}
    count("--defrag: they have datagrams, and fragments that stayed for each reason", datagrams > 100 and partly > 20 and set(met) == kinds, f"{datagrams} {partly} {met}")


# Captures by hand


def flows_of(packets, room, name="hand"):
    """The verdicts' first two words on these packets with --defrag, and the module's datagrams."""
    capture = made.write(f"{room}/{name}.pcap", packets)
    text = run([PROGRAM, "--defrag", capture]).stdout
    words = [" ".join(line.split()[1:3]).split(" id=")[0] for line in text.split(" packets ")[1].splitlines()[1:-1]]
    return words, fragments.Reassembly(files.read_capture(capture)), capture


def check_by_hand(room):
    query = made.udp(CLIENT, 5000, SERVER, 53, bytes(range(40)))
    front, back = piece(query, 0, 24, 7), piece(query, 24, 48, 7)
    stay = files.FRAGMENT
    # Where a last piece ends the data too early, the length of UDP is more than the datagram has.
    cases = [
        ("30 s less a microsecond", [(START, back), (START + 29_999_999, front)], [stay, "NEW"]),
        ("30 s", [(START, back), (START + 30_000_000, front)], [stay, stay]),
        ("a piece behind a complete group", [(START, front), (START + 1, back), (START + 2, back), (START + 3, front)], [stay, "NEW", stay, "NEW"]),
        ("a time that falls", [(START + 40_000_000, back), (START, front)], [stay, "NEW"]),
        ("another identification", [(START, front), (START, piece(query, 24, 48, 8))], [stay, stay]),
        ("a longer end", [(START, last_piece(query, 24, 40, 7)), (START, front), (START, back)], [stay, "INVALID header", stay]),
        ("a longer end before the group is complete", [(START, last_piece(query, 24, 40, 7)), (START, back), (START, front)], [stay] * 3),
        ("more behind the last", [(START, piece(query, 24, 40, 7, True)), (START, last_piece(query, 24, 32, 7)), (START, front)], [stay] * 3),
        ("data that is no unit of 8", [(START, piece(query, 0, 28, 7)), (START, back)], [stay] * 2),
        ("a last piece in another one", [(START, last_piece(query, 24, 40, 7)), (START, piece(query, 0, 40, 7, True))], [stay, "INVALID header"]),
    ]
    for name, packets, wanted in cases:
        words, whole, _ = flows_of(packets, room)
        completed = [index for index, word in enumerate(wanted) if word != stay]
        count(f"--defrag: {name}", words == wanted and list(whole.completed) == completed, f"{words} {list(whole.completed)}")
    longest = made.udp(CLIENT, 5000, SERVER, 53, random.Random(SEED).randbytes(65_507))
    sent = [(START + low, piece(longest, low, min(low + 1480, 65_515), 7)) for low in range(0, 65_515, 1480)]
    words, whole, _ = flows_of(sent, room)
    count("--defrag: the longest datagram", words[-1] == "NEW" and whole.frames[-1].data[20:] == longest[20:] and set(words[:-1]) == {stay}, words[-1])
    apart = [made.write(f"{room}/{name}.pcap", [(START, data)]) for name, data in (("front", front), ("back", back))]
    said = run([PROGRAM, "--defrag", *apart]).stdout
    wanted = f"events 0\nthread 0 packets 1\n0 {stay}\nthread 1 packets 1\n0 {stay}\nscript 0\n"
    count("--defrag: pieces in two captures", said == wanted, said)
    said = run([PROGRAM, "--defrag", "--zones", "7,9", *[made.write(f"{room}/both.pcap", [(START, front), (START, back)])] * 2]).stdout
    good = sorted(re.findall(r"^\d confirm ([01]\.1) udp .* (zone=[79])$", said, re.MULTILINE)) == [("0.1", "zone=7"), ("1.1", "zone=9")] and said.count(f"\n0 {stay}\n1 NEW id=") == 2
    count("--defrag: one datagram in each of two zones", good, said)
    text = b"PORT 10,0,0,1,200,10\r\n"
    opened = [made.tcp(CLIENT, 5000, SERVER, 21, "S"), made.tcp(SERVER, 21, CLIENT, 5000, "SA"), made.tcp(CLIENT, 5000, SERVER, 21, "A")]
    named = made.tcp(CLIENT, 5000, SERVER, 21, "PA", text)
    parts = [piece(named, 32, len(named) - 20, 7), piece(named, 0, 24, 7, True), piece(named, 24, 40, 7, True)]
    capture = made.write(f"{room}/named.pcap", list(enumerate([*opened, *parts], START)))
    said = run([PROGRAM, "--defrag", capture]).stdout
    count("--defrag: a payload of FTP in pieces that overlap", "dst=10.0.0.1 dport=51210" in said and "\n5 ESTABLISHED id=0 @4 ftp expect=4\n" in said, said)


# What the tools say


def lost_capture(room):
    """Fragments that stay for each reason, and one datagram: 0 and 1 disagree, 2 and 5 are 30 s apart, 3 is cut and 4 of its
    datagram, 6 has data that is no unit of 8, 7 and 8 have two ends, 9 and 10 are a datagram."""
    query = made.udp(CLIENT, 5000, SERVER, 53, bytes(40))
    front = piece(query, 0, 24, 1)
    other = front[:-1] + b"\x07"
    fronts, backs = ([piece(query, *span, number) for number in range(7)] for span in ((0, 24), (24, 48)))
    sent = [
        (0, front), (1, other), (2, fronts[2]), (3, fronts[3]), (4, backs[3]), (30_000_002, backs[2]), (30_000_003, piece(query, 0, 20, 4)),
        (30_000_004, backs[5]), (30_000_005, last_piece(query, 24, 40, 5)), (30_000_006, fronts[6]), (30_000_007, backs[6]),
    ]
    frames = [files.Frame(START + at, 101, data, len(data)) for at, data in sent]
    frames[3] = frames[3]._replace(data=frames[3].data[:30])
    files.write_capture(f"{room}/lost.pcap", frames, 101)
    return f"{room}/lost.pcap"


def check_why(room):
    large = ["why", "--defrag", *LARGE, "large.pcap", "--"]
    wants("tools/why: a datagram that was put together", tool(*large, "6"), 0, "ESTABLISHED_REPLY id=0", "4023 bytes of data\n", "  put together of packets 4, 5 and 6: 4031 bytes of data, identification 17020\n")
    wants("tools/why: the same from 1", tool("why", "-1", *large[1:], "7"), 0, "packet 7: ESTABLISHED_REPLY", "put together of packets 5, 6 and 7:")
    wants("tools/why: a part of it", tool(*large, "5"), 0, "why: It is a fragment of an IP packet, the bytes 1480 to 2959 of a datagram of 4031 bytes of data, which packet 6 completed; that one has the verdict on the whole.")
    text = "the bytes 0 to 1479 of a datagram that was never whole: of its pieces there are packets 14 and 15, and its bytes 1480 to 2959 are in none."
    wants("tools/why: a middle that was lost", tool(*large, "14"), 0, "UNTRACKED fragment", text)
    kept = ["why", "--report", "large.report", "large.pcap", "--"]
    ran = tool(*kept, "14")
    wants("tools/why: of a report that says by its datagrams how it was made", ran, 0, text)
    ran = tool("why", *LARGE, "large.pcap", "--", "14")
    count("tools/why: without --defrag a fragment is one, and no more", ran.stdout.endswith("why: It is a fragment of an IP packet.\n"), ran.stdout)
    lost = lost_capture(room)
    cases = [
        ("1", "never whole: packets 0 and 1 have different values for its byte 23, so none was put together."),
        ("2", "of its pieces there is packet 2, and none is its last; packet 5 came 30 s or more behind packet 2, which is too late."),
        ("3", "and is put together with no other: only 30 of its 44 bytes were captured."),
        ("4", "its bytes 0 to 23 are in none; packet 3 is of it too, but only 30 of its 44 bytes were captured."),
        ("6", "and is put together with no other: others follow it, and its 20 bytes of data are no whole number of units of 8."),
        ("8", "by packet 7 it has 48 bytes, and by packet 8 40, so none was put together."),
        ("10", "put together of packets 9 and 10: 48 bytes of data, identification 6\n"),
    ]
    for number, text in cases:
        wants(f"tools/why: fragment {number} of those that stayed", tool("why", "--defrag", lost, "--", number), 0, text)


def check_check(room):
    without, kept = report_of(room, *LARGE, "large.pcap"), ["--rules", "large.rules", "large.report", "large.pcap"]
    ran = tool("check", *LARGE, without, "large.pcap")
    wants("tools/check: fragments that --defrag puts together", ran, 1, "large.pcap: 11 packets are UNTRACKED fragment: with --defrag ctreplay puts 3 datagrams together of 9 of them\n")
    text = "large.pcap: 2 of 11 fragments made no datagram (a hole: 2); tools/why --defrag says of each what is missing\n"
    ran = tool("check", *kept)
    count("tools/check: what stayed with --defrag", (ran.returncode, ran.stdout) == (1, text), ran.stdout)
    ran = tool("check", "--defrag", *kept)
    count("tools/check: and with the word", (ran.returncode, ran.stdout) == (1, text), ran.stdout)
    lost = lost_capture(room)
    report = report_of(room, "--defrag", lost, name="lost.report")
    ran = tool("check", report, lost)
    wants("tools/check: why fragments stayed", ran, 1, "9 of 11 fragments made no datagram (pieces that disagree: 4, a hole: 2, 30 s: 1, cut by the capture: 1, wrong in itself: 1)")


def check_others(room):
    """Tools that read captures beside reports: they know a report that was made with --defrag, and refuse what it contradicts."""
    without = report_of(room, *LARGE, "large.pcap", name="without.report")
    both = ["large.report", "large.pcap"]
    ran = tool("compare", without, *both)
    wants("tools/compare: without --defrag and with it", ran, 1, "the second report was made with --defrag", "udp 198.51.100.53:53 > 203.0.113.5:40050: 1 packet\n  packet 6: UNTRACKED fragment -> ESTABLISHED_REPLY (replies src=198.51.100.53")
    wants("tools/compare: twice the same", tool("compare", "--defrag", "large.report", *both), 0, "no flow, verdict or translation differs")
    ran = tool("table", "--at", "2026-11-30T02:09:49Z", *both)
    rows = [line for line in ran.stdout.splitlines() if "[UNREPLIED]" not in line]
    count("tools/table: answers that came in fragments", ran.returncode == 0 and len(rows) == 2 and len(ran.stdout.splitlines()) == 3, ran.stdout)
    wants("tools/refused: with --defrag", tool("refused", *LARGE, "--defrag", *both), 0, "no flow was refused")
    wants("tools/page: with --defrag", tool("page", "--to", f"{room}/large.html", *LARGE, *both), 0, "large.html: ")
    page = read(f"{room}/large.html")
    texts = ("put together of packets 4, 5 and 6: 4031 bytes of data", "which packet 6 completed; that one has the verdict on the whole", "2 of 11 fragments made no datagram")
    count("tools/page: what became of fragments is in the page", all(text in page for text in texts))
    said = "was made without --defrag: its captures have datagrams to be put together, and it has none"
    for word, words in (("check", []), ("refused", []), ("draw", []), ("page", ["--to", f"{room}/x.html"]), ("table", ["--at", "0"])):
        refuses(f"tools/{word}: --defrag, and a report without it", tool(word, *words, "--defrag", without, "large.pcap"), said)
    refuses("tools/compare: --defrag, and reports without it", tool("compare", "--defrag", without, without, "large.pcap"), said)
    refuses("tools/why: --defrag, and a report without it", tool("why", "--defrag", "--report", without, "large.pcap", "--", "0"), said)
    report = read(EXAMPLES, "large.report")
    changes = [("a datagram that is none", "\n9 NEW id=2 @3\n", f"\n9 {files.FRAGMENT}\n"), ("a fragment that is new", f"\n14 {files.FRAGMENT}\n", "\n14 INVALID new @5\n"), ("a query that is a fragment", "\n13 NEW id=4 @5\n", f"\n13 {files.FRAGMENT}\n")]
    for name, before, after in changes:
        count(f"a report to be changed: {name}", report.count(before) == 1)
        changed = write(room, "changed.report", report.replace(before, after))
        refuses(f"tools/check: {name}", tool("check", changed, "large.pcap"), "the report is cut or changed")


def check_from_inside(room):
    """Of the inside's fragments the router's datagrams are made, and their replay is that of the router's own capture."""
    ran = tool("from-inside", *LARGE, "--defrag", "--to", f"{room}/met.pcap", "large.in.pcap")
    wants("tools/from-inside: --defrag", ran, 0, "7 of 13 packets, 2 of them and 0 errors readdressed", "left out: 6 fragments that are parts of datagrams, which are sent whole")
    report = read(report_of(room, *LARGE, "--script", "table.script", f"{room}/met.pcap", name="met.report"))
    kernel = zone_checks.rows_of(read(EXAMPLES, "large.table").splitlines())
    rows = zone_checks.rows_of(report.split("\nscript 1\n")[1].splitlines()[1:])
    count("tools/from-inside: --defrag, and the kernel's table", rows == kernel, rows ^ kernel)
    frames = files.read_capture(f"{room}/met.pcap")
    packets = [frame.data[14:] for frame in frames if frame.data[12:14] == b"\x08\x00"]
    good = len(packets) == 5 and not any(made.checksum(data[:20]) for data in packets) and not any(made.checksum(transport(data)) for data in packets if len(data) > 1000)
    count("tools/from-inside: --defrag, and checksums that are right", good, [len(data) for data in packets])
    again = tool("from-inside", *LARGE, "--to", f"{room}/met.pcap", "large.in.pcap")
    wants("tools/from-inside: without --defrag fragments are as they stand", again, 0, "13 of 13 packets, 0 of them and 0 errors readdressed")


def check_work(room):
    """Many fragments cost what they are, also where they are all of one datagram that never is whole."""
    query = made.udp(CLIENT, 5000, SERVER, 53, bytes(8192))
    kinds = {
        "of datagrams": lambda at: piece(query, 24 * (at % 2), (24, 8200)[at % 2], at // 2),
        "of one hole": lambda at: piece(query, 8 * (at % 1000 + 1), 8 * (at % 1000 + 2), 7),
        "that are last, and alone": lambda at: piece(query, 8000, 8200, at),
        "of one last piece": lambda at: piece(query, 8000, 8200, 7),
        "that disagree": lambda at: piece(query, 0, 8, 7) if at % 2 else last_piece(query, 0, 8 + at % 7, 7),
    }
    page, check = module("page"), module("check")
    for name, sent in kinds.items():
        lines = []
        for size in (1000, 4000):
            capture = made.write(f"{room}/many.pcap", [(START + at, sent(at)) for at in range(size)])
            report = report_of(room, "--defrag", capture, name="many.report")
            lines.append(sum(counted_lines(it.main, [*words, report, capture]) for it, words in ((check, []), (page, ["--to", f"{room}/many.html"]))))
        count(f"tools/check and page: the work on four times as many fragments {name}", lines[1] < 5 * lines[0], lines)


def check_hints():
    usage = module("hint").USAGE
    count("README.md: the usage that tools/hint says", f"\n{usage}\n" in read(TOP, "README.md"), usage)
    hint, line = module("hint").hint_of, "ctreplay: the words are not of the stated form"
    cases = [(["--defrag", "--defrag", "c.pcap"], "--defrag stands twice"), (["--defrag=1", "c.pcap"], "--defrag has no value"), (["--summary=x", "c.pcap"], "--summary has no value"), (["--defrag"], "no capture is named"), (["--defrag", "--bad", "c.pcap"], "not known is --bad")]
    for words, text in cases:
        said = hint(1, line, words)
        count(f"tools/hint: {' '.join(words)}", " [--defrag] " in said and said.endswith(text), said)


def check_all(room):
    check_answer()
    check_kernel(room)
    check_formats(room)
    check_random(room)
    check_by_hand(room)
    check_why(room)
    check_check(room)
    check_others(room)
    check_from_inside(room)
    check_work(room)
    check_hints()
