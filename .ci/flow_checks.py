"""Checks of what the tools say of flows: from-inside against a kernel and against packets made by hand, refused, compare, and
the table at a time. Used by .ci/tools."""
import os
import re

import made_packets as made
import replay_files as files
import replay_history as history
from checking import EXAMPLES, PROGRAM, count, module, read, refuses, report_of, run, tool, wants, write

START = 1_000_000_000_000_000
SECOND = 1_000_000


def kernel_flows(name, kind):
    """Protocol and original tuple of each event of a kind that a kernel printed, in order."""
    found = []
    for line in read(EXAMPLES, f"{name}.events").splitlines():
        if f"[{kind}]" in line:
            proto = line.split("]", 2)[2].split()[0]
            width = 5 if proto == "icmp" else 4
            words = [word for word in line.split() if re.match(r"(src|dst|sport|dport|type|code|id)=", word)]
            found.append(files.flow_of_words(proto, words[:width]))
    return found


def kernel_replies(name):
    """The original tuple of each reply tuple that a kernel's new entries had, and the other way round."""
    replies = {}
    for line in read(EXAMPLES, f"{name}.events").splitlines():
        if "[NEW]" in line:
            proto = line.split("]", 2)[2].split()[0]
            width = 5 if proto == "icmp" else 4
            words = [word for word in line.split() if re.match(r"(src|dst|sport|dport|type|code|id)=", word)]
            replies[files.flow_of_words(proto, words[width:])] = files.flow_of_words(proto, words[:width])
    return replies


def table_of(lines):
    """Protocol, state, original tuple and flags of rows of conntrack -L: all but the reply tuple, whose port may be any."""
    rows = set()
    for line in lines:
        found = re.match(r"(\w+) +\d+ \d+ (?:([A-Z_0-9]+) )?(src=.*)", line)
        words, width = found[3].split(), 5 if found[1] == "icmp" else 4
        rows.add((found[1], found[2], *words[:width], *sorted(set(words) & {"[UNREPLIED]", "[ASSURED]"})))
    return rows


def replayed(room, name):
    """from-inside of an example, and the work of its replay, and the rows of the table at its end."""
    ran = tool("from-inside", "--rules", f"{name}.rules", "--to", f"{room}/{name}.made.pcap", "--all", f"{name}.in.pcap")
    words = ["--rules", f"{name}.rules", "--script", "table.script", f"{room}/{name}.made.pcap"]
    report = report_of(room, *words, name=f"{name}.made.report")
    return ran, files.Work(report, [f"{room}/{name}.made.pcap"]), read(report).split("\nscript 1\n")[1].splitlines()[1:]


def began(work):
    return [event.flows[0] for event in work.report.events if event.kind == "confirm"]


def inside_flows(name):
    """The flows of a capture of the inside, each as its first packet has it."""
    flows = {}
    for frame in files.read_capture(os.path.join(EXAMPLES, f"{name}.in.pcap")):
        packet = files.packet_of(frame)
        if packet.kind == "flow":
            flows.setdefault(files.pair_of(packet.flow), packet.flow)
    return set(flows.values())


def outside_packets(frames, originals):
    """Of each flow what came for it to the router from outside: flags and payload of each packet, by the flow's original tuple."""
    found = {}
    for frame in frames:
        packet = files.packet_of(frame)
        flow = originals.get(packet.flow) if packet.kind == "flow" else None
        if packet.kind == "error" and (about := files.inner_flow(packet)):
            flow = originals.get(files.inverse(about))
        if flow:
            found.setdefault(flow, []).append((packet.kind, packet.flags, (packet.payload or b"")[28 if packet.kind == "error" else 0 :]))
    return found


def check_kernel(room):
    ran, work, rows = replayed(room, "range")
    new, refused = set(kernel_flows("range", "NEW")), {it.flow for it in history.refusals_of(work)}
    count("tools/from-inside, examples/range: settles", ran.returncode == 0 and "still changing" not in ran.stdout, ran.stdout)
    count("tools/from-inside, examples/range: the kernel's translated flows", len(new) >= 12 and set(began(work)) == new, set(began(work)) ^ new)
    lost = inside_flows("range") - new
    count("tools/from-inside, examples/range: the kernel's refused flows", len(lost) == 4 and refused == lost, refused ^ lost)
    table = table_of(read(EXAMPLES, "range.table").splitlines())
    count("tools/from-inside, examples/range: the kernel's table at the end", len(table) >= 12 and table == table_of(rows), table ^ table_of(rows))
    seen = outside_packets(files.read_capture(os.path.join(EXAMPLES, "range.out.pcap")), kernel_replies("range"))
    replies = {event.flows[1]: event.flows[0] for event in work.report.events if event.kind == "confirm"}
    met = outside_packets(work.captures[0], replies)
    count("tools/from-inside, examples/range: what the outer interface saw", sum(map(len, seen.values())) > 40 and seen == met, set(seen) ^ set(met))
    check_again(room)
    ran, work, _ = replayed(room, "office")
    kept = re.sub(r" until=\d+", "", read(EXAMPLES, "office.report").split("\nscript")[0])
    mine = re.sub(r" until=\d+", "", read(room, "office.made.report").split("\nscript")[0])
    count("tools/from-inside, examples/office: the report of both sides, a dnat and FTP in it", mine == kept, mine[:300])


def check_again(room):
    """Ports of closed connections are taken again by a kernel; all else is alike."""
    _, work, _ = replayed(room, "again")
    new, mine = set(kernel_flows("again", "NEW")), set(began(work))
    refused, lost = {it.flow for it in history.refusals_of(work)}, inside_flows("again") - new
    count("tools/from-inside, examples/again: what is let out here the kernel let out", mine and mine < new, mine - new)
    count("tools/from-inside, examples/again: what the kernel refused is refused here", lost and lost < refused, lost - refused)
    lines = [line for line in read(EXAMPLES, "again.events").splitlines() if re.search(r"\[DESTROY\] tcp +6 \d+ (TIME_WAIT|CLOSE) ", line)]
    between = len(refused & new)
    count("tools/from-inside, examples/again: for the others it ended closed entries", 0 < between <= len(lines), f"{between} {len(lines)}")
    ran = tool("check", "--rules", "again.rules", f"{room}/again.made.report", f"{room}/again.made.pcap")
    wants("tools/check, examples/again: closed connections held the ports", ran, 1, f", {len(refused)} of the flows while closed connections (TIME_WAIT or CLOSE) held numbers (up to 4)")


# Packets made by hand: the capture of the inside, and what the router meets of it

RULES = """dnat -d 192.0.2.1 -p tcp --dport 8080 to 10.0.0.9:80
snat -s 10.0.0.0/8 -p udp to 192.0.2.1:1024-1025
snat -s 10.0.0.0/8 -p tcp to 192.0.2.1:2000
snat -s 10.0.0.0/8 to 192.0.2.1
"""
SERVER, OUTER = "198.51.100.1", "192.0.2.1"


def pairs():
    """Packets of the inside, each with what the router meets of it, or None where that cannot come."""
    query = made.udp("10.0.0.1", 1024, SERVER, 53, b"who")
    yield query, query
    yield made.udp(SERVER, 53, "10.0.0.1", 1024, b"me!"), made.udp(SERVER, 53, OUTER, 1024, b"me!")
    query = made.udp("10.0.0.2", 1024, SERVER, 53, b"odd")
    yield query, query
    yield made.udp(SERVER, 53, "10.0.0.2", 1024, b"even"), made.udp(SERVER, 53, OUTER, 1025, b"even")
    yield made.error("198.51.100.9", "10.0.0.2", query), made.error("198.51.100.9", OUTER, made.udp(OUTER, 1025, SERVER, 53, b"odd"))
    refused = made.udp("10.0.0.3", 1024, SERVER, 53, b"no port")
    yield refused, refused
    yield made.udp(SERVER, 53, "10.0.0.3", 1024, b"left out"), None
    yield made.error("198.51.100.9", "10.0.0.3", refused), None
    answer_error = made.error("10.0.0.1", SERVER, made.udp(SERVER, 53, "10.0.0.1", 1024, b"me!"))
    yield answer_error, answer_error
    yield from connection("10.0.0.1", 40000, 2000)
    yield from connection("10.0.0.2", 40001, None)
    echo = made.echo("10.0.0.1", SERVER, 8, 77)
    yield echo, echo
    yield made.echo(SERVER, "10.0.0.1", 0, 77), made.echo(SERVER, OUTER, 0, 77)
    yield from page_of_inside()


def connection(client, port, given):
    """A connection of a client that got this port, or none: of that one only the SYN comes."""
    for flags, is_own, data in (("S", True, b""), ("SA", False, b""), ("A", True, b""), ("AP", True, b"GET"), ("AP", False, b"page" * 99), ("FA", False, b"")):
        if is_own:
            packet = made.tcp(client, port, SERVER, 80, flags, data)
            yield packet, packet if given or flags == "S" else None
        else:
            met = made.tcp(SERVER, 80, OUTER, given, flags, data) if given else None
            yield made.tcp(SERVER, 80, client, port, flags, data), met


def page_of_inside():
    """A connection that began outside, through the dnat, and an error about one of its answers."""
    outside = ("198.51.100.7", 5555)
    yield made.tcp(*outside, "10.0.0.9", 80, "S"), made.tcp(*outside, OUTER, 8080, "S")
    answer = made.tcp("10.0.0.9", 80, *outside, "SA")
    yield answer, answer
    yield made.tcp(*outside, "10.0.0.9", 80, "A"), made.tcp(*outside, OUTER, 8080, "A")
    yield made.error("198.51.100.7", "10.0.0.9", answer), made.error("198.51.100.7", OUTER, made.tcp(OUTER, 8080, *outside, "SA"))


def ethernet(data):
    return bytes(range(12)) + b"\x08\x00" + data


def check_made(room):
    chosen = list(pairs())
    rules = write(room, "made.rules", RULES)
    for link, wrap in ((101, bytes), (1, ethernet)):
        inside = made.write(f"{room}/inside.pcap", [(START + at * 1000, wrap(packet)) for at, (packet, _) in enumerate(chosen)], link)
        ran = tool("from-inside", "--rules", rules, "--to", f"{room}/met.pcap", inside)
        wanted = [(START + at * 1000, wrap(met)) for at, (_, met) in enumerate(chosen) if met is not None]
        found = [(frame.moment, frame.data) for frame in files.read_capture(f"{room}/met.pcap")]
        wrong = [at for at, (one, other) in enumerate(zip(wanted, found)) if one != other]
        count(f"tools/from-inside: each packet as the router meets it, link type {link}", found == wanted, f"{wrong} {ran.stdout}{ran.stderr}")
    texts = ("got no port or no place: 2 flows", "udp 10.0.0.3:1024 > 198.51.100.1:53, 2 packets left out", "tcp 10.0.0.2:40001 > 198.51.100.1:80, 5 packets left out")
    wants("tools/from-inside: names the flows that got no port", ran, 0, *texts)
    wider = write(room, "wider.rules", RULES.replace("1024-1025", "1024-1029").replace("2000", "2000-2009"))
    ran = tool("from-inside", "--rules", wider, "--to", f"{room}/met.pcap", inside)
    wants("tools/from-inside: other rules for the same capture", ran, 0, f"{len(chosen)} of {len(chosen)} packets")
    count("tools/from-inside: with room for all none is refused", "got no port" not in ran.stdout, ran.stdout)


def bare(packet):
    """A packet of UDP without a checksum."""
    return packet[:26] + b"\0\0" + packet[28:]


def check_fronts(room):
    """A capture that begins within a connection, a client that asks an inner server by its own address, and UDP without a checksum."""
    inner = made.tcp("10.0.0.5", 6000, "10.0.0.9", 80, "S")
    chosen = [
        (made.tcp(SERVER, 80, "10.0.0.1", 40000, "SA"), None),
        (made.tcp("10.0.0.1", 40000, SERVER, 80, "A"), made.tcp("10.0.0.1", 40000, SERVER, 80, "A")),
        (made.tcp(SERVER, 80, "10.0.0.1", 40000, "AP", b"x"), made.tcp(SERVER, 80, OUTER, 2000, "AP", b"x")),
        (inner, inner),
        (bare(made.udp("10.0.0.1", 1024, SERVER, 53)), bare(made.udp("10.0.0.1", 1024, SERVER, 53))),
        (bare(made.udp(SERVER, 53, "10.0.0.1", 1024)), bare(made.udp(SERVER, 53, OUTER, 1024))),
    ]
    inside = made.write(f"{room}/inside.pcap", [(START + at, packet) for at, (packet, _) in enumerate(chosen)])
    ran = tool("from-inside", "--rules", write(room, "made.rules", RULES), "--to", f"{room}/met.pcap", inside)
    found = [frame.data for frame in files.read_capture(f"{room}/met.pcap")]
    count("tools/from-inside: fronts of captures, inner servers, no checksum", found == [met for _, met in chosen if met], found)
    wants("tools/from-inside: an answer whose flow is older", ran, 0, "left out: 1 answers whose flow began before the capture")


def check_no_address(room):
    """A dnat that names no address can't be put back: told with its line."""
    steps = [made.tcp("198.51.100.7", 5555, "10.0.0.9", 80, "S"), made.tcp("10.0.0.9", 80, "198.51.100.7", 5555, "SA")]
    inside = made.write(f"{room}/inside.pcap", [(START + at, packet) for at, packet in enumerate(steps)])
    rules = write(room, "bare.rules", "# by its interface alone\ndnat -p tcp --dport 8080 to 10.0.0.9:80\n")
    ran = tool("from-inside", "--rules", rules, "--to", f"{room}/met.pcap", inside)
    wants("tools/from-inside: a dnat that names no address", ran, 0, "as they stand: 1 flow to the target of the rule in line 2")
    count("tools/from-inside: whose flow stands", [frame.data for frame in files.read_capture(f"{room}/met.pcap")] == steps)


def check_cut(room):
    """Packets of which the capture has the front alone keep the checksum of the whole."""
    long = b"x" * 400
    chosen = [
        (made.udp("10.0.0.2", 1024, SERVER, 53, long), None),
        (made.udp("10.0.0.1", 1024, SERVER, 53, long), None),
        (made.udp(SERVER, 53, "10.0.0.1", 1024, long), made.udp(SERVER, 53, OUTER, 1025, long)),
        (made.tcp("10.0.0.1", 40000, SERVER, 80, "S"), None),
        (made.tcp(SERVER, 80, "10.0.0.1", 40000, "SA"), made.tcp(SERVER, 80, OUTER, 2000, "SA")),
        (made.tcp(SERVER, 80, "10.0.0.1", 40000, "AP", long), made.tcp(SERVER, 80, OUTER, 2000, "AP", long)),
    ]
    inside = made.write(f"{room}/inside.pcap", [(START + at, packet[:60]) for at, (packet, _) in enumerate(chosen)])
    tool("from-inside", "--rules", write(room, "made.rules", RULES), "--to", f"{room}/met.pcap", inside)
    found = [frame.data for frame in files.read_capture(f"{room}/met.pcap")]
    count("tools/from-inside: packets that are cut", found == [(met or packet)[:60] for packet, met in chosen], found)


def check_ftp(room):
    """Active FTP: the server's connection comes to the rule's address, and is expected there."""
    text = b"PORT 10,0,0,1,156,65\r\n"
    steps = [
        made.tcp("10.0.0.1", 2000, SERVER, 21, "S"), made.tcp(SERVER, 21, "10.0.0.1", 2000, "SA"), made.tcp("10.0.0.1", 2000, SERVER, 21, "A"),
        made.tcp("10.0.0.1", 2000, SERVER, 21, "AP", text), made.tcp(SERVER, 20, "10.0.0.1", 40001, "S"),
    ]
    inside = made.write(f"{room}/inside.pcap", [(START + at, packet) for at, packet in enumerate(steps)])
    rules = write(room, "made.rules", RULES)
    tool("from-inside", "--rules", rules, "--to", f"{room}/met.pcap", inside)
    found = files.read_capture(f"{room}/met.pcap")
    count("tools/from-inside: the server's connection of active FTP", found[-1].data == made.tcp(SERVER, 20, OUTER, 40001, "S"), found[-1].data)
    count("tools/from-inside: FTP's text stands", text in found[3].data)
    ran = run([PROGRAM, "--rules", rules, f"{room}/met.pcap"])
    wants("tools/from-inside: which is RELATED", ran, 0, "\n4 RELATED id=")


def check_passive(room):
    """Passive FTP of a server behind a dnat: the client's connection comes to the outer address, and is expected there."""
    client, server = "198.51.100.7", "10.0.0.9"
    steps = [
        made.tcp(client, 5555, server, 21, "S"), made.tcp(server, 21, client, 5555, "SA"), made.tcp(client, 5555, server, 21, "A"),
        made.tcp(server, 21, client, 5555, "AP", b"227 Entering Passive Mode (10,0,0,9,156,65).\r\n"), made.tcp(client, 5556, server, 40001, "S"),
    ]
    inside = made.write(f"{room}/inside.pcap", [(START + at, packet) for at, packet in enumerate(steps)])
    rules = write(room, "ftp.rules", "dnat -d 192.0.2.1 -p tcp --dport 21 to 10.0.0.9\n")
    tool("from-inside", "--rules", rules, "--to", f"{room}/met.pcap", inside)
    wanted = made.tcp(client, 5556, OUTER, 40001, "S")
    count("tools/from-inside: passive FTP of a server inside", files.read_capture(f"{room}/met.pcap")[-1].data == wanted)
    wants("tools/from-inside: which is RELATED too", run([PROGRAM, "--rules", rules, f"{room}/met.pcap"]), 0, "\n4 RELATED id=")


def check_rounds(room):
    """A program that says another port each time: eight rounds, and the flow is named."""
    steps = [made.udp("10.0.0.1", 1024, SERVER, 53), made.udp(SERVER, 53, "10.0.0.1", 1024)]
    inside = made.write(f"{room}/inside.pcap", [(START + at, packet) for at, packet in enumerate(steps)])
    maker, runs, lines = module("from-inside"), [], []

    def flips(_options, _name, _frames, sent):
        runs.append(len(sent))
        flow = files.packet_of(files.read_capture(inside)[0]).flow
        reply = files.inverse(flow)._replace(target=files.address_number(OUTER), second=1024 + len(runs) % 2)
        return maker.Round({0: files.Verdict("NEW", None, 0, 1)}, {0: (flow, reply)}, {})

    maker.run_program = flips
    maker.print = lambda *words: lines.append(" ".join(words))
    status = maker.main(["--rules", write(room, "made.rules", RULES), "--to", f"{room}/met.pcap", inside])
    said = "\n".join(lines)
    count("tools/from-inside: eight rounds at most", (status, len(runs)) == (1, 8), f"{status} {runs}")
    count("tools/from-inside: names what still changes", "still changing after 8 rounds: 1 flow, each with its packet of the inside capture\n  packet 1 udp 198.51.100.1:53" in said, said)


def check_targets(room):
    """What is made takes the place of nothing that is read."""
    rules, text = write(room, "kept.rules", RULES), RULES
    refuses("tools/from-inside: the rules that are read", tool("from-inside", "--rules", rules, "--to", rules, "office.in.pcap"), f"{rules}: ", "would take the place")
    report = report_of(room, "late.pcap", name="kept.report")
    refuses("tools/page: the rules that are read", tool("page", "--rules", rules, "--to", rules, report, "late.pcap"), f"{rules} is what is read")
    count("tools/from-inside, tools/page: the rules stand", read(rules) == text)
    ran = tool("from-inside", "--rules", "/dev/null", "--to", "/dev/null", "range.in.pcap")
    wants("tools/from-inside: a device may be both", ran, 0, "/dev/null: 104 of 104 packets, 0 of them and 0 errors readdressed")


def check_closed(room):
    """Of flows without a port those are counted that found one of a closed connection; packets are named by the inside's numbers."""
    ran = tool("from-inside", "--rules", "again.rules", "--to", f"{room}/met.pcap", "again.in.pcap")
    texts = ("no place: 7 flows, each with its packet of the inside capture\n  NOPORT packet 51 ", "\n7 of these while closed connections held ports of the rule, in TIME_WAIT or CLOSE")
    wants("tools/from-inside, examples/again: closed connections", ran, 0, *texts)
    ran = tool("from-inside", "--rules", "range.rules", "--to", f"{room}/met.pcap", "range.in.pcap")
    count("tools/from-inside, examples/range: there are none", "NOPORT packet" in ran.stdout and "closed connections" not in ran.stdout, ran.stdout)
    # One that ends, one that is reset, one that stays open, and one to another server: of two ports both are closed, one or none.
    for first, second, counted in (("AF", "AF", 1), ("R", "A", 1), ("A", "A", 0)):
        steps = []
        for host, last in ((1, first), (2, second)):
            ends, back = (f"10.0.0.{host}", 5000, SERVER, 80), (SERVER, 80, f"10.0.0.{host}", 5000)
            steps += [made.tcp(*ends, "S"), made.tcp(*back, "SA"), made.tcp(*ends, "A"), made.tcp(*ends, last)]
            steps += [made.tcp(*back, "AF"), made.tcp(*ends, "A")] if last == "AF" else []
        steps += [made.tcp("10.0.0.3", 5000, SERVER, 80, "S"), made.udp("10.0.0.3", 5000, SERVER, 53), made.udp("10.0.0.4", 5000, SERVER, 53)]
        inside = made.write(f"{room}/inside.pcap", [(START + at, packet) for at, packet in enumerate(steps)])
        rules = write(room, "two.rules", "snat -p tcp to 192.0.2.1:2000-2001\nsnat -p udp to 192.0.2.1:2000\n")
        ran = tool("from-inside", "--rules", rules, "--to", f"{room}/met.pcap", inside)
        said = re.findall(r"(\d+) of these while closed", ran.stdout)
        count(f"tools/from-inside: connections that end with {first} and {second}", "no place: 2 flows" in ran.stdout and said == [str(counted)] * counted, ran.stdout)


# Flows that were refused


def refused_capture(room):
    """Three clients and two ports; the third comes four times, the last time when the first two are past their deadline."""
    packets = [(START + at * SECOND, made.udp(f"10.0.0.{at + 1}", 5000, SERVER, 53)) for at in range(3)]
    packets += [(START + at * SECOND, made.udp("10.0.0.3", 5000, SERVER, 53)) for at in (4, 5, 40)]
    packets += [(START + 41 * SECOND, made.udp("10.0.0.4", 5000, SERVER, 53))]
    return made.write(f"{room}/refused.pcap", packets)


def check_refused(room):
    capture, rules = refused_capture(room), write(room, "two.rules", "snat -p udp to 192.0.2.1:1024-1025\n")
    report = report_of(room, "--rules", rules, capture)
    ran = tool("refused", "--rules", rules, report, capture)
    texts = (
        "2 flows refused or dropped, and 3 later packets of theirs without an entry", "      2 NOPORT", "      1 10.0.0.3",
        "2 NOPORT, line 1: snat -p udp to 192.0.2.1:1024-1025", "the first at 2001-09-09 01:46:42.000000 UTC: 2 numbers held by 10.0.0.1 (1), 10.0.0.2 (1)\n",
        "      1 0 s to 5 s", "      1 40 s to 45 s", "udp 10.0.0.3:5000 > 198.51.100.1:53, 3 later; 2 numbers held by 10.0.0.1 (1), 10.0.0.2 (1)\n",
        "NOPORT packet 6 2001-09-09 01:47:21.000000 UTC udp 10.0.0.4:5000 > 198.51.100.1:53; 2 numbers held by 10.0.0.1 (1), 10.0.0.2 (1), 2 past their deadline",
    )
    wants("tools/refused: flows, and not packets", ran, 1, *texts)
    words = report_of(room, "--rules", "office.rules", "office.in.pcap")
    wants("tools/refused: an answer of the other side", tool("refused", words, "office.in.pcap"), 1, "CLASH", "entry 0 had its tuple")
    wants("tools/refused: none", tool("refused", "office.report", "office.pcap"), 0, "no flow was refused or dropped\n")
    check_holders(room)
    check_closed(room)
    check_small_words(room)
    check_other_rules(room)
    check_let_in(room)
    check_dropped(room, capture)
    check_full(room)
    check_full_points(room)


def check_holders(room):
    """Of the numbers that a flow wanted those that are held then, and those held past a deadline that is the last one given."""
    rules = write(room, "ranges.rules", "snat -s 10.0.0.0/30 -p udp to 192.0.2.1:1024-1025\nsnat -p udp to 192.0.2.1:1026-1030\n")
    for last, again, past in ((10, 1, ""), (30, 1, ", 1 past their deadline"), (30, None, ", 2 past their deadline"), (29, None, "")):
        steps = [(0, 1), (0, 2), (0, 4), (1, 5), *([(again, 2)] if again else []), (last, 3)]
        capture = made.write(f"{room}/holders.pcap", [(START + at * SECOND, made.udp(f"10.0.0.{host}", 5000, SERVER, 53)) for at, host in steps])
        ran = tool("refused", "--rules", rules, report_of(room, "--rules", rules, capture), capture)
        wants(f"tools/refused: what is held after {last} s{past}", ran, 1, f"10.0.0.3:5000 > 198.51.100.1:53; 2 numbers held by 10.0.0.1 (1), 10.0.0.2 (1){past}\n")


def closed_capture(room):
    """Three ports, held in TIME_WAIT, CLOSE and CLOSE_WAIT, and then clients that find none; the last of them when the first two are
    past their deadline."""
    steps = [(host, flags) for host, ends in ((1, "FA fa A"), (2, "R"), (3, "FA a")) for flags in f"S sa A {ends}".split()]
    packets = []
    for at, (host, flags) in enumerate([*steps, (4, "S"), (4, "S"), (5, "S")]):
        own, met = (f"10.0.0.{host}", 2000 + host, SERVER, 80), (SERVER, 80, OUTER, 2000 + host)
        packets.append((START + at + (500 * SECOND if host == 5 else 0), made.tcp(*(met if flags.islower() else own), flags.upper())))
    return made.write(f"{room}/closed.pcap", packets)


def check_closed(room):
    """Of the numbers that were held each tool says how many closed connections held: a kernel may end these, and of UDP there is none."""
    capture, rules = closed_capture(room), write(room, "closed.rules", "snat -s 10.0.0.0/8 -p tcp to 192.0.2.1:2001-2003\n")
    report = report_of(room, "--rules", rules, capture, name="closed.report")
    at = len(files.read_capture(capture)) - 3
    text = "3 packets of 2 flows are NOPORT, 1 of these packets while entries past their deadline held numbers (up to 3), which a kernel would have cleared, 2 of"
    last = " of the flows while closed connections (TIME_WAIT or CLOSE) {} (up to 2), which a kernel may end for a new flow; replay the part behind"
    wants("tools/check: numbers of closed connections", tool("check", "--rules", rules, report, capture), 1, text, ", 2" + last.format("held numbers"))
    wants("tools/check: the same without rules", tool("check", report, capture), 1, ", 2" + last.format("were in the table"))
    wants("tools/why: numbers of closed connections", tool("why", "--rules", rules, "--report", report, capture, "--", str(at)), 0, "of which 3 were held, and 0 of these by", " Closed connections (TIME_WAIT or CLOSE) held 2 of them, which a kernel may end for a new flow.\n")
    ran = tool("refused", "--rules", rules, report, capture)
    held = "3 numbers held by 10.0.0.1 (1), 10.0.0.2 (1), 10.0.0.3 (1)"
    wants("tools/refused: numbers of closed connections", ran, 1, f"{held}, 2 in TIME_WAIT or CLOSE, which a kernel may end for a new flow\n", f"{held}, 3 past their deadline, 2 in TIME_WAIT or CLOSE")
    capture = refused_capture(room)
    rules = write(room, "two.rules", "snat -p udp to 192.0.2.1:1024-1025\n")
    ran = tool("check", "--rules", rules, report_of(room, "--rules", rules, capture), capture)
    count("tools/check: none of UDP", ran.returncode == 1 and "past their deadline" in ran.stdout and "closed connections" not in ran.stdout, ran.stdout)


def check_other_rules(room):
    """Rules of which a number was free at a NOPORT are not the report's; between two points others may come to hold one."""
    capture, rules = refused_capture(room), write(room, "two.rules", "snat -p udp to 192.0.2.1:1024-1025\n")
    report = report_of(room, "--rules", rules, capture, name="two.report")
    more, none = write(room, "more.rules", "snat -p udp to 192.0.2.1:1024-1026\n"), write(room, "none.rules", "snat -p tcp to 192.0.2.1\n")
    for name, words in (("check", [report, capture]), ("refused", [report, capture]), ("draw", ["--to", f"{room}/other", report, capture]), ("page", ["--to", f"{room}/other.html", report, capture]), ("why", ["-1", "--report", report, capture, "--", "3"])):
        said = f"the rules are not those of the report: packet {3 if name == 'why' else 2} is NOPORT, and "
        refuses(f"tools/{name}: other rules, of more numbers", tool(name, "--rules", more, *words), said, "of the 3 numbers of the rule in line 1 (snat -p udp to 192.0.2.1:1024-1026) 2 were held")
        refuses(f"tools/{name}: other rules, none of them for it", tool(name, "--rules", none, *words), said, "none of them is for it")
    points = write(room, "between.report", read(report).replace("2 NOPORT @2 @2", "2 NOPORT @1 @2"))
    words = ["--report", points, capture, "--", "2"]
    wants("tools/why: a number that came to be held between two points", tool("why", "--rules", rules, *words), 0, "NOPORT @1 @2")
    refuses("tools/why: two points, and other rules", tool("why", "--rules", more, *words), "1 was held")


def check_small_words(room):
    """The verb is that of the packets, and an article that of what follows."""
    steps = [(0, made.udp("10.0.0.1", 5000, SERVER, 53)), *((at, made.udp("10.0.0.2", 5000, SERVER, 53)) for at in (1, 2))]
    rules = write(room, "one.rules", "snat -p udp to 192.0.2.1:1024\n")
    for size, text in ((3, "2 packets of 1 flow are NOPORT"), (2, "1 packet of 1 flow is NOPORT")):
        capture = made.write(f"{room}/verb.pcap", [(START + at, packet) for at, packet in steps[:size]])
        wants(f"tools/check: {text}", tool("check", "--rules", rules, report_of(room, "--rules", rules, capture), capture), 1, text)
    capture = articles_capture(room)
    for index, text in ((1, "there an ACK in the reply direction passes"), (2, "no entry begins with an RST; "), (3, "no entry begins with a FIN; ")):
        wants(f"tools/why: {text}", tool("why", capture, "--", str(index)), 0, text)


def articles_capture(room):
    """An ACK that is let pass, and segments with which no entry begins."""
    one = ("10.0.0.1", 5000, SERVER, 80)
    packets = [made.tcp(*one, "S"), made.tcp(*one[2:], *one[:2], "A")]
    packets += [made.tcp(f"10.0.0.{host}", *one[1:], flags) for host, flags in ((2, "R"), (3, "FA"), (4, "SA"))]
    return made.write(f"{room}/articles.pcap", [(START + at, packet) for at, packet in enumerate(packets)])


def let_in_capture(room):
    """A flow that a table of one entry refuses, lets in and refuses again."""
    steps = ["1 S", "1 SA", "1 A", "2 S", "2 S", "1 R", "2 S", "2 R", "3 S", "3 SA", "3 A", "2 S", "2 SA"]
    packets = []
    for at, (host, flags) in enumerate(step.split() for step in steps):
        ends = (f"10.0.0.{host}", 5000, SERVER, 80)
        packets.append((START + at, made.tcp(*(ends[2:] + ends[:2] if flags == "SA" else ends), flags)))
    return made.write(f"{room}/let-in.pcap", packets)


def check_let_in(room):
    """A flow that was refused, was let in and is refused again is two: its packets in between are not refused ones."""
    capture = let_in_capture(room)
    ran = tool("refused", report_of(room, "--entries", "1", capture), capture)
    texts = ("3 flows refused or dropped, and 2 later packets of", "FULL packet 3 ", "FULL packet 11 ", "dropped packet 6 ", "entry 0, a connection in CLOSE, made room for tcp 10.0.0.2:5000")
    wants("tools/refused: let in between", ran, 1, *texts)


def dropped_report(room, capture):
    """A report with an early drop and with zones, made from one of `refused_capture`."""
    events = [line for line in read(report_of(room, capture)).splitlines() if " confirm " in line or " destroy " in line]
    events = [line.replace(" id=2 expired", " id=3 expired") for line in events]
    events.insert(2, "2 destroy 0.2 id=0 dropped")
    renumbered = [re.sub(r"^\d+", str(at), line) + (" zone=7" if " confirm " in line else "") for at, line in enumerate(events)]
    verdicts = ["0 NEW id=0 @1", "1 NEW id=1 @2", "2 NEW id=3 @4", "3 NEW id=3 @4", "4 NEW id=3 @4", "5 NEW id=5 @6", "6 NEW id=6 @7"]
    made_report = [f"events {len(renumbered)}", *renumbered, "thread 0 packets 7", *verdicts, "script 0"]
    return write(room, "dropped.report", "\n".join(made_report) + "\n")


def check_dropped(room, capture):
    """An entry that made room for another is a flow that was dropped."""
    name, texts = dropped_report(room, capture), ("1 dropped, no rule", "zone 7", "dropped packet 2 ")
    texts += ("udp 10.0.0.1:5000 > 198.51.100.1:53 zone=7; entry 0, not assured, made room for udp 10.0.0.3:5000 > 198.51.100.1:53 zone=7; 2 places held by 10.0.0.1 (1), 10.0.0.2 (1)",)
    wants("tools/refused: an early drop, and a zone", tool("refused", name, capture), 1, *texts)


def full_capture(room):
    """A table of two entries. A is assured; B is dropped for C, and C for B, which is assured then; C and D find no room, and E
    takes the place of one that is past its deadline."""
    steps = [("0", "A"), ("0", "a"), ("0", "A"), ("1", "B"), ("2", "C"), ("3", "B"), ("4", "b"), ("5", "B"), ("6", "C"), ("7", "C"), ("8", "D"), ("200", "E")]
    packets = []
    for at, (second, name) in enumerate(steps):
        ends = (f"10.0.0.{ord(name.upper()) - 64}", 5000, SERVER, 53)
        packets.append((START + int(second) * SECOND + at, made.udp(*(ends[2:] + ends[:2] if name.islower() else ends))))
    return made.write(f"{room}/full.pcap", packets)


def check_full(room):
    """What each tool says of a table that drops entries, and of packets for which it had none to drop."""
    capture = full_capture(room)
    report = report_of(room, "--entries", "2", capture, name="full.report")
    drops = [line for line in read(report).splitlines() if line.endswith(" dropped")]
    count("a table of two entries: three drops", drops[:2] == ["4 destroy 0.4 id=3 dropped", "6 destroy 0.5 id=5 dropped"] and len(drops) == 3, drops)
    texts = (
        "3 packets of 2 flows are FULL: no entry might be dropped", "3 entries were dropped to make room in a full table, 1 of them past their deadline",
        "2 of the entries that were dropped had packets later: entry 3 (udp 10.0.0.2:5000 > 198.51.100.1:53), not assured, dropped by packet 4: 1 packet met no entry, the last began entry 7;",
        "entry 5 (udp 10.0.0.3:5000 > 198.51.100.1:53), not assured, dropped by packet 5: 2 packets met no entry;",
    )
    wants("tools/check: drops, and packets behind them", tool("check", report, capture), 1, *texts)
    texts = (
        "4 flows refused or dropped, and 2 later packets of theirs", "3 dropped", "1 FULL", "FULL packet 10 ", "2 places held by 10.0.0.1 (1), 10.0.0.2 (1)\n",
        "> 198.51.100.1:53, 2 later; entry 5, not assured, made room for udp 10.0.0.2:5000", "entry 3, not assured, made room for udp 10.0.0.3:5000 > 198.51.100.1:53, and a later packet began entry 7;",
        "past its deadline by ",
    )
    wants("tools/refused: drops, and a flow that found none", tool("refused", report, capture), 1, *texts)
    cases = [
        ("the entry that made room", 4, "so entry 3 (udp 10.0.0.2:5000 > 198.51.100.1:53), not assured, was dropped for it by event 4"),
        ("its life", 3, "destroy, dropped, as the table was full and this packet wanted a place; the entry was not assured\n      udp 10.0.0.3:5000 > 198.51.100.1:53"),
        ("a flow that was dropped before", 5, "Entry 3, which had it before, was dropped at 2001-09-09 01:46:42.000004 UTC by packet 4 (udp 10.0.0.3:5000 > 198.51.100.1:53)"),
        ("FULL of a flow that was dropped", 8, "2 entries were in the table at the first point, 10;", "The second point is the same: none of them might be dropped", "Entry 5, which had it before"),
        ("an entry past its deadline", 11, "past its deadline by "),
    ]
    for name, index, *texts in cases:
        wants(f"tools/why: {name}", tool("why", "--report", report, capture, "--", str(index)), 0, *texts)
    draw, work = module("draw"), files.Work(report, [capture])
    marks = [(name, len(rows)) for name, _, rows in draw.full_marks(work, draw.Scale(work), 2)]
    count("tools/draw: what it marks in a full table", marks == [("3 entries dropped", 3), ("3 packets FULL", 3)], marks)
    more = report_of(room, capture, name="room.report")
    wants("tools/compare: more room", tool("compare", report, more, capture), 1, "FULL -> NEW")
    wants("tools/table: a dropped entry is gone", tool("table", "--at", str(START + 2 * SECOND + SECOND // 2), report, capture), 0, "src=10.0.0.3")
    kept = tool("table", "--at", str(START + 2 * SECOND + SECOND // 2), report, capture).stdout
    count("tools/table: and nothing else", "src=10.0.0.2" not in kept and kept.count("\n") == 2, kept)
    for name, before, after in (("one point", "FULL @10 @10", "FULL @10"), ("points that fall", "FULL @10 @10", "FULL @10 @9"), ("a point that is not reached", "FULL @10 @10", "FULL @10 @99")):
        changed = write(room, "changed-full.report", read(report).replace(before, after, 1))
        refuses(f"tools/check: FULL with {name}", tool("check", changed, capture), "the report is cut or changed")


def points_report(room):
    """A report of two captures: the one drops an entry of the other, whose packet finds none; and a packet finds no room over two points."""
    first = made.write(f"{room}/of-one.pcap", [(START, made.udp("10.0.0.1", 5000, SERVER, 53)), (START + 2, made.udp("10.0.0.2", 5000, SERVER, 53)), (START + 3, made.udp(SERVER, 53, "10.0.0.1", 5000))])
    second = made.write(f"{room}/of-two.pcap", [(START + 1, made.udp("10.0.0.3", 5000, SERVER, 53)), (START + 4, made.udp("10.0.0.4", 5000, SERVER, 53))])
    confirms = [line for line in read(report_of(room, first, second)).splitlines() if " confirm " in line]
    of = {host: next(line for line in confirms if f"udp src=10.0.0.{host} " in line).split(" ", 3)[3] for host in (1, 2)}
    lines = ["events 3", f"0 confirm 0.0 {of[1]}", "1 destroy 1.0 id=0 dropped", f"2 confirm 0.1 {of[2]}", "thread 0 packets 3", "0 NEW id=0 @1", "1 NEW id=2 @3", "2 INVALID new @3"]
    report = write(room, "points.report", "\n".join([*lines, "thread 1 packets 2", "0 FULL @1 @3", "1 FULL @1 @3", "script 0"]) + "\n")
    return report, [first, second]


def check_full_points(room):
    """What is said of a packet of one capture that drops an entry of the other, and of FULL over two points."""
    report, captures = points_report(room)
    wants("tools/check: a packet of another capture behind a drop", tool("check", report, *captures), 1, "entry 0 (udp 10.0.0.1:5000", "dropped by packet 0 of capture 1: 1 packet met no entry")
    why = ["why", "--thread", "1", "--report", report, *captures, "--"]
    wants("tools/why: FULL behind a drop", tool(*why, "0"), 0, "at the first point, 1;", "Up to the second point, 3, another thread had that place")
    wants("tools/why: FULL of two points", tool(*why, "1"), 0, "Up to the second point, 3, other packets and commands made 2 events")
    wants("tools/why: whose entry was dropped", tool("why", "--report", report, *captures, "--", "2"), 0, "Entry 0, which had it before, was dropped at", "by packet 0 of capture 1")


# Two reports of one capture

ONE = """events 2
0 confirm 0.0 udp src=10.0.0.1 dst=198.51.100.1 sport=1 dport=53 src=198.51.100.1 dst=10.0.0.1 sport=53 dport=1 until=31000000
1 confirm 1.0 udp src=10.0.0.2 dst=198.51.100.1 sport=1 dport=53 src=198.51.100.1 dst=10.0.0.2 sport=53 dport=1 until=31000000
thread 0 packets 1
0 NEW id=0 @1
thread 1 packets 1
0 NEW id=1 @2
script 0
"""
OTHER = """events 2
0 confirm 1.0 udp src=10.0.0.2 dst=198.51.100.1 sport=1 dport=53 src=198.51.100.1 dst=10.0.0.2 sport=53 dport=1 until=31000000
1 confirm 0.0 udp src=10.0.0.1 dst=198.51.100.1 sport=1 dport=53 src=198.51.100.1 dst=10.0.0.1 sport=53 dport=1 until=31000000
thread 0 packets 1
0 NEW id=1 @2
thread 1 packets 1
0 NEW id=0 @1
script 0
"""


def check_compare(room):
    names = [made.write(f"{room}/{at}.pcap", [(SECOND, made.udp(f"10.0.0.{at}", 1, "198.51.100.1", 53))]) for at in (1, 2)]
    one, other = write(room, "one.report", ONE), write(room, "other.report", OTHER)
    ran = tool("compare", one, other, *names)
    wants("tools/compare: another order of the history", ran, 0, "no flow, verdict or translation differs\n")
    other = write(room, "other.report", OTHER.replace("src=198.51.100.1 dst=10.0.0.2 sport=53 dport=1 until", "src=198.51.100.1 dst=192.0.2.1 sport=53 dport=9 until"))
    texts = (
        "1 packet of 1 flow got something else; 1 flow another translation", "NEW in both, another entry",
        "udp 10.0.0.2:1 > 198.51.100.1:53: 1 packet\n", "at the end only in the second report: 1 of the entries",
        "dst=10.0.0.2 sport=53 dport=1 -> src=198.51.100.1 dst=192.0.2.1 sport=53 dport=9",
    )
    wants("tools/compare: another translation", tool("compare", one, other, *names), 1, *texts)
    capture, rules = refused_capture(room), write(room, "two.rules", "snat -p udp to 192.0.2.1:1024-1025\n")
    first = report_of(room, "--rules", rules, capture, name="first.report")
    second = report_of(room, "--rules", write(room, "three.rules", "snat -p udp to 192.0.2.1:1024-1026\n"), capture, name="second.report")
    words = [line.split()[1] for line in read(second).split("thread")[1].splitlines()[1:8]]
    texts = ("udp 10.0.0.3:5000 > 198.51.100.1:53: 4 packets", " 4 of 1 flow: NOPORT -> NEW", "packet 2: NOPORT -> NEW (replies")
    wants("tools/compare: more ports", tool("compare", first, second, capture), 1, *texts)
    count("tools/compare: which they are", words == ["NEW"] * 6 + ["NOPORT"], words)
    script = write(room, "flush.script", "wait\n-F\n")
    third = report_of(room, "--rules", rules, "--script", script, capture, name="third.report")
    wants("tools/compare: a script that ends the entries", tool("compare", first, third, capture), 0, "no flow, verdict")
    third = report_of(room, "--rules", rules, "--buckets", "1", capture, name="third.report")
    wants("tools/compare: another number of buckets", tool("compare", first, third, capture), 0, "no flow, verdict")


# The table at a time


def check_table(room):
    """At three points the table is the program's own list of the packets up to there, but for what is past its deadline."""
    frames = files.read_capture(os.path.join(EXAMPLES, "office.pcap"))
    for size in (7, 40, 108):
        prefix, end = f"{room}/prefix.pcap", frames[size - 1].moment
        files.write_capture(prefix, frames[:size], frames[0].link)
        script = write(room, "end.script", f"wait\nexpire {end}\n-L\n")
        ran = run([PROGRAM, "--rules", "office.rules", "--script", script, prefix])
        wanted = [re.sub(r" @\d+$", "", line) for line in ran.stdout.splitlines() if re.match(r"(udp|tcp|icmp) ", line)]
        found = tool("table", "--at", str(end), "office.report", "office.pcap").stdout.splitlines()
        count(f"tools/table: the program's own list after {size} packets", len(wanted) > 1 and found == wanted, found)
    kept = tool("table", "--at", "2026-11-28T23:48:53Z", "late.report", "late.pcap").stdout
    wanted = "udp      17 2 src=192.168.1.10 dst=198.51.100.54 sport=40003 dport=53 [UNREPLIED] src=198.51.100.54 dst=203.0.113.5 sport=53 dport=40003\n"
    count("tools/table: seconds left from its own time, and none past its deadline", kept.endswith(wanted) and kept.count("\n") == 2, kept)
    same = [tool("table", "--at", time, "late.report", "late.pcap").stdout for time in ("2026-11-28 23:48:53", "1795909733000000", "1795909733.0")]
    count("tools/table: the forms of a time", same == [kept] * 3, same)
    span = "is not within the captures, which go from 2026-11-28 23:48:20.356094 UTC to 2026-11-28 23:49:08.447594 UTC"
    for time, text in (("1795909733", "(a whole number is microseconds) "), ("99999999999999999999", ""), ("2026-11-28 23:48:20", ""), ("2027-01-01", "")):
        refuses(f"tools/table: {time}", tool("table", "--at", time, "late.report", "late.pcap"), f"{time} ", text + span)


def check_other_ports(room):
    """Of what both sides of a router saw, answers to ports that a replay gave otherwise are told at once."""
    report = report_of(room, "--rules", "range.rules", "range.pcap")
    ran = tool("check", "--rules", "range.rules", report, "range.pcap")
    texts = ("packets of", "to 203.0.113.9, the address of a snat rule, answer its clients and fit no entry: the router gave other ports", "tools/from-inside --rules FILE")
    wants("tools/check: ports that the router gave otherwise", ran, 1, *texts)
    wants("tools/check: the same without rules", tool("check", report, "range.pcap"), 1, *texts)
    answers = [
        (START, made.udp("10.0.0.1", 5000, SERVER, 53)), (START + 1, made.udp(SERVER, 53, OUTER, 1030)), (START + 2, made.tcp("10.0.0.1", 5000, SERVER, 80, "S")),
        (START + 3, made.tcp(SERVER, 80, OUTER, 1031, "SA")), (START + 4, made.udp("198.51.100.99", 53, OUTER, 1032)),
    ]
    capture, rules = made.write(f"{room}/answers.pcap", answers), write(room, "two.rules", "snat -s 10.0.0.0/8 -p udp to 192.0.2.1:1024\nsnat -s 10.0.0.0/8 -p tcp to 192.0.2.1:1024\n")
    ran = tool("check", "--rules", rules, report_of(room, "--rules", rules, capture), capture)
    wants("tools/check: answers that begin entries, and those that begin none", ran, 1, "answers.pcap: 2 packets of 2 flows to 192.0.2.1, the address")
    inside, outside = made.write(f"{room}/inside.pcap", answers[:1]), made.write(f"{room}/outside.pcap", answers[1:2])
    ran = tool("check", "--rules", rules, report_of(room, "--rules", rules, inside, outside), inside, outside)
    wants("tools/check: captures of both sides beside each other", ran, 1, "fit no entry: captures ran beside each other (mergecap", "; or the router gave other ports")
    replayed(room, "range")
    capture, small = f"{room}/range.made.pcap", report_of(room, "--entries", "3", "--rules", "range.rules", f"{room}/range.made.pcap")
    ran = tool("check", "--rules", "range.rules", small, capture)
    wants("tools/check: answers to entries that were dropped", ran, 1, "3 packets of 2 flows to 203.0.113.9", "fit no entry: entries were dropped or refused in a full table", "; or the router gave other ports")
    ran = tool("check", "--rules", "range.rules", f"{room}/range.made.report", capture)
    count("tools/check: none after from-inside", "snat rule" not in ran.stdout and "4 packets of 4 flows are NOPORT" in ran.stdout, ran.stdout)


def check_outside(room):
    """A capture of the outside has no client of the rules: that is told, and of no capture of the inside or of what a router meets."""
    for name in ("office", "late", "ports", "range", "again"):
        for side in (".out", ".in", ""):
            rules, capture = f"{name}.rules", f"{name}{side}.pcap"
            ran = tool("check", "--rules", rules, report_of(room, "--rules", rules, capture), capture)
            wanted = r"packets go to 203\.0\.113\.\d, the address of a snat rule, or come from there, and no client met such a rule: it is a capture of the outside"
            count(f"tools/check: the outside is told, {capture}", bool(re.search(wanted, ran.stdout)) == (side == ".out") and ran.returncode in (0, 1), ran.stdout)
    rules = write(room, "own.rules", "dnat -d 192.0.2.1 -p tcp --dport 8080 to 10.0.0.9:80\nsnat -s 192.0.2.1 -p udp to 192.0.2.1:1024-1025\n")
    cases = [
        ("a server behind a dnat alone", [made.tcp("198.51.100.7", 5555, OUTER, 8080, "S"), made.tcp("10.0.0.9", 80, "198.51.100.7", 5555, "SA")]),
        ("a client whose address stays", [made.udp(OUTER, 1024, SERVER, 53), made.udp(SERVER, 53, OUTER, 1024)]),
    ]
    for name, packets in cases:
        capture = made.write(f"{room}/right.pcap", [(START + at, packet) for at, packet in enumerate(packets)])
        ran = tool("check", "--rules", rules, report_of(room, "--rules", rules, capture), capture)
        count(f"tools/check: the outside is not told of {name}", (ran.returncode, ran.stdout) == (0, ""), ran.stdout)


def check_other_capture(room):
    """A report with another capture of as many packets is told, by what began an entry or by an answer; with its own it is read."""
    inside = tool("from-inside", "--rules", "office.rules", "--to", f"{room}/met.pcap", "office.in.pcap")
    count("tools: captures with as many packets", "108 of 108 packets" in inside.stdout, inside.stdout)
    report = report_of(room, "--rules", "office.rules", f"{room}/met.pcap", name="met.report")
    flow, answer = made.udp("10.0.0.1", 5000, SERVER, 53), made.udp(SERVER, 53, "10.0.0.1", 5000)
    own = made.write(f"{room}/own.pcap", [(START, flow), (START + 1, answer), (START + 2, made.echo("10.0.0.1", SERVER, 8, 7))])
    other = made.write(f"{room}/other.pcap", [(START, flow), (START + 1, answer), (START + 2, made.echo("10.0.0.1", SERVER, 8, 9))])
    mine = report_of(room, own, name="own.report")
    for name in ("check", "refused"):
        said = (f"{report} is no report of office.in.pcap: by its event", "packet 1 is of udp 192.168.1.10:40050")
        refuses(f"tools/{name}: a report of the other side", tool(name, report, "office.in.pcap"), *said)
        refuses(f"tools/{name}: another echo", tool(name, mine, other), "packet 2 is of icmp", "id 7, and there it is icmp", "id 9")
    refuses("tools/why: another echo", tool("why", "--report", mine, other, "--", "0"), "is no report of")
    wants("tools/table: its own capture", tool("table", "--at", str(START + 3), mine, own), 0, "id=7")
    for name in ("office", "range", "ports", "late"):
        work = files.Work(report_of(room, "--rules", f"{name}.rules", os.path.join(EXAMPLES, f"{name}.pcap")), [os.path.join(EXAMPLES, f"{name}.pcap")])
        count(f"tools: the report of examples/{name} is of its capture", len(work.report.events) > 3)
    ran = tool("table", "--help")
    count("tools/table: does not say that a kernel's table is the same", "has no others" not in ran.stdout and "docs/KERNEL.md" in ran.stdout)
    ran = tool("compare", "--help")
    count("tools/compare: says that a made capture is for one file of rules", "from-inside made is for one file of rules" in ran.stdout)


def check_pictures_of(room):
    """What a picture of ports counts is what why counts: all that holds a number of the rule, whichever rule gave it."""
    rules = write(room, "two.rules", "snat -s 10.0.0.1 -p udp to 192.0.2.1:1024\nsnat -p udp to 192.0.2.1:1024-1025\n")
    packets = [(START + at * SECOND, made.udp(f"10.0.0.{at + 1}", 5000, SERVER, 53)) for at in range(3)]
    capture = made.write(f"{room}/held.pcap", packets)
    report = report_of(room, "--rules", rules, capture)
    draw, work = module("draw"), files.Work(report, [capture])
    panels = {panel.rule.line: panel for panel in draw.panels_of(work, files.read_rules(rules))}
    rows = draw.steps(draw.Scale(work), draw.table_changes(panels[2].lives))
    count("tools/draw: a port that another rule's entry holds", draw.top_of(rows) == 2 and len(panels[2].refused) == 1, rows)
    wants("tools/why: the same", tool("why", "--rules", rules, "--report", report, capture, "--", "2"), 0, "has 2 numbers for it, of which 2 were held")
    again = [(START + at * SECOND, made.udp(source, 1, SERVER, 53)) for at, source in ((0, "10.0.0.1"), (0, "10.0.0.2"), (31, "10.0.0.1"))]
    capture = made.write(f"{room}/again.pcap", again)
    work = files.Work(report_of(room, "--entries", "2", capture), [capture])
    rows = draw.steps(draw.Scale(work), draw.table_changes(history.lives_of(work).values()))
    count("tools/draw: what ends and what begins at one moment is one step", len(work.report.events) == 4 and rows == [("0.000000", 0), ("0.000000", 2), ("31.000000", 2)], rows)


def check_all(room):
    check_kernel(room)
    check_made(room)
    check_fronts(room)
    check_no_address(room)
    check_cut(room)
    check_ftp(room)
    check_passive(room)
    check_rounds(room)
    check_targets(room)
    check_closed(room)
    check_refused(room)
    check_compare(room)
    check_table(room)
    check_other_ports(room)
    check_outside(room)
    check_other_capture(room)
    check_pictures_of(room)
