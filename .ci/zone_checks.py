"""Checks of zones: a recording through a kernel with two, what docs/FORMATS.md shows, damaged zones of reports, and what the
tools say of them. Used by .ci/tools."""
import os
import re
import shutil

import made_packets as made
import replay_files as files
from checking import DATA, EXAMPLES, PROGRAM, TOP, count, module, read, refuses, report_of, run, tool, wants, write

START = 1_000_000_000_000_000
SECOND = 1_000_000
SERVER, OUTER = "198.51.100.1", "192.0.2.1"
TENANTS = ["tenants.1.pcap", "tenants.2.pcap"]
RULED = ["--rules", "tenants.rules"]


# Reports of several zones, made of reports of one capture each: one thread behind the other


def joined(reports, zones):
    """The report of these captures, each in its zone, of their reports with a script that ends with -L; it ends with that too."""
    events, threads, rows, base = [], [], [], 0
    for thread, (text, zone) in enumerate(zip(reports, zones)):
        lines, said = text.splitlines(), files.zone_text(zone)
        size = int(lines[0].split()[1])
        end = next(at for at, line in enumerate(lines) if line.startswith("script "))
        later = lambda found, base=base: f"{found[1]}{int(found[2]) + base}"
        for line in lines[1 : size + 1]:
            number, kind, who, rest = line.split(" ", 3)
            front, tuples = rest.partition(" until=")[::2] if kind == "confirm" else ("", rest)
            rest = re.sub(r"(\b(?:id|master|expect|replaces)=)(\d+)", later, tuples)
            rest = f"{front} until={rest}" if kind == "confirm" else rest
            events.append(f"{int(number) + base} {kind} {thread}.{who[2:]} {rest}{said if kind in ('confirm', 'expect') else ''}")
        verdicts = [re.sub(r"((?:\b(?:id|expect|clash)=)|@)(\d+)", later, line) for line in lines[size + 2 : end]]
        threads += [f"thread {thread} packets {len(verdicts)}", *verdicts]
        rows += [line.rpartition(" @")[0] + said for line in lines[end + 2 :]]
        base += size
    script = ["script 1", f"0 list {len(rows)} @{base} @{base}", *(f"{row} @{base}" for row in rows)] if rows else ["script 0"]
    return "\n".join([f"events {base}", *events, *threads, *script]) + "\n"


def joined_report(room, name, zones, captures, *words):
    reports = [read(report_of(room, *words, capture, name="one")) for capture in captures]
    return write(room, name, joined(reports, zones))


def unordered(text):
    """The lines of a report in which nothing stands of the order of its threads, nor of the moment of its script."""
    lines = []
    for line in text.splitlines():
        line = re.sub(r"^\d+ (confirm|touch|destroy|expect|claim|unexpect) ", r"\1 ", line)
        line = re.sub(r" (?:master|expect)=\d+", "", re.sub(r" id=\d+(?= (?:original|reply|@|expired|reopened|reset))", "", line))
        lines.append(re.sub(r" @\d+|^((?:udp|tcp|icmp) +\d+) \d+", r"\1", line))
    return sorted(lines)


# A kernel with two zones


def rows_of(lines):
    """Protocol, state, both tuples, flags and the zone of lines of conntrack -L or of a report."""
    rows = set()
    for line in lines:
        found = re.match(r"(icmp|tcp|udp) +\d+ \d+ (?:([A-Z_0-9]+) )?(src=.*)", line)
        rows.add((found[1], found[2], *(word for word in found[3].split() if not re.match(r"(mark|use|helper)=|@", word))))
    return rows


def began(lines):
    """Both tuples and the zone of each new entry of a kernel's events."""
    found = set()
    for line in lines:
        if "[NEW]" in line:
            proto, rest = re.search(r"\[NEW\] (\w+) .*?(src=.*)", line).groups()
            found.add((proto, *(word for word in rest.split() if not re.match(r"\[|helper=", word))))
    return found


def confirmed(report):
    """The same of a report's confirms."""
    found = set()
    for line in report.splitlines():
        if re.match(r"\d+ confirm ", line):
            tuples, rest = line.split(" ", 3)[3].split(" until=")
            found.add((*tuples.split(), *(word for word in rest.split() if word.startswith("zone="))))
    return found


def check_tenants(room):
    report = read(report_of(room, *RULED, "--script", "table.script", "--zones", "1,2", *TENANTS, name="tenants"))
    kernel = rows_of(read(EXAMPLES, "tenants.table").splitlines())
    rows = rows_of(report.split("\nscript 1\n")[1].splitlines()[1:])
    count("examples/tenants: the kernel's table, in its zones", len(kernel) == 12 and rows == kernel, rows ^ kernel)
    new = began(read(EXAMPLES, "tenants.events").splitlines())
    count("examples/tenants: the kernel's new entries, in its zones", len(new) == 12 and confirmed(report) == new, confirmed(report) ^ new)
    alone = joined([read(report_of(room, *RULED, "--script", "table.script", name, name="one")) for name in TENANTS], (1, 2))
    count("examples/tenants: each zone as it is alone", unordered(report) == unordered(alone), set(unordered(report)) ^ set(unordered(alone)))
    without = read(report_of(room, *RULED, "--script", "table.script", *TENANTS, name="without"))
    same = read(report_of(room, *RULED, "--script", "table.script", "--zones", "0,00000", *TENANTS, name="zero"))
    count("examples/tenants: zone 0 is no zone that is said", "zone" not in without + same and without.count("\nudp ") == same.count("\nudp ") == 2, same)
    words = [*RULED, "--ignore-interfaces"][2:]
    ran = tool("rules-from-iptables", *words, "tenants.iptables")
    count("tools/rules-from-iptables: tenants", ran.stdout == read(EXAMPLES, "tenants.rules") and ran.returncode == 0, ran.stdout)


# What docs/FORMATS.md shows, and which lists are refused


def blocks(text):
    return re.findall(r"^```\n(.*?)^```$", text, re.MULTILINE | re.DOTALL)


def check_formats(room):
    found = blocks(read(TOP, "docs", "FORMATS.md"))
    script = write(room, "zones.script", next(block for block in found if block.startswith("wait\n-L -w 7\n")))
    wanted = next(block for block in found if block.startswith("events 2\n") and "zone=7 @2" in block)
    capture = os.path.join(DATA, "c.pcap")
    ran = run([PROGRAM, "--zones", "7", "--script", script, capture])
    count("docs/FORMATS.md: the shipped capture in zone 7", (ran.returncode, ran.stdout, ran.stderr) == (0, wanted, ""), ran.stdout + ran.stderr)
    ran = run([PROGRAM, "--zones=07", "--summary", capture])
    wants("zones: a summary says none", ran, 0, "summary threads=1 packets=2 events=2 live=1\nNEW 1\n")
    line = "ctreplay: the words are not of the stated form\n"
    lists = [["1,2"], ["65536"], ["000001"], ["1,"], [""], ["x"], ["1", "--zones", "1"]]
    for words in [*(["--zones", *one, capture] for one in lists), ["--zones", "1", "--make", "0", "--packets", "8", "--threads", "1"], ["--zones", "1", capture, capture]]:
        ran = run([PROGRAM, *words])
        count(f"zones: {' '.join(map(os.path.basename, words))}", (ran.returncode, ran.stdout, ran.stderr) == (1, "", line), ran.stderr)
    flow = "-p udp -s 10.0.0.1 -d 10.0.0.2 --sport 5000 --dport 53"
    scripts = [
        ("-L -w 7 -w 7", "repeat"), ("-L -w", "value"), ("-D -w 65536", "value"), ("-D -w 000007", "value"), ("-L -w x", "value"), ("-F -w 7", "option"),
        ("-C -w 7", "option"), ("-L expect -w 7", "option"), (f"-G -w 7 {flow} -w 7", "repeat"), ("-G -w 7", "option"), ("expire 1 -w 7", "option"), ("wait -w 7", "option"),
    ]
    for text, fault in scripts:
        script = write(room, "faulty.script", text + "\n")
        ran = run([PROGRAM, "--script", script, capture])
        count(f"zones: {text}", (ran.returncode, ran.stderr) == (2, f"ctreplay: {script}: line 1: {fault}\n"), ran.stderr)
    for text in ("-L -w 65535 -p udp", f"-G {flow} -w 00000", "-D -p udp -w 0"):
        ran = run([PROGRAM, "--script", write(room, "good.script", text + "\n"), capture])
        count(f"zones: {text} is read", ran.returncode == 0, ran.stderr)


# Damaged reports


def damages(report):
    """Damages of the tenants' report, each as what stands in the place of a text: of confirms and expects, of makers, of verdicts and of rows."""
    first = next(line for line in report.splitlines() if " confirm 0.0 " in line)
    second = next(line for line in report.splitlines() if " confirm 1.0 " in line)
    entry = second.split()[0]
    master, expect = (next(line for line in report.splitlines() if f" {kind} 1." in line and word in line) for kind, word in (("confirm", " helper "), ("expect", "")))
    claim = next(line for line in report.splitlines() if " claim 1." in line)
    other = next(line for line in report.splitlines() if " expect 0." in line).split()[0]
    row = next(line for line in report.splitlines() if line.startswith("udp ") and " zone=2 @" in line)
    touch = next(line for line in report.splitlines() if " touch 1.1 " in line)
    yield from ((f"a confirm with {end!r}", first, first.replace(" zone=1", end)) for end in ("", " zone=0", " zone=01", " zone=65536", " zone=", " zone=x", " zone=1 zone=1", " zone=-1", " zone=1 helper", " zone=2"))
    yield "a confirm in the other zone", second, second.replace(" zone=2", " zone=1")
    yield "a zone before the deadline", second, second.replace(" until=", " zone=2 until=").removesuffix(" zone=2")
    yield "a zone before the helper", master, master.replace(" helper zone=2", " zone=2 helper")
    yield from ((f"an expect with {end!r}", expect, expect.replace(" zone=2", end)) for end in ("", " zone=1", " zone=0", " zone=00002"))
    yield "an expect of the other zone's entry", expect, re.sub(r"master=\d+", "master=" + first.split()[0], expect)
    yield "a claim in the other zone", claim, re.sub(r"expect=\d+", f"expect={other}", claim)
    yield "a touch of the other zone's entry", touch, touch.replace(f" id={entry} ", " id=0 ")
    yield "a touch that says a zone", touch, touch + " zone=2"
    yield "a claim that says a zone", claim, claim + " zone=2"
    verdict = f"0 NEW id={entry} "
    yield "a verdict of the other zone's entry", f"\n{verdict}", f"\n{verdict.replace(entry, '0')}"
    yield "MERGED across zones", f"\n{verdict}", f"\n{verdict.replace('NEW', 'MERGED').replace(entry, '0')}"
    yield "CLASH across zones", f"\n{verdict}", f"\n{verdict.replace('NEW', 'CLASH').replace(entry, '0')}"
    yield "a verdict that says a zone", f"\n{verdict}@{int(entry) + 1}\n", f"\n{verdict}@{int(entry) + 1} zone=2\n"
    yield from ((f"a row with {end!r}", row, row.replace(" zone=2", end)) for end in (" zone=3", " zone=0", " zone=02", "", " zone=2 zone=2", " zone=1 zone=2"))
    yield "a row whose zone stands behind its point", row, re.sub(r" zone=2 (@\d+)", r" \1 zone=2", row)


def check_damages(room):
    report = read(joined_report(room, "tenants.report", (1, 2), TENANTS, *RULED, "--script", "table.script"))
    name = f"{room}/tenants.report"
    wants("tools/check: the tenants' report", tool("check", *RULED, name, *TENANTS), 0)
    cases = list(damages(report))
    for number, (what, before, after) in enumerate(cases):
        count(f"a damage to be made: {what}", report.count(before) >= 1 and before != after, before)
        changed = write(room, "damaged.report", report.replace(before, after, 1))
        refuses(f"tools/check: {what}", tool("check", *RULED, changed, *TENANTS), "the report is cut or changed")
        if number % 7 == 0:
            for word, words in (("refused", []), ("draw", []), ("page", []), ("table", ["--at", "1795982855700000"]), ("compare", [name])):
                refuses(f"tools/{word}: {what}", tool(word, *words, changed, *TENANTS), "the report is cut or changed")
            refuses(f"tools/why: {what}", tool("why", "--report", changed, *TENANTS, "--", "0"), "the report is cut or changed")
    # The last one is of two captures of one zone, in which no two live entries may share a tuple.
    for zone in ("0", "65536", "00001", "1x", "2"):
        changed = write(room, "damaged.report", re.sub(r"\bzone=1\b", f"zone={zone}", report))
        refuses(f"tools/check: zone={zone} in every line", tool("check", *RULED, changed, *TENANTS), "the report is cut or changed")
    exchanged = report.replace("zone=1", "zone=9").replace("zone=2", "zone=1").replace("zone=9", "zone=2")
    wants("tools/check: other zones are as good", tool("check", *RULED, write(room, "exchanged.report", exchanged), *TENANTS), 0)


def check_expected(room):
    """The row of an expectation is of its entry's zone."""
    frames = files.read_capture(os.path.join(DATA, "ftp.pcap"))[:5]
    capture = f"{room}/named.pcap"
    files.write_capture(capture, frames, frames[0].link)
    whole = read(joined_report(room, "none.report", (5, 9), [capture] * 2))
    made_by = [line for line in whole.splitlines() if " expect " in line and "dport=40002" in line]
    row = "299 proto=6 src=10.0.0.2 dst=10.0.0.1 sport=0 dport=40002 master={} zone={} @14"
    masters = [re.search(r"master=(\d+)", line)[1] for line in made_by]
    rows = "\n".join(row.format(master, zone) for master, zone in zip(masters, (5, 9)))
    text = whole.replace("script 0\n", f"script 1\n0 expectations 2 @14\n{rows}\n")
    name = write(room, "expected.report", text)
    count("a report of what is expected in two zones", len(masters) == 2 and "events 14\n" in text, text)
    wants("tools/check: what is expected in two zones", tool("check", name, capture, capture), 0)
    for before, after in ((" zone=9 @14", " zone=5 @14"), (" zone=9 @14", " @14"), (f"master={masters[1]} zone=9 @", f"master={masters[0]} zone=9 @"), (" zone=5 @14", " @14 zone=5")):
        count(f"a damage to be made:{before}", text.count(before) == 1, text)
        changed = write(room, "damaged.report", text.replace(before, after))
        refuses(f"tools/check: the row of an expectation with{after}", tool("check", changed, capture, capture), "the report is cut or changed")


# What the tools say


def query(at, client, server=SERVER, port=5000):
    return START + at, made.udp(client, port, server, 53)


def zone_capture(room, name, clients, more=()):
    """Queries from one port, and what comes behind them."""
    sent = [query(at, client) for at, client in enumerate(clients)]
    return made.write(f"{room}/{name}.pcap", [*sent, *((START + SECOND + at, packet) for at, packet in enumerate(more))])


def made_zones(room):
    """Two captures in the zones 0 and 65535 with one rule of two ports, and their report. In the first two clients ask; in the
    second three, of which one finds no port; an answer and an error come to the second that are of flows of the first alone."""
    rules = write(room, "two.rules", "snat -s 10.0.0.0/24 -p udp to 192.0.2.1:5000-5001\n")
    syn = made.tcp("10.9.0.1", 5000, SERVER, 80, "S")
    answer = made.tcp(SERVER, 80, "10.9.0.1", 5000, "SA")
    first = zone_capture(room, "first", ["10.0.0.1", "10.0.0.2"], [syn])
    second = zone_capture(room, "second", ["10.0.0.1", "10.0.0.2", "10.0.0.3"], [answer, made.error("198.51.100.9", "10.9.0.1", syn)])
    report = joined_report(room, "made.report", (0, 65535), [first, second], "--rules", rules)
    return rules, report, [first, second]


def check_flows():
    """An inverse keeps the zone, and a flow has one name in both directions, another one in each zone."""
    for flow in (files.Flow("tcp", 1, 2, 3, 4, 7), files.Flow("udp", 2, 1, 3, 4, 65535), files.Flow("icmp", 1, 2, 9, 8 << 8, 7)):
        other = files.inverse(flow)
        good = other.zone == flow.zone and files.inverse(other) == flow and files.pair_of(flow) == files.pair_of(other) != files.pair_of(flow._replace(zone=1))
        count(f"tools: the inverse of a flow of {flow.proto} in zone {flow.zone}", good, other)
    for about in (made.udp("10.0.0.1", 5000, SERVER, 53), made.tcp("10.0.0.1", 5000, SERVER, 80, "S"), made.echo("10.0.0.1", SERVER, 8, 7)):
        packet = files.packet_of(files.Frame(START, 101, made.error("198.51.100.9", "10.0.0.1", about), 56))
        inner = files.inner_flow(packet, 7)
        count(f"tools: what an error of zone 7 repeats, {inner.proto}", inner.zone == 7 and files.ends_text(inner).endswith(" zone=7"), inner)


def check_made(room):
    rules, report, names = made_zones(room)
    text = read(report)
    count("zones: each has the ports of a rule for itself", text.count(" NEW id=") == 5 and text.count(" NOPORT ") == 1 and text.count("sport=53 dport=5000 until") == 2, text)
    ran = tool("check", "--rules", rules, report, *names)
    texts = ("1 packet of 1 flow is NOPORT", "second.pcap: 1 packet of 1 flow fit no entry of its zone, 65535, and answer entries of zone 0: is it of the same network?")
    wants("tools/check: a packet whose entry is in another zone", ran, 1, *texts)
    ran = tool("refused", "--rules", rules, report, *names)
    texts = ("by zone:\n        1 zone 65535\n", "udp 10.0.0.3:5000 > 198.51.100.1:53 zone=65535; 2 numbers held by 10.0.0.1 (1), 10.0.0.2 (1)\n")
    wants("tools/refused: by zone, with the numbers of the zone alone", ran, 1, *texts)
    why = ["why", "--thread", "1", "--rules", rules, "--report", report, *names, "--"]
    wants("tools/why: no number in a zone", tool(*why, "2"), 0, "has 2 numbers for it in zone 65535, of which 2 were held")
    wants("tools/why: a new entry in a zone", tool(*why, "0"), 0, "dport=5000 zone=65535\n", "Nothing in the table had its tuple in zone 65535, so it began entry 3.")
    wants("tools/why: an entry of another zone", tool(*why, "3"), 0, "Nothing in the table had its tuple in zone 65535, and no entry begins with a SYN+ACK. Entry 2 had it in zone 0; flows of different zones never meet.")
    wants("tools/why: an error in another zone", tool(*why, "4"), 0, "INVALID error", "and nothing in the table had that tuple in zone 65535.")
    ran = tool("table", "--at", str(START + SECOND), report, *names)
    wanted = [f"src=10.0.0.{client} {zone}" for zone in ("", " zone=65535") for client in (1, 2)]
    found = [line for line in ran.stdout.splitlines() if line.startswith("udp ")]
    good = len(found) == 4 and all(line.endswith(one.split(" ", 1)[1]) and f" {one.split()[0]} " in line for line, one in zip(found, wanted))
    count("tools/table: rows with their zones", good and not found[0].endswith("zone=65535"), ran.stdout)
    panels = module("draw").panels_of(files.Work(report, names), files.read_rules(rules))
    said = [(panel.remote_text(), len(panel.lives), len(panel.refused), panel.limit, panel.others) for panel in panels]
    count("tools/draw: the ports of the zone in which most were refused", said == [("to 198.51.100.1:53 in zone 65535", 2, 1, 2, 1)], said)
    ended = made.write(f"{room}/ended.pcap", [(START, made.tcp("10.9.0.1", 5000, SERVER, 80, "S")), (START + 1, made.tcp("10.9.0.1", 5000, SERVER, 80, "FA"))])
    said = ["why", "--thread", "1", "--report", joined_report(room, "ended.report", (3, 5), [ended, ended]), ended, ended, "--", "1"]
    wants("tools/why: a direction in a zone", tool(*said), 0, "INVALID state", "The FIN goes in the original direction of entry 1, which was in SYN_SENT since packet 0 of capture 1")
    ran = tool("why", ended, "--", "0")
    count("tools/why: no word of zones where there are none", ran.returncode == 0 and "zone" not in ran.stdout, ran.stdout)
    check_compared(room, rules, report, names)


def check_compared(room, rules, report, names):
    same = write(room, "same.report", read(report).replace("zone=65535", "zone=7"))
    wants("tools/compare: other zones alone", tool("compare", report, same, *names), 0, "zones 0,65535 -> 0,7\nno flow, verdict or translation differs\n")
    wants("tools/compare: the same zones", tool("compare", report, report, *names), 0, "no flow, verdict")
    more = write(room, "three.rules", "snat -s 10.0.0.0/24 -p udp to 192.0.2.1:5000-5002\n")
    other = joined_report(room, "more.report", (0, 65535), names, "--rules", more)
    texts = ("1 packet of 1 flow got something else", "NOPORT -> NEW", "udp 10.0.0.3:5000 > 198.51.100.1:53 zone=65535: 1 packet", "dport=5002 [UNREPLIED] zone=65535")
    ran = tool("compare", report, other, *names)
    wants("tools/compare: more ports, in one zone", ran, 1, *texts)
    count("tools/compare: and in no other", " zone=65535" in ran.stdout.splitlines()[-1] and ran.stdout.count("udp 10.0.0.3") == 1, ran.stdout)


def check_unsaid(room):
    """A capture without an entry: its zone stands in no report, so the tools ask for it; and a list that is not the report's is told."""
    rules, _, names = made_zones(room)
    lone = made.write(f"{room}/lone.pcap", [(START + 2 * SECOND, made.tcp(SERVER, 80, "10.9.0.1", 5000, "SA"))])
    quiet = made.write(f"{room}/quiet.pcap", [(START, b"\x60" + bytes(39))])
    report = joined_report(room, "lone.report", (3, 5), [names[0], lone], "--rules", rules)
    for word, words in (("check", []), ("refused", []), ("draw", []), ("page", ["--to", f"{room}/x.html"]), ("table", ["--at", str(START)]), ("compare", [])):
        read_too = [report, report] if word == "compare" else [report]
        last = [*read_too, names[0], lone]
        refuses(f"tools/{word}: a capture whose zone no report says", tool(word, *words, *last), "does not say which zone", "lone.pcap has", "--zones LIST says it")
        if word == "draw" and not shutil.which("gnuplot"):
            print("skipped: tools/draw: and with --zones: there is no gnuplot")
        else:
            ran = tool(word, *words, "--zones", "3,5", *last)
            count(f"tools/{word}: and with --zones", ran.returncode in (0, 1) and not ran.stderr, ran.stderr)
        refuses(f"tools/{word}: zones that are not the report's", tool(word, *words, "--zones", "4,5", *last), "--zones 4,5 is not the report's", "has zone 3")
        refuses(f"tools/{word}: a wrong list", tool(word, *words, "--zones", "3", *last), "one number from 0 to 65535 for each capture, 2 here")
    wants("tools/check: its packet", tool("check", "--zones", "3,5", report, names[0], lone), 1, "no entry of its zone, 5, and answer entries of zone 3")
    ran = tool("check", "--zones", "3,3", report, names[0], lone)
    count("tools/check: in the same zone it is not said", "of different zones" not in ran.stdout, ran.stdout)
    words = ["why", "--thread", "1", "--report", report, "--zones", "3,5", names[0], lone, "--", "0"]
    wants("tools/why: a capture whose zone is given", tool(*words), 0, "Entry 2 had it in zone 3;")
    report = joined_report(room, "quiet.report", (3, 5), [names[0], quiet], "--rules", rules)
    wants("tools/table: a capture of which nothing is tracked needs no zone", tool("table", "--at", str(START + SECOND), report, names[0], quiet), 0, " zone=3\n")


def check_one_zone(room):
    """Networks with the same addresses in one zone are told, and in two they are not."""
    names = [zone_capture(room, f"same{number}", ["10.0.0.1"]) for number in (1, 2)]
    ran = tool("check", report_of(room, *names), *names)
    wants("tools/check: the same addresses in one zone", ran, 1, "1 entry has packets of more than one of them in the original direction", "--zones with a number for each capture")
    report = report_of(room, "--zones", "1,65535", *names, name="two")
    count("tools/check: and in two", "in the original direction" not in tool("check", report, *names).stdout and read(report).count(" NEW id=") == 2, read(report))
    later = made.write(f"{room}/later-zone.pcap", [(START + 900 * SECOND, made.udp("10.0.0.2", 5000, "198.51.100.1", 53))])
    for zones, is_told in (("3,3,4", True), ("3,4,4", False)):
        report = report_of(room, "--zones", zones, later, *names, name="times")
        said = tool("check", "--zones", zones, report, later, *names).stdout
        count(f"tools/check: an earlier capture behind a later one, in zones {zones}", ("is all earlier than" in said) == is_told, said)
    why = ["why", "--zones", "1,2", "--thread", "1", *names, "--"]
    wants("tools/why: replays in zones", tool(*why, "0"), 0, "NEW id=", "in zone 2, so it began entry")
    refuses("tools/why: a wrong list", tool("why", "--zones", "1", *names, "--", "0"), "--zones has one number")


def check_two_sides(room):
    """The inside and the outside of one network in two zones: answers of UDP that begin entries of their own are told, too."""
    rules, _, names = made_zones(room)
    outside = made.write(f"{room}/outside.pcap", [(START + SECOND, made.udp(SERVER, 53, OUTER, 5000)), (START + SECOND, made.udp(SERVER, 53, OUTER, 5001))])
    ran = tool("check", "--rules", rules, joined_report(room, "sides.report", (1, 2), [names[0], outside], "--rules", rules), names[0], outside)
    wants("tools/check: both sides of one network in two zones", ran, 1, "outside.pcap: 2 packets of 2 flows fit no entry of its zone, 2, and answer entries of zone 1: is it of the same network?")
    ran = tool("check", "--rules", rules, joined_report(room, "equal.report", (1, 2), [names[0]] * 2, "--rules", rules), *[names[0]] * 2)
    count("tools/check: of two networks alike it is not said", "of the same network" not in ran.stdout, ran.stdout)
    words = ["--rules", rules, report_of(room, "--rules", rules, "--zones", "1,2", names[0], outside, name="apart"), names[0], outside]
    count("tools/check: answers in another zone are none to other ports", "answer its clients and fit no entry" not in tool("check", *words).stdout)
    closed = [made.tcp("10.9.0.1", 5000, SERVER, 80, "S"), made.tcp("10.9.0.1", 5000, SERVER, 80, "R"), made.tcp(SERVER, 80, "10.9.0.1", 5000, "SA")]
    late = made.write(f"{room}/late.pcap", [(START + at, packet) for at, packet in enumerate(closed)])
    report = joined_report(room, "late.report", (1, 2), [names[0], late], "--rules", rules)
    ran = tool("check", report, names[0], late)
    count("tools/check: an answer behind the end of its own zone's entry", "INVALID new" in read(report) and "of the same network" not in ran.stdout, ran.stdout)
    answers = made.write(f"{room}/answers.pcap", [(START + SECOND, made.udp(SERVER, 53, "10.0.0.1", 5000))])
    queries = zone_capture(room, "queries", ["10.0.0.1"])
    ran = tool("check", report_of(room, queries, answers, name="ways"), queries, answers)
    count("tools/check: a capture of each direction is none of networks alike", "in the original direction" not in ran.stdout, ran.stdout)


def check_shared_room(room):
    """A packet may drop an entry of another zone: the tools name it with its zone."""
    names = [zone_capture(room, "dropped", ["10.0.0.1"]), zone_capture(room, "drops", ["10.0.0.1"])]
    confirms = [f"udp src=10.0.0.1 dst={SERVER} sport=5000 dport=53 src={SERVER} dst=10.0.0.1 sport=53 dport=5000 until={START + 30 * SECOND} zone={zone}" for zone in (1, 2)]
    lines = ["events 3", f"0 confirm 0.0 {confirms[0]}", "1 destroy 1.0 id=0 dropped", f"2 confirm 1.0 {confirms[1]}", "thread 0 packets 1", "0 NEW id=0 @1", "thread 1 packets 1", "0 NEW id=2 @3", "script 0"]
    report = write(room, "room.report", "\n".join(lines) + "\n")
    text = "dropped packet 0 of capture 1 2001-09-09 01:46:40.000000 UTC udp 10.0.0.1:5000 > 198.51.100.1:53 zone=1; entry 0, not assured, made room for udp 10.0.0.1:5000 > 198.51.100.1:53 zone=2"
    wants("tools/refused: an entry of another zone was dropped", tool("refused", report, *names), 1, text, "1 zone 1\n")
    wants("tools/check: the same", tool("check", report, *names), 1, "1 entry was dropped to make room")
    ran = tool("why", "--thread", "1", "--report", report, *names, "--", "0")
    wants("tools/why: the same", ran, 0, "so entry 0 (udp 10.0.0.1:5000 > 198.51.100.1:53 zone=1), not assured, was dropped for it by event 1.")
    refuses("tools/check: an end for another reason", tool("check", write(room, "bad.report", read(report).replace("dropped", "expired")), *names), "the report is cut or changed")


RULESETS = (
    ("iptables", "*raw\n[3:180] -A PREROUTING -i eth1 -j CT --zone 7\n-A PREROUTING -i eth2 -j CT --zone-orig 3\n-A PREROUTING -i eth3 -j CT --zone mark\n"
     '-A PREROUTING -m comment --comment "-j CT --zone 9" -j ACCEPT\nCOMMIT\n*nat\n-A POSTROUTING -s 10.0.0.0/8 -j SNAT --to-source 192.0.2.1\nCOMMIT\n',
     ("line 2: -A PREROUTING -i eth1 -j CT --zone 7\n#   zone 7: its number", "--zone-orig 3\n#   not said: a zone of one direction", "that of a mark or a map")),
    ("nft -a", 'table inet raw {\n chain pre {\n type filter hook prerouting priority raw; policy accept;\n iifname "a" ct zone set 7 # handle 2\n iifname "b" ct reply zone set 3\n'
     ' ct zone set iifname map { "c" : 1 }\n }\n}\ntable ip nat {\n chain post {\n type nat hook postrouting priority srcnat; policy accept;\n ct zone 1 snat to 192.0.2.9\n'
     " ct original zone 1 snat to 192.0.2.9\n ip saddr 10.0.0.0/8 snat to 192.0.2.1\n }\n}\n",
     ('iifname "a" ct zone set 7\n#   zone 7: its number', "ct reply zone set 3\n#   not said: a zone of one direction", "that of a mark or a map", "ct zone: a rule is for flows of every zone here")),
    ("nft -j", '{"nftables": [{"chain": {"family": "ip", "table": "r", "name": "pre", "handle": 1, "type": "filter", "hook": "prerouting", "prio": -300}}, {"rule": {"family": "ip", "table": "r", "chain": "pre",'
     ' "handle": 2, "expr": [{"mangle": {"key": {"ct": {"key": "zone"}}, "value": 7}}]}}, {"rule": {"family": "ip", "table": "r", "chain": "pre", "handle": 3, "expr": [{"mangle": {"key": {"ct": {"key": "zone",'
     ' "dir": "original"}}, "value": 5}}]}}, {"chain": {"family": "ip", "table": "n", "name": "post", "handle": 1, "type": "nat", "hook": "postrouting", "prio": 100}}, {"rule": {"family": "ip", "table": "n",'
     ' "chain": "post", "handle": 4, "expr": [{"match": {"op": "==", "left": {"payload": {"protocol": "ip", "field": "saddr"}}, "right": {"prefix": {"addr": "10.0.0.0", "len": 8}}}}, {"snat": {"addr": "192.0.2.1"}}]}}]}',
     ("handle 2: ct zone set 7\n#   zone 7: its number", "handle 3: ct original zone set 5\n#   not said: a zone of one direction")),
)


def check_rulesets():
    for name, text, texts in RULESETS:
        ran = tool("rules-from-iptables", stdin=None, input=text)
        wants(f"tools/rules-from-iptables: zones of {name}", ran, 1, "snat -s 10.0.0.0/8 to 192.0.2.1\n", "Rules are for flows of every zone here", *texts)
        count(f"tools/rules-from-iptables: no zone in a comment of {name}", "--zone 9" not in ran.stdout, ran.stdout)
    plain = RULESETS[0][1].replace("--zone-orig 3", "--zone 3")
    wants("tools/rules-from-iptables: zones alone are no reason for status 1", tool("rules-from-iptables", stdin=None, input=plain), 0, "zone 3: its number")
    ran = tool("rules-from-iptables", "--ignore-interfaces", "office.iptables")
    count("tools/rules-from-iptables: no word of zones where there are none", "zone" not in ran.stdout, ran.stdout)


def check_hints(room):
    hint = module("hint").hint_of
    line = "ctreplay: the words are not of the stated form"
    cases = [
        (["--zones", "1,2", "c.pcap"], "2 zones and 1 capture stand there"), (["--zones", "1", "a.pcap", "b.pcap"], "1 zone and 2 captures stand there"),
        (["--zones", "65536", "c.pcap"], "and 65536 is none such"), (["--zones=000001", "c.pcap"], "and 000001 is none such"), (["--zones", "1,", "c.pcap"], "and 1, is none such"),
        (["--zones", "1", "--zones", "1", "c.pcap"], "--zones stands twice"), (["--zones", "1", "--make", "0", "--packets", "8", "--threads", "1"], "and not with --make"),
        (["c.pcap", "--zones"], "--zones has no value"), (["--zones", "1"], "no capture is named"), (["--zones", "1,2", "--entries", "x", "a", "b"], "and not x"),
    ]
    for words, text in cases:
        said = hint(1, line, words)
        count(f"tools/hint: {' '.join(words)}", said.startswith("usage: ctreplay [--rules FILE] [--script FILE] [--zones LIST] ") and text in said, said)
    count("tools/hint: a good list is no trouble", hint(1, line, ["--zones", "1,2", "--bad", "a", "b"]).endswith("not known is --bad"))
    scripts = [
        ("-L --zone 7", "--zone is -w here"), ("-L --orig-zone 7", "one zone for both directions"), ("-F -w 7", "-w stands with -L, -D and -G alone"), ("-L expect -w 7", "and not with -L expect"),
        ("-D -w 65536", "one number from 0 to 65535"), ("-D -w", "one number from 0 to 65535"), ("-L -w 7 -w 7", "and stands once"), ("-L -w 7 -p TCP", "protocols are written small: tcp"),
    ]
    for text, wanted in scripts:
        name = write(room, "hint.script", text + "\n")
        said = hint(2, f"ctreplay: {name}: line 1: option", ["--script", name])
        count(f"tools/hint: {text}", wanted in said, said)


def check_recipe(room):
    """VLANs with the same addresses, as docs/RECIPES.md has it."""
    if not shutil.which("editcap") or not shutil.which("tcpdump"):
        print("skipped: VLANs in zones: there is no editcap or no tcpdump")
        return
    tagged = [(START + at, bytes(12) + b"\x81\x00" + bytes((0, tag)) + b"\x08\x00" + made.udp("10.0.0.1", 5000, SERVER, 53)) for at, tag in enumerate((7, 8))]
    made.write(f"{room}/in.pcap", tagged, 1)
    count("docs/RECIPES.md: says how VLANs are cut apart", "`tcpdump -r in.pcap -w seven.pcap vlan 7`" in read(TOP, "docs", "RECIPES.md"))
    for name, tag in (("seven", 7), ("eight", 8)):
        run(["tcpdump", "-r", f"{room}/in.pcap", "-w", f"{room}/{name}.pcap", f"vlan {tag}"])
        run(["editcap", "-L", "-C", "12:4", "-F", "pcap", f"{room}/{name}.pcap", f"{room}/{name}-out.pcap"])
    outs = [f"{room}/{name}-out.pcap" for name in ("seven", "eight")]
    wants("docs/RECIPES.md: VLANs in zones", run([PROGRAM, "--zones", "7,8", "--summary", *outs]), 0, "packets=2 events=2 live=2\nNEW 2\n")


def check_all(room):
    check_tenants(room)
    check_formats(room)
    check_damages(room)
    check_expected(room)
    check_flows()
    check_made(room)
    check_unsaid(room)
    check_one_zone(room)
    check_two_sides(room)
    check_shared_room(room)
    check_rulesets()
    check_hints(room)
    check_recipe(room)
