"""Checks of tools/page, in a headless Chromium where there is one. Used by .ci/tools."""
import json
import os
import re
import shutil
import tempfile

import browser
import flow_checks
import made_packets as made
import work_checks
import zone_checks
from checking import DATA, EXAMPLES, PROGRAM, TOOLS, count, module, read, refuses, report_of, run, tool, wants, write
import replay_files as files
import replay_history as history

START = 1_000_000_000_000_000
SECOND = 1_000_000
HOSTILE = "</script><img src=x onerror=alert(1)><script>alert(2)</script>"
CHOSEN = "document.getElementById('{}')"


def page_of(room, name, *words):
    """The page of an example with its rules."""
    target = f"{room}/{name}.html"
    ran = tool("page", "--rules", f"{name}.rules", *words, "--to", target, f"{name}.report", f"{name}.pcap")
    wants(f"tools/page: {name}", ran, 0, f"{target}: {os.path.getsize(target) if os.path.exists(target) else 'none'} bytes")
    return target


def shown_rows(chromium):
    return chromium.value("[...document.querySelectorAll('.row')].map((it) => it.textContent)")


def lanes_of(chromium):
    """What stands above each lane of the strip."""
    return chromium.value("lanes.map((lane) => laneTitle(lane, shown.at).join(': '))")


# The table, and what is said of packets


def check_tables(room, chromium, page):
    """At three points the rows are the program's own list of the packets up to there, but for what is past its deadline."""
    frames = files.read_capture(os.path.join(EXAMPLES, "office.pcap"))
    for size in (7, 40, 108):
        prefix, end = f"{room}/prefix.pcap", frames[size - 1].moment
        files.write_capture(prefix, frames[:size], frames[0].link)
        script = write(room, "end.script", f"wait\nexpire {end}\n-L\n")
        ran = run([PROGRAM, "--rules", "office.rules", "--script", script, prefix])
        wanted = [re.sub(r" @\d+$", "", line) for line in ran.stdout.splitlines() if re.match(r"(udp|tcp|icmp) ", line)]
        chromium.open(page, f"at={end}&text=1")
        found = shown_rows(chromium)
        count(f"tools/page: the program's own list after {size} packets", len(wanted) > 1 and found == wanted, found)


def sentences_of(report, names, rules):
    """Of each packet the verdict, the headers and the sentence that tools/why has."""
    why, work = module("why"), files.Work(report, names)
    rules = files.read_rules(rules) if rules else None
    for thread, frames in enumerate(work.captures):
        for index, frame in enumerate(frames):
            asked = why.Question(work, rules, {"first": 0}, thread, index)
            lives = [] if asked.entry is None else [line.strip("* ").strip() for line in why.life_lines(asked)]
            yield [asked.verdict, files.packet_text(frame), files.time_text(frame.moment), why.sentence(asked), lives]


def check_sentences(room, chromium, kind, report, names, rules=None, texts=()):
    """What the page says of each packet is what why says: verdict, headers, time, sentence, and the entry's life. Each text is in it."""
    page = f"{room}/said.html"
    tool("page", *(["--rules", rules] if rules else []), "--to", page, report, *names)
    chromium.open(page)
    found = chromium.value(
        "threads.flatMap((thread, number) => thread.times.map((moment, at) => { const life = lives.get(thread.e[at]), lines = []; let before = null;"
        " for (const event of life ? life.all : []) { lines.push(eventText(event, before)); before = eventMoment(event);"
        " if (events.m[event] >= 0) lines.push(packetText(events.m[event], events.i[event])); }"
        " return [verdictText(number, at), packetText(number, at), timeText(moment), sentence(number, at), lines]; }))"
    )
    wanted = list(sentences_of(report, names, rules))
    other = [pair for pair in zip(found, wanted) if pair[0] != pair[1]]
    said = "\n".join(line for *lines, lives in wanted for line in (*lines, *lives))
    missing = [text for text in texts if text not in said]
    good = len(found) == len(wanted) > 1 and not other and not missing
    count(f"tools/page: what why says of each of {len(wanted)} packets, {kind}", good, other[:1] or missing)


def check_words(room, chromium):
    paths = {name: os.path.join(EXAMPLES, name) for name in ("office.report", "office.pcap", "office.rules", "office.in.pcap", "late.report", "late.pcap", "late.rules")}
    check_sentences(room, chromium, "office", paths["office.report"], [paths["office.pcap"]], paths["office.rules"])
    check_sentences(room, chromium, "late", paths["late.report"], [paths["late.pcap"]], paths["late.rules"])
    check_sentences(room, chromium, "late without rules", paths["late.report"], [paths["late.pcap"]])
    report = report_of(room, "--rules", paths["office.rules"], paths["office.in.pcap"], name="inside")
    closed, rules = flow_checks.closed_capture(room), write(room, "closed.rules", "snat -s 10.0.0.0/8 -p tcp to 192.0.2.1:2001-2003\n")
    closed_report = report_of(room, "--rules", rules, closed, name="closed")
    check_sentences(room, chromium, "ports of closed connections", closed_report, [closed], rules, ["Closed connections (TIME_WAIT or CLOSE) held 2 of them"])
    articles = flow_checks.articles_capture(room)
    check_sentences(room, chromium, "articles of segments", report_of(room, articles, name="articles"), [articles], None, ["there an ACK", "with an RST", "with a FIN", "with a SYN+ACK"])
    check_sentences(room, chromium, "one side of a NAT", report, [paths["office.in.pcap"]], paths["office.rules"])
    rules, zoned, names = zone_checks.made_zones(room)
    check_sentences(room, chromium, "two zones", zoned, names, rules, ["for it in zone 65535", "Entry 2 had it in zone 0; flows", "in zone 0, so it began entry 0"])
    check_sentences(room, chromium, "two zones without rules", zoned, names)
    large = os.path.join(EXAMPLES, "large")
    check_sentences(room, chromium, "fragments that are put together", f"{large}.report", [f"{large}.pcap"], f"{large}.rules", ["which packet 6 completed; that one", "and its bytes 1480 to 2959 are in none."])
    chromium.open(f"{room}/said.html", "view=packets&packet=0.6")
    said = chromium.value("document.getElementById('joined').textContent")
    count("tools/page: of which packets a datagram was put together", said == files.Work(f"{large}.report", [f"{large}.pcap"]).whole_of(0, 6) != "", said)
    report = report_of(room, "--entries", "4", paths["office.in.pcap"], paths["late.pcap"], name="full")
    for name in ("tcp", "ftp", "reset", "nat"):
        capture = f"{DATA}/{name}.pcap"
        check_sentences(room, chromium, f"{name}.pcap", report_of(room, capture, name=name), [capture])
    check_sentences(room, chromium, "two captures and four entries", report, [paths["office.in.pcap"], paths["late.pcap"]])


def lost_capture(room):
    """For a table of one entry: answers whose entries were dropped, and a flow that begins again behind a drop, and once more past its deadline."""
    server = "198.51.100.1"
    query = made.udp("10.0.0.3", 5000, server, 53)
    packets = [
        made.tcp("10.0.0.1", 5000, server, 80, "S"), made.echo("10.0.0.2", server, 8, 77), made.tcp(server, 80, "10.0.0.1", 5000, "SA"),
        query, made.echo(server, "10.0.0.2", 0, 77), made.udp("10.0.0.4", 5000, server, 53), query,
    ]
    return made.write(f"{room}/lost.pcap", [*((START + at * 1000, data) for at, data in enumerate(packets)), (START + 100 * SECOND, query)])


def check_full_words(room, chromium):
    """What the page says of a full table: each text of why on drops and on FULL is compared at least once."""
    full, let_in, lost = flow_checks.full_capture(room), flow_checks.let_in_capture(room), lost_capture(room)
    points, captures = flow_checks.points_report(room)
    later = write(room, "later-point.report", read(points).replace("1 FULL @1 @3", "1 FULL @2 @3").replace("2 INVALID new @3", "2 FULL @2 @3"))
    cases = [
        ("a full table", report_of(room, "--entries", "2", full, name="two"), [full], (
            "so entry 3 (udp 10.0.0.2:5000 > 198.51.100.1:53), not assured, was dropped for it by event 4.", ", past its deadline by 75.000004 s, was dropped for it",
            "it began entry 5. The table was full, ", ", was dropped for it by event 6. Entry 3, which had it before, was dropped at",
            "2 entries were in the table at the first point, 10; --entries says how many there may be. The second point is the same: ", "to its end. Entry 5, which had it before",
            "destroy, dropped, as the table was full and this packet wanted a place; the entry was not assured",
        )),
        ("one entry", report_of(room, "--entries", "1", let_in, name="one"), [let_in], ("1 entry was in the table at the first point, ", "a connection in CLOSE, was dropped for it")),
        ("answers behind drops", report_of(room, "--entries", "1", lost, name="lost"), [lost], (
            "no entry begins with a SYN+ACK. Entry 0, which had it before", "no entry begins with an answer. Entry 2, which had it before",
            "Entry 4, which had it before", "The entry 8, which had this tuple, was past its deadline",
        )),
        ("FULL of two points", points, captures, (
            "Up to the second point, 3, another thread had that place.", "Up to the second point, 3, other packets and commands made 2 events, ", ". Entry 0, which had it before",
        )),
        ("FULL of two points, an event between them", later, captures, (
            "0 entries were in the table at the first point, 2;", "made 1 event, and no entry that might be dropped was there throughout. Entry 0, which had it before",
        )),
    ]
    for kind, report, names, texts in cases:
        check_sentences(room, chromium, kind, report, names, texts=texts)


# The slider, the brush, the filters, the mouse and the keys


def check_slider(chromium, page):
    chromium.open(page)
    before = shown_rows(chromium)
    chromium.value("document.getElementById('slider').focus()")
    for _ in range(3):
        chromium.key("PageDown", 34)
    after = chromium.value("[shown.at, data.end, document.getElementById('moment').value === timeText(shown.at)]")
    count("tools/page: keys move the slider", 0 < after[0] < after[1] and after[2], after)
    chromium.click(CHOSEN.format("slider"))
    middle = chromium.value("shown.at / data.end")
    count("tools/page: a click moves the slider, and the table changes", 0.4 < middle < 0.6 and 0 < len(shown_rows(chromium)) < len(before), middle)
    chromium.drag(CHOSEN.format("strip"), 0.25, 0.5)
    span = chromium.value("[shown.from / data.end, shown.to / data.end]")
    count("tools/page: a stroke over the strip is the span that is shown", abs(span[0] - 0.25) < 0.02 and abs(span[1] - 0.5) < 0.02, span)
    chromium.value("document.getElementById('strip').focus()")
    chromium.key("0", 48, "0")
    count("tools/page: 0 shows all", chromium.value("shown.from === 0 && shown.to === data.end"))
    chromium.value("goTo(threads[0].times[5])")
    chromium.settle()
    chromium.key("ArrowRight", 39)
    right = chromium.value("shown.at === threads[0].times[6]")
    chromium.key("ArrowLeft", 37)
    count("tools/page: left and right go packet by packet", right and chromium.value("shown.at === threads[0].times[5]"))


def check_filters(chromium, page):
    chromium.open(page, "text=1")
    whole = shown_rows(chromium)
    cases = [
        ("address", "198.51.100.21", "198.51.100.21"), ("address", "198.51.100.53/32", "198.51.100.53"), ("port", "54", "=54"),
        ("proto", "icmp", "icmp "), ("state", "TIME_WAIT", "TIME_WAIT"),
    ]
    for box, value, text in cases:
        chromium.open(page, f"text=1&{box}={value}")
        found, wanted = shown_rows(chromium), [row for row in whole if re.search(re.escape(text) + r"(?!\d)", row)]
        count(f"tools/page: the filter {box} {value}", found == wanted and 0 < len(found) < len(whole), found)
    chromium.open(page, "text=1")
    chromium.key("/", 191, "/")
    for letter in "198.51.100.80":
        chromium.key(letter, 0, letter)
    found = shown_rows(chromium)
    count("tools/page: a filter that is typed", found == [row for row in whole if "198.51.100.80 " in row] and found, found)
    chromium.open(page, "text=1&address=10.9.9.9")
    count("tools/page: a filter that nothing fits", shown_rows(chromium) == [])
    chromium.open(page, "group=1")
    heads = chromium.value("[...document.querySelectorAll('.row.head')].map((it) => it.textContent)")
    count("tools/page: rows by client", sum(int(head.split(": ")[1]) for head in heads) == len(whole), heads)


def check_clicks(chromium, page):
    chromium.open(page, "view=packets")
    chromium.click("document.querySelectorAll('.row')[3]")
    said = chromium.value("document.getElementById('detail').textContent")
    count("tools/page: a click on a packet", "packet 3: ESTABLISHED_REPLY id=2" in said and "event 5" in said and "in the reply direction of entry 2" in said, said)
    chromium.click("document.querySelectorAll('.event')[0]")
    said = chromium.value("[document.getElementById('why').textContent, location.hash]")
    count("tools/page: a click on an event shows its packet", "it began entry 2" in said[0] and "packet=0.2" in said[1], said)
    chromium.open(page)
    chromium.value("document.getElementById('window').focus()")
    chromium.key("ArrowDown", 40)
    chromium.key("Enter", 13, "\r")
    said = chromium.value("document.getElementById('detail').textContent")
    count("tools/page: keys open a row", said.startswith("entry 2: icmp") and "event 5" in said, said)
    chromium.key("p", 80, "p")
    count("tools/page: a key changes the list", chromium.value("shown.view") == "packets")


# What is hostile, what is long, and what is looked at in the dark or on a phone


def hostile_of(room):
    """A page of a capture with markup in its name and in FTP's payloads; the script's name has none, and the rules' text."""
    packets = [
        made.tcp("10.0.0.1", 5000, "10.0.0.2", 21, "S"), made.tcp("10.0.0.2", 21, "10.0.0.1", 5000, "SA"), made.tcp("10.0.0.1", 5000, "10.0.0.2", 21, "A"),
        made.tcp("10.0.0.1", 5000, "10.0.0.2", 21, "PA", f"USER {HOSTILE}\r\n".encode()),
        made.tcp("10.0.0.1", 5000, "10.0.0.2", 21, "PA", b"PORT 10,0,0,1,<img src=x onerror=alert(3)>,2\r\n"),
    ]
    folder = f"{room}/<img src=x onerror=alert(4)>"
    os.mkdir(folder)
    name = folder + "/<img src=x onerror=alert(5)>\"'&--><!--\u2028.pcap"
    made.write(name, [(START + (5 - at) * SECOND, data) for at, data in enumerate(packets)])
    os.rename(report_of(room, name, name="plain"), folder + "/<script>alert(6)<!--.report")
    return folder + "/<script>alert(6)<!--.report", name


def check_hostile(room, chromium):
    report, name = hostile_of(room)
    page = f"{room}/hostile.html"
    wants("tools/page: names with markup", tool("page", "--to", page, report, name), 0)
    text = open(page, encoding="ascii").read()
    count("tools/page: no markup of a name stands in the page", "<img" not in text and text.count("<script") == 2 and text.count("</script") == 2)
    chromium.errors.clear()
    chromium.open(page, "view=packets&packet=0.3")
    said = chromium.value("[document.images.length, document.scripts.length, document.getElementById('title').textContent.includes('<img src=x'), document.getElementById('findings').textContent.includes('<img src=x')]")
    count("tools/page: markup of names is text", said == [0, 2, True, True] and not chromium.errors, f"{said} {chromium.errors}")
    chromium.value("(() => { const it = document.createElement('div'); it.innerHTML = '<img src=http://192.0.2.1/x onerror=\"window.ran = 1\">'; document.body.append(it);"
                   " const code = document.createElement('script'); code.textContent = 'window.ran = 2'; document.body.append(code); })()")
    chromium.settle()
    ran = chromium.value("window.ran === undefined")
    count("tools/page: nothing but its own script runs there", ran and len(chromium.errors) >= 2, chromium.errors)
    chromium.errors.clear()


def check_looks(room, chromium, page):
    for what, width, is_dark in (("a desk", 1300, False), ("a phone", 390, False), ("the dark", 1300, True)):
        chromium.look(width, 900, is_dark)
        chromium.open(page, "view=packets&packet=0.18")
        wide, ground, rows = chromium.value("[document.documentElement.scrollWidth, getComputedStyle(document.body).backgroundColor, document.querySelectorAll('.row').length]")
        dark = sum(int(part) for part in re.findall(r"\d+", ground)) < 200
        count(f"tools/page: {what}", wide <= width and dark == is_dark and 10 < rows < 100, f"{wide} {ground} {rows}")
    chromium.look(1300, 900)


def check_long(room, chromium):
    """Of many packets only those in sight are rows of the page, and the last is reached."""
    many = 5_000
    packets = [(START + at * 1000, made.udp(f"10.0.{at // 250}.{at % 250}", 5000, "198.51.100.1", 53)) for at in range(many)]
    capture = made.write(f"{room}/many.pcap", packets)
    page = f"{room}/many.html"
    tool("page", "--entries", "3000", "--to", page, report_of(room, "--entries", "3000", capture, name="many"), capture)
    chromium.open(page, "view=packets")
    chromium.value("document.getElementById('window').focus()")
    chromium.key("End", 35)
    chromium.settle()
    size, last = chromium.value("(() => { const rows = [...document.querySelectorAll('.row')]; return [rows.length, rows.pop().textContent]; })()")
    count("tools/page: rows in sight alone", 10 < size < 100 and last.startswith(str(many - 1)), f"{size} {last}")
    chromium.open(page, "view=refused")
    title, lanes = chromium.value("document.getElementById('count').textContent"), lanes_of(chromium)
    wanted = ["entries: 3000 there, 3000 not past deadline; limit 3000", "refused flows: 0", "drops: 2000, 2000 by this moment"]
    count("tools/page: entries against their limit, and drops", title.startswith("2000 flows") and lanes == wanted, f"{title} {lanes}")


def check_refused(room, chromium):
    """Where no entry may be dropped flows are refused: the lane, and of each flow a row with the packets behind its first."""
    capture, entries = work_checks.assured_capture(room, 1600)
    report, page = report_of(room, "--entries", str(entries), capture, name="assured"), f"{room}/assured.html"
    tool("page", "--entries", str(entries), "--to", page, report, capture)
    chromium.open(page, "view=refused")
    title, lanes, rows = chromium.value("document.getElementById('count').textContent"), lanes_of(chromium), shown_rows(chromium)
    refusals = history.refusals_of(files.Work(report, [capture]))
    good = len(refusals) == 400 and title.startswith("400 flows") and len(rows) > 10
    good = good and rows == [f"{it.index}FULL{files.ends_text(it.flow)}, {it.later} later" for it in refusals[: len(rows)]]
    count("tools/page: rows of refused flows", good, f"{title} {rows}")
    wanted = ["entries: 100 there, 100 not past deadline; limit 100", "refused flows: 400, 400 by this moment", "drops: 0"]
    count("tools/page: the lane of refused flows", lanes == wanted, lanes)


def check_dropped(room, chromium):
    """Of each flow that was dropped the page says what refused does."""
    capture = flow_checks.full_capture(room)
    report = report_of(room, "--entries", "2", capture, name="two")
    tool("page", "--entries", "2", "--to", f"{room}/two.html", report, capture)
    chromium.open(f"{room}/two.html", "view=refused")
    account = module("refused").Account(files.Work(report, [capture]), None)
    wanted = [account.drop_text(it) for it in history.refusals_of(account.work) if it.drop]
    found = chromium.value("refusedRows().filter((row) => row.gone !== undefined).map(dropText)")
    rows = [row for row in shown_rows(chromium) if "dropped" in row]
    good = found == wanted and any("a later packet began entry 7" in text for text in found)
    count("tools/page: why entries were dropped, and for whom", good, f"{found} {wanted}")
    good = len(rows) == 3 and all(text.startswith(row.partition("; ")[2]) for row, text in zip(rows, wanted)) and rows[0].endswith("0 later; entry 3, not assured")
    count("tools/page: rows of dropped flows", good, rows)


def check_drops(room, chromium):
    """An entry that made room for another is a drop; and a zone is a filter."""
    capture = flow_checks.refused_capture(room)
    report = flow_checks.dropped_report(room, capture)
    tool("page", "--to", f"{room}/drop.html", report, capture)
    chromium.open(f"{room}/drop.html", "view=refused")
    bars, rows = chromium.value("lanes.slice(1, 3).map((lane) => lane.bars.length)"), shown_rows(chromium)
    good = bars == [0, 1] and len(rows) == 1 and "dropped" in rows[0] and "udp 10.0.0.1:5000 > 198.51.100.1:53 zone=7, 0 later" in rows[0]
    count("tools/page: a drop", good, f"{bars} {rows}")
    at = START + 3 * SECOND
    wanted = tool("table", "--at", str(at), report, capture).stdout.splitlines()
    check_zone_filter(room, chromium)
    for zone, lines in (("7", wanted), ("8", [])):
        chromium.open(f"{room}/drop.html", f"text=1&at={at}&zone={zone}")
        found = shown_rows(chromium)
        count(f"tools/page: the filter zone {zone}", found == lines and (not found or found[0].endswith("zone=7")), found)


def check_zone_filter(room, chromium):
    """The packets, the entries and the refused flows of one zone."""
    rules, report, names = zone_checks.made_zones(room)
    tool("page", "--rules", rules, "--to", f"{room}/zones.html", report, *names)
    for zone, sizes in (("", (5, 8, 1)), ("0", (3, 3, 0)), ("65535", (2, 5, 1)), ("7", (0, 0, 0))):
        found = []
        for view in ("table", "packets", "refused"):
            chromium.open(f"{room}/zones.html", f"view={view}&at={START + SECOND}" + (f"&zone={zone}" if zone else ""))
            found.append(chromium.value("rows.length"))
        count(f"tools/page: what is shown of zone {zone or 'any'}", tuple(found) == sizes, found)
    chromium.open(f"{room}/zones.html")
    boxes = chromium.value("[...byId('zone').options].map((it) => it.value)")
    count("tools/page: a box with the zones", boxes == ["", "0", "65535"] and not chromium.value("byId('zone').hidden"), boxes)


def check_troubles(room):
    late = ("late.report", "late.pcap")
    refuses("tools/page: no capture", tool("page", "late.report"), "usage: page")
    refuses("tools/page: another report", tool("page", "--to", f"{room}/x.html", "late.report", "office.pcap"), "of other captures")
    refuses("tools/page: a folder that is not there", tool("page", "--to", f"{room}/none/x.html", *late), "No such file")
    refuses("tools/page: entries", tool("page", "--entries", "0", "--to", f"{room}/x.html", *late), "--entries 0 is no number")
    refuses("tools/page: fewer entries than there were", tool("page", "--entries", "3", "--to", f"{room}/x.html", *late), "--entries 3 is not the report's: it had 4 entries at one time")
    kept = shutil.copy(os.path.join(EXAMPLES, "late.report"), room)
    refuses("tools/page: what is read", tool("page", "--to", kept, kept, "late.pcap"), "would take the place")
    with open(os.path.join(EXAMPLES, "late.report"), encoding="utf-8") as file:
        refuses("tools/page: a report from a pipe", tool("page", "/dev/stdin", "late.pcap", stdin=file), "--to PAGE.html")
    template = open(os.path.join(TOOLS, "page.html"), encoding="utf-8").read()
    bad = re.findall(r"innerHTML|outerHTML|insertAdjacentHTML|document\.write|\beval\b|https?:|\bfetch\b|XMLHttpRequest", template)
    count("tools/page: the template asks for nothing, and makes no markup of data", not bad, bad)


def check_findings(room):
    """The loudest is first: a report that is wrong before flows that were refused, and these before entries that were dropped."""
    full = flow_checks.full_capture(room)
    cases = [
        ("range", ["--rules", "range.rules"], [], "range.pcap", {"wrong", "refused"}), ("a full table", [], ["--entries", "2"], full, {"refused", "dropped"}),
        ("the outside", ["--rules", "late.rules"], [], "late.out.pcap", {"wrong", "perhaps"}),
    ]
    for name, rules, entries, capture, wanted in cases:
        report = report_of(room, *rules, *entries, capture, name="found.report")
        tool("page", *rules, *entries, "--to", f"{room}/found.html", report, capture)
        found = json.loads(re.search(r'id="data">(.*?)</script>', read(room, "found.html"))[1])["findings"]
        ran = tool("check", *rules, report, capture).stdout.splitlines()
        levels = [level for level, _ in found]
        good = sorted(line for _, line in found) == sorted(ran) and levels == sorted(levels, key=["wrong", "refused", "dropped", "perhaps"].index)
        count(f"tools/page: what check finds, loudest first, {name}", good and set(levels) == wanted, found)


def check_all(room):
    check_troubles(room)
    check_findings(room)
    page = page_of(room, "office")
    if not browser.program():
        print("skipped: tools/page in a browser: there is no chromium")
        return
    with tempfile.TemporaryDirectory(ignore_cleanup_errors=True) as home, browser.Browser(home) as chromium:
        chromium.look(1300, 900)
        chromium.open(page)
        asked = chromium.asked()
        count("tools/page: loads without an error, and asks for nothing else", not chromium.errors and asked == [f"file://{page}"], f"{chromium.errors} {asked}")
        check_tables(room, chromium, page)
        check_slider(chromium, page)
        check_filters(chromium, page)
        check_clicks(chromium, page)
        check_words(room, chromium)
        check_full_words(room, chromium)
        check_long(room, chromium)
        check_refused(room, chromium)
        check_dropped(room, chromium)
        check_drops(room, chromium)
        check_looks(room, chromium, page)
        count("tools/page: no error on the console", not chromium.errors, chromium.errors)
        check_hostile(room, chromium)
