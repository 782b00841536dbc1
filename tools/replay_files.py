"""Reads what ctreplay reads and prints: captures, files of rules and reports. Nothing here is proved.

`Work` is a report with its captures; what its history says of entries, numbers and refused flows is in replay_history.py.
"""
import datetime
import functools
import os
import re
import struct
import subprocess
import sys
from collections import namedtuple

import fragments
import refusal_hints as hints
import replay_rewrites
from tool_run import Trouble

Frame = namedtuple("Frame", "moment link data length")
Report = namedtuple("Report", "events threads script heard rewrites")
# Of so many events that a thread made before all had ended, a listener was told of the first ones; the line says it.
Heard = namedtuple("Heard", "thread heard made text")
Verdict = namedtuple("Verdict", "word why entry point last", defaults=[None])
Rule = namedtuple("Rule", "line side options address low high text test")
Packet = namedtuple("Packet", "kind why proto source target first second flags payload flow", defaults=[None] * 9)
# As the program has it: of TCP and UDP `first` and `second` are the ports; of ICMP the identifier, and type and code. A
# packet's zone is its capture's; no bytes of it tell it.
Flow = namedtuple("Flow", "proto source target first second zone", defaults=[0])

PROTOCOLS = {1: "icmp", 6: "tcp", 17: "udp"}
PROTOCOL_NUMBERS = {name: number for number, name in PROTOCOLS.items()}
ICMP_PAIRS = {8: 0, 0: 8, 13: 14, 14: 13, 15: 16, 16: 15, 17: 18, 18: 17}
ICMP_ERRORS = (3, 4, 5, 11, 12)
FLAG_LETTERS = ((0x02, "SYN"), (0x01, "FIN"), (0x04, "RST"), (0x08, "PSH"), (0x10, "ACK"), (0x20, "URG"))
VALID_FLAGS = {0x02, 0x04, 0x10, 0x11, 0x12, 0x14, 0x22, 0x30, 0x31}
LINKS = (1, 101)
IP_HEADER = struct.Struct(">HxxHxBxxII")
REFUSED = ("FULL", "NOPORT", "CLASH")
FRAGMENT = "UNTRACKED fragment"
LONGEST_FRAME = 262_144
MOST_ZONE = 65_535
# So many events the queue of a thread to a listener has room for.
QUEUE = 1_024
HEARD = re.compile(r"heard (s|0|[1-9]\d*) (0|[1-9]\d*) of (0|[1-9]\d*)")
DAMAGED = "the report is cut or changed"


def read_bytes(name):
    try:
        with open(name, "rb") as file:
            return file.read()
    except OSError as error:
        raise Trouble(f"{name}: {error.strerror}") from error


def is_plain(name):
    """Whether a file, which has to be there, is one beside which others can be written."""
    try:
        os.stat(name)
    except OSError as error:
        raise Trouble(f"{name}: {error.strerror}") from error
    return os.path.isfile(name) and not os.path.abspath(name).startswith(("/dev/", "/proc/"))


BUILDING = ("ctreplay: building", "ctreplay: it is not proved", "ctreplay: waiting", "ctreplay: proving the program", "ctreplay: built")


def replay(words, output):
    """Runs the program on these words, with its report in a file that is open. A build that it begins with is told as it goes."""
    program = os.path.join(os.path.dirname(os.path.realpath(__file__)), "..", "ctreplay")
    last = ""
    with subprocess.Popen([program, *words], stdout=output, stdin=subprocess.DEVNULL, stderr=subprocess.PIPE, text=True, errors="replace") as ran:
        for line in ran.stderr:
            if line.startswith(BUILDING) or " is checked, " in line:
                print(line, end="", file=sys.stderr, flush=True)
            else:
                last = line.rstrip()
    if ran.returncode:
        raise Trouble(last or f"ctreplay ended with status {ran.returncode}")


def read_lines(name):
    return read_bytes(name).decode("utf-8", "replace").splitlines()


def counted(number, word):
    return f"{number} {word}{'' if number == 1 else 's'}"


def time_text(moment):
    when = datetime.datetime.fromtimestamp(moment // 1_000_000, datetime.timezone.utc)
    return f"{when:%Y-%m-%d %H:%M:%S}.{moment % 1_000_000:06d} UTC"


def moment_of_text(text):
    """A moment in microseconds from a number of them, from seconds with a fraction as tcpdump -tt prints them, or from a date and a time
    of UTC with a fraction or without."""
    if re.fullmatch(r"[0-9]+", text):
        return int(text)
    if found := re.fullmatch(r"([0-9]+)\.([0-9]{1,9})", text):
        return int(found[1]) * 1_000_000 + int(found[2].ljust(6, "0")[:6])
    plain = re.sub(r"Z$| UTC$", "", text).replace(" ", "T")
    # Before Python 3.11 a fraction has to have three or six digits.
    plain = re.sub(r"\.([0-9]{1,9})", lambda found: "." + found[1].ljust(6, "0")[:6], plain)
    try:
        when = datetime.datetime.fromisoformat(plain)
    except ValueError:
        raise Trouble(f"{text} is no time: microseconds, seconds as 1795909733.0, or 2026-11-28T23:48:53Z with a fraction or without") from None
    if when.tzinfo is None:
        when = when.replace(tzinfo=datetime.timezone.utc)
    return (when - datetime.datetime(1970, 1, 1, tzinfo=datetime.timezone.utc)) // datetime.timedelta(microseconds=1)


# Captures


def read_capture(name):
    """The frames of a classic pcap file, as docs/FORMATS.md has them; its faults are those of that document."""
    data = read_bytes(name)
    orders = {b"\xd4\xc3\xb2\xa1": ("<", 1), b"\xa1\xb2\xc3\xd4": (">", 1), b"\x4d\x3c\xb2\xa1": ("<", 1000), b"\xa1\xb2\x3c\x4d": (">", 1000)}
    if len(data) < 24 and data[:2] not in hints.PACKED:
        raise refused_capture(name, "short header", data)
    if data[:4] not in orders:
        raise Trouble(f"{name}: bad magic; {hints.unpacked_hint(name, data)}")
    order, divisor = orders[data[:4]]
    if struct.unpack_from(order + "HH", data, 4) != (2, 4):
        raise refused_capture(name, "bad version", data)
    link = struct.unpack_from(order + "I", data, 20)[0] & 0xFFFF
    if link not in LINKS:
        raise refused_capture(name, f"link type {link}", data)
    frames, at, header, size = [], 24, struct.Struct(order + "IIII"), len(data)
    while at < size:
        if at + 16 > size:
            raise refused_capture(name, f"record {len(frames)} cut at offset {at}", data)
        seconds, fraction, captured, length = header.unpack_from(data, at)
        end = at + 16 + captured
        if captured > LONGEST_FRAME or fraction >= 1_000_000 * divisor or end > size:
            what = "too long" if captured > LONGEST_FRAME else f"cut at offset {at}" if fraction < 1_000_000 * divisor else "fraction"
            raise refused_capture(name, f"record {len(frames)} {what}", data)
        frames.append(Frame(seconds * 1_000_000 + fraction // divisor, link, data[at + 16 : end], length))
        at = end
    return frames


def refused_capture(name, fault, data):
    return Trouble(f"{name}: {fault}; {hints.capture_hint(name, fault, data)}")


def write_capture(name, frames, link):
    """A capture of these frames with times in microseconds."""
    pieces = [struct.pack("<IHHIIII", 0xA1B2C3D4, 2, 4, 0, 0, LONGEST_FRAME, link)]
    for frame in frames:
        seconds, fraction = divmod(frame.moment, 1_000_000)
        pieces += [struct.pack("<IIII", seconds, fraction, len(frame.data), frame.length), frame.data]
    try:
        with open(name, "wb") as file:
            file.write(b"".join(pieces))
    except OSError as error:
        raise Trouble(f"{name}: {error.strerror}") from error


@functools.lru_cache(maxsize=1 << 17)
def address_text(number):
    return ".".join(str(number >> shift & 255) for shift in (24, 16, 8, 0))


@functools.lru_cache(maxsize=1 << 17)
def address_number(text):
    parts = text.split(".")
    if len(parts) != 4 or not all(part.isdigit() and int(part) < 256 for part in parts):
        raise Trouble(f"no address: {text}")
    return sum(int(part) << shift for part, shift in zip(parts, (24, 16, 8, 0)))


def network_packet(frame):
    """The bytes of the IP packet, or the Packet that says why there is none."""
    data = frame.data
    if frame.link == 1:
        if data[12:14] == b"\x08\x00":
            return data[14:]
        if len(data) < 14:
            return Packet("invalid", "the Ethernet header is cut")
        kind = struct.unpack_from(">H", data, 12)[0]
        names = {0x8100: "a VLAN tag", 0x88A8: "a VLAN tag", 0x86DD: "IPv6", 0x0806: "ARP"}
        return Packet("link", f"its Ethernet type is 0x{kind:04x}, {names.get(kind, 'which is not IPv4')}")
    if data and data[0] >> 4 == 6:
        return Packet("link", "it is IPv6")
    return data


def packet_of(frame):
    """What the headers of a frame say, near enough to tell a user; the program's own reading is the one that counts."""
    data = network_packet(frame)
    if isinstance(data, Packet):
        return data
    if len(data) < 20 or data[0] >> 4 != 4 or data[0] & 15 < 5:
        return Packet("invalid", "the IP header is cut, or is none of version 4")
    total, offset, number, source, target = IP_HEADER.unpack_from(data, 2)
    header, name = (data[0] & 15) * 4, PROTOCOLS.get(number)
    if total < header:
        return Packet("invalid", "the IP total length is less than its header")
    if offset & 0x3FFF:
        return Packet("fragment", "it is a fragment of an IP packet", name, source, target)
    if not name:
        return Packet("protocol", f"its IP protocol is {number}, and not ICMP, TCP or UDP", None, source, target)
    return READERS[name](data[header:total], total - header, source, target)


def in_zone(packet, zone):
    """A packet of a capture of this zone."""
    return packet._replace(flow=packet.flow._replace(zone=zone)) if zone and packet.flow else packet


def read_udp(body, length, source, target):
    if length < 8 or len(body) < 6 or not 8 <= struct.unpack_from(">H", body, 4)[0] <= length:
        return Packet("invalid", "the UDP header is cut, or its length is wrong", "udp", source, target)
    first, second = struct.unpack_from(">HH", body)
    return Packet("flow", None, "udp", source, target, first, second, None, body[8:], Flow("udp", source, target, first, second))


def read_tcp(body, length, source, target):
    if length < 20 or len(body) < 14 or not 20 <= (body[12] >> 4) * 4 <= length:
        return Packet("invalid", "the TCP header is cut, or its length is wrong", "tcp", source, target)
    first, second = struct.unpack_from(">HH", body)
    if body[13] & 0x37 not in VALID_FLAGS:
        return Packet("invalid", f"no connection has the flags {flag_text(body[13])}", "tcp", source, target, first, second, body[13])
    flow = Flow("tcp", source, target, first, second)
    return Packet("flow", None, "tcp", source, target, first, second, body[13], body[(body[12] >> 4) * 4 :], flow)


def read_icmp(body, length, source, target):
    if length < 8 or len(body) < 6:
        return Packet("invalid", "the ICMP header is cut", "icmp", source, target)
    if body[0] in ICMP_PAIRS:
        identifier, second = struct.unpack_from(">H", body, 4)[0], body[0] * 256 + body[1]
        return Packet("flow", None, "icmp", source, target, identifier, second, flow=Flow("icmp", source, target, identifier, second))
    if body[0] not in ICMP_ERRORS:
        return Packet("invalid", f"ICMP type {body[0]} is neither a query, an answer nor an error", "icmp", source, target)
    inner = body[8:]
    if len(inner) < 20 or inner[0] >> 4 != 4:
        return Packet("invalid", "the packet that the ICMP error repeats is cut", "icmp", source, target)
    about = packet_text_short(inner)
    return Packet("error", f"an ICMP error of type {body[0]} code {body[1]} about {about}", "icmp", source, target, payload=inner)


READERS = {"icmp": read_icmp, "tcp": read_tcp, "udp": read_udp}


def inner_flow(packet, zone=0):
    """The flow of the packet that an ICMP error of this zone repeats, as that packet had it, or None."""
    inner = packet.payload
    header, name = (inner[0] & 15) * 4, PROTOCOLS.get(inner[9])
    if not name or header < 20 or len(inner) < header + (6 if name == "icmp" else 4):
        return None
    source, target = struct.unpack_from(">II", inner, 12)
    if name == "icmp":
        kind, code, _, identifier = struct.unpack_from(">BBHH", inner, header)
        return Flow(name, source, target, identifier, kind * 256 + code, zone) if kind in ICMP_PAIRS else None
    return Flow(name, source, target, *struct.unpack_from(">HH", inner, header), zone)


def packet_text_short(inner):
    """The ends of the packet that an ICMP error repeats."""
    header = (inner[0] & 15) * 4
    source, target = (address_text(number) for number in struct.unpack_from(">II", inner, 12))
    name = PROTOCOLS.get(inner[9], f"protocol {inner[9]}")
    if name in ("tcp", "udp") and len(inner) >= header + 4:
        first, second = struct.unpack_from(">HH", inner, header)
        return f"{name} {source}:{first} > {target}:{second}"
    return f"{name} {source} > {target}"


def flag_text(flags):
    return "+".join(name for bit, name in FLAG_LETTERS if flags & bit) or "none"


def kind_text(packet):
    """The kind of a segment: what of its flags counts."""
    flags = packet.flags
    for mask, name in ((0x04, "RST"), (0x12, "SYN+ACK"), (0x02, "SYN"), (0x01, "FIN"), (0x10, "ACK")):
        if flags & mask == mask:
            return name
    return "segment with neither flag"


def packet_text(frame):
    """The headers of a frame in one line."""
    packet = packet_of(frame)
    if packet.source is None:
        return f"{len(frame.data)} bytes: {packet.why}"
    source, target = address_text(packet.source), address_text(packet.target)
    if packet.kind != "flow":
        return f"{packet.proto or 'ip'} {source} > {target}: {packet.why}"
    text = ends_text(packet.flow)
    if packet.proto == "tcp":
        text += f" {flag_text(packet.flags)}"
    return text + (f", {len(packet.payload)} bytes of data" if packet.payload else "")


# Flows


def inverse(flow):
    """The tuple of the packets that go the other way."""
    if flow.proto == "icmp":
        return Flow("icmp", flow.target, flow.source, flow.first, ICMP_PAIRS[flow.second >> 8] * 256 + flow.second % 256, flow.zone)
    return Flow(flow.proto, flow.target, flow.source, flow.second, flow.first, flow.zone)


@functools.lru_cache(maxsize=1 << 18)
def pair_of(flow):
    """A name of a flow that is the same in both directions."""
    return min(flow, inverse(flow))


def ends_text(flow):
    """A flow, with its zone where that is not 0."""
    source, target = address_text(flow.source), address_text(flow.target)
    if flow.proto == "icmp":
        return f"icmp {source} > {target} type {flow.second >> 8} code {flow.second & 255} id {flow.first}{zone_text(flow.zone)}"
    return f"{flow.proto} {source}:{flow.first} > {target}:{flow.second}{zone_text(flow.zone)}"


def zone_text(zone):
    """A zone as a report prints it: 0 is not said."""
    return f" zone={zone}" if zone else ""


def tuple_text(flow):
    """A tuple as a report prints it."""
    ends = f"src={address_text(flow.source)} dst={address_text(flow.target)}"
    if flow.proto == "icmp":
        return f"{ends} type={flow.second >> 8} code={flow.second & 255} id={flow.first}"
    return f"{ends} sport={flow.first} dport={flow.second}"


def flow_of_words(proto, words, zone=0):
    """The tuple of these words of a report, in a zone."""
    source, target = address_number(words[0][4:]), address_number(words[1][4:])
    if proto == "icmp":
        return Flow(proto, source, target, int(words[4][3:]), int(words[2][5:]) * 256 + int(words[3][5:]), zone)
    return Flow(proto, source, target, int(words[2][6:]), int(words[3][6:]), zone)


def zone_of_words(words):
    """The zone that ends these words, 0 where none does. None is said elsewhere, and 0 never is."""
    said = [word for word in words if word.startswith("zone=")]
    if not said:
        return 0
    if len(said) > 1 or words[-1] != said[0] or not re.fullmatch(r"zone=[1-9]\d{0,4}", said[0]) or int(said[0][5:]) > MOST_ZONE:
        raise ValueError("a zone that no report has")
    return int(said[0][5:])


# Reports


def read_report(name):
    """The events of a report, the verdict lines of each thread, the lines of the script's part, what a listener heard, and how
    packets leave."""
    lines = read_lines(name)
    if not lines or not lines[0].startswith("events "):
        raise Trouble(f"{name}: no report of ctreplay (a report begins with 'events N'; --summary prints none)")
    try:
        return split_report(lines)
    except (IndexError, ValueError, KeyError, Trouble) as error:
        raise Trouble(f"{name}: {DAMAGED}") from error


def split_report(lines):
    count = int(lines[0].split()[1])
    events = [event_of(line) for line in lines[1 : count + 1]]
    threads, at = [], count + 1
    while lines[at].startswith("thread "):
        packets = int(lines[at].split()[3])
        verdicts = [line.split(" ", 1)[1] for line in lines[at + 1 : at + 1 + packets]]
        if len(verdicts) != packets:
            raise ValueError("verdicts are missing")
        threads.append(verdicts)
        at += 1 + packets
    if not lines[at].startswith("script "):
        raise ValueError("the script's part is missing")
    leaves = next((place for place in range(at, len(lines)) if lines[place].startswith("rewrite")), len(lines))
    end = next((place for place in range(at, leaves) if lines[place].startswith("heard")), leaves)
    return Report(events, threads, lines[at:end], lines[end:leaves], lines[leaves:])


class Event:
    """An event of the history: its number, its kind, who made it, the entry that it is of, its line, the deadline that it gives
    that entry or None, of a confirm both tuples, and of a confirm or an expect the zone."""

    __slots__ = ("number", "kind", "thread", "index", "entry", "text", "until", "flows", "zone")

    @property
    def fields(self):
        """What stands behind the tuples as NAME=VALUE."""
        return dict(word.split("=", 1) for word in self.text.split() if "=" in word)


def event_of(line):
    words, event = line.split(), Event()
    event.number, event.kind, event.text, event.until, event.flows, event.zone = int(words[0]), words[1], line, None, None, None
    thread, _, index = words[2].partition(".")
    event.thread, event.index = thread if thread == "s" else int(thread), int(index)
    if event.kind == "touch":
        event.entry, event.until = int(words[3][3:]), int(words[5][6:])
    elif event.kind == "confirm":
        width, event.zone = 5 if words[3] == "icmp" else 4, zone_of_words(words) if " zone=" in line else 0
        event.flows = tuple(flow_of_words(words[3], words[at : at + width], event.zone) for at in (4, 4 + width))
        event.entry, event.until = event.number, int(words[4 + 2 * width][6:])
    else:
        fields = event.fields
        event.entry = int(fields.get("id", fields.get("master", -1)))
        event.zone = zone_of_words(words) if event.kind == "expect" else None
    if event.zone is None and " zone=" in line:
        raise ValueError("a zone where none is said")
    return event


def verdict_of(text):
    """A verdict: its first word, its second where that is a reason, the entry, and the first point; of FULL the second one too."""
    words = text.split()
    if len(words) == 3 and words[1][:3] == "id=":
        return Verdict(words[0], None, int(words[1][3:]), int(words[2][1:]))
    entry = point = why = None
    for word in words[1:]:
        if word[0] == "@":
            point = int(word[1:])
            break
        if word.startswith("id="):
            entry = int(word[3:])
        else:
            why = word
    if words[0] == "FULL":
        return Verdict("FULL", None, None, point, int(words[2][1:]))
    return Verdict(words[0], why, entry, point)


def check_history(report, sizes):
    """Each event has its number, was made by a packet that is there, and is of an entry that is live; no two live entries share a tuple."""
    live, taken = set(), set()
    for at, event in enumerate(report.events):
        if event.number != at or event.thread != "s" and not 0 <= event.index < sizes[event.thread]:
            raise ValueError("an event of no packet, or with another number")
        if event.kind == "confirm":
            live.add(at)
            if not taken.isdisjoint(event.flows):
                raise ValueError("a tuple that is live is taken again")
            taken.update(event.flows)
        elif event.kind in ("touch", "destroy", "expect", "claim") and event.entry not in live:
            raise ValueError("an event of no live entry")
        if event.kind == "destroy":
            live.remove(event.entry)
            taken.difference_update(report.events[event.entry].flows)
        if event.kind in ("expect", "claim") or event.kind == "confirm" and " master=" in event.text:
            check_master(report.events, event)


def check_master(events, event):
    """What an entry expects, and what begins by that, is in its zone."""
    fields = event.fields
    master = events[int(fields["master"])]
    if master.kind != "confirm" or event.zone not in (None, master.zone):
        raise ValueError("an entry or an expectation in another zone than its master")
    if event.kind == "claim" and (events[int(fields["expect"])].kind, events[int(fields["expect"])].entry) != ("expect", event.entry):
        raise ValueError("a claim of what was not expected")


def check_verdicts(events, threads):
    """Each verdict is of an entry that was confirmed, and of a point that was reached."""
    for verdicts in threads:
        for verdict in verdicts:
            if verdict.entry is not None and events[verdict.entry].kind != "confirm" or (verdict.point or 0) > len(events):
                raise ValueError("a verdict of no entry, or of no point")
            if verdict.point is None and verdict.word in REFUSED:
                raise ValueError("a verdict without its point")
            if verdict.last is not None and not verdict.point <= verdict.last <= len(events):
                raise ValueError("a verdict whose points fall, or were not reached")


def zones_said(report, verdicts):
    """The zone of each capture, by the entries of its packets, or None where none has one. Room alone is shared: a packet
    may drop an entry of another zone."""
    found = [set() for _ in verdicts]
    for event in report.events:
        if event.thread != "s" and event.kind != "unexpect" and not event.text.endswith(" dropped"):
            found[event.thread].add(report.events[event.entry].zone)
    for said, own in zip(found, verdicts):
        said.update(report.events[verdict.entry].zone for verdict in own if verdict.entry is not None)
    if any(len(said) > 1 for said in found) or any(" zone=" in text for texts in report.threads for text in texts):
        raise ValueError("a capture of two zones, or a verdict that says one")
    return [said.pop() if said else None for said in found]


def read_zones(text, count):
    """The zones of so many captures, from the value of --zones."""
    zones = text.split(",")
    if len(zones) != count or not all(re.fullmatch(r"[0-9]{1,5}", zone) and int(zone) <= MOST_ZONE for zone in zones):
        raise Trouble(f"--zones has one number from 0 to {MOST_ZONE} for each capture, {count} here, between commas, and {text} is none such")
    return [int(zone) for zone in zones]


def reassembled(frames, texts):
    """A capture's fragments put together; None where none stayed by the report, and so none was put together."""
    return fragments.Reassembly(frames) if FRAGMENT in texts else None


def check_rows(report):
    """The rows of the script's part are of entries that there were, and of their zones."""
    entries = {event.flows for event in report.events if event.kind == "confirm"}
    for line in report.script:
        if " src=" not in line:
            continue
        *words, point = line.split()
        zone = zone_of_words(words)
        if point[0] != "@":
            raise ValueError("a row without its point")
        if words[1] == "proto=6":
            is_right = report.events[int(words[6][7:])].zone == zone
        else:
            at, width = [place for place, word in enumerate(words) if word.startswith("src=")], 5 if words[0] == "icmp" else 4
            is_right = tuple(flow_of_words(words[0], words[place : place + width], zone) for place in at) in entries
        if not is_right:
            raise ValueError("a row of no entry, or of another zone")


# What a listener heard


def made_counts(report):
    """How many events each thread may have made before all had ended: of a capture's thread the number of its events, and of the
    script's, as no report says where `wait` stands, what each number of its first commands made."""
    counts, commands = [0] * len(report.threads), [0] * int(report.script[0].split()[1])
    for event in report.events:
        if event.thread == "s":
            commands[event.index] += 1
        else:
            counts[event.thread] += 1
    return [*([count] for count in counts), sorted({sum(commands[:number]) for number in range(len(commands) + 1)})]


def heard_of(line):
    """What a line says was heard of a thread."""
    found = HEARD.fullmatch(line)
    if not found:
        raise Trouble(f"'{line}' is no line of what a listener heard")
    thread, heard, made = found.groups()
    return Heard(thread if thread == "s" else int(thread), int(heard), int(made), line)


def read_heard(report):
    """What a listener heard of each thread, by the lines behind the script's part; nothing where there are none.

    They are those of all captures, in order, and of the script; each has the number of the thread's own events, and as many
    of them were heard as the thread's queue holds, or all.
    """
    found = [heard_of(line) for line in report.heard]
    names = [*range(len(report.threads)), "s"]
    if found and [it.thread for it in found] != names:
        said, wanted = (", ".join(str(name) for name in it) for it in ((it.thread for it in found), names))
        raise Trouble(f"the lines of what a listener heard are of the threads {said}, and the threads are {wanted}")
    for it, counts in zip(found, made_counts(report)):
        if it.made not in counts:
            raise Trouble(f"'{it.text}', but {made_text(it.thread, counts)}")
        if not min(it.made, QUEUE) <= it.heard <= it.made:
            raise Trouble(f"'{it.text}', but of {it.made} events at least {min(it.made, QUEUE)} are heard, and at most all")
    return found


def made_text(thread, counts):
    if thread != "s":
        return f"thread {thread} made {counted(counts[0], 'event')}"
    return f"the script's first commands, however many, made {' or '.join(map(str, counts))} events"


class Work:
    """A report with its captures, of which each has to have a frame for each verdict, and the zone of each capture.

    A report says a capture's zone by its entries alone; `zones`, the value of --zones, says it where there is none. It says
    by its datagrams alone that it was made with --defrag; `defrag` says it where there is none. Then the captures are those
    with their fragments put together, and `whole` has how. `heard` is what a listener was told of each thread, where the report
    was made with --listen; `rewrites` is how packets leave, where it was made with --rewrite, and else None.
    """

    def __init__(self, report_name, names, zones=None, defrag=False):
        self.report, self.names = read_report(report_name), names
        self.captures = [read_capture(name) for name in names]
        wanted, found = [len(verdicts) for verdicts in self.report.threads], [len(frames) for frames in self.captures]
        if wanted != found:
            raise Trouble(f"{report_name} is a report of other captures: it has {wanted} packets, and these have {found}")
        try:
            check_history(self.report, found)
            self.verdicts = [[verdict_of(text) for text in texts] for texts in self.report.threads]
            check_verdicts(self.report.events, self.verdicts)
            check_rows(self.report)
            said = zones_said(self.report, self.verdicts)
        except (IndexError, ValueError, KeyError, Trouble) as error:
            raise Trouble(f"{report_name}: {DAMAGED}") from error
        self.heard = self.read_heard(report_name)
        self.zones = self.zones_of(report_name, said, zones)
        self.whole = [reassembled(frames, texts) for frames, texts in zip(self.captures, self.report.threads)]
        self.defrag = self.find_defrag(report_name, defrag)
        if self.defrag:
            self.captures = [whole.frames if whole else frames for frames, whole in zip(self.captures, self.whole)]
        self.check_fragments(report_name)
        self.check_packets(report_name)
        self.rewrites = self.read_rewrites(report_name)

    def read_heard(self, report_name):
        try:
            return read_heard(self.report)
        except Trouble as error:
            raise Trouble(f"{report_name}: {DAMAGED}: {error}") from error

    def read_rewrites(self, report_name):
        try:
            return replay_rewrites.read_rewrites(self.report, self.segment_of)
        except replay_rewrites.Wrong as error:
            raise Trouble(f"{report_name}: {DAMAGED}: {error}") from error

    def segment_of(self, thread, index):
        """The sequence and the acknowledgment number of a packet of TCP, and its payload."""
        return replay_rewrites.numbers_in(network_packet(self.captures[thread][index])), self.packets[thread][index].payload

    def zones_of(self, report_name, said, text):
        """The zone of each capture: what the report says, and where that is nothing what --zones says."""
        given = read_zones(text, len(self.names)) if text is not None else [None if any(said) else 0] * len(self.names)
        zones = []
        for thread, (zone, named) in enumerate(zip(said, given)):
            if zone is not None and named is not None and text is not None and zone != named:
                raise Trouble(f"--zones {text} is not the report's: in {report_name} capture {thread}, {self.names[thread]}, has zone {zone}")
            chosen = named if zone is None else zone
            if chosen is None and any(verdict.point is not None for verdict in self.verdicts[thread]):
                raise Trouble(f"{report_name} does not say which zone {self.names[thread]} has, as none of its packets has an entry: --zones LIST says it")
            zones.append(chosen or 0)
        return zones

    def find_defrag(self, report_name, asked):
        """Whether the report was made with --defrag: by what it says of the frames that complete datagrams, or else as asked."""
        said = [self.report.threads[thread][index] != FRAGMENT for thread, whole in enumerate(self.whole) if whole for index in whole.completed]
        if any(said) and not all(said):
            raise Trouble(f"{report_name}: {DAMAGED}")
        if said and asked and not said[0]:
            raise Trouble(f"{report_name} was made without --defrag: its captures have datagrams to be put together, and it has none")
        return asked or any(said)

    def check_fragments(self, report_name):
        """Each frame that is a fragment has that verdict, and no other has it."""
        for packets, texts in zip(self.packets, self.report.threads):
            if any((packet.kind == "fragment") != (text == FRAGMENT) for packet, text in zip(packets, texts)):
                raise Trouble(f"{report_name}: {DAMAGED}, or of other captures: of a fragment it says something else, or of another packet that it is one")

    def why_of(self, thread, index, first=0):
        """Why a packet is untracked, invalid or an error; of a fragment, where these were put together, what became of it."""
        packet = self.packets[thread][index]
        if packet.kind == "fragment" and self.defrag:
            return fragments.fragment_text(self.whole[thread], index, first)
        return packet.why

    def whole_of(self, thread, index, first=0):
        """Of which packets a packet was put together, or nothing."""
        group = self.whole[thread].completed.get(index) if self.defrag and self.whole[thread] else None
        return fragments.whole_text(group, first) if group else ""

    def check_packets(self, report_name):
        """Each packet that began or renewed an entry has one of its tuples: of a confirm the original one.

        A packet that is not read here may be one that the program reads, so it tells nothing.
        """
        events = self.report.events
        for event in events:
            if event.thread == "s" or event.kind not in ("confirm", "touch"):
                continue
            packet, flows = self.packets[event.thread][event.index], events[event.entry].flows
            if packet.kind == "invalid" or packet.flow in (flows[:1] if event.kind == "confirm" else flows):
                continue
            frame = self.captures[event.thread][event.index]
            raise Trouble(
                f"{report_name} is no report of {self.names[event.thread]}: by its event {event.number} packet {event.index} is of"
                f" {ends_text(flows[0])}, and there it is {packet_text(frame)}"
            )

    @functools.cached_property
    def packets(self):
        return [[in_zone(packet_of(frame), zone) for frame in frames] for frames, zone in zip(self.captures, self.zones)]

    @functools.cached_property
    def start(self):
        return min((frame.moment for frames in self.captures for frame in frames), default=0)

    @functools.cached_property
    def end(self):
        return max((frame.moment for frames in self.captures for frame in frames), default=0)

    def moment_of(self, event):
        """When an event was: its packet's time; of a command of the script, the latest time of all frames."""
        return self.end if event.thread == "s" else self.captures[event.thread][event.index].moment

    def judged(self):
        """Thread, index, frame, packet and verdict of each packet."""
        for thread, frames in enumerate(self.captures):
            yield from (
                (thread, index, frame, packet, verdict)
                for index, (frame, packet, verdict) in enumerate(zip(frames, self.packets[thread], self.verdicts[thread]))
            )

    def name_of(self, thread, index, first=0):
        """What to call a packet, or the maker of an event; with several captures the capture is named."""
        if thread == "s":
            return f"command {index} of the script"
        where = f" of capture {thread}" if len(self.captures) > 1 else ""
        return f"packet {index + first}{where}"


# Rules


def read_rules(name):
    """The rules of a file that ctreplay takes."""
    rules = []
    for number, line in enumerate(read_lines(name), 1):
        words = line.split()
        if not words or words[0].startswith("#"):
            continue
        try:
            rules.append(rule_of(number, words))
        except (IndexError, ValueError, Trouble) as error:
            raise Trouble(f"{name}: line {number} is no rule") from error
    return rules


def rule_of(number, words):
    if words[0] not in ("snat", "dnat") or words[-2] != "to":
        raise ValueError("no rule")
    options = dict(zip(words[1:-2:2], words[2:-2:2]))
    if len(words) % 2 == 0 or not options.keys() <= {"-p", "-s", "-d", "--sport", "--dport"}:
        raise ValueError("no rule")
    address, _, ports = words[-1].partition(":")
    low, _, high = ports.partition("-")
    low, high = (int(low), int(high or low)) if ports else (None, None)
    return Rule(number, words[0], options, address_number(address), low, high, " ".join(words), test_of(options))


def test_of(options):
    """The options of a rule in the form in which flows are compared with them."""
    pieces = [options.get("-p")]
    for name in ("-s", "-d"):
        base, _, length = options.get(name, "0.0.0.0/0").partition("/")
        shift = 32 - int(length or 32)
        pieces += [address_number(base) >> shift, shift]
    return (*pieces, *(int(options[name]) if name in options else None for name in ("--sport", "--dport")))


def is_for(rule, flow):
    proto, source, source_shift, target, target_shift, first, second = rule.test
    return (
        (proto is None or proto == flow.proto)
        and flow.source >> source_shift == source
        and flow.target >> target_shift == target
        and (first is None or first == flow.first)
        and (second is None or second == flow.second)
    )


def rule_for(rules, flow):
    """The first rule for a tuple, or None."""
    for rule in rules:
        if is_for(rule, flow):
            return rule
    return None


def numbers_of(rule, flow):
    """The lowest and the highest number that a rule may give a flow: a port, or of ICMP the identifier."""
    if flow.proto == "icmp":
        return 0, 65535
    if rule.low is not None:
        return rule.low, rule.high
    if rule.side == "dnat":
        return flow.second, flow.second
    return (1, 511) if flow.first < 512 else (600, 1023) if flow.first < 1024 else (1024, 65535)


def number_given(rule, flow, reply):
    """The number that a flow came with, and the one that its reply tuple has for it."""
    if flow.proto == "icmp":
        return flow.first, reply.first
    return (flow.first, reply.second) if rule.side == "snat" else (flow.second, reply.first)
