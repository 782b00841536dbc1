"""What a tracker does, from docs/FORMATS.md and docs/DEFINITIONS.md and not from the program: how captures, rules and scripts
are read, which replies a rule gives, and the tables of the protocols. A module of report_check.py.
"""
import re
import struct
from collections import namedtuple

SECOND = 1_000_000
STATES = "NONE SYN_SENT SYN_RECV ESTABLISHED FIN_WAIT CLOSE_WAIT LAST_ACK TIME_WAIT CLOSE SYN_SENT2".split()
SHORT = dict(zip("NO SS SR ES FW CW LA TW CL S2".split(), STATES))
# A row for each kind of segment, a column for each old state; IV is invalid, IG ignored.
ORIGINAL = {
    "SYN": "SS SS IG IG IG IG IG SS SS S2",
    "SYN+ACK": "IV IV SR IV IV IV IV IV IV SR",
    "FIN": "IV IV FW FW LA LA LA TW CL IV",
    "ACK": "ES IV ES ES CW CW TW TW CL IV",
    "RST": "IV CL CL CL CL CL CL CL CL CL",
    "BARE": "IV IV IV IV IV IV IV IV IV IV",
}
REPLY = {
    "SYN": "IV S2 IV IV IV IV IV SS IV S2",
    "SYN+ACK": "IV SR IG IG IG IG IG IG IG SR",
    "FIN": "IV IV FW FW LA LA LA TW CL IV",
    "ACK": "IV IG SR ES CW CW TW TW CL IG",
    "RST": "IV CL CL CL CL CL CL CL CL CL",
    "BARE": "IV IV IV IV IV IV IV IV IV IV",
}
# States of a connection that is coming to its end.
ENDING = ("FIN_WAIT", "CLOSE_WAIT", "LAST_ACK", "TIME_WAIT", "CLOSE")
TIMEOUTS = dict(zip(STATES, (0, 120, 60, 432000, 120, 60, 30, 120, 10, 120)))
NUMBERS = {"icmp": 1, "tcp": 6, "udp": 17}
PARTNERS = {8: 0, 0: 8, 13: 14, 14: 13, 15: 16, 16: 15, 17: 18, 18: 17}
ASKS = (8, 13, 15, 17)

Tuple = namedtuple("Tuple", "proto source destination first second zone", defaults=[0])
# Of a segment of TCP `numbers` are its sequence and its acknowledgment number.
Packet = namedtuple("Packet", "moment tuple kind payload numbers", defaults=[None])
Part = namedtuple("Part", "state replied assured deadline")
Rule = namedtuple("Rule", "kind options address low high")
Command = namedtuple("Command", "word options moment")
Inputs = namedtuple("Inputs", "captures rules commands wait entries ports listen rewrite", defaults=[False, False])


class Refused(Exception):
    """A report that is not well-formed, with the reason."""


def want(truth, why):
    if not truth:
        raise Refused(why)


# The inputs.


def kind_of(flags):
    if flags & 4:
        return "RST"
    if flags & 2:
        return "SYN+ACK" if flags & 16 else "SYN"
    if flags & 1:
        return "FIN"
    return "ACK" if flags & 16 else "BARE"


def packet_of(frame, moment):
    header = 4 * (frame[0] & 15)
    total = struct.unpack(">H", frame[2:4])[0]
    body = frame[header:total]
    source, destination = struct.unpack(">II", frame[12:20])
    first, second = struct.unpack(">HH", body[:4])
    if frame[9] == 17:
        return Packet(moment, Tuple("udp", source, destination, first, second), None, b"")
    if frame[9] == 6:
        payload = body[4 * (body[12] >> 4) :]
        return Packet(moment, Tuple("tcp", source, destination, first, second), kind_of(body[13]), payload, struct.unpack(">II", body[4:12]))
    if frame[9] != 1 or body[0] not in PARTNERS:
        raise ValueError("a packet that this checker does not know")
    number = struct.unpack(">H", body[4:6])[0]
    return Packet(moment, Tuple("icmp", source, destination, number, first), None, b"")


def read_capture(data):
    """The packets of a capture in microseconds whose numbers have the lowest byte first."""
    magic, _, _, _, _, _, link = struct.unpack("<IHHIIII", data[:24])
    if magic != 0xA1B2C3D4 or link not in (1, 101):
        raise ValueError("a capture that this checker does not know")
    packets, at = [], 24
    while at < len(data):
        seconds, micros, length, _ = struct.unpack("<IIII", data[at : at + 16])
        frame = data[at + 16 : at + 16 + length]
        packets.append(packet_of(frame[14:] if link == 1 else frame, seconds * SECOND + micros))
        at += 16 + length
    return packets


def address_of(text):
    parts = [int(part) for part in text.split(".")]
    return (parts[0] << 24) + (parts[1] << 16) + (parts[2] << 8) + parts[3]


def address_text(address):
    return ".".join(str(address >> shift & 255) for shift in (24, 16, 8, 0))


def words_of(text):
    lines = [line.split() for line in text.splitlines()]
    return [words for words in lines if words and not words[0].startswith("#")]


def options_of(words):
    return dict(zip(words[::2], words[1::2]))


def read_rules(text):
    rules = []
    for words in words_of(text):
        address, _, ports = words[-1].partition(":")
        low, _, high = ports.partition("-")
        bounds = (int(low), int(high or low)) if low else (None, None)
        rules.append(Rule(words[0], options_of(words[1:-2]), address_of(address), *bounds))
    return rules


def read_script(text):
    """The commands, and how many stand above `wait`."""
    commands, wait = [], None
    for words in words_of(text):
        if words[0] == "wait":
            wait = len(commands)
        elif words[0] == "expire":
            commands.append(Command("expire", {}, int(words[1])))
        elif words[1:] == ["expect"]:
            commands.append(Command("-L expect", {}, None))
        else:
            commands.append(Command(words[0], options_of(words[1:]), None))
    return commands, len(commands) if wait is None else wait


def inputs_of(captures, rules="", script="", entries=65536, ports=(21,), zones=None, listen=False, rewrite=False):
    commands, wait = read_script(script)
    packets = [read_capture(data) for data in captures]
    return Inputs(in_zones(packets, zones or [0] * len(captures)), read_rules(rules), commands, wait, entries, ports, listen, rewrite)


def in_zones(captures, zones):
    """The packets of captures, each of its capture's zone."""
    return [
        [packet._replace(tuple=packet.tuple._replace(zone=zone)) for packet in packets]
        for packets, zone in zip(captures, zones, strict=True)
    ]


def zone_text(zone):
    """What of a zone is said at the end of a line: nothing where it is 0."""
    return f" zone={zone}" if zone else ""


# Flows.


def tuple_text(flow):
    ends = f"src={address_text(flow.source)} dst={address_text(flow.destination)}"
    if flow.proto == "icmp":
        return f"{ends} type={flow.second >> 8} code={flow.second & 255} id={flow.first}"
    return f"{ends} sport={flow.first} dport={flow.second}"


def inverse(flow):
    if flow.proto == "icmp":
        second = PARTNERS[flow.second >> 8] * 256 + flow.second % 256
        return Tuple("icmp", flow.destination, flow.source, flow.first, second, flow.zone)
    return Tuple(flow.proto, flow.destination, flow.source, flow.second, flow.first, flow.zone)


def is_within(address, network):
    base, _, length = network.partition("/")
    shift = 32 - int(length or 32)
    return address >> shift == address_of(base) >> shift


def is_meant(options, original, reply):
    tests = {
        "-p": lambda value: original.proto == value,
        "-s": lambda value: is_within(original.source, value),
        "-d": lambda value: is_within(original.destination, value),
        "-r": lambda value: is_within(reply.source, value),
        "-q": lambda value: is_within(reply.destination, value),
        "--sport": lambda value: original.first == int(value),
        "--dport": lambda value: original.second == int(value),
        "-w": lambda value: original.zone == int(value),
    }
    return all(tests[name](value) for name, value in options.items())


def rule_for(rules, flow):
    for rule in rules:
        if is_meant(rule.options, flow, inverse(flow)):
            return rule
    return None


def fits_number(rule, own, number):
    if rule.low is not None:
        return rule.low <= number <= rule.high
    if number == own:
        return True
    if own < 512:
        return 1 <= number < 512
    return 600 <= number < 1024 if own < 1024 else number >= 1024


def is_reply_of(rules, flow, reply):
    """Whether the replies of this flow may have this tuple."""
    rule, plain = rule_for(rules, flow), inverse(flow)
    if rule is None:
        return reply == plain
    if rule.kind == "snat":
        plain = plain._replace(destination=rule.address)
        field = "first" if flow.proto == "icmp" else "second"
    else:
        plain = plain._replace(source=rule.address)
        field = "first"
    number = getattr(reply, field)
    if flow.proto != "icmp" and not fits_number(rule, getattr(plain, field), number):
        return False
    return reply == plain._replace(**{field: number})


def lifetime(proto, state, replied_before, replied):
    if proto == "icmp":
        return 30
    if proto == "udp":
        return 120 if replied else 30
    return 300 if state == "ESTABLISHED" and not replied_before else TIMEOUTS[state]


def start_of(packet):
    """The part that an entry begins with, or none."""
    proto, state = packet.tuple.proto, None
    if proto == "icmp" and packet.tuple.second >> 8 not in ASKS:
        return None
    if proto == "tcp":
        cell = ORIGINAL[packet.kind].split()[0]
        if cell in ("IV", "IG"):
            return None
        state = SHORT[cell]
    return Part(state, False, False, packet.moment + lifetime(proto, state, False, False) * SECOND)


def step_of(part, direction, packet):
    """What the packet does to an entry of this part, and the part that it leaves."""
    if part.deadline <= packet.moment:
        return "expired", None
    proto, state = packet.tuple.proto, part.state
    if proto == "tcp":
        if packet.kind == "RST" and not part.replied:
            return "reset", None
        table = ORIGINAL if direction == "original" else REPLY
        cell = table[packet.kind].split()[STATES.index(part.state)]
        if cell in ("IV", "IG"):
            return ("invalid" if cell == "IV" else "ignored"), None
        state = SHORT[cell]
        if state == "SYN_SENT" and part.state in ("TIME_WAIT", "CLOSE"):
            return "reopened", None
    replied = part.replied or direction == "reply"
    assured = part.assured
    if proto == "udp":
        assured = assured or (direction == "original" and part.replied)
    if proto == "tcp":
        assured = assured or (part.replied and part.state in ("SYN_RECV", "ESTABLISHED") and state == "ESTABLISHED")
    deadline = packet.moment + lifetime(proto, state, part.replied, replied) * SECOND
    return "accepted", Part(state, replied, assured, deadline)


def may_go(part, moment):
    """Whether a full table may drop an entry of this part for a packet of this moment."""
    return part.deadline <= moment or not part.assured or part.state in ENDING


SIX = rb"(\d{1,3}),(\d{1,3}),(\d{1,3}),(\d{1,3}),(\d{1,3}),(\d{1,3})"
DOTS = rb"(\d{1,3})\.(\d{1,3})\.(\d{1,3})\.(\d{1,3})"
# What names an end, as a group, in each direction.
FORMS = {
    "original": (rb"(?i:PORT) (" + SIX + rb")[\r\n]", rb"(?i:EPRT) \|1\|(" + DOTS + rb"\|(\d{1,5}))\|[\r\n]"),
    "reply": (rb"227 [^\d\r\n]*(" + SIX + rb")\D", rb"229 [^(\r\n]*\(\|\|\|((\d{1,5}))\|\)"),
}


def named_span(payload, direction):
    """The address (none where the form has none) and the port that a payload names, and from where to where it does; or none."""
    found = next((found for form in FORMS[direction] if (found := re.match(form, payload, re.DOTALL))), None)
    if not found:
        return None
    numbers = [int(number) for number in found.groups()[1:]]
    pair = len(numbers) == 6
    port = numbers[4] * 256 + numbers[5] if pair else numbers[-1]
    if max(numbers if pair else numbers[:-1], default=0) > 255 or not 0 < port < 65536:
        return None
    address = int.from_bytes(bytes(numbers[:4]), "big") if len(numbers) > 1 else None
    return address, port, *found.span(1)


def named_end(packet, direction):
    """The address and the port that the payload names, or none; a form without an address means the sender's own."""
    found = named_span(packet.payload, direction)
    return found and (packet.tuple.source if found[0] is None else found[0], found[1])
