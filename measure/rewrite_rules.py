"""How the packets of a translated FTP session leave, from docs/FORMATS.md and docs/DEFINITIONS.md and not from the program. A module
of report_check.py; .ci/rewrite_checks.py calls it too.

A connection's packets are those that touched its entry, in the order of the history. A packet asks for an edit where its verdict
says what its payload led to expect, the payload names an address, and that is not the expected one's. The lines are of all packets
from the first that makes an edit on.
"""
from tracker_rules import address_text, named_span, want

WRAP, FAR, MOST = 1 << 32, 1 << 31, 64


class Edits:
    """The edits of one direction, each as offset, old length and new length; numbers are counted from the base."""

    def __init__(self, base):
        self.base, self.edits = base, []

    def offset(self, number):
        return (number - self.base) % WRAP

    def add(self, at, old, new):
        """Whether these bytes leave in another form; where they do, from now on."""
        edit = (self.offset(at), old, new)
        if edit in self.edits:
            return True
        behind = sum(self.edits[-1][:2]) if self.edits else 0
        if edit[0] < behind or edit[0] + old >= FAR or len(self.edits) == MOST:
            return False
        self.edits.append(edit)
        return True

    def forward(self, seq):
        """A number plus what the edits before it add; inside replaced bytes it is as at their start."""
        place = self.offset(seq)
        if place >= FAR:
            return seq
        for offset, old, _ in self.edits:
            if offset < place < offset + old:
                place = offset
        return (self.base + place + sum(new - old for offset, old, new in self.edits if offset + old <= place)) % WRAP

    def back(self, ack):
        """The number that moves forward to this one; inside a new text it is the start of what that replaced."""
        place = self.offset(ack)
        if place >= FAR:
            return ack
        more = 0
        for offset, old, new in self.edits:
            if offset + more < place < offset + more + new:
                return (self.base + offset) % WRAP
            if place >= offset + more + new:
                more += new - old
        return (self.base + place - more) % WRAP


class Connection:
    """A control connection: the edits of its directions, each with the number of the direction's first segment as base."""

    def __init__(self, seq):
        self.ways = {"original": Edits(seq)}

    def way(self, direction, seq):
        return self.ways.setdefault(direction, Edits(seq))

    def has_edits(self):
        return any(way.edits for way in self.ways.values())

    def leave(self, direction, numbers):
        """The new numbers of a segment; no edit of the other direction comes before its first segment."""
        other = self.ways.get("reply" if direction == "original" else "original")
        return self.ways[direction].forward(numbers[0]), other.back(numbers[1]) if other else numbers[1]


def new_text(payload, address, port):
    """The text of another end in the form that the payload has, and the bytes of a named end that it takes the place of."""
    if payload[:1] in (b"E", b"e"):
        return f"{address_text(address)}|{port}".encode()
    return ",".join([*address_text(address).split("."), str(port // 256), str(port % 256)]).encode()


def text_of(connection, direction, packet, expected):
    """The payload with which a packet leaves, as its line says it: expected is the address and the port that it led to expect, or
    None."""
    found = named_span(packet.payload, direction) if expected else None
    if not found or found[0] is None or found[0] == expected[0]:
        return ""
    start, end = found[2:]
    text = new_text(packet.payload, *expected)
    if not connection.ways[direction].add((packet.numbers[0] + start) % WRAP, end - start, len(text)):
        return " text=kept"
    return " text=" + (packet.payload[:start] + text + packet.payload[end:]).hex()


def lines_for(touches):
    """The lines of these packets: each as what it does to its entry, `begin`, `touch` or `end`; the entry; and of the first two the
    maker, the direction, the packet, and what it led to expect."""
    connections, lines = {}, []
    for what, entry, maker, direction, packet, expected in touches:
        if what == "begin":
            connections[entry] = Connection(packet.numbers[0])
        if what == "end":
            connections.pop(entry, None)
        if what != "touch" or entry not in connections:
            continue
        connection = connections[entry]
        connection.way(direction, packet.numbers[0])
        text = text_of(connection, direction, packet, expected)
        if connection.has_edits():
            seq, ack = connection.leave(direction, packet.numbers)
            lines.append(f"{maker[0]}.{maker[1]} id={entry} {direction} seq={packet.numbers[0]}>{seq} ack={packet.numbers[1]}>{ack}{text}")
    return [f"rewrite {len(lines)}", *lines]


def touches_of(history, verdicts):
    """What the events of a history say of entries with the helper, in order; verdicts are the lines of each thread."""
    makers = {number: who for who, numbers in history.made.items() for number in numbers}
    for number, kind in enumerate(history.kinds):
        entry, who = history.subjects[number], makers[number]
        if kind not in ("confirm", "touch", "destroy") or not history.entries[entry].helper:
            continue
        if kind == "destroy":
            yield "end", entry, who, None, None, None
            continue
        packet = history.inputs.captures[who[0]][who[1]]
        direction = history.entries[entry].direction(packet.tuple)
        _, _, led = verdicts[who[0]][who[1]].partition(" ftp expect=")
        one = history.expected[int(led)] if led else None
        yield "begin" if kind == "confirm" else "touch", entry, who, direction, packet, (one.destination, one.port) if one else None


def judge_rewrites(history, verdicts, lines):
    """The lines behind all others are those that the history, the verdicts and the packets give; without --rewrite there are none."""
    wanted = lines_for(touches_of(history, verdicts)) if history.inputs.rewrite else []
    for said, right in zip(lines, wanted):
        want(said == right, f"how a packet leaves is: {said}, and not: {right}")
    want(len(lines) == len(wanted), f"{len(lines)} lines say how packets leave, and not {len(wanted)}")
