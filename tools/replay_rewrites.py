"""Reads what a report says of how the packets of a translated FTP session leave, the lines behind `rewrite N`. Used by
replay_files.py; nothing here is proved.
"""
import re
import struct
from collections import namedtuple

# How a packet leaves: its sequence and acknowledgment numbers as they were and as they are then; `text` is the new payload, or
# "kept" where its edit was refused, or None.
Rewrite = namedtuple("Rewrite", "thread packet id direction seq new_seq ack new_ack text line")

NUMBER = r"(0|[1-9]\d*)"
HEAD = re.compile(f"rewrite {NUMBER}")
LINE = re.compile(rf"{NUMBER}\.{NUMBER} id={NUMBER} (original|reply) seq={NUMBER}>{NUMBER} ack={NUMBER}>{NUMBER}(?: text=(kept|(?:[0-9a-f]{{2}})+))?")


class Wrong(Exception):
    """Why these are no such lines."""


def rewrite_of(line):
    """What a line says of how a packet leaves."""
    found = LINE.fullmatch(line)
    if not found:
        raise Wrong(f"'{line}' is no line of how a packet leaves")
    thread, packet, entry, direction, *numbers, text = found.groups()
    numbers = [int(number) for number in numbers]
    if max(numbers) >= 1 << 32:
        raise Wrong(f"'{line}' has a number that no segment has")
    return Rewrite(int(thread), int(packet), int(entry), direction, *numbers, text if text in (None, "kept") else bytes.fromhex(text), line)


def numbers_in(data):
    """The sequence and the acknowledgment number of an IP packet of TCP."""
    return struct.unpack_from(">II", data, 4 * (data[0] & 15) + 4)


def read_rewrites(report, segment_of):
    """How packets leave, by these lines, in the order of the history; None where the report has no such lines.

    `segment_of` gives of a thread and an index the numbers of the packet and its payload. The lines are of packets that an
    entry with the helper let pass, from the first edit on of all of them; which numbers are right is not reckoned here.
    """
    if not report.rewrites:
        return None
    head = HEAD.fullmatch(report.rewrites[0])
    if not head:
        raise Wrong(f"'{report.rewrites[0]}' does not say how many packets leave in another way")
    found = [rewrite_of(line) for line in report.rewrites[1:]]
    if len(found) != int(head[1]):
        raise Wrong(f"'{report.rewrites[0]}', and there are {len(found)} lines")
    left, begun = iter(found), set()
    it = next(left, None)
    for event in report.events:
        if event.kind != "touch":
            continue
        if it and (it.thread, it.packet, it.id) == (event.thread, event.index, event.entry):
            check_line(it, report, event, segment_of, it.id in begun)
            begun.add(it.id)
            it = next(left, None)
        elif event.entry in begun:
            raise Wrong(f"there is no line of packet {event.thread}.{event.index} of entry {event.entry}, whose connection has an edit")
    if it:
        raise Wrong(f"'{it.line}' is of a packet that no entry let pass, or it is not in the order of the history")
    return found


def check_line(it, report, event, segment_of, is_begun):
    """A line is of its packet, and the first one of a connection has a new text."""
    confirm, verdict = report.events[event.entry].text.split(), report.threads[it.thread][it.packet]
    numbers, payload = segment_of(it.thread, it.packet)
    if "helper" not in confirm:
        raise Wrong(f"'{it.line}', but entry {it.id} is of no FTP session")
    if event.text.split()[4] != it.direction:
        raise Wrong(f"'{it.line}', but the packet goes the other way")
    if numbers != (it.seq, it.ack):
        raise Wrong(f"'{it.line}', but the packet has the numbers {numbers[0]} and {numbers[1]}")
    if it.text is not None and " ftp expect=" not in verdict:
        raise Wrong(f"'{it.line}', but by its verdict the packet names no end that is expected")
    if it.text == payload:
        raise Wrong(f"'{it.line}', but that is the payload that the packet has")
    if not is_begun and not isinstance(it.text, bytes):
        raise Wrong(f"'{it.line}', but the first line of a connection has a new text")


def rewrite_text(it):
    """How a packet leaves, for a reader."""
    moved = [f"{name} {new} in place of {old}" for name, old, new in (("seq", it.seq, it.new_seq), ("ack", it.ack, it.new_ack)) if old != new]
    if it.text == "kept":
        moved.append("the payload that it has, as its edit was refused")
    elif it.text is not None:
        moved.append(f"the payload {it.text.decode('ascii', 'backslashreplace')!r}")
    return f"it leaves with {', '.join(moved)}" if moved else "it leaves as it came"
