"""Small captures of each form, their damages, and what docs/FORMATS.md says of a damaged file: its fault, or its frames and
what each of them is to the tracker. Written from that document, and not from the program. It is a module of damaged.py.
"""
import re
import struct
from collections import namedtuple

from report_check import NUMBER, check
from tracker_rules import PARTNERS, Packet, Tuple, inverse, kind_of, want

# The order of a capture's numbers, whether its times are in nanoseconds, and whether its frames have an Ethernet header.
Form = namedtuple("Form", "order nanoseconds ethernet")
Frame = namedtuple("Frame", "moment ethernet data")
# What an ICMP error is about, and the address that it was sent to.
Error = namedtuple("Error", "inner sent_to")

FORMS = [Form(order, fine, ethernet) for order in "<>" for fine in (False, True) for ethernet in (False, True)]
MAGICS = {
    b"\xd4\xc3\xb2\xa1": ("<", 1),
    b"\xa1\xb2\xc3\xd4": (">", 1),
    b"\x4d\x3c\xb2\xa1": ("<", 1000),
    b"\xa1\xb2\x3c\x4d": (">", 1000),
}
LINK_HEADER = bytes((2, 0, 0, 0, 0, 2, 2, 0, 0, 0, 0, 1, 8, 0))
ERROR_TYPES = (3, 4, 5, 11, 12)
# FIN, SYN and RST, under whether URG and ACK are set.
VALID_FLAGS = {0: (2, 4), 16: (0, 1, 2, 4), 32: (2,), 48: (0, 1)}
INVALID = "INVALID header"


# The captures.


def internet(protocol, source, destination, body, options=b""):
    words = 5 + len(options) // 4
    length = 4 * words + len(body)
    return struct.pack(">BBHHHBBHII", 64 + words, 0, length, 0, 0, 64, protocol, 0, source, destination) + options + body


def sample_packets():
    """A query of UDP, its answer, a SYN of TCP, an echo behind a word of options, and an error about the query."""
    client, server = 0x0A000001, 0x0A000002
    asked = internet(17, client, server, struct.pack(">HHHH4s", 5000, 53, 12, 0, b"data"))
    answered = internet(17, server, client, struct.pack(">HHHH4s", 53, 5000, 12, 0, b"data"))
    opening = internet(6, client, server, struct.pack(">HHIIBBHHH", 40000, 80, 0, 0, 0x50, 2, 0, 0, 0))
    echo = internet(1, client, server, struct.pack(">BBHHH", 8, 0, 0, 7, 0), b"\1\1\1\1")
    error = internet(1, server, client, struct.pack(">BBHI", 3, 3, 0, 0) + asked[:28])
    return [(1_000_000_000 + 500_000 * turn, one) for turn, one in enumerate((asked, answered, opening, echo, error))]


def capture_of(form, sent):
    """A capture of this form of these moments and IP packets."""
    magic = 0xA1B23C4D if form.nanoseconds else 0xA1B2C3D4
    parts = [struct.pack(form.order + "IHHIIII", magic, 2, 4, 0, 0, 65535, 1 if form.ethernet else 101)]
    for moment, packet in sent:
        data = (LINK_HEADER if form.ethernet else b"") + packet
        fraction = moment % 1_000_000 * (1000 if form.nanoseconds else 1)
        parts += [struct.pack(form.order + "IIII", moment // 1_000_000, fraction, len(data), len(data)), data]
    return b"".join(parts)


def prefixes(data):
    return [(f"its first {length} bytes", data[:length]) for length in range(len(data) + 1)]


def changes(data, values=(0, 1, 0x7F, 0x80, 0xFF)):
    """Each single byte with each of these values in its place."""
    return [
        (f"byte {place} is {value}", data[:place] + bytes((value,)) + data[place + 1 :])
        for place in range(len(data))
        for value in values
        if data[place] != value
    ]


# What a file says.


def read_file(data):
    """The text of the file's fault, or none, and its frames."""
    if len(data) < 24:
        return "short header", []
    if data[:4] not in MAGICS:
        return "bad magic", []
    order, divisor = MAGICS[data[:4]]
    if struct.unpack(order + "HH", data[4:8]) != (2, 4):
        return "bad version", []
    link = struct.unpack(order + "I", data[20:24])[0] & 0xFFFF
    if link not in (1, 101):
        return f"link type {link}", []
    frames, place = [], 24
    while place < len(data):
        fault, size, moment = read_record(data, place, order, divisor)
        if fault:
            return f"record {len(frames)} {fault}", []
        frames.append(Frame(moment, link == 1, data[place + 16 : place + 16 + size]))
        place += 16 + size
    return None, frames


def read_record(data, place, order, divisor):
    """The fault of the record at this place, or none, with its captured bytes and its moment."""
    if len(data) < place + 16:
        return f"cut at offset {place}", 0, 0
    seconds, fraction, size, _ = struct.unpack(order + "IIII", data[place : place + 16])
    if size > 262_144:
        return "too long", 0, 0
    if fraction >= 1_000_000 * divisor:
        return "fraction", 0, 0
    if len(data) < place + 16 + size:
        return f"cut at offset {place}", 0, 0
    return None, size, seconds * 1_000_000 + fraction // divisor


# What a frame is: the words of its verdict, a packet of a flow, or an error.


def class_of(frame):
    data = frame.data
    if frame.ethernet:
        if len(data) < 14:
            return INVALID
        if data[12:14] != b"\x08\x00":
            return "UNTRACKED link"
        data = data[14:]
    if not data:
        return INVALID
    if data[0] >> 4 == 6 and not frame.ethernet:
        return "UNTRACKED link"
    if data[0] >> 4 != 4 or len(data) < 20:
        return INVALID
    return class_of_packet(data, frame.moment)


def class_of_packet(data, moment):
    header = 4 * (data[0] & 15)
    length, _, fragment = struct.unpack(">HHH", data[2:8])
    if header < 20 or length < header:
        return INVALID
    if fragment & 0x3FFF:
        return "UNTRACKED fragment"
    readers = {1: class_of_message, 6: class_of_segment, 17: class_of_datagram}
    if data[9] not in readers:
        return "UNTRACKED protocol"
    ends = struct.unpack(">II", data[12:20])
    return readers[data[9]](data[header:length], length - header, ends, moment)


def class_of_datagram(body, length, ends, moment):
    if length < 8 or len(body) < 6:
        return INVALID
    first, second, own = struct.unpack(">HHH", body[:6])
    if not 8 <= own <= length:
        return INVALID
    return Packet(moment, Tuple("udp", *ends, first, second), None, b"")


def class_of_segment(body, length, ends, moment):
    if length < 20 or len(body) < 14:
        return INVALID
    header, flags = 4 * (body[12] >> 4), body[13]
    if not 20 <= header <= length or flags & 7 not in VALID_FLAGS[flags & 48]:
        return INVALID
    first, second = struct.unpack(">HH", body[:4])
    return Packet(moment, Tuple("tcp", *ends, first, second), kind_of(flags), body[header:], struct.unpack(">II", body[4:12]))


def class_of_message(body, length, ends, moment):
    if length < 8 or len(body) < 6:
        return INVALID
    if body[0] in PARTNERS:
        number = struct.unpack(">H", body[4:6])[0]
        return Packet(moment, Tuple("icmp", *ends, number, body[0] * 256 + body[1]), None, b"")
    if body[0] not in ERROR_TYPES or length < 28 or len(body) < 28:
        return INVALID
    inner = inner_tuple(body[8:], length - 8)
    return INVALID if inner is None else Error(inner, ends[1])


def inner_tuple(data, length):
    """The tuple of the packet that an error repeats, or none."""
    header = 4 * (data[0] & 15)
    if data[0] >> 4 != 4 or header < 20 or length < header + 8 or struct.unpack(">H", data[6:8])[0] & 0x1FFF:
        return None
    behind, ends = data[header:length], struct.unpack(">II", data[12:20])
    if data[9] in (6, 17) and len(behind) >= 4:
        return Tuple("tcp" if data[9] == 6 else "udp", *ends, *struct.unpack(">HH", behind[:4]))
    if data[9] == 1 and len(behind) >= 6 and behind[0] in PARTNERS:
        return Tuple("icmp", *ends, struct.unpack(">H", behind[4:6])[0], behind[0] * 256 + behind[1])
    return None


# What a report says of such frames.


def without_others(report, classes):
    """The report as that of the packets of flows alone, numbered anew, and the verdicts on errors with these."""
    lines = report.split("\n")
    found = re.fullmatch(f"events {NUMBER}", lines[0])
    want(found, "the first line does not count the events")
    at = 1 + int(found[1])
    places = [places_of(thread) for thread in classes]
    kept, errors = [lines[0]] + [renumbered(line, places) for line in lines[1:at]], []
    for thread, its in enumerate(classes):
        want(lines[at : at + 1] == [f"thread {thread} packets {len(its)}"], f"thread {thread} is not there")
        verdicts = lines[at + 1 : at + 1 + len(its)]
        want(len(verdicts) == len(its), f"thread {thread} has too few verdicts")
        kept.append(f"thread {thread} packets {len(places[thread])}")
        for index, (line, one) in enumerate(zip(verdicts, its)):
            number, _, text = line.partition(" ")
            want(number == str(index), f"verdict {index} has another number")
            if isinstance(one, Packet):
                kept.append(f"{places[thread][index]} {text}")
            elif isinstance(one, Error):
                errors.append((one, text))
            else:
                want(text == one, f"verdict {index} is {text}, and the frame is {one}")
        at += 1 + len(its)
    return "\n".join(kept + lines[at:]), errors


def places_of(classes):
    """The places of the packets of flows among themselves."""
    flows = [index for index, one in enumerate(classes) if isinstance(one, Packet)]
    return {index: place for place, index in enumerate(flows)}


def renumbered(line, places):
    words = line.split(" ", 3)
    want(len(words) == 4, f"this is no event: {line}")
    found = re.fullmatch(rf"{NUMBER}\.{NUMBER}", words[2])
    if found:
        thread, index = int(found[1]), int(found[2])
        want(thread < len(places) and index in places[thread], f"this event is of no packet of a flow: {line}")
        words[2] = f"{thread}.{places[thread][index]}"
    return " ".join(words)


def judge_error(history, error, text):
    found = re.fullmatch(rf"(INVALID error|INVALID address|RELATED error|RELATED_REPLY error)(?: id={NUMBER})? @{NUMBER}", text)
    want(found, f"this is no verdict on an error: {text}")
    word, identity, point = found[1], found[2], int(found[3])
    want(point <= len(history.kinds), f"this verdict looks beyond the history: {text}")
    entry = history.live_under(inverse(error.inner), point)
    right = "INVALID error"
    if entry is not None:
        right = "RELATED error" if entry.original == inverse(error.inner) else "RELATED_REPLY error"
        right = right if error.sent_to == error.inner.source else "INVALID address"
    named = None if entry is None else str(entry.number)
    want((word, identity) == (right, named), f"the verdict on an error is {text}, and not {right} of {named}")


def judge_report(report, inputs, files):
    """Checks the report of these captures, each given by its frames; the captures of `inputs` are put in here."""
    classes = [[class_of(frame) for frame in frames] for frames in files]
    text, errors = without_others(report, classes)
    flows = [[one for one in its if isinstance(one, Packet)] for its in classes]
    history = check(text, inputs._replace(captures=flows))
    for error, verdict in errors:
        judge_error(history, error, verdict)
    return history
