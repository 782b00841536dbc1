"""Puts the fragments of a capture together, as ctreplay does with --defrag before it replays it. A module of the tools.

Written from the definitions in crates/ip_reassembly/specs, not from the program's code. `Reassembly` has the frames of a
capture, each frame that completes a datagram in the form of that datagram, and of each other fragment why it stayed.
Nothing here is proved.
"""
import math
from bisect import bisect_left, bisect_right, insort
from collections import namedtuple

# A fragment that is put together with others: the bytes from `low` up to `high` of a datagram's data.
Piece = namedtuple("Piece", "index moment key low high last header data")
# Bytes of a group's data that a piece, by its number, was the first to give.
Part = namedtuple("Part", "low high data index")

ETHERNET, RAW = 1, 101
MOST_DATA = 65_515
PATIENCE = 30_000_000
SPANS, NAMES = 3, 12


# What a frame says


def ip_packet(frame):
    """What was captured of the IPv4 packet of a frame, or None where there is none with a right header."""
    data = frame.data
    if frame.link == ETHERNET:
        if data[12:14] != b"\x08\x00":
            return None
        data = data[14:]
    if len(data) < 20 or data[0] >> 4 != 4 or header_length(data) < 20 or total_length(data) < header_length(data):
        return None
    return data


def number_at(data, place):
    return int.from_bytes(data[place : place + 2], "big")


def header_length(data):
    return (data[0] & 15) * 4


def total_length(data):
    return number_at(data, 2)


def begins_at(data):
    """The place of the packet's first byte in the data of its datagram."""
    return (number_at(data, 6) & 0x1FFF) * 8


def is_last(data):
    return not data[6] & 0x20


def is_fragment(data):
    return begins_at(data) > 0 or not is_last(data)


def key_of(data):
    """What tells the fragments of one datagram from those of others: source, destination, protocol and identification."""
    return data[12:16], data[16:20], data[9], number_at(data, 4)


def flaw_of(data):
    """Why a fragment is no piece of a datagram, or None where it is one."""
    total, count = total_length(data), total_length(data) - header_length(data)
    if total > len(data):
        return f"only {len(data)} of its {total} bytes were captured"
    if count == 0:
        return "it carries no data"
    if not is_last(data) and count % 8:
        return f"others follow it, and its {count} bytes of data are no whole number of units of 8"
    if begins_at(data) + count > MOST_DATA:
        return f"its data ends at byte {begins_at(data) + count:,}, and no datagram has more than {MOST_DATA:,}"
    return None


def piece_of(index, moment, data):
    low, header = begins_at(data), header_length(data)
    body = data[header : total_length(data)]
    return Piece(index, moment, key_of(data), low, low + len(body), is_last(data), data[:20], body)


# Pieces that are put together


class Group:
    """The pieces of one key from a leader on, in the order of their frames.

    `parts` are the spans of bytes that are known, in order and apart, each with the piece that gave it. `end` is the first
    last piece, and `highest` one that goes furthest. `clash` is what two pieces disagree about, or None. `completed` is the
    number of the frame that completed the datagram, or None; such a group takes no more pieces. `late` is the number of the
    piece that came too late for it, or None.
    """

    def __init__(self):
        self.pieces, self.parts, self.covered, self.end, self.highest = [], [], 0, None, None
        self.clash, self.completed, self.late = None, None, None

    def takes(self, piece):
        """Whether a piece of the group's key belongs to it, and does not lead the next one."""
        return self.completed is None and piece.moment < self.pieces[0].moment + PATIENCE

    def add(self, piece):
        met = self.met_by(piece)
        self.clash = self.clash or self.end_clash(piece) or byte_clash(met, piece)
        self.pieces.append(piece)
        if piece.last and self.end is None:
            self.end = piece
        if self.highest is None or piece.high > self.highest.high:
            self.highest = piece
        self.fill(piece, met)
        if self.clash is None and self.end and self.covered == self.end.high:
            self.completed = piece.index

    def met_by(self, piece):
        """The parts that have bytes of a piece."""
        at = bisect_right(self.parts, (piece.low, math.inf))
        at -= at > 0 and self.parts[at - 1].high > piece.low
        after = bisect_left(self.parts, (piece.high,))
        return self.parts[at:after]

    def end_clash(self, piece):
        """The piece before with which this one disagrees about the datagram's end, and where that is; or None."""
        if self.end and (piece.high > self.end.high or piece.last and piece.high != self.end.high):
            return "end", self.end, piece, self.end.high
        is_beyond = piece.last and self.highest and self.highest.high > piece.high
        return ("end", piece, self.highest, piece.high) if is_beyond else None

    def fill(self, piece, met):
        """Makes parts of those bytes of a piece that were not known."""
        low = piece.low
        for high, after in [*((part.low, part.high) for part in met), (piece.high, piece.high)]:
            if low < high:
                insort(self.parts, Part(low, high, piece.data[low - piece.low : high - piece.low], piece.index))
                self.covered += high - low
            low = max(low, after)

    def holes(self):
        """The spans of bytes that no piece covers, up to the highest one that is known."""
        lows = [0, *(part.high for part in self.parts)]
        return [(low, part.low) for low, part in zip(lows, self.parts) if low < part.low]

    def datagram(self):
        """The whole packet: the header of the first piece with offset 0, without options and as that of no fragment, and the data."""
        head = next(piece.header for piece in self.pieces if piece.low == 0)
        length = 20 + self.end.high
        return b"\x45" + head[1:2] + length.to_bytes(2, "big") + head[4:6] + bytes(2) + head[8:20] + b"".join(part.data for part in self.parts)


def byte_clash(parts, piece):
    """The first part that has another byte than a piece for the same place, and the place; or None."""
    for part in parts:
        low, high = max(part.low, piece.low), min(part.high, piece.high)
        one, other = part.data[low - part.low : high - part.low], piece.data[low - piece.low : high - piece.low]
        if one != other:
            return "byte", part, piece, low + next(at for at, pair in enumerate(zip(one, other)) if pair[0] != pair[1])
    return None


class Reassembly:
    """The frames of a capture with its fragments put together; each frame keeps its number and its moment.

    `groups` are in the order of their leaders. `group_of` has the group of each piece and the piece, and `flaws` why another
    fragment is no piece, each by the number of the frame; `cut` has the numbers of these by their key. `completed` has the
    group of each datagram, by the number of the frame that completed it.
    """

    def __init__(self, frames):
        self.frames, self.groups, self.group_of, self.flaws, self.cut, self.completed = [], [], {}, {}, {}, {}
        latest, self.told = {}, {}
        for index, frame in enumerate(frames):
            data = ip_packet(frame)
            self.frames.append(self.read(latest, index, frame, data) if data and is_fragment(data) else frame)

    def read(self, latest, index, frame, data):
        """The frame in the place of a fragment: itself, or the datagram that it completes."""
        flaw = flaw_of(data)
        if flaw:
            self.flaws[index] = flaw
            self.cut.setdefault(key_of(data), []).append(index)
            return frame
        piece = piece_of(index, frame.moment, data)
        group = latest.get(piece.key)
        if group is None or not group.takes(piece):
            if group and group.completed is None:
                group.late = index
            group = latest[piece.key] = Group()
            self.groups.append(group)
        group.add(piece)
        self.group_of[index] = group, piece
        if group.completed is None:
            return frame
        self.completed[index] = group
        whole = group.datagram()
        return frame._replace(link=RAW, data=whole, length=len(whole))

    def parts(self):
        """The fragments that were put together, but for those that completed a datagram."""
        return {piece.index for group in self.completed.values() for piece in group.pieces if piece.index != group.completed}

    def left(self):
        """Of each fragment of which no datagram was made why, in a word or two."""
        found = {piece.index: why_incomplete(group) for group in self.groups if group.completed is None for piece in group.pieces}
        return {**found, **{index: "cut by the capture" if flaw.startswith("only") else "wrong in itself" for index, flaw in self.flaws.items()}}

    def cut_of(self, group):
        """The first fragment of a group's key that is no piece, within 30 s of its leader; or None."""
        leader = group.pieces[0]
        found = (index for index in self.cut.get(leader.key, ()) if abs(self.frames[index].moment - leader.moment) < PATIENCE)
        return next(found, None)

    def why_never(self, group, first):
        """Why a group never was complete, reckoned once for all its pieces."""
        if (id(group), first) not in self.told:
            self.told[id(group), first] = incomplete_text(self, group, first)
        return self.told[id(group), first]


def why_incomplete(group):
    """Why a group made no datagram, in a word or two."""
    if group.clash:
        return "pieces that disagree"
    return "30 s" if group.late is not None else "a hole"


# Sentences; packets are numbered from `first`, 0 or 1


def listed(names):
    """Names in a row: 1, 2 and 3."""
    names = [str(name) for name in names]
    return names[0] if len(names) == 1 else f"{', '.join(names[:-1])} and {names[-1]}"


def packets_text(group, first):
    """The packets of a group, by their numbers; of many the first ones."""
    more = [f"{len(group.pieces) - NAMES} more"] if len(group.pieces) > NAMES else []
    return f"packet{'s' if len(group.pieces) > 1 else ''} {listed([*(piece.index + first for piece in group.pieces[:NAMES]), *more])}"


def whole_text(group, first=0):
    """Of which packets a datagram was put together."""
    return f"put together of {packets_text(group, first)}: {group.end.high} bytes of data, identification {group.pieces[0].key[3]}"


def clash_text(group, first):
    """What two pieces of a group disagree about."""
    kind, one, other, place = group.clash
    if kind == "byte":
        return f"packets {one.index + first} and {other.index + first} have different values for its byte {place}"
    rest = f"by packet {other.index + first} {other.high}" if other.last else f"packet {other.index + first} has its bytes up to {other.high - 1}"
    return f"by packet {one.index + first} it has {place} bytes, and {rest}"


def missing_text(group):
    """Which bytes are in no piece of a group, and whether there is a last one."""
    spans = [f"{low} to {high - 1}" for low, high in group.holes()]
    more = [f"{len(spans) - SPANS} spans more"] if len(spans) > SPANS else []
    texts = [f"its bytes {listed([*spans[:SPANS], *more])} are in none"] if spans else []
    return " and ".join(texts + ([] if group.end else ["none is its last"]))


def incomplete_text(whole, group, first):
    """Why a group never was complete: pieces that disagree, or what is missing, and what came late or was cut."""
    if group.clash:
        return f"{clash_text(group, first)}, so none was put together"
    text = f"of its pieces there {'is' if len(group.pieces) == 1 else 'are'} {packets_text(group, first)}, and {missing_text(group)}"
    cut = whole.cut_of(group)
    if cut is not None:
        return f"{text}; packet {cut + first} is of it too, but {whole.flaws[cut]}"
    if group.late is not None:
        return f"{text}; packet {group.late + first} came 30 s or more behind packet {group.pieces[0].index + first}, which is too late"
    return text


def fragment_text(whole, index, first=0):
    """Of which datagram a fragment that stayed is a part, and what became of that."""
    text = "it is a fragment of an IP packet"
    if index in whole.flaws:
        return f"{text}, and is put together with no other: {whole.flaws[index]}"
    group, piece = whole.group_of[index]
    text += f", the bytes {piece.low} to {piece.high - 1} of a datagram"
    if group.completed is None:
        return f"{text} that was never whole: {whole.why_never(group, first)}"
    return f"{text} of {group.end.high} bytes of data, which packet {group.completed + first} completed; that one has the verdict on the whole"
