"""Gives a frame other addresses and ports, with its checksums right. A module of from-inside; nothing here is proved."""
import struct

CHECKSUM_AT = {"tcp": 16, "udp": 6, "icmp": 2}
NUMBERS = {"icmp": 1, "tcp": 6, "udp": 17}


def folded(total):
    while total >> 16:
        total = (total & 0xFFFF) + (total >> 16)
    return total


def sum_of(data):
    if len(data) % 2:
        data = bytes(data) + b"\0"
    return folded(sum(struct.unpack(f">{len(data) // 2}H", data)))


def set_header(data, at):
    """The checksum of the IP header that begins here, if it is whole."""
    header = (data[at] & 15) * 4
    if len(data) >= at + header:
        struct.pack_into(">H", data, at + 10, 0)
        struct.pack_into(">H", data, at + 10, sum_of(data[at : at + header]) ^ 0xFFFF)


def set_numbers(data, at, flow):
    """The addresses and the ports, or the identifier, of the packet whose IP header begins here."""
    body = at + (data[at] & 15) * 4
    struct.pack_into(">II", data, at + 12, flow.source, flow.target)
    if flow.proto == "icmp":
        struct.pack_into(">H", data, body + 4, flow.first)
    else:
        struct.pack_into(">HH", data, body, flow.first, flow.second)


def numbers_sum(proto, flow):
    """What the numbers of a flow that are changed add to its checksum. That of ICMP does not cover addresses."""
    if proto == "icmp":
        return flow.first
    ends = (flow.source >> 16) + (flow.source & 0xFFFF) + (flow.target >> 16) + (flow.target & 0xFFFF)
    return ends + flow.first + flow.second


def adjust(data, place, proto, before, after):
    """A checksum that cannot be reckoned anew, as what it covers is cut: by the difference alone (RFC 1624)."""
    if len(data) < place + 2:
        return
    old = struct.unpack_from(">H", data, place)[0]
    if proto == "udp" and old == 0:
        return
    difference = folded(numbers_sum(proto, after)) + (folded(numbers_sum(proto, before)) ^ 0xFFFF)
    new = folded((old ^ 0xFFFF) + difference) ^ 0xFFFF
    struct.pack_into(">H", data, place, 0xFFFF if proto == "udp" and new == 0 else new)


def set_checksum(data, at, proto, before, after):
    """The checksum of the packet whose IP header begins here: anew where it is whole, else by what was changed."""
    body, end = at + (data[at] & 15) * 4, at + struct.unpack_from(">H", data, at + 2)[0]
    place = body + CHECKSUM_AT[proto]
    if end > len(data):
        adjust(data, place, proto, before, after)
        return
    if proto == "udp" and data[place : place + 2] == b"\0\0":
        return
    front = b"" if proto == "icmp" else bytes(data[at + 12 : at + 20]) + struct.pack(">BBH", 0, NUMBERS[proto], end - body)
    struct.pack_into(">H", data, place, 0)
    new = sum_of(front + bytes(data[body:end])) ^ 0xFFFF
    struct.pack_into(">H", data, place, 0xFFFF if proto == "udp" and new == 0 else new)


def front_of(frame):
    return 14 if frame.link == 1 else 0


def readdress(frame, before, after):
    """A packet of a flow, with another tuple."""
    data, at = bytearray(frame.data), front_of(frame)
    set_numbers(data, at, after)
    set_header(data, at)
    set_checksum(data, at, before.proto, before, after)
    return frame._replace(data=bytes(data))


def readdress_error(frame, before, after):
    """An ICMP error about a packet of a flow, sent to that packet's source: both with another tuple."""
    data, at = bytearray(frame.data), front_of(frame)
    header = (data[at] & 15) * 4
    inner = at + header + 8
    if struct.unpack_from(">I", data, at + 16)[0] == before.source:
        struct.pack_into(">I", data, at + 16, after.source)
    old = sum_of_rest(data, inner)
    set_numbers(data, inner, after)
    set_header(data, inner)
    adjust(data, inner + (data[inner] & 15) * 4 + CHECKSUM_AT[before.proto], before.proto, before, after)
    set_header(data, at)
    set_error_checksum(data, at, old, sum_of_rest(data, inner))
    return frame._replace(data=bytes(data))


def sum_of_rest(data, inner):
    return sum_of(data[inner:])


def set_error_checksum(data, at, old, new):
    body, end = at + (data[at] & 15) * 4, at + struct.unpack_from(">H", data, at + 2)[0]
    if end <= len(data):
        struct.pack_into(">H", data, body + 2, 0)
        struct.pack_into(">H", data, body + 2, sum_of(data[body:end]) ^ 0xFFFF)
        return
    # What is cut did not change, so the sum of the rest changed by as much as the whole.
    checksum = struct.unpack_from(">H", data, body + 2)[0]
    struct.pack_into(">H", data, body + 2, folded((checksum ^ 0xFFFF) + new + (old ^ 0xFFFF)) ^ 0xFFFF)
