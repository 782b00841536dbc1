"""Packets and captures that the checks of the tools make: raw IPv4 with right checksums."""
import socket
import struct


def checksum(data):
    if len(data) % 2:
        data += b"\0"
    total = sum(struct.unpack(f">{len(data) // 2}H", data))
    while total >> 16:
        total = (total & 0xFFFF) + (total >> 16)
    return total ^ 0xFFFF


def packet(proto, source, target, body, place):
    """An IPv4 packet; the checksum of the body goes to this place of it, over a pseudo header but for ICMP."""
    ends = socket.inet_aton(source) + socket.inet_aton(target)
    front = b"" if proto == 1 else ends + struct.pack(">BBH", 0, proto, len(body))
    body = body[:place] + struct.pack(">H", checksum(front + body)) + body[place + 2 :]
    head = struct.pack(">BBHHHBBH", 0x45, 0, 20 + len(body), 0, 0, 64, proto, 0) + ends
    return head[:10] + struct.pack(">H", checksum(head)) + head[12:] + body


def udp(source, first, target, second, data=b""):
    return packet(17, source, target, struct.pack(">HHHH", first, second, 8 + len(data), 0) + data, 6)


def tcp(source, first, target, second, flags, data=b""):
    letters = {"S": 2, "A": 16, "F": 1, "R": 4, "P": 8}
    bits = sum(letters[letter] for letter in flags)
    return packet(6, source, target, struct.pack(">HHIIBBHHH", first, second, 1, 1, 0x50, bits, 1024, 0, 0) + data, 16)


def echo(source, target, kind, identifier, data=b"ping"):
    return packet(1, source, target, struct.pack(">BBHHH", kind, 0, 0, identifier, 1) + data, 2)


def error(source, target, about, kind=3, code=3):
    """An ICMP error that repeats the front of a packet."""
    return packet(1, source, target, struct.pack(">BBHI", kind, code, 0, 0) + about[:28], 2)


def write(name, packets, link=101):
    """A capture of pairs of a moment in microseconds and the bytes of a frame."""
    with open(name, "wb") as file:
        file.write(struct.pack("<IHHIIII", 0xA1B2C3D4, 2, 4, 0, 0, 65535, link))
        for moment, data in packets:
            file.write(struct.pack("<IIII", moment // 1_000_000, moment % 1_000_000, len(data), len(data)) + data)
    return name
