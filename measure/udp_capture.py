#!/usr/bin/env python3
"""Writes a raw-IP capture of UDP packets: PACKETS of them, in FLOWS flows, one millisecond apart.

usage: udp_capture.py PACKETS FLOWS FILE
Every second packet of a flow is its answer.
"""
import struct
import sys


def packet(index, flows):
    flow, turn = index % flows, index // flows
    client = 0x0A000000 + 1 + flow // 256
    server = 0xC6336401
    ends = (client, server, 1024 + flow % 256, 53)
    if turn % 2:
        ends = (server, client, 53, 1024 + flow % 256)
    ip = struct.pack(">BBHHHBBHII", 0x45, 0, 28, 0, 0, 64, 17, 0, ends[0], ends[1])
    return ip + struct.pack(">HHHH", ends[2], ends[3], 8, 0)


def main():
    packets, flows, name = int(sys.argv[1]), int(sys.argv[2]), sys.argv[3]
    with open(name, "wb") as out:
        out.write(struct.pack("<IHHIIII", 0xA1B2C3D4, 2, 4, 0, 0, 65535, 101))
        for index in range(packets):
            body = packet(index, flows)
            moment = 1000 * 1_000_000 + index * 1000
            out.write(struct.pack("<IIII", moment // 1_000_000, moment % 1_000_000, len(body), len(body)))
            out.write(body)


main()
