"""Captures whose threads get in each other's way, and what is to be so of each report beside the rules of report_check.py. It
is a module of damaged.py.
"""
import struct
from collections import namedtuple

import thread_rows
from tracker_rules import want
from thread_rows import any_history, capture, packet, query

# The captures and other inputs of a storm; `meets` has the words of which some are to come in its runs.
Storm = namedtuple("Storm", "name captures rules script entries buckets holds meets")
MOST_THREADS = 63
BEGIN = 1_000_000_000
SECOND = 1_000_000
CLIENT, SERVER = 0x0A000001, 0x0A000002
SYN, ACK, PUSH = 2, 16, 8


def segment(source, destination, ports, flags, data=b""):
    return packet(6, (source, destination), struct.pack(">HHIIBBHHH", *ports, 0, 0, 0x50, flags, 0, 0, 0) + data)


def flow(client, server, port, moment):
    """A query and its answer."""
    return [(moment + 1000 * turn, query(client, server, port, turn == 1)) for turn in range(2)]


def many_captures(flows):
    """As many captures as there may be, each with flows of its own."""
    return [
        capture([one for turn in range(flows) for one in flow(CLIENT + 256 * thread, SERVER, 5000 + turn, BEGIN + turn * SECOND)])
        for thread in range(MOST_THREADS)
    ]


def one_flow():
    return capture([(BEGIN + 1000 * turn, query(CLIENT, SERVER, 5000, turn % 2 == 1)) for turn in range(60)])


def pool_captures(threads, flows, most):
    """Each thread asks for flows of its own, all at one moment; the first thread for so many."""
    return [
        capture([(BEGIN, query(CLIENT + 65536 * thread + turn, SERVER, 5000)) for turn in range(flows if thread else most)])
        for thread in range(threads)
    ]


def two_of_fifty():
    """Two threads, each with fifty flows of its own, one each second."""
    return [
        capture([(turn * SECOND, lone_query(CLIENT + 65536 * thread, 1000 + turn)) for turn in range(50)]) for thread in range(2)
    ]


def lone_query(client, port):
    return packet(17, (client, 0x0A090909), struct.pack(">HHHH", port, 53, 8, 0))


def translated(threads, flows):
    """Each thread has a client of its own, whose replies are to come to one of a few ports."""
    return [
        capture([(BEGIN + turn, query(CLIENT + thread, 0xC6336401 + turn, 5000)) for turn in range(flows)])
        for thread in range(threads)
    ]


def again(threads, flows, rounds, back=False):
    """The same flows on each thread, and again when they are expired. With `back` each second thread sends the answers, so that
    two flows begin with tuples of which each is the other's inverse."""
    return [
        capture(
            [
                (BEGIN + 100 * SECOND * turn + one, query(CLIENT + one, SERVER, 5000, back and thread % 2 == 1))
                for turn in range(rounds)
                for one in range(flows)
            ]
        )
        for thread in range(threads)
    ]


def days_apart(threads, turns):
    """One flow on all threads, each on another day: what one confirms or touches, the later ones find expired."""
    day = 86_400 * SECOND
    return [capture([(day * thread + turn, query(CLIENT, SERVER, 5000)) for turn in range(turns)]) for thread in range(threads)]


def reopening(threads, flows):
    """The same connections on each thread, closed and opened again."""
    steps = ((False, SYN), (True, SYN | ACK), (False, ACK), (True, 4 | ACK), (False, SYN), (True, 4 | ACK), (False, SYN))
    sent = []
    for one in range(flows):
        for back, flags in steps:
            ends = (SERVER, CLIENT, (80, 40000 + one)) if back else (CLIENT, SERVER, (40000 + one, 80))
            sent.append((BEGIN + SECOND * len(sent), segment(*ends, flags)))
    return [capture(sent)] * threads


def controls(threads, names):
    """Each thread has a control connection of its own, from one host, and they all name the same ends; then the server opens
    connections to them."""
    captures = []
    for thread in range(threads):
        ports, back = (40000 + thread, 21), (21, 40000 + thread)
        sent = [
            segment(CLIENT, SERVER, ports, SYN),
            segment(SERVER, CLIENT, back, SYN | ACK),
            segment(CLIENT, SERVER, ports, ACK),
        ]
        for turn in range(names):
            text = f"PORT 10,0,0,1,200,{turn % 8}\r\n".encode()
            sent.append(segment(CLIENT, SERVER, ports, ACK | PUSH, text))
            if turn % 3 == 2:
                sent.append(segment(SERVER, CLIENT, (1000 + thread, 200 * 256 + turn % 8), SYN))
        captures.append(capture([(BEGIN + SECOND * index // 10, one) for index, one in enumerate(sent)]))
    return captures


def edited(threads, names):
    """One control connection behind an address, on all threads: each sends commands and answers at places of its own, so that edits
    come in the order of places or overlap, as the threads run."""
    ports, outer = (40000, 21), 0xC0000201
    captures = []
    for thread in range(threads):
        sent = [(CLIENT, SERVER, ports, SYN, 999, 0, b"")] if thread == 0 else []
        for turn in range(names):
            place = 1000 + 40 * (threads * turn + thread)
            text = f"PORT 10,0,0,1,200,{turn % 200}\r\n".encode()
            sent.append((CLIENT, SERVER, ports, ACK | PUSH, place, 5000 + turn, text))
            sent.append((SERVER, outer, ports[::-1], ACK, 5000 + turn, place + len(text), b""))
        frames = [packet(6, (source, target), struct.pack(">HHIIBBHHH", *own, seq, ack, 0x50, flags, 0, 0, 0) + data) for source, target, own, flags, seq, ack, data in sent]
        captures.append(capture([(BEGIN + SECOND * index // 10, one) for index, one in enumerate(frames)]))
    return captures


def many_controls(threads, connections):
    """Each thread has so many control connections, of which each names an end of its own."""
    captures = []
    for thread in range(threads):
        sent = []
        for one in range(connections):
            client = CLIENT + 65536 * thread + one
            ports, back = (40000, 21), (21, 40000)
            address = ",".join(str(client >> shift & 255) for shift in (24, 16, 8, 0))
            sent += [
                segment(client, SERVER, ports, SYN),
                segment(SERVER, client, back, SYN | ACK),
                segment(client, SERVER, ports, ACK),
                segment(client, SERVER, ports, ACK | PUSH, f"PORT {address},200,1\r\n".encode()),
            ]
        captures.append(capture([(BEGIN + 1000 * index, one) for index, one in enumerate(sent)]))
    return captures


# What is so of each run.


def has_confirms(count):
    def holds(history, report):
        want(history.kinds.count("confirm") == count, f"there are {history.kinds.count('confirm')} confirms, and not {count}")

    return holds


def is_new_or_full(packets):
    """Each packet begins an entry or finds none that may go, and each entry but the last ones made room for another."""

    def holds(history, report):
        confirms = history.kinds.count("confirm")
        want(confirms >= 1 and confirms + report.count(" FULL @") == packets, f"{packets} packets made {confirms} entries, and others were not FULL")
        want(report.count(" dropped\n") == confirms - history.live_counts[-1], "entries ended otherwise")

    return holds


def all_storms():
    busy = "-F\n-L\n-C\n" * 8 + "wait\n-C\n-L\n"
    range_rule = "snat -p udp to 192.0.2.1:5000-5003\n"
    address_rule = "snat -s 10.0.0.0/8 to 192.0.2.1\n"
    deletes = "-D -p udp\n-L\n-L expect\nexpire 1300000000\n" * 6
    most, pool = MOST_THREADS, pool_captures(MOST_THREADS, 40, 4000)
    row = [
        ("captures-63", many_captures(8), "", "", 2048, 16384, has_confirms(8 * most), ("ESTABLISHED_REPLY",)),
        ("flow-63", [one_flow()] * most, "", "", 2048, 16384, has_confirms(1), ("ESTABLISHED_REPLY",)),
        ("flow-63-one-bucket", [one_flow()] * most, "", "", 2048, 1, has_confirms(1), ("ESTABLISHED_REPLY",)),
        ("pool-1", two_of_fifty(), "", "", 1, 16384, is_new_or_full(100), ("NEW",)),
        ("pool-63", pool, "", "", 40, 16, is_new_or_full(4000 + 40 * (most - 1)), ("NEW",)),
        ("pool-63-again", thread_rows.pool_captures(most, 10, 3), "", "", 200, 16, thread_rows.is_full(200, most, " FULL @"), ("FULL",)),
        ("pool-63-assured", thread_rows.pool_captures(most, 10, 1, (False, True, False)), "", "", 200, 16, thread_rows.is_full(200, most, " FULL @"), ("FULL",)),
        # A flush may come behind all packets, or while they end, so not each place has an entry at the end.
        ("pool-63-flushed", pool, "", busy, 40, 16, any_history, ("NEW",)),
        ("one-bucket", many_captures(2), "", "-L\n-C\nwait\n-L\n", 2048, 1, any_history, ("ESTABLISHED_REPLY",)),
        ("clash", again(4, 1000, 1, back=True), "", "", 2048, 16384, any_history, ()),
        ("clash-again", again(4, 40, 20, back=True), "", "", 64, 1, any_history, ("CLASH", "MERGED")),
        ("clash-translated", translated(8, 200), range_rule, "", 2048, 16, any_history, ("NOPORT",)),
        ("clash-deleted", again(4, 400, 2, back=True), "", deletes, 2048, 16384, any_history, ()),
        ("expiry", again(4, 40, 20), "", "", 64, 16384, any_history, ()),
        ("expiry-one-bucket", again(4, 40, 20), "", "expire 1200000000\n" * 4, 64, 1, any_history, ("MERGED",)),
        ("days-apart", days_apart(8, 400), "", "", 64, 16384, any_history, ("MERGED",)),
        ("reopened", reopening(4, 60), "", "", 64, 16384, any_history, ()),
        ("controls", controls(4, 200), "", "", 256, 16384, any_history, ("ESTABLISHED ftp clash",)),
        ("controls-full", many_controls(4, 300), "", "", 2048, 16384, any_history, ("ESTABLISHED ftp full",)),
        ("controls-deleted", controls(4, 200), "", deletes.replace("udp", "tcp"), 256, 16384, any_history, ()),
        ("edits", edited(4, 60), address_rule, "", 256, 16384, any_history, ("ESTABLISHED ftp expect",)),
        ("edits-deleted", edited(4, 60), address_rule, deletes.replace("udp", "tcp"), 256, 16384, any_history, ()),
    ]
    return [Storm(*one) for one in row]
