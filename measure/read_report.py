#!/usr/bin/env python3
"""Reads a report of captures of UDP without a script, and checks it against the rules of a well-formed one.

The history is legal: each event is numbered by its place, an entry is confirmed while nothing live has one of its
tuples, and only a live entry is touched or destroyed. The events of a thread stand in the order of its packets. The
points of a thread's verdicts do not fall, are never older than its own events, and at each of them the named entry is
live. A packet makes an event, or is merged into an entry that was confirmed since its thread's last point, or is FULL, with
no event but a drop between its points. An entry is dropped by a packet that then begins one, or is merged or FULL. A report that
was made with --rewrite says behind these that no packet leaves in another way. Prints how
often two events that stand side by side are of two threads; ends with status 1 at the first fault.
"""
import sys


def fault(why):
    print(f"fault: {why}")
    sys.exit(1)


def read_events(lines, count):
    live, by_tuple, makers, lives, dropped = {}, {}, [], [], set()
    for number in range(count):
        words = lines[number].split()
        if int(words[0]) != number:
            fault(f"event {number} has another number")
        thread, packet = (int(part) for part in words[2].split("."))
        makers.append((thread, packet))
        if words[1] == "confirm":
            zone = words[-1] if words[-1].startswith("zone=") else ""
            tuples = {" ".join([*ends, zone]) for ends in (words[4:8], words[8:12])}
            if any(t in by_tuple for t in tuples):
                fault(f"event {number} confirms a tuple that is live")
            live[number] = tuples
            by_tuple.update({t: number for t in tuples})
        elif words[1] in ("touch", "destroy"):
            entry = int(words[3].removeprefix("id="))
            if entry not in live:
                fault(f"event {number} is about an entry that is not live")
            if words[1] == "destroy":
                for t in live.pop(entry):
                    del by_tuple[t]
                if words[4] == "dropped":
                    dropped.add(number)
        else:
            fault(f"event {number} is a {words[1]}")
        lives.append(frozenset(live))
    return makers, lives, dropped


def read_full(words, made, mark, name):
    """The points of a packet that found no room; its mark afterwards is the second one."""
    begin, end = (int(word.removeprefix("@")) for word in words[2:])
    if not mark <= begin <= end or len(made) > 1 or any(not begin <= one < end for one in made):
        fault(f"{name} has other points")
    return end


def read_thread(lines, thread, makers, lives, dropped):
    own = {}
    for number, (maker, packet) in enumerate(makers):
        if maker == thread:
            own.setdefault(packet, []).append(number)
    if list(own) != sorted(own):
        fault(f"the events of thread {thread} are not in the order of its packets")
    mark = 0
    for packet, line in enumerate(lines):
        words = line.split()
        if int(words[0]) != packet:
            fault(f"verdict {packet} of thread {thread} has another number")
        point = int(words[-1].removeprefix("@"))
        if not mark <= point <= len(makers):
            fault(f"verdict {packet} of thread {thread} is older than what it had seen, or newer than the history")
        made = own.get(packet, [])
        if any(one in dropped for one in made[1:]):
            fault(f"verdict {packet} of thread {thread} has a drop behind another event")
        if words[1] == "FULL":
            mark = read_full(words, made, mark, f"verdict {packet} of thread {thread}")
            continue
        made = [one for one in made if one not in dropped]
        if made and point != made[-1] + 1:
            fault(f"verdict {packet} of thread {thread} does not stand behind its events")
        entry = int(words[-2].removeprefix("id="))
        if entry not in lives[point - 1]:
            fault(f"verdict {packet} of thread {thread} names an entry that was not live")
        merged = words[1] == "MERGED"
        if merged == bool(made):
            fault(f"packet {packet} of thread {thread} made no event, or was merged and made one")
        if merged and entry < mark:
            fault(f"packet {packet} of thread {thread} is merged into an entry that it could have met")
        mark = max(mark, point)


def main():
    lines = sys.stdin.read().splitlines()
    count = int(lines[0].split()[1])
    makers, lives, dropped = read_events(lines[1 : count + 1], count)
    at = count + 1
    thread = 0
    while lines[at].startswith("thread "):
        packets = int(lines[at].split()[3])
        read_thread(lines[at + 1 : at + 1 + packets], thread, makers, lives, dropped)
        at += 1 + packets
        thread += 1
    if lines[at:] not in (["script 0"], ["script 0", "rewrite 0"]):
        fault("the script's part is another one")
    print(sum(1 for one, next_one in zip(makers, makers[1:]) if one[0] != next_one[0]))


main()
