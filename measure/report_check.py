#!/usr/bin/env python3
"""Checks a report of ctreplay against the captures, rules and script that it is of. Written from docs/FORMATS.md and
docs/DEFINITIONS.md, and not from the program. It is a module: thread_rows.py calls it.

What it checks. A packet, its entry, and what that expects are of its capture's zone, and flows of different zones never
meet; only room is shared. Events are numbered from 0. Each was made by a packet or command that exists, in the order of its thread,
and its whole line is the one that the rules give in the state that the events before it leave: a confirm is of free
tuples, one that an entry begins with, with the right deadline, state, master and helper; a touch, destroy, expect or
claim is of what is live then. Never are more live than there may be. Each verdict is of its packet, in order, and says
what its own events are; its points are in the history, do not fall in a thread, and stand behind the thread's own
events; and the named entry is live there, and such as the verdict says. A packet has no event but those of its verdict.
A drop is of an entry that may go, by a packet that would begin a flow, for which nothing was live under its tuple; the table
was full before it; there is one for a packet at most, before what the packet claims; and where FULL came without one, no
entry that could go was live throughout its points.
Each answer to a command is so between its points, with its rows as the entries were at theirs; and no packet was
answered at a point behind a command that stands behind `wait`. With --listen, and only then, there is a line for each thread, in
order, with the number of its events, of the script's those of its commands before `wait`; and of so many all were heard, or
else at least as many as its queue holds. With --rewrite, and only then, the last lines are those that rewrite_rules.py reckons of
the history, the verdicts and the packets.

What it does not check: errors of ICMP, fragments and broken headers (there may be none in its captures); which of the free
ports a rule takes; which of the entries that may go is dropped, as places are not printed; that an answer which may be given only in a race was given in one, but for the bounds that the
documents state (FULL, drops, MERGED, CLASH, CONTENDED); and that NOPORT had no port left; and which events a listener was told of, as no line shows them.
"""
import re
from bisect import bisect_right
from rewrite_rules import judge_rewrites
from tracker_rules import (
    address_of, address_text, is_meant, is_reply_of, may_go, named_end, NUMBERS, Refused, rule_for, SECOND, start_of,
    step_of, Tuple, tuple_text, want, zone_text,
)


REASONS = ("expired", "reopened", "reset", "deleted", "flushed", "dropped")
# So many events the queue of a thread to a listener has room for.
QUEUE = 1024


class Entry:
    """An entry, with its part from each point on, and the number of its destroy."""

    def __init__(self, number, original, reply, part, master, helper):
        self.number, self.original, self.reply = number, original, reply
        self.master, self.helper, self.end = master, helper, None
        self.points, self.parts = [number + 1], [part]

    def is_live(self, point):
        return self.number < point and (self.end is None or point <= self.end)

    def part(self, point):
        return self.parts[bisect_right(self.points, point) - 1]

    def parts_between(self, begin, end):
        """The parts that it had at these points and between them."""
        return self.parts[bisect_right(self.points, begin) - 1 : bisect_right(self.points, end)]

    def direction(self, flow):
        return "original" if flow == self.original else "reply"

    def change(self, number, part):
        self.points.append(number + 1)
        self.parts.append(part)


class Expectation:
    """What an entry expects, with the number of the event that ended it."""

    def __init__(self, number, master, zone, source, destination, port, deadline):
        self.number, self.master, self.deadline, self.end = number, master, deadline, None
        self.zone, self.source, self.destination, self.port = zone, source, destination, port

    def ends(self):
        """What another expectation shares with it where the two clash."""
        return self.zone, self.source, self.destination, self.port

    def is_there(self, point):
        return self.number < point and (self.end is None or point <= self.end)

    def meets(self, flow, moment):
        ends = (flow.zone, flow.source, flow.destination, flow.second)
        return flow.proto == "tcp" and moment < self.deadline and ends == self.ends()


class History:
    """Reads the events one after the other, each in the state that those before it leave."""

    def __init__(self, inputs):
        self.inputs = inputs
        self.entries, self.by_tuple, self.expected = {}, {}, {}
        self.live_counts, self.kinds = [0], []
        self.made, self.last, self.claimed = {}, {}, {}

    def live(self, number, point):
        entry = self.entries.get(number)
        want(entry is not None and entry.is_live(point), f"entry {number} is not live at {point}")
        return entry

    def throughout(self, begin, end):
        """The entries that are live at each of these points."""
        return [one for one in self.entries.values() if one.is_live(begin) and one.is_live(end)]

    def fullest(self):
        """How many entries a full table has at the least: each further pass, of a capture or the script, may keep four places."""
        return self.inputs.entries - 4 * len(self.inputs.captures)

    def live_under(self, flow, point):
        having = [self.entries[number] for number in self.by_tuple.get(flow, ()) if self.entries[number].is_live(point)]
        own = [entry for entry in having if entry.original == flow]
        return (own or having or [None])[0]

    def expected_at(self, point):
        return [one for one in self.expected.values() if one.is_there(point)]

    def first_match(self, flow, moment, point):
        for one in self.expected_at(point):
            if one.meets(flow, moment):
                return one
        return None

    def read(self, lines):
        for number, line in enumerate(lines):
            words = line.split(" ")
            want(len(words) > 3 and words[0] == str(number), f"event {number} has another number: {line}")
            who = self.who(words[2], number)
            expected = getattr(self, "read_" + words[1], self.no_event)(number, words, who)
            want(line == f"{number} {words[1]} {words[2]} {expected}", f"event {number} is not: {words[1]} {expected}")
            self.kinds.append(words[1])
            self.made.setdefault(who, []).append(number)
            step = {"confirm": 1, "destroy": -1}.get(words[1], 0)
            self.live_counts.append(self.live_counts[-1] + step)
            want(self.live_counts[-1] <= self.inputs.entries, f"after event {number} too many are live")

    def no_event(self, number, words, who):
        raise Refused(f"event {number} is a {words[1]}")

    def who(self, text, number):
        found = re.fullmatch(r"(s|0|[1-9]\d*)\.(0|[1-9]\d*)", text)
        want(found, f"event {number} was made by {text}")
        thread, index = found.group(1), int(found.group(2))
        if thread != "s":
            thread = int(thread)
            want(thread < len(self.inputs.captures), f"event {number} was made by thread {thread}")
        count = len(self.inputs.commands if thread == "s" else self.inputs.captures[thread])
        want(index < count, f"event {number} was made by {text}, which is not there")
        want(self.last.get(thread, 0) <= index, f"event {number} is not in the order of its thread")
        self.last[thread] = index
        return thread, index

    def packet(self, who, number):
        want(who[0] != "s", f"event {number} was made by a command")
        return self.inputs.captures[who[0]][who[1]]

    def identity(self, word, name, number):
        found = re.fullmatch(name + r"=(0|[1-9]\d*)", word)
        want(found, f"event {number} has no {name}")
        return int(found.group(1))

    def read_confirm(self, number, words, who):
        packet = self.packet(who, number)
        part, flow = start_of(packet), packet.tuple
        want(part is not None, f"event {number} is of a packet with which no entry begins")
        reply = reply_in(words, flow.proto, flow.zone)
        want(reply is not None and is_reply_of(self.inputs.rules, flow, reply), f"event {number} has a wrong reply tuple")
        for one in (flow, reply):
            want(self.live_under(one, number) is None, f"event {number} confirms a tuple that is live")
        master = self.claimed.pop(who, None)
        helper = flow.proto == "tcp" and reply.first in self.inputs.ports
        entry = Entry(number, flow, reply, part, master, helper)
        self.entries[number] = entry
        for one in {flow, reply}:
            self.by_tuple.setdefault(one, []).append(number)
        text = f"{flow.proto} {tuple_text(flow)} {tuple_text(reply)} until={part.deadline}"
        text += f" state={part.state}" if part.state else ""
        text += f" master={master}" if master is not None else ""
        return text + (" helper" if helper else "") + zone_text(flow.zone)

    def read_touch(self, number, words, who):
        packet = self.packet(who, number)
        entry = self.live(self.identity(words[3], "id", number), number)
        want(packet.tuple in (entry.original, entry.reply), f"event {number} touches an entry of another flow")
        direction = entry.direction(packet.tuple)
        outcome, part = step_of(entry.part(number), direction, packet)
        want(outcome == "accepted", f"event {number} touches where the packet is {outcome}")
        entry.change(number, part)
        text = f"id={entry.number} {direction} until={part.deadline}" + (f" state={part.state}" if part.state else "")
        return text + (" replied" if part.replied else "") + (" assured" if part.assured else "")

    def read_destroy(self, number, words, who):
        entry = self.live(self.identity(words[3], "id", number), number)
        want(len(words) == 5, f"event {number} has no reason")
        part, reason = entry.part(number), words[4]
        if who[0] == "s":
            command = self.inputs.commands[who[1]]
            right = {
                "deleted": command.word == "-D" and is_meant(command.options, entry.original, entry.reply),
                "flushed": command.word == "-F",
                "expired": command.word == "expire" and part.deadline <= command.moment,
            }.get(reason, False)
        else:
            right = self.is_right(reason, entry, part, self.packet(who, number), number)
        want(right, f"event {number} destroys for a wrong reason: {reason}")
        want(reason in REASONS, f"event {number} has no such reason")
        entry.end = number
        for one in self.expected_at(number):
            if one.master == entry.number:
                one.end = number
        return f"id={entry.number} {reason}"

    def is_right(self, reason, entry, part, packet, number):
        """Whether a packet may destroy an entry for this reason: its own one, or any that may go to make room."""
        if reason == "dropped":
            return start_of(packet) is not None and may_go(part, packet.moment)
        want(packet.tuple in (entry.original, entry.reply), f"event {number} destroys an entry of another flow")
        return step_of(part, entry.direction(packet.tuple), packet)[0] == reason

    def read_expect(self, number, words, who):
        packet = self.packet(who, number)
        entry = self.live(self.identity(words[3], "master", number), number)
        direction = entry.direction(packet.tuple)
        end = named_end(packet, direction)
        want(entry.helper and end is not None, f"event {number} expects what no payload names")
        want(end[0] == packet.tuple.source, f"event {number} expects by an address that is not the packet's own")
        back = entry.reply if direction == "original" else entry.original
        deadline = packet.moment + 300 * SECOND
        zone = entry.original.zone
        new = Expectation(number, entry.number, zone, back.source, back.destination, end[1], deadline)
        others = self.expected_at(number)
        replaced = [one for one in others if one.master == entry.number]
        want(not self.rivals(new, packet.moment, number), f"event {number} expects what another entry expects")
        for one in replaced:
            one.end = number
        self.expected[number] = new
        text = f"master={entry.number} src={address_text(back.source)} dst={address_text(back.destination)} dport={end[1]}"
        return f"{text} until={deadline}" + "".join(f" replaces={one.number}" for one in replaced) + zone_text(zone)

    def rivals(self, new, moment, point):
        return [
            one
            for one in self.expected_at(point)
            if one.master != new.master and moment < one.deadline and new.ends() == one.ends()
        ]

    def read_claim(self, number, words, who):
        packet = self.packet(who, number)
        one = self.first_match(packet.tuple, packet.moment, number)
        want(one is not None, f"event {number} claims what is not expected")
        one.end = number
        self.claimed[who] = one.master
        return f"expect={one.number} master={one.master}"

    def read_unexpect(self, number, words, who):
        want(who[0] == "s" and self.inputs.commands[who[1]].word == "expire", f"event {number} is of no expire")
        one = self.expected.get(self.identity(words[3], "expect", number))
        want(one is not None and one.is_there(number), f"event {number} ends what is not expected")
        want(one.deadline <= self.inputs.commands[who[1]].moment, f"event {number} ends what is due")
        one.end = number
        return f"expect={one.number} expired"


def reply_in(words, proto, zone):
    """The second tuple of a confirm of this zone."""
    length = 5 if proto == "icmp" else 4
    values = [word.partition("=")[2] for word in words[4 + length : 4 + 2 * length]]
    try:
        numbers = [int(value) for value in values[2:]]
        ends = address_of(values[0]), address_of(values[1])
    except (ValueError, IndexError):
        return None
    if len(numbers) != length - 2:
        return None
    if proto == "icmp":
        return Tuple(proto, *ends, numbers[2], numbers[0] * 256 + numbers[1], zone)
    return Tuple(proto, *ends, *numbers, zone)


# The verdicts.

NUMBER = r"(0|[1-9]\d*)"
VERDICT = re.compile(
    r"(NEW|RELATED|ESTABLISHED|ESTABLISHED_REPLY|IGNORED|INVALID state|INVALID new|MERGED|CLASH|NOPORT|FULL|CONTENDED)"
    rf"(?: id={NUMBER})? @{NUMBER}(?: @{NUMBER})?( ftp .*)?"
)
FTP = re.compile(rf" ftp (?:(expect)={NUMBER}|(address)|(clash)={NUMBER} @{NUMBER}|(full|gone) @{NUMBER})")
# The packet's events by letters: d destroys an old entry of its flow, x drops one to make room, l claims, c confirms, t touches,
# e expects.
EVENTS = {
    "NEW": "d{0,4}(x?c|t|r)",
    "RELATED": "d{0,4}(x?lc|t|r)",
    "ESTABLISHED": "d{0,4}te?",
    "ESTABLISHED_REPLY": "d{0,4}(te?|r)",
    "IGNORED": "d{0,4}",
    "INVALID state": "d{0,4}",
    "INVALID new": "d{0,4}",
    "MERGED": "d{0,4}x?",
    "CLASH": "d{0,4}x?l?",
    "NOPORT": "d{0,4}",
    "FULL": "d{0,4}x?",
    "CONTENDED": "d{4}",
}


class Thread:
    """Reads the verdicts of one thread, with its mark: the point behind which no verdict looks back."""

    def __init__(self, history, thread):
        self.history, self.thread, self.mark = history, thread, 0
        self.count = len(history.kinds)

    def read(self, lines):
        for index, line in enumerate(lines):
            number, _, text = line.partition(" ")
            self.name = f"verdict {index} of thread {self.thread}"
            want(number == str(index), f"{self.name} has another number")
            found = VERDICT.fullmatch(text)
            want(found, f"{self.name} is none: {text}")
            self.read_verdict(self.history.inputs.captures[self.thread][index], index, found)

    def letters(self, numbers):
        """The events, as letters."""
        history, letters = self.history, ""
        for number in numbers:
            kind = history.kinds[number]
            letter = {"destroy": "d", "claim": "l", "confirm": "c", "touch": "t", "expect": "e"}.get(kind, "?")
            letters += {"reset": "r", "dropped": "x"}.get(history.reasons[number], letter)
        return letters

    def read_verdict(self, packet, index, found):
        word, identity, point, second, ftp = found.groups()
        self.packet, self.own = packet, self.history.made.get((self.thread, index), [])
        letters = self.letters(self.own)
        want(re.fullmatch(EVENTS[word], letters), f"{self.name} is {word}, with other events")
        want((second is not None) == (word in ("NOPORT", "FULL")), f"{self.name} has other points")
        want((identity is None) == (word in ("INVALID new", "NOPORT", "FULL")), f"{self.name} names an entry, or none")
        self.before, drop = self.mark, None
        for one, letter in zip(self.own, letters):
            want(self.mark <= one, f"{self.name} has an event that is older than what its thread had seen")
            if letter == "x":
                drop = one
                self.judge_drop(drop, int(point) if word == "FULL" else None)
            self.mark = one + 1
        if word == "FULL":
            want(start_of(packet) is not None, f"{self.name} would begin no entry")
            self.judge_full(drop, int(point), int(second))
            return
        if letters.endswith("e"):
            self.mark = self.own[-2] + 1
        self.see(int(point))
        self.judge(word, letters, None if identity is None else int(identity), int(point))
        if second is not None:
            self.see(int(second))
        self.read_ftp(ftp, word, letters, identity)

    def was_full(self, point):
        return self.history.live_counts[point] >= self.history.fullest()

    def was_free(self, point):
        """Whether, up to this point, nothing was live under the packet's tuple since the end of what it met."""
        return any(self.history.live_under(self.packet.tuple, one) is None for one in range(self.mark, point + 1))

    def judge_drop(self, drop, begin):
        """Before a drop the packet found no entry of its flow, and then the table full: by FULL at its first point."""
        points = range(self.mark, drop + 1) if begin is None else [begin]
        want(any(self.was_full(one) for one in points), f"{self.name} drops an entry, and the table was not full")
        want(self.was_free(drop), f"{self.name} drops an entry, and has one")

    def judge_full(self, drop, begin, end):
        """The table was full at the first point. From there to the last no entry that could go was live throughout; or one was
        dropped, and the table was full again."""
        history = self.history
        floor = self.mark if drop is None else self.floor_before(drop)
        want(floor <= begin <= end <= self.count, f"{self.name} looks back, or beyond the history: @{begin} @{end}")
        for one in (begin,) if drop is None else (begin, end):
            want(self.was_full(one), f"{self.name} is FULL with {history.live_counts[one]} live")
        if drop is None:
            want(self.was_free(begin), f"{self.name} is FULL, and has an entry")
            for one in history.throughout(begin, end):
                could = all(may_go(part, self.packet.moment) for part in one.parts_between(begin, end))
                want(not could, f"{self.name} is FULL, and entry {one.number} could go throughout")
        else:
            want(begin <= drop < end, f"{self.name} has a drop beyond its points")
        self.mark = end

    def floor_before(self, drop):
        """The mark before a drop."""
        earlier = [one + 1 for one in self.own if one < drop]
        return max([self.before, *earlier])

    def see(self, point):
        want(self.mark <= point <= self.count, f"{self.name} looks back, or beyond the history: @{point}")
        self.mark = point

    def judge(self, word, letters, identity, point):
        history = self.history
        if letters[-1:] in ("c", "t", "r", "e"):
            number = self.own[-2] if letters[-1] == "e" else self.own[-1]
            want(point == number + 1, f"{self.name} does not stand behind its event")
            want(history.subjects[number] == identity, f"{self.name} names another entry than its event")
            if letters[-1] != "c":
                self.judge_label(word, history.entries[identity], number)
            else:
                self.judge_begun(number)
            return
        self.judge_look(word, identity, point)

    def judge_label(self, word, entry, number):
        part = entry.part(number)
        label = "RELATED" if entry.master is not None else "NEW"
        if part.replied:
            label = "ESTABLISHED"
        if entry.direction(self.packet.tuple) == "reply":
            label = "ESTABLISHED_REPLY"
        want(word == label, f"{self.name} is {word}, and not {label}")

    def judge_begun(self, number):
        """Where nothing was claimed, at some point nothing was there to claim."""
        history, packet = self.history, self.packet
        if history.entries[number].master is None:
            points = range(max([self.before, *(one + 1 for one in self.own if one < number)]), number + 1)
            missed = any(history.first_match(packet.tuple, packet.moment, point) is None for point in points)
            want(missed, f"{self.name} claimed nothing")

    def judge_look(self, word, identity, point):
        history, packet = self.history, self.packet
        flow = packet.tuple
        begins = start_of(packet) is not None
        if word in ("IGNORED", "INVALID state"):
            entry = history.live(identity, point)
            want(flow in (entry.original, entry.reply), f"{self.name} names an entry of another flow")
            outcome = step_of(entry.part(point), entry.direction(flow), packet)[0]
            want(outcome == {"IGNORED": "ignored"}.get(word, "invalid"), f"{self.name} is {outcome} at {point}")
        elif word == "INVALID new":
            want(not begins, f"{self.name} would begin an entry")
            want(history.live_under(flow, point) is None, f"{self.name} is of an entry at {point}")
        else:
            want(begins, f"{self.name} would begin no entry")
            self.judge_none_begun(word, identity, point)

    def judge_none_begun(self, word, identity, point):
        history, flow = self.history, self.packet.tuple
        rules = history.inputs.rules
        if word == "NOPORT":
            want(rule_for(rules, flow) is not None, f"{self.name} has no rule")
        elif word == "CONTENDED":
            entry = history.live(identity, point)
            want(flow in (entry.original, entry.reply), f"{self.name} names an entry of another flow")
        else:
            entry = history.live(identity, point)
            both = entry.original == flow and is_reply_of(rules, flow, entry.reply)
            older = identity < self.before
            if word == "MERGED":
                want(both and flow.proto == "udp", f"{self.name} is merged into another flow")
                want(not older, f"{self.name} is merged into an entry that its thread had seen")
            else:
                self.judge_clash(entry, both, older)

    def judge_clash(self, entry, both, older):
        flow, rules = self.packet.tuple, self.history.inputs.rules
        having = (entry.original, entry.reply)
        translated = rule_for(rules, flow) is not None
        has_reply = any(is_reply_of(rules, flow, one) for one in having)
        want(flow in having or has_reply, f"{self.name} clashes with an entry that has none of its tuples")
        want(not older or (has_reply and not translated), f"{self.name} clashes with an older entry")
        want(translated or not (both and flow.proto == "udp"), f"{self.name} clashes, and is to be merged")

    def read_ftp(self, text, word, letters, identity):
        packet, end = self.packet, None
        if word in ("ESTABLISHED", "ESTABLISHED_REPLY") and letters[-1] in "te" and packet.tuple.proto == "tcp":
            entry = self.history.entries[int(identity)]
            direction = entry.direction(packet.tuple)
            end = named_end(packet, direction) if entry.helper else None
        want((text is not None) == (end is not None), f"{self.name} tells of a payload, or does not")
        if end is None:
            return
        found = FTP.fullmatch(text)
        want(found, f"{self.name} ends with {text}")
        expect, event, address, clash, rival, clash_point, other, point = found.groups()
        want((expect is not None) == letters.endswith("e"), f"{self.name} has another event of the payload")
        want((address is not None) == (end[0] != packet.tuple.source), f"{self.name} names an address")
        if expect:
            want(int(event) == self.own[-1], f"{self.name} names another expectation")
            self.mark = self.own[-1] + 1
        elif clash or other:
            self.judge_payload(entry, direction, end, rival, other, int(clash_point or point))

    def judge_payload(self, entry, direction, end, rival, other, point):
        self.see(point)
        history = self.history
        if other == "gone":
            want(not entry.is_live(point), f"{self.name} says that the entry is gone")
        elif other == "full":
            expected = history.expected_at(point)
            want(len(expected) == 1024, f"{self.name} says that too much is expected")
        else:
            history.live(entry.number, point)
            back = entry.reply if direction == "original" else entry.original
            new = Expectation(0, entry.number, entry.original.zone, back.source, back.destination, end[1], 0)
            rivals = history.rivals(new, self.packet.moment, point)
            want(rivals and rivals[0].number == int(rival), f"{self.name} names a rival that is none")


# The script.


def row_of(entry, point, moment):
    part, proto = entry.part(point), entry.original.proto
    left = max(0, part.deadline - moment) // SECOND
    text = f"{proto:<8} {NUMBERS[proto]} {left} " + (f"{part.state} " if part.state else "")
    text += tuple_text(entry.original) + ("" if part.replied else " [UNREPLIED]")
    text += f" {tuple_text(entry.reply)}" + (" [ASSURED]" if part.assured else "")
    return f"{text}{zone_text(entry.original.zone)} @{point}"


class Script:
    """Reads the answers."""

    def __init__(self, history, end_of_captures):
        self.history, self.mark, self.count = history, 0, len(history.kinds)
        self.end_of_captures = end_of_captures
        moments = [packet.moment for capture in history.inputs.captures for packet in capture]
        self.moment = max(moments, default=0)

    def read(self, lines):
        inputs, at = self.history.inputs, 0
        for index, command in enumerate(inputs.commands):
            self.name = f"answer {index}"
            if index == inputs.wait:
                self.wait()
            want(at < len(lines), f"{self.name} is missing")
            at = self.read_answer(index, command, lines, at)
        want(at == len(lines), "there are lines behind the last answer")

    def wait(self):
        """All captures were replayed: each packet was answered, at a point that stands before this command."""
        self.mark = max(self.mark, self.end_of_captures)

    def read_answer(self, index, command, lines, at):
        words = {
            "-L": "list", "-L expect": "expectations", "-G": "get", "-D": "deleted", "-F": "flushed", "-C": "count",
            "expire": "expired",
        }  # fmt: skip
        counts = 2 if command.word == "expire" else 1
        points = 2 if command.word in ("-L", "-D", "-F", "expire") else 1
        form = f"{index} {words[command.word]}" + f" {NUMBER}" * counts + f" @{NUMBER}" * points
        found = re.fullmatch(form, lines[at])
        want(found, f"{self.name} is none: {lines[at]}")
        numbers = [int(number) for number in found.groups()]
        begin, end = numbers[counts], numbers[-1]
        want(self.mark <= begin <= end <= self.count, f"{self.name} looks back, or beyond the history")
        own = self.history.made.get(("s", index), [])
        want(all(begin <= number < end for number in own), f"{self.name} has events beyond its points")
        self.mark = end
        rows = 0 if command.word in ("-F", "-C", "expire") else numbers[0]
        want(at + rows < len(lines), f"{self.name} has too few rows")
        self.judge(command, numbers, begin, end, own, lines[at + 1 : at + 1 + rows])
        return at + 1 + rows

    def meant_at(self, options, point):
        entries = self.history.entries.values()
        return [one for one in entries if one.is_live(point) and is_meant(options, one.original, one.reply)]

    def judge(self, command, numbers, begin, end, own, rows):
        history, word = self.history, command.word
        if word == "-L":
            self.judge_list(command, begin, end, rows)
        elif word == "-C":
            want(numbers[0] == history.live_counts[begin], f"{self.name} is another count")
        elif word == "-G":
            self.judge_get(command, begin, rows)
        elif word == "-L expect":
            self.judge_expected(begin, rows)
        elif word == "expire":
            kinds = [history.kinds[number] for number in own]
            counts = [kinds.count("destroy"), kinds.count("unexpect")]
            want(numbers[:2] == counts, f"{self.name} counts other events")
            self.judge_expired(command.moment, begin, end)
        else:
            self.judge_swept(command, numbers[0], begin, end, own, rows)

    def judge_list(self, command, begin, end, rows):
        last, listed = -1, set()
        for row in rows:
            tail = re.search(rf" @{NUMBER}$", row)
            want(tail, f"{self.name} has a row without its point: {row}")
            point = int(tail.group(1))
            want(begin <= point <= end, f"{self.name} has a row beyond its points")
            found = [one for one in self.meant_at(command.options, point) if row_of(one, point, self.moment) == row]
            want(len(found) == 1, f"{self.name} has a row of no entry: {row}")
            want(last < found[0].number, f"{self.name} has rows out of order")
            last = found[0].number
            listed.add(last)
        for one in self.meant_at(command.options, begin):
            want(not one.is_live(end) or one.number in listed, f"{self.name} leaves out entry {one.number}")

    def judge_get(self, command, point, rows):
        options = command.options
        numbers = int(options["--sport"]), int(options["--dport"]), int(options.get("-w", 0))
        flow = Tuple(options["-p"], address_of(options["-s"]), address_of(options["-d"]), *numbers)
        entry = self.history.live_under(flow, point)
        want(rows == ([] if entry is None else [row_of(entry, point, self.moment)]), f"{self.name} is another entry")

    def judge_expected(self, point, rows):
        texts = []
        for one in self.history.expected_at(point):
            left = max(0, one.deadline - self.moment) // SECOND
            ends = f"src={address_text(one.source)} dst={address_text(one.destination)} sport=0 dport={one.port}"
            texts.append(f"{left} proto=6 {ends} master={one.master}{zone_text(one.zone)} @{point}")
        want(rows == texts, f"{self.name} lists other expectations")

    def judge_expired(self, moment, begin, end):
        for one in self.history.entries.values():
            stays = one.is_live(begin) and one.is_live(end)
            parts = [one.part(point) for point in range(begin, end + 1)] if stays else []
            throughout = stays and all(part.deadline <= moment for part in parts)
            want(not throughout, f"{self.name} leaves the expired entry {one.number}")
        for one in self.history.expected_at(begin):
            past = one.deadline <= moment and one.is_there(end)
            want(not past, f"{self.name} leaves the expectation {one.number}")

    def judge_swept(self, command, count, begin, end, own, rows):
        want(count == len(own), f"{self.name} counts other events")
        for one in self.meant_at(command.options, begin):
            want(not one.is_live(end), f"{self.name} leaves entry {one.number}")
        if command.word == "-D":
            found = sorted((self.history.subjects[number], number) for number in own)
            texts = [row_of(self.history.entries[entry], number, self.moment) for entry, number in found]
            want(rows == texts, f"{self.name} has other rows")


# What a listener heard.


def report_alone(report):
    """A report without these lines, and without those of how packets leave."""
    return re.sub(r"^(?:heard .*\n|rewrite \d+\n(?:.*\n)*)", "", report, flags=re.M)


def split_rewrites(lines, inputs):
    """The lines of a report, and behind them those of how packets leave, where they are asked for."""
    begins = (place for place, line in enumerate(lines) if inputs.rewrite and line.startswith("rewrite "))
    end = next(begins, len(lines))
    return lines[:end], lines[end:]


def split_heard(lines, inputs):
    """The lines of a report, and behind them those of what a listener heard, where there is one."""
    end = len(lines) - len(inputs.captures) - 1 if inputs.listen else len(lines)
    return lines[:end], lines[end:]


def read_heard(history, lines):
    """A line for each thread, the script's last; without a listener there is none."""
    inputs = history.inputs
    for thread, line in zip([*range(len(inputs.captures)), "s"], lines):
        found = re.fullmatch(f"heard {thread} {NUMBER} of {NUMBER}", line)
        want(found, f"what was heard of thread {thread} is: {line}")
        heard, told = (int(number) for number in found.groups())
        made = sum(
            len(numbers)
            for (maker, index), numbers in history.made.items()
            if maker == thread and (thread != "s" or index < inputs.wait)
        )
        want(told == made, f"thread {thread} made {made} events before all had ended, and {told} are counted")
        want(min(made, QUEUE) <= heard <= made, f"{heard} of {made} events of thread {thread} were heard")


def check(report, inputs):
    """Checks a report of these inputs. Gives its history."""
    want(report.endswith("\n"), "the last line does not end")
    lines, leaving = split_rewrites(report[:-1].split("\n"), inputs)
    lines, heard = split_heard(lines, inputs)
    want(lines, "there are fewer lines than threads")
    found = re.fullmatch(f"events {NUMBER}", lines[0])
    want(found, "the first line does not count the events")
    count, at = int(found.group(1)), 1 + int(found.group(1))
    want(len(lines) > count, "there are too few events")
    history = History(inputs)
    history.read(lines[1:at])
    events = [line.split(" ") for line in lines[1:at]]
    history.reasons = [words[4] if words[1] == "destroy" else None for words in events]
    history.subjects = [subject_of(number, words) for number, words in enumerate(events)]
    end_of_captures, verdicts = 0, []
    for thread, packets in enumerate(inputs.captures):
        want(lines[at : at + 1] == [f"thread {thread} packets {len(packets)}"], f"thread {thread} is not there")
        behind = at + 1 + len(packets)
        want(behind < len(lines), f"thread {thread} has too few verdicts")
        reader = Thread(history, thread)
        reader.read(lines[at + 1 : behind])
        verdicts.append(lines[at + 1 : behind])
        end_of_captures = max(end_of_captures, reader.mark)
        at = behind
    want(lines[at] == f"script {len(inputs.commands)}", "the script's part is another one")
    Script(history, end_of_captures).read(lines[at + 1 :])
    read_heard(history, heard)
    judge_rewrites(history, verdicts, leaving)
    return history


def subject_of(number, words):
    """The entry that an event is about."""
    if words[1] in ("touch", "destroy"):
        return int(words[3].partition("=")[2])
    return number
