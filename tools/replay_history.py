"""What a history says: which entries there were when, who held which number of a rule, which flows were refused.

`lives_of` and `rows_at` are the table at any time, `Table` goes through a history point by point, and `refusals_of` has the
flows that got no entry. Each takes time in proportion to the report times its logarithm, so that a report of some hundred
thousand lines is read in seconds. Nothing here is proved.
"""
import math
import re
from bisect import bisect_left, bisect_right

import replay_files as files

CLOSED = re.compile(r" state=(?:TIME_WAIT|CLOSE)(?!\w)")


# Lives: when each entry was there


class Life:
    """An entry: its confirm, when it began, when and why it ended or None, and its parts in order.

    A part is the moment from which it held, the deadline that it had from then on, and the event that gave it. Times of
    several captures need not rise along the history; no part begins before the one that it follows.
    """

    def __init__(self, confirm, begun):
        self.confirm, self.begun, self.ended, self.why, self.parts = confirm, begun, None, None, []

    def part_at(self, moment):
        """The last part at a moment, or None where there is none yet."""
        at = bisect_right(self.parts, (moment, math.inf))
        return self.parts[at - 1] if at else None


def lives_of(work):
    """The life of each entry, by its id, in order of the ids."""
    lives = {}
    for event in work.report.events:
        if event.kind not in ("confirm", "touch", "destroy"):
            continue
        moment = work.moment_of(event)
        if event.kind == "confirm":
            lives[event.number] = Life(event, moment)
        life = lives[event.entry]
        moment = max(moment, life.parts[-1][0] if life.parts else moment)
        if event.kind == "destroy":
            life.ended, life.why = moment, event.text.split()[-1]
        else:
            life.parts.append((moment, event.until, event))
    return lives


def rows_at(lives, moment):
    """The rows of conntrack -L at a moment: the entries that were there and not past their deadline, with seconds left."""
    for number, life in lives.items():
        part = life.part_at(moment) if life.begun <= moment and (life.ended is None or life.ended > moment) else None
        if part and part[1] > moment:
            yield number, row_text(life, part, moment)


def row_text(life, part, moment):
    original, reply = life.confirm.flows
    words = part[2].text.split()
    state = part[2].fields.get("state")
    pieces = [f"{original.proto:<8} {files.PROTOCOL_NUMBERS[original.proto]} {(part[1] - moment) // 1_000_000}"]
    pieces += [state] if state else []
    pieces += [files.tuple_text(original)] + ([] if "replied" in words else ["[UNREPLIED]"]) + [files.tuple_text(reply)]
    pieces += ["[ASSURED]"] if "assured" in words else []
    return " ".join(pieces) + files.zone_text(original.zone)


# The history, point by point


def is_closed(event):
    """Whether an entry is of a closed connection from this event on: a kernel may end it for a new flow that wants its number."""
    return CLOSED.search(event.text) is not None


class Tally:
    """Of entries that come and go how many there are, how many of closed connections, and how many with a deadline at or before
    a moment: a tree of partial sums."""

    def __init__(self, order):
        self.order, self.sums, self.count, self.closed = order, {}, 0, 0
        self.size = len(order)

    def change(self, deadline, closed, by):
        self.count += by
        self.closed += by if closed else 0
        place, sums = bisect_left(self.order, deadline) + 1, self.sums
        while place <= self.size:
            sums[place] = sums.get(place, 0) + by
            place += place & -place

    def past(self, moment):
        place, total = bisect_right(self.order, moment), 0
        while place:
            total += self.sums.get(place, 0)
            place &= place - 1
        return total


class Table:
    """The live entries of a history, at a point that only goes forward, and who holds the numbers that are asked for.

    wanted are pairs of a rule and a flow that it is for: of each, `held` tells how many of the rule's numbers for that
    flow are held, and how many of these by closed connections, and past a deadline; `all` tells that of all entries, if it is_whole.
    """

    def __init__(self, events, wanted=(), is_whole=True):
        self.events, self.point, self.live, self.places, self.is_whole = events, 0, {}, {}, is_whole
        self.order = sorted({event.until for event in events if event.until is not None})
        self.all = Tally(self.order)
        for rule, flow in wanted:
            end, low, high = place_of(rule, flow)
            self.places.setdefault(end, {}).setdefault((low, high), Tally(self.order))

    def move_to(self, point):
        for event in self.events[self.point : point]:
            if event.kind == "confirm":
                tallies = [*([self.all] if self.is_whole else []), *self.tallies_of(event)]
                self.set_deadline(event.number, (event, event.until, tallies, is_closed(event)), None)
            elif event.kind == "touch":
                before = self.live[event.entry]
                self.set_deadline(event.entry, (before[0], event.until, before[2], is_closed(event)), before)
            elif event.kind == "destroy":
                self.set_deadline(event.entry, None, self.live[event.entry])
        self.point = max(point, self.point)

    def set_deadline(self, number, after, before):
        for tally in (after or before)[2]:
            if before:
                tally.change(before[1], before[3], -1)
            if after:
                tally.change(after[1], after[3], 1)
        if after:
            self.live[number] = after
        else:
            del self.live[number]

    def tallies_of(self, confirm):
        """The tallies of the numbers that a new entry holds: both its tuples are taken for any other entry."""
        for flow in set(confirm.flows):
            for end, number in ends_held(flow):
                for (low, high), tally in self.places.get(end, {}).items():
                    if low <= number <= high:
                        yield tally

    def held(self, rule, flow):
        end, low, high = place_of(rule, flow)
        return self.places[end][low, high]


def ends_held(flow):
    """For what ends of a translation a tuple that is live takes a number, and which: as `place_of` names these ends."""
    if flow.proto == "icmp":
        yield ("icmp", "snat", flow.target, flow.source, flow.second, flow.zone), flow.first
        yield ("icmp", "dnat", flow.source, flow.target, flow.second, flow.zone), flow.first
    else:
        yield (flow.proto, "snat", flow.target, flow.source, flow.first, flow.zone), flow.second
        yield (flow.proto, "dnat", flow.source, flow.target, flow.second, flow.zone), flow.first


def place_of(rule, flow):
    """What the numbers of a rule are shared by for this flow: all flows of one end and one zone that differ in the number alone."""
    low, high = files.numbers_of(rule, flow)
    other = files.inverse(flow)
    if flow.proto == "icmp":
        fixed = other.second
    else:
        fixed = other.first if rule.side == "snat" else other.second
    remote = other.source if rule.side == "snat" else other.target
    return (flow.proto, rule.side, rule.address, remote, fixed, flow.zone), low, high


def holders_of(live, rule, flow):
    """Each number that this rule may give this flow and that one of these entries holds: its confirm and deadline, and if it is closed."""
    end, low, high = place_of(rule, flow)
    held = {}
    for confirm, until, *_, closed in live.values():
        for known in confirm.flows:
            for it, number in ends_held(known):
                if it == end and low <= number <= high:
                    held[number] = (confirm, until, closed)
    return held, high - low + 1


def check_rule(work, thread, index, rule, held, first=0):
    """Of a NOPORT each number of its rule was held, at one of its points or at one between them: else the rules are other ones."""
    flow, name = work.packets[thread][index].flow, work.name_of(thread, index, first)
    if rule is None:
        raise files.Trouble(f"the rules are not those of the report: {name} is NOPORT, and none of them is for it")
    points = [int(word[1:]) for word in work.report.threads[thread][index].split()[1:]]
    low, high = files.numbers_of(rule, flow)
    # Between two points no more numbers come to be held than there are events.
    if held + points[-1] - points[0] < high - low + 1:
        what = f"of the {files.counted(high - low + 1, 'number')} of the rule in line {rule.line} ({rule.text}) {held} {'was' if held == 1 else 'were'} held"
        raise files.Trouble(f"the rules are not those of the report: {name} is NOPORT, and {what}")


def check_rules(work, rules):
    """The rules are those of the report, as far as its NOPORT tell."""
    asked = sorted((verdict.point, thread, index, packet.flow) for thread, index, _, packet, verdict in work.judged() if verdict.word == "NOPORT")
    rule_of = {flow: files.rule_for(rules, flow) for *_, flow in asked}
    table = Table(work.report.events, [(rule, flow) for flow, rule in rule_of.items() if rule], False)
    for point, thread, index, flow in asked:
        table.move_to(point)
        check_rule(work, thread, index, rule_of[flow], table.held(rule_of[flow], flow).count if rule_of[flow] else 0)


def live_at(events, point):
    """The confirm and the deadline of each entry that is live after so many events, and whether its connection is closed."""
    live = {}
    for event in events[:point]:
        if event.kind == "confirm":
            live[event.number] = (event, event.until, is_closed(event))
        elif event.kind == "touch":
            live[event.entry] = (live[event.entry][0], event.until, is_closed(event))
        elif event.kind == "destroy":
            del live[event.entry]
    return live


# Flows that were refused


class Refusal:
    """A flow that was refused or dropped: the packet by which it was, and how many packets of it came behind without an entry.

    Of a flow that was dropped `drop` says which entry went and why, and `again` is the entry that a later packet of it began.
    """

    def __init__(self, word, flow, thread, index, moment, point, drop=None):
        self.word, self.flow, self.thread, self.index, self.moment, self.point = word, flow, thread, index, moment, point
        self.later, self.last, self.drop, self.again = 0, moment, drop, None


def refusals_of(work):
    """The flows that were FULL, NOPORT or CLASH, or of which an entry was dropped, in order of the packets by which they were.

    A flow's later packets each try again, so that one flow has many verdicts. They are its own until one gets an entry.
    """
    found, waiting, known, by_pair = [], {}, {}, {}
    for drop in drops_of(work):
        it = Refusal("dropped", drop.confirm.flows[0], drop.event.thread, drop.event.index, drop.moment, drop.event.number, drop)
        found.append(it)
        for pair in {files.pair_of(flow) for flow in drop.confirm.flows}:
            by_pair.setdefault(pair, []).append((it.point, it))
    for thread, index, frame, packet, verdict in work.judged():
        if packet.kind != "flow":
            continue
        is_let_in = verdict.entry is not None and verdict.word not in files.REFUSED
        if is_let_in and not waiting and not by_pair:
            continue
        key = (thread, files.pair_of(packet.flow))
        last = last_before(by_pair.get(key[1], ()), verdict.point)
        if last is not None and known.get(key) is not last:
            known[key] = waiting[key] = last
        if not is_let_in:
            if key in waiting:
                waiting[key].later += 1
                waiting[key].last = frame.moment
            elif verdict.word in files.REFUSED:
                waiting[key] = Refusal(verdict.word, packet.flow, thread, index, frame.moment, verdict.point)
                found.append(waiting[key])
        elif key in waiting:
            waiting.pop(key).again = verdict.entry
    return sorted(found, key=lambda it: (it.thread, it.index))


def last_before(drops, point):
    """The last of these drops, each with its event's number and in their order, that a packet with this point stands behind; or None."""
    at = bisect_left(drops, (point,)) if drops and point is not None else 0
    return drops[at - 1][1] if at else None


class Drop:
    """An entry that made room in a full table: its destroy, its confirm, its last part, and why it might go."""

    def __init__(self, event, confirm, last, moment):
        self.event, self.confirm, self.last, self.moment = event, confirm, last, moment
        self.past = moment - last.until

    def why(self):
        if self.past >= 0:
            return f"past its deadline by {self.past / 1_000_000:.6f} s"
        if "assured" not in self.last.text.split():
            return "not assured"
        return f"a connection in {self.last.fields.get('state')}"


def drops_of(work):
    """The drops of a history, in order."""
    lasts = {}
    for event in work.report.events:
        if event.until is not None:
            lasts[event.entry] = event
        elif event.kind == "destroy":
            last = lasts.pop(event.entry)
            if event.text.endswith(" dropped"):
                yield Drop(event, work.report.events[event.entry], last, work.moment_of(event))
