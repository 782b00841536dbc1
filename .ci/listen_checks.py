"""Checks of what a listener hears: the word, what docs/FORMATS.md shows, runs with many events and without threads, damaged
lines, and what the tools say. Used by .ci/tools."""
import os
import re
import resource
import shutil

import made_packets as made
import replay_files as files
from checking import DATA, EXAMPLES, PROGRAM, TOP, count, module, read, refuses, report_of, run, tool, wants, write
from zone_checks import blocks

START = 1_000_000_000_000_000
CAPTURE = os.path.join(DATA, "c.pcap")
QUEUE, MANY = 1024, 1500
# Stacks that are larger than all memory that may be had: no thread can be made.
NO_THREAD = ((resource.RLIMIT_STACK, 4_000_000 << 10), (resource.RLIMIT_AS, 3_000_000 << 10))
# A program that waits for ever is ended.
LIMIT = 60


# The word, and what is printed


def listened(*words, **how):
    """A run of the program, which is ended where it does not end."""
    return run(["timeout", str(LIMIT), PROGRAM, *words], **how)


def without(text):
    """A report or a summary without the lines of what was heard, and these lines."""
    lines = text.splitlines(keepends=True)
    at = next((at for at, line in enumerate(lines) if line.startswith("heard ")), len(lines))
    return "".join(lines[:at]), lines[at:]


def made_by_thread(report):
    """How many events of a report each capture's thread made, and each command of its script."""
    threads, commands = {}, {}
    for line in report.splitlines():
        if found := re.match(r"\d+ (?:confirm|touch|destroy|expect|claim|unexpect) (s|\d+)\.(\d+) ", line):
            own, key = (commands, int(found[2])) if found[1] == "s" else (threads, int(found[1]))
            own[key] = own.get(key, 0) + 1
    return threads, commands


def check_formats(room):
    """The three blocks of the section, each by the words that stand before it."""
    text = read(TOP, "docs", "FORMATS.md").split("\n### What a listener heard\n")[1].split("\n### ")[0]
    script = write(room, "flush.script", "wait\n-F\n")
    words = [["--listen", CAPTURE], ["--listen", "--script", script, CAPTURE], re.search(r"`(--make .* --listen)`", text)[1].split()]
    found = blocks(text)
    count("docs/FORMATS.md: three examples of what a listener heard", len(found) == len(words) == 3, len(found))
    for own, wanted in zip(words, found):
        ran = listened(*own)
        count(f"docs/FORMATS.md: {' '.join(own[:2])}, what a listener heard", (ran.returncode, ran.stdout, ran.stderr) == (0, wanted, ""), ran.stdout + ran.stderr)


def check_words():
    line = "ctreplay: the words are not of the stated form\n"
    for words in (["--listen", "--listen", CAPTURE], ["--listen=1", CAPTURE], ["--listen=", CAPTURE], ["--liste", CAPTURE], ["-listen", CAPTURE], ["--listen"], ["--listen", "--summary"]):
        ran = run([PROGRAM, *words])
        count(f"--listen: {' '.join(words[:2])} is refused", (ran.returncode, ran.stdout, ran.stderr) == (1, "", line), ran.stdout + ran.stderr)
    wanted = run([PROGRAM, CAPTURE]).stdout + "heard 0 2 of 2\nheard s 0 of 0\n"
    for words in ([CAPTURE, "--listen"], ["--listen", "--", CAPTURE], ["--entries", "1", "--listen", "--buckets=1", CAPTURE]):
        ran = listened(*words)
        count(f"--listen: {' '.join(word for word in words if word != CAPTURE)}", (ran.returncode, ran.stdout, ran.stderr) == (0, wanted, ""), ran.stdout + ran.stderr)
    ran = run([PROGRAM, "--", "--listen"])
    count("--listen: behind -- it is a capture", (ran.returncode, ran.stderr) == (3, "ctreplay: --listen: open failed\n"), ran.stderr)


def check_whole(room):
    """Of one capture the report or summary is as without the word, and the lines behind it count its events and the script's."""
    script = write(room, "beside.script", "-L\n-C\nwait\n-D -p udp\n-F\n")
    cases = [
        ("an office", ["--rules", "office.rules", "office.pcap"]),
        ("an office, and a script behind it", ["--rules", "office.rules", "--script", "table.script", "office.pcap"]),
        ("fragments", ["--defrag", "--rules", "large.rules", "large.pcap"]),
        ("a zone", ["--zones", "7", CAPTURE]),
        ("an empty table", ["--script", script, write_capture(room, "none", [])]),
    ]
    for name, words in cases:
        plain, heard = (listened(*more, *words).stdout for more in ([], ["--listen"]))
        report, lines = without(heard)
        number = made_by_thread(plain)[0].get(0, 0)
        count(f"--listen: {name}", report == plain and lines == [f"heard 0 {number} of {number}\n", "heard s 0 of 0\n"], heard[-300:])
        short, rest = without(listened("--listen", "--summary", *words).stdout)
        count(f"--listen: {name}, its summary", short == run([PROGRAM, "--summary", *words]).stdout and rest == lines, short)


def check_beside(room):
    """Two captures, and commands before and behind `wait`: each line has the number of its thread's events."""
    script = write(room, "both.script", "-D -p udp\n-C\nwait\n-L\n-F\n")
    for turn in range(5):
        ran = listened("--listen", "--script", script, "office.pcap", "range.pcap")
        report, lines = without(ran.stdout)
        threads, commands = made_by_thread(report)
        numbers = [threads.get(0, 0), threads.get(1, 0), sum(made for index, made in commands.items() if index < 2)]
        wanted = [f"heard {name} {number} of {number}\n" for name, number in zip("01s", numbers)]
        good = ran.returncode == 0 and lines == wanted and numbers[0] > 40 and sum(commands.values()) > numbers[2]
        count(f"--listen: two captures and a script, run {turn}", good, "".join(lines) + str(numbers))


def check_many():
    """More events than a queue holds: at least as many are heard as it holds, and no more than there are."""
    for words, number, threads in ((["--make", "2", "--packets", "65536", "--threads", "4"], 65536, 4), (["--make", "1", "--packets", "4", "--threads", "63"], 4, 63)):
        ran = listened(*words, "--summary", "--listen")
        _, lines = without(ran.stdout)
        found = [re.fullmatch(r"heard (\d+|s) (\d+) of (\d+)\n", line) for line in lines]
        names = [*map(str, range(threads)), "s"]
        good = ran.returncode == 0 and all(found) and [it[1] for it in found] == names and lines[-1] == "heard s 0 of 0\n"
        good = good and all(int(it[3]) == number and min(number, QUEUE) <= int(it[2]) <= number for it in found[:-1])
        count(f"--listen: {number} events on each of {threads} threads", good, ran.stdout[-300:] + ran.stderr)


def limit():
    for kind, most in NO_THREAD:
        resource.setrlimit(kind, (most, resource.getrlimit(kind)[1]))


def check_without_threads():
    """Where no thread can be made, the listener hears behind the others, and the run ends."""
    if any(resource.getrlimit(kind)[1] != resource.RLIM_INFINITY for kind, _ in NO_THREAD):
        print("skipped: --listen where no thread can be made: there are limits on stacks or memory already")
        return
    ran = listened("--listen", CAPTURE, preexec_fn=limit)
    good = ran.returncode == 0 and ran.stdout.endswith("\nscript 0\nheard 0 2 of 2\nheard s 0 of 0\n")
    count("--listen: where no thread can be made", good, f"status {ran.returncode}: {ran.stdout}{ran.stderr}")
    ran = listened("--make", "2", "--packets", "4096", "--threads", "2", "--summary", "--listen", preexec_fn=limit)
    good = ran.returncode == 0 and ran.stdout.endswith(f"\nheard 0 {QUEUE} of 4096\nheard 1 {QUEUE} of 4096\nheard s 0 of 0\n")
    count("--listen: where no thread can be made as many are heard as a queue holds", good, f"status {ran.returncode}: {ran.stdout}{ran.stderr}")


def check_not_written():
    if not os.path.exists("/dev/full"):
        print("skipped: --listen where writing fails: there is no /dev/full")
        return
    ran = run(["bash", "-c", 'exec "$0" "$@" >/dev/full', PROGRAM, "--listen", CAPTURE])
    count("--listen: where writing fails", (ran.returncode, ran.stderr) == (4, "ctreplay: write failed\n"), f"status {ran.returncode}: {ran.stderr}")


# Reports with damaged lines


def write_capture(room, name, packets):
    return made.write(f"{room}/{name}.pcap", packets)


def many_capture(room):
    """Queries, each of a flow of its own."""
    return write_capture(room, "many", [(START + at, made.udp("10.0.0.1", 5000 + at, "10.0.0.2", 53)) for at in range(MANY)])


def damages(last):
    """Of a report of two captures and a script of two commands, of which the second made `last` events: what, lines in place of the
    right ones, and what the refusal says."""
    first, second, script = "heard 0 {0} of {0}\n", "heard 1 {1} of {1}\n", "heard s 0 of 0\n"
    other = "the lines of what a listener heard are of the threads "
    yield "no line of a capture", second + script, other + "1, s, and the threads are 0, 1, s"
    yield "no line of the script", first + second, other + "0, 1, and the threads are 0, 1, s"
    yield "one line twice", first + first + second + script, other + "0, 0, 1, s,"
    yield "captures in another order", second + first + script, other + "1, 0, s,"
    yield "the script before the captures", script + first + second, other + "s, 0, 1,"
    yield "a capture too many", first + second + "heard 2 0 of 0\n" + script, other + "0, 1, 2, s,"
    yield "a line behind the last", first + second + script + "heard\n", "'heard' is no line of what a listener heard"
    yield "another line behind the last", first + second + script + "script 0\n", "'script 0' is no line of what a listener heard"
    yield "more heard than made", first.replace("{0} of", "999 of") + second + script, "'heard 0 999 of {0}', but of {0} events at least {0} are heard, and at most all"
    yield "not all heard of few", first + second.replace("{1} of", "1 of") + script, "'heard 1 1 of {1}', but of {1} events at least {1} are heard"
    yield "more events than the history has", first + "heard 1 999 of 999\n" + script, "'heard 1 999 of 999', but thread 1 made {1} events"
    yield "fewer events than the history has", "heard 0 1 of 1\n" + second + script, "'heard 0 1 of 1', but thread 0 made {0} events"
    yield "events of another script", first + second + "heard s 999 of 999\n", f"'heard s 999 of 999', but the script's first commands, however many, made 0 or {last} events"
    for text in ("heard 0 {0}", "heard 0 {0} of", "heard 0 of {0}", "heard 0 x of {0}", "heard 0 -1 of {0}", "heard 0 0{0} of {0}", "heard 0 {0} of {0} ", "heard 00 {0} of {0}", "heard t {0} of {0}", "heard  0 {0} of {0}", "heard 0 {0} from {0}", "heard 0 {0} of {0} @1"):
        yield f"{text!r}", f"{text}\n{second}{script}", f"'{text}' is no line of what a listener heard"


def check_damages(room):
    script = write(room, "end.script", "wait\n-C\n-F\n")
    names = ["office.pcap", "range.pcap"]
    name = report_of(room, "--listen", "--script", script, *names, name="heard.report")
    text = read(name)
    report, lines = without(text)
    threads, commands = made_by_thread(report)
    numbers = threads[0], threads[1]
    count("a report with what a listener heard", lines == [f"heard {thread} {made} of {made}\n" for thread, made in zip("01s", (*numbers, 0))], lines)
    said = tool("check", name, *names).stdout
    wants("tools/check: with what a listener heard it says no more", tool("check", write(room, "plain.report", report), *names), 1, said)
    for number, (what, after, refusal) in enumerate(damages(commands[1])):
        changed = write(room, "damaged.report", report + after.format(*numbers))
        texts = (f"{room}/damaged.report: the report is cut or changed", refusal.format(*numbers))
        refuses(f"tools/check: what a listener heard, {what}", tool("check", changed, *names), *texts)
        if number % 6 == 0:
            for word, words in (("refused", []), ("draw", []), ("page", []), ("table", ["--at", "0"]), ("compare", [name])):
                refuses(f"tools/{word}: what a listener heard, {what}", tool(word, *words, changed, *names), *texts)
            refuses(f"tools/why: what a listener heard, {what}", tool("why", "--report", changed, *names, "--", "0"), *texts)


def check_bounds(room):
    """Of more events than a queue holds as many as that are enough, and check says that some were not heard."""
    capture = many_capture(room)
    report, lines = without(listened("--listen", capture).stdout)
    count("a report of more events than a queue holds", len(lines) == 2 and report.startswith(f"events {MANY}\n"), lines)
    told = lambda number: write(room, "many.report", f"{report}heard 0 {number} of {MANY}\nheard s 0 of 0\n")
    wants("tools/check: not all was heard", tool("check", told(QUEUE), capture), 1, f"many.pcap: the listener was told of the first {QUEUE} of {MANY} events")
    ran = tool("check", told(MANY), capture)
    count("tools/check: all was heard", ran.returncode == 1 and "listener" not in ran.stdout, ran.stdout)
    for number in (QUEUE - 1, MANY + 1):
        refuses(f"tools/check: {number} were heard", tool("check", told(number), capture), f"'heard 0 {number} of {MANY}', but of {MANY} events at least {QUEUE} are heard")


# What the tools say of a report with these lines


def check_tools(room):
    rules = ["--rules", "office.rules"]
    heard = report_of(room, *rules, "--listen", "office.pcap", name="heard.report")
    plain = report_of(room, *rules, "office.pcap", name="unheard.report")
    wants("tools/compare: with a listener and without", tool("compare", heard, plain, "office.pcap"), 0, "no flow, verdict or translation differs")
    pairs = [("check", rules, []), ("refused", rules, []), ("table", ["--at", "2026-11-28T23:48:53Z"], []), ("why", [*rules, "--report"], ["--", "21"])]
    for word, before, behind in pairs:
        one, other = (tool(word, *before, report, "office.pcap", *behind) for report in (heard, plain))
        good = (one.returncode, one.stdout, one.stderr) == (other.returncode, other.stdout, other.stderr) and "Traceback" not in one.stderr
        count(f"tools/{word}: the same with what a listener heard", good and one.returncode < 2, one.stdout + one.stderr)
    wants("tools/page: with what a listener heard", tool("page", *rules, "--to", f"{room}/heard.html", heard, "office.pcap"), 0, "heard.html: ")
    if shutil.which("gnuplot"):
        wants("tools/draw: with what a listener heard", tool("draw", *rules, "--to", f"{room}/heard", heard, "office.pcap"), 0, "heard-entries")
    work = files.Work(heard, [os.path.join(EXAMPLES, "office.pcap")])
    count("tools: what was heard of each thread", [(it.thread, it.heard, it.made) for it in work.heard] == [(0, len(work.report.events), len(work.report.events)), ("s", 0, 0)], work.heard)
    summary = write(room, "heard.summary", listened("--summary", "--listen", "office.pcap").stdout)
    refuses("tools/check: a summary with what a listener heard", tool("check", summary, "office.pcap"), "no report of ctreplay", "--summary prints none")


def check_hints():
    hint, line = module("hint").hint_of, "ctreplay: the words are not of the stated form"
    cases = [
        (["--listen", "--listen", "c.pcap"], "--listen stands twice"),
        (["--listen=1", "c.pcap"], "--listen has no value"),
        (["--listen"], "no capture is named"),
        (["--liste", "c.pcap"], "the first word that is not known is --liste"),
        (["--listen", "--make", "1", "--packets", "4"], "--make needs --packets and --threads"),
    ]
    for words, text in cases:
        said = hint(1, line, words)
        count(f"tools/hint: {' '.join(words)}", " [--listen] " in said and said.endswith(text), said)


def check_all(room):
    check_formats(room)
    check_words()
    check_whole(room)
    check_beside(room)
    check_many()
    check_without_threads()
    check_not_written()
    check_damages(room)
    check_bounds(room)
    check_tools(room)
    check_hints()
