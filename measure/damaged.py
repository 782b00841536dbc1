#!/usr/bin/env python3
"""Tries the built program on damaged input, on hostile files of rules and scripts, on outputs that fail, and on captures whose
threads get in each other's way; and compares each run with what docs/FORMATS.md says.

usage: damaged.py [--program FILE] [--quick] [--only WORD] [--runs N] [--seed N] [--seconds N] [--keep FOLDER]
       damaged.py --self-test [--program FILE]

Without --program it is the program of ../ctreplay, which has to be built. --quick takes fewer forms, changes, texts and runs.
--only takes the parts, and the storms, whose name has the word. Each storm runs 100 times, or as --runs says. A run that takes
longer than 5 seconds, or than --seconds, is refused; a storm has twelve times as long. A run that is refused is kept in the
folder of --keep with its files, and the script goes on; it ends with status 1 then.

The parts:
  prefixes  each first part of a capture of each link type, byte order and fraction of a second
  bytes     each byte of these captures set to 0, 1, 0x7f, 0x80 and 0xff
  ftp-bytes each byte of the shipped control connection of FTP set to 0x80 and 0xff
  rules     files of rules of random bytes and words, of one line, of a million lines, with NUL bytes and open ends
  scripts   the same of scripts
  files     names of what is no file of bytes, and files that never end
  zones     lists of zones, good and wrong ones
  outputs   an output that is full, closed, or read no further
  storms    many captures at once, full pools, one bucket, clashes, expiry, control connections of FTP (damaged_storms.py)
A file is read, and then its report is checked with report_check.py; or it is refused by the one line that FORMATS has for its
first fault, with nothing on the output.

--self-test runs programs that are wrong in the place of the program, and wants each of their runs refused.
"""
import argparse
import os
import random
import re
import subprocess
import sys
import tempfile
import time
from collections import namedtuple

import damaged_captures
import damaged_storms
import damaged_texts
from report_check import check, report_alone
from tracker_rules import Inputs, Refused, inputs_of, want
from thread_rows import changes_of

HERE = os.path.dirname(os.path.abspath(__file__))
TOP = os.path.dirname(HERE)
SIZES = ("--entries", "16", "--buckets", "16")
PORTS = (21,)
# A run: its words, its files, what judges it, the line of a shell that runs "$@" (where there is one), and how many times as long
# as others it may take.
Case = namedtuple("Case", "name words files judge line patience", defaults=(None, 1))
Done = namedtuple("Done", "status out err")


# One run.


def words_to_run(program, one):
    """The words of the run, by a shell where it has a line."""
    words = [program, *one.words]
    return words if one.line is None else ["bash", "-c", one.line, "bash", *words]


def run_case(program, one, seconds):
    """Runs a case in a folder of its own. Gives what the run left."""
    with tempfile.TemporaryDirectory() as folder:
        place(one.files, folder)
        words, limit = words_to_run(program, one), one.patience * seconds
        process = subprocess.Popen(
            words, cwd=folder, stdin=subprocess.DEVNULL, stdout=subprocess.PIPE, stderr=subprocess.PIPE, start_new_session=True
        )
        try:
            out, err = process.communicate(timeout=limit)
        except subprocess.TimeoutExpired:
            os.killpg(process.pid, 9)
            process.communicate()
            return Done(f"none after {limit} s", b"", b"")
        return Done(process.returncode, out, err)


def place(files, folder):
    for name, data in files.items():
        with open(os.path.join(folder, name), "wb") as file:
            file.write(data)


def why_refused(done, one):
    """Why a run is refused, or none. What a wrong report makes the checker stumble over is refused too."""
    try:
        want(isinstance(done.status, int), f"status {done.status}")
        one.judge(done)
    except Refused as fault:
        return str(fault)
    except (ValueError, IndexError, KeyError, AttributeError, TypeError) as fault:
        return f"no report: {fault!r}"
    return None


def keep(folder, one, done, why):
    name = os.path.join(folder, re.sub(r"[^a-z0-9]+", "-", one.name.lower()))
    os.makedirs(name, exist_ok=True)
    place(one.files, name)
    said = f"{why}\nwords {one.words} {one.line or ''}\nstatus {done.status}\n"
    place({"why": said.encode(), "out": done.out, "err": done.err}, name)


# What a run is to leave.


def is_refused(status, line):
    """The run has this status, and says this one line and nothing else."""

    def judge(done):
        want(done.status == status, f"status {done.status}, and not {status}: {done.err[:200]!r}")
        want(done.err == f"ctreplay: {line}\n".encode(), f"the line is {done.err[:200]!r}, and not {line}")
        want(done.out == b"" or status == 4, "it is refused, and something is on the output")

    return judge


def is_read(judge_report):
    """The run is good, and so is its report."""

    def judge(done):
        want(done.status == 0 and done.err == b"", f"status {done.status}, and not 0: {done.err[:200]!r}")
        judge_report(done.out.decode("ascii"))

    return judge


def no_inputs(entries=16):
    return Inputs([], [], [], 0, entries, PORTS)


def judge_capture(data, name="c.pcap"):
    """The capture is read or refused as FORMATS says."""
    fault, frames = damaged_captures.read_file(data)
    if fault:
        return is_refused(2, f"{name}: {fault}")
    return is_read(lambda report: damaged_captures.judge_report(report, no_inputs(), [frames]))


def capture_cases(forms, damages):
    """The damages of captures of these forms."""
    for form in forms:
        name = f"order {form.order} nanoseconds {form.nanoseconds} ethernet {form.ethernet}"
        data = damaged_captures.capture_of(form, damaged_captures.sample_packets())
        for what, damaged in damages(data):
            yield Case(f"{name}: {what}", (*SIZES, "c.pcap"), {"c.pcap": damaged}, judge_capture(damaged))


def ftp_cases(values):
    """The shipped control connection of FTP, each byte changed."""
    data = read_bytes("crates", "ctreplay", "data", "ftp.pcap")
    for what, damaged in damaged_captures.changes(data, values):
        yield Case(f"ftp: {what}", (*SIZES, "c.pcap"), {"c.pcap": damaged}, judge_capture(damaged))


def read_bytes(*names):
    with open(os.path.join(TOP, *names), "rb") as file:
        return file.read()


# Files of rules and scripts.


def judge_text(kind, data, capture):
    if len(data) > damaged_texts.MOST_BYTES:
        return is_refused(5, f"limit: {kind} bytes")
    rules, commands, wait = [], [], 0
    if kind == "rules":
        rules, fault = damaged_texts.read_rules(data)
    else:
        commands, wait, fault = damaged_texts.read_script(data)
    if fault:
        return is_refused(2, f"{kind}: {fault}")
    inputs = inputs_of([capture], entries=16)._replace(rules=rules, commands=commands, wait=wait)
    return is_read(lambda report: check(report, inputs))


def text_case(kind, name, data):
    capture = read_bytes("crates", "ctreplay", "data", "c.pcap")
    files = {kind: data, "c.pcap": capture}
    return Case(f"{kind}: {name}", (*SIZES, f"--{kind}", kind, "c.pcap"), files, judge_text(kind, data, capture))


def text_cases(kind, seed, count):
    words, good, wrong = damaged_texts.RULE_WORDS, damaged_texts.GOOD_RULES, "snatch"
    if kind == "script":
        words, good, wrong = damaged_texts.SCRIPT_WORDS, damaged_texts.GOOD_COMMANDS, "-X"
    for name, data in damaged_texts.long_texts(good[0], wrong):
        yield text_case(kind, name, data)
    source = random.Random(f"{kind} {seed}")
    for number in range(count):
        yield text_case(kind, f"random bytes {number}", source.randbytes(source.choice((1, 7, 300, 5000))))
        for turn in range(3):
            yield text_case(kind, f"random words {number} {turn}", damaged_texts.mixed_text(source, words, good))


# Files that are none, and outputs that fail.


def file_cases():
    capture = read_bytes("crates", "ctreplay", "data", "c.pcap")
    good, cut = {"c.pcap": capture}, is_refused(2, "/dev/null: short header")
    rows = [
        (("/",), {}, is_refused(3, "/: read failed")),
        (("/proc/self/mem",), {}, is_refused(3, "/proc/self/mem: read failed")),
        (("/dev/null",), {}, cut),
        (("/dev/zero",), {}, is_refused(5, "limit: capture bytes")),
        (("c.pcap", "/dev/zero"), good, is_refused(5, "limit: capture bytes")),
        (("--rules", "/dev/zero", "c.pcap"), good, is_refused(5, "limit: rules bytes")),
        (("--script", "/dev/zero", "c.pcap"), good, is_refused(5, "limit: script bytes")),
        (("--rules", "/", "c.pcap"), good, is_refused(3, "/: read failed")),
        (("--script", "/", "/dev/null"), {}, is_refused(3, "/: read failed")),
        (("absent",), {}, is_refused(3, "absent: open failed")),
        (("c.pcap/",), good, is_refused(3, "c.pcap/: open failed")),
        (("a\nb",), {}, is_refused(3, "a\nb: open failed")),
        (("",), {}, is_refused(3, ": open failed")),
        (("a" * 5000,), {}, is_refused(3, "a" * 5000 + ": open failed")),
        (("c.pcap",) * 64, good, is_refused(5, "limit: captures")),
        (("c.pcap",) * 62 + ("/dev/null",), good, cut),
        ((b"\xff",), {}, is_refused(1, "the words are not of the stated form")),
        ((), {}, is_refused(1, "the words are not of the stated form")),
    ]
    for words, files, judge in rows:
        name = " ".join(str(word)[:20] for word in words[:4])
        yield Case(f"files: {name} of {len(words)}", words, files, judge)


def zone_cases():
    """Lists of zones, good and wrong ones."""
    capture = read_bytes("crates", "ctreplay", "data", "c.pcap")
    good, usage = {"c.pcap": capture}, is_refused(1, "the words are not of the stated form")
    for text in ("", ",", "1,", ",1", "1,2", "1,2,3", "+1", "1 ", " 1", "1;2", "0x1", "1.0", "65536", "99999", "000001", "100000", "\u0661", "one"):
        yield Case(f"zones: {text!r}", (f"--zones={text}", "c.pcap"), good, usage)
    for name, words in (
        ("twice", ("--zones=1", "--zones=1", "c.pcap")),
        ("no value", ("c.pcap", "--zones")),
        ("one for two", ("--zones", "1", "c.pcap", "c.pcap")),
        ("no capture", ("--zones", "1")),
        ("a made workload", ("--make", "0", "--packets", "8", "--threads", "1", "--zones", "1")),
    ):
        yield Case(f"zones: {name}", words, good, usage)
    for text, zone in (("0", 0), ("00000", 0), ("7", 7), ("00007", 7), ("65535", 65535)):
        inputs = inputs_of([capture], zones=[zone])
        yield Case(f"zones: {text}", ("--zones", text, "c.pcap"), good, is_read(lambda report, inputs=inputs: check(report, inputs)))


def shell_case(name, words, files, line, judge):
    return Case(f"outputs: {name}: {line}", words, files, judge, line)


def leaves(status, out, err):
    """The run leaves just this."""

    def judge(done):
        want(done == Done(status, out, err), f"it leaves {done.status}, {done.out[:80]!r} and {done.err[:80]!r}")

    return judge


def output_cases():
    """Each output that fails, with a report of few bytes, a summary, and a report of many; and a failing error output."""
    capture = {"c.pcap": read_bytes("crates", "ctreplay", "data", "c.pcap")}
    leaving = {name: read_bytes("crates", "ctreplay", "data", name) for name in ("port.pcap", "port.rules")}
    made = ("--make", "1", "--packets", "20000", "--threads", "3", "--entries", "16384")
    rows = [
        ("few bytes", ("c.pcap",), capture),
        ("a summary", ("--summary", "c.pcap"), capture),
        ("a listener", ("--listen", "c.pcap"), capture),
        ("how packets leave", ("--rewrite", "--rules", "port.rules", "port.pcap"), leaving),
        ("many bytes", made, {}),
    ]
    said = b"ctreplay: write failed\n"
    late = '(sleep 0.1; exec "$@") | true; exit ${PIPESTATUS[0]}'
    # Without the trap the system ends the program by a signal.
    no_room = 'trap "" XFSZ; ulimit -f 0; "$@" >report'
    for name, words, files in rows:
        for line in ('"$@" >/dev/full', '"$@" >&-', '"$@" 1</dev/null', '"$@" <&- >&-', late, no_room):
            yield shell_case(name, words, files, line, leaves(4, b"", said))
        for line in ('"$@" >/dev/full 2>/dev/full', '"$@" >&- 2>&-'):
            yield shell_case(name, words, files, line, leaves(4, b"", b""))
    gone = '"$@" | head -n 1; exit ${PIPESTATUS[0]}'
    yield shell_case("many bytes", made, {}, gone, leaves(4, b"events 60000\n", said))
    report = read_bytes("crates", "ctreplay", "stdout")
    for status, words in enumerate((("c.pcap",), (), ("/dev/null",), ("absent",), None, ("--entries", "0", "c.pcap"))):
        for line in ('"$@" 2>/dev/full', '"$@" 2>&-', '"$@" <&- 2>&-') if words is not None else ():
            yield shell_case(f"status {status}", words, capture, line, leaves(status, b"" if status else report, b""))


# Storms.


def storm_case(storm, number):
    """A run of a storm; every second one has a listener, and two of four say how packets leave."""
    words, files = [], {f"{thread}.pcap": data for thread, data in enumerate(storm.captures)}
    for option, text in (("rules", storm.rules), ("script", storm.script)):
        if text:
            words += [f"--{option}", option]
            files[option] = text.encode()
    is_heard, is_rewritten = number % 2 == 1, number % 4 >= 2
    words += ["--entries", str(storm.entries), "--buckets", str(storm.buckets)] + ["--listen"] * is_heard + ["--rewrite"] * is_rewritten
    inputs = inputs_of(storm.captures, storm.rules, storm.script, storm.entries, listen=is_heard, rewrite=is_rewritten)
    judge = is_read(lambda report: storm.holds(check(report, inputs), report_alone(report)))
    names = [f"{thread}.pcap" for thread in range(len(storm.captures))]
    return Case(f"{storm.name} {number}", words + names, files, judge, patience=12)


def run_storm(storm, given):
    """Runs a storm as often as is asked for. Gives how many runs were refused."""
    cases, begin, changes, words, bad = [storm_case(storm, number) for number in range(4)], time.time(), [], {}, 0
    for number in range(given.runs):
        one = cases[number % 4]
        done = run_case(given.program, one, given.seconds)
        if not is_good(one._replace(name=f"{storm.name} {number}"), done, given):
            bad += 1
            continue
        report = done.out.decode()
        changes.append(changes_of(report))
        for found in re.finditer(r"^\d+ ([A-Z_]+(?: state| new)?)(?: id=\d+)?(?: @\d+)+( ftp \w+)?", report, re.M):
            word = found[1] + (found[2] or "")
            words[word] = words.get(word, 0) + 1
    counts = ", ".join(f"{word} {count}" for word, count in sorted(words.items()))
    missed = "".join(f"; no run had {word}" for word in storm.meets if word not in words)
    middle = sorted(changes)[len(changes) // 2] if changes else 0
    print(
        f"{storm.name}: {given.runs} runs in {time.time() - begin:.0f} s, {bad} refused; changes of thread between two events,"
        f" in the middle {middle}; {counts}{missed}",
        flush=True,
    )
    return bad


# All of them.


def is_good(one, done, given):
    """Judges a run; says why where it is refused, and keeps it."""
    why = why_refused(done, one)
    if why:
        print(f"{one.name}: refused: {why}", flush=True)
        if given.keep:
            keep(given.keep, one, done, why)
    return why is None


def all_parts(given):
    """Each part but the storms, with its cases."""
    forms, values, count = damaged_captures.FORMS, (0, 1, 0x7F, 0x80, 0xFF), 150
    if given.quick:
        forms, values, count = [forms[0], forms[-1]], (0, 0xFF), 20
    changes = lambda data: damaged_captures.changes(data, values)
    return {
        "prefixes": lambda: capture_cases(forms, damaged_captures.prefixes),
        "bytes": lambda: capture_cases(forms, changes),
        "ftp-bytes": lambda: ftp_cases(values[-2:]),
        "rules": lambda: text_cases("rules", given.seed, count),
        "scripts": lambda: text_cases("script", given.seed, count),
        "files": file_cases,
        "zones": zone_cases,
        "outputs": output_cases,
    }


def run_part(name, cases, given):
    begin, count, bad, slowest, statuses = time.time(), 0, 0, 0.0, {}
    for one in cases:
        begun = time.time()
        done = run_case(given.program, one, given.seconds)
        slowest = max(slowest, time.time() - begun)
        count += 1
        bad += not is_good(one, done, given)
        statuses[done.status] = statuses.get(done.status, 0) + 1
    counts = ", ".join(f"status {status} {number}" for status, number in sorted(statuses.items(), key=str))
    print(f"{name}: {count} runs in {time.time() - begin:.0f} s, {bad} refused; slowest {slowest:.1f} s; {counts}", flush=True)
    return bad


def run_all(given):
    bad, ran = 0, 0
    for name, cases in all_parts(given).items():
        if given.only in name:
            ran += 1
            bad += run_part(name, cases(), given)
    for storm in damaged_storms.all_storms():
        if given.only in "storms" or given.only in storm.name:
            ran += 1
            bad += run_storm(storm, given)
    if not ran:
        sys.exit("damaged: there is no such part")
    return bad


# The test of the judges.

FAKES = {
    "a report of nothing": "printf 'events 1\\nthread 0 packets 0\\nscript 0\\n'",
    "no word": "exit 0",
    "no end": "exec sleep 60",
    "a fault of memory": "kill -SEGV $$",
    "status 139": "exit 139",
    "half a report with status 2": "printf 'events 2\\n0 confirm 0.0'; echo 'ctreplay: c.pcap: short header' >&2; exit 2",
    "a status that is none": "echo 'ctreplay: c.pcap: short header' >&2; exit 7",
    "status 2 without a line": "exit 2",
    "two lines": "echo 'ctreplay: c.pcap: short header' >&2; echo 'ctreplay: c.pcap: short header' >&2; exit 2",
    "want of memory": "echo 'ctreplay: out of memory' >&2; exit 6",
}


def sample_cases(given):
    """Some cases of each part and each storm."""
    samples = []
    for cases in all_parts(given).values():
        every = list(cases())
        samples += every[:: len(every) // 6 + 1]
    return samples + [storm_case(storm, 0) for storm in damaged_storms.all_storms()]


def test_fakes(samples, folder):
    """Each wrong program, on each of the cases. Gives how many runs were not refused."""
    missed = 0
    for name, text in FAKES.items():
        program = os.path.join(folder, "fake")
        place({"fake": f"#!/bin/sh\n{text}\n".encode()}, folder)
        os.chmod(program, 0o755)
        not_refused = []
        for one in samples:
            done = run_case(program, one._replace(patience=1), 0.3 if name == "no end" else 5)
            not_refused += [] if why_refused(done, one) else [one.name]
        missed += len(not_refused)
        print(f"self-test: {name}: {len(samples) - len(not_refused)} of {len(samples)} runs refused {not_refused[:3]}", flush=True)
    return missed


def damages_of(done):
    """A good run, changed into some that are not."""
    cut = done.out[: done.out.rstrip(b"\n").rfind(b"\n") + 1]
    later = re.sub(rb"until=(\d+)", lambda found: b"until=%d" % (int(found[1]) + 1), done.out, count=1)
    other = re.sub(rb"^0 (NEW|INVALID header)", b"0 ESTABLISHED", done.out, count=1, flags=re.M)
    line = re.sub(rb"(\d+|short|bad)", b"8\\1", done.err, count=1)
    return [
        done._replace(status=3 if done.status == 2 else 2),
        done._replace(status=0 if done.status else 6),
        done._replace(err=done.err + b"ctreplay: write failed\n"),
        *[done._replace(out=out) for out in (cut, later, other, done.out + b"\n", done.out[:-1]) if out != done.out],
        *[done._replace(err=err) for err in (line, done.err[:-1]) if err != done.err],
    ]


def test_damages(samples, given):
    """Good runs of the program, each changed. Gives how many changes were not refused."""
    tried, missed = 0, []
    for one in samples:
        done = run_case(given.program, one, given.seconds)
        why = why_refused(done, one)
        missed += [f"{one.name}: {why}"] if why else []
        for damaged in damages_of(done):
            tried += 1
            said = f"{one.name}: {damaged.status} {damaged.out[-60:]} {damaged.err}"
            missed += [] if why_refused(damaged, one) else [said]
    print(f"self-test: {tried - len(missed)} of {tried} changes of good runs refused")
    print("".join(f"self-test: not refused: {name}\n" for name in missed), end="")
    return len(missed)


def self_test(given):
    samples = sample_cases(given)
    with tempfile.TemporaryDirectory() as folder:
        missed = test_fakes(samples, folder)
    if os.access(given.program, os.X_OK):
        missed += test_damages(samples, given)
    return missed


def main():
    parser = argparse.ArgumentParser(description="Tries the built program on damaged input, and checks what each run leaves.")
    parser.add_argument("--program", default=os.path.join(TOP, "crates", "ctreplay", "out", "ctreplay"))
    parser.add_argument("--quick", action="store_true")
    parser.add_argument("--only", default="")
    parser.add_argument("--runs", type=int)
    parser.add_argument("--seed", type=int, default=1)
    parser.add_argument("--seconds", type=float, default=5)
    parser.add_argument("--keep")
    parser.add_argument("--self-test", action="store_true")
    given = parser.parse_args()
    given.program = os.path.abspath(given.program)
    given.runs = given.runs or (10 if given.quick else 100)
    if given.self_test:
        sys.exit(1 if self_test(given) else 0)
    if not os.access(given.program, os.X_OK):
        sys.exit(f"damaged: {given.program} is not built")
    sys.exit(1 if run_all(given) else 0)


if __name__ == "__main__":
    main()
