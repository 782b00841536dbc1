#!/usr/bin/env python3
"""Runs the built program again and again, each time with another of its calls for memory refused, or of its threads. Each run is
to leave the inputs' own answer, or status 6 with the one line of it and nothing on the output.

usage: refused_memory.py [--program FILE] [--only WORD] [--keep FOLDER] [--most N]
       refused_memory.py --self-test

Without --program it is the program of ../ctreplay, which has to be built. --only takes the inputs whose name has the word, --most
bounds how many calls of a kind are refused, one in each run. For each of the inputs there are four kinds: one call of malloc or
realloc alone, that call and all behind it, one thread alone, and that thread and all behind it. refused_memory.c is loaded into
the program for that, and is built with cc. The first run without a refused call ends a kind. Reports are checked with
report_check.py. Ends with status 1 where a run is refused; it is kept in the folder of --keep.

--self-test runs programs that are wrong in the place of the program, and wants each of their runs refused.
"""
import argparse
import os
import subprocess
import sys
import tempfile
import time

from damaged import Case, Done, FAKES, TOP, is_good, is_read, is_refused, place, read_bytes, run_case, why_refused
from report_check import check
from tracker_rules import inputs_of, want
from thread_rows import SWEEP, capture, query

DATA = ("crates", "ctreplay", "data")
KINDS = ("REFUSE_ALLOCATION", "REFUSE_ALLOCATIONS_FROM", "REFUSE_THREAD", "REFUSE_THREADS_FROM")
MADE = b"summary threads=2 packets=16 events=16 live=4\nNEW 4\nESTABLISHED 6\nESTABLISHED_REPLY 6\n"


def prints(text):
    """The run is good, and prints just this."""

    def judge(done):
        want(done == Done(0, text, b""), f"it leaves {done.status}, {done.out[:80]!r} and {done.err[:80]!r}")

    return judge


def replay(name, captures, rules=b"", script=b"", listen=False, rewrite=False):
    """A run of captures whose report is checked."""
    words, files = ["--listen"] * listen + ["--rewrite"] * rewrite, {f"{thread}.pcap": data for thread, data in enumerate(captures)}
    words += [f"{thread}.pcap" for thread in range(len(captures))]
    for option, text in (("rules", rules), ("script", script)):
        if text:
            files[option] = text
            words = [f"--{option}", option] + words
    inputs = inputs_of(captures, rules.decode(), script.decode(), listen=listen, rewrite=rewrite)
    return Case(name, words, files, is_read(lambda report: check(report, inputs)))


def all_inputs():
    data = lambda name: read_bytes(*DATA, name)
    one, ftp, office = data("c.pcap"), data("ftp.pcap"), data("office.pcap")
    sent = [(1_000_000_000 + turn, query(0x0A000001 + turn // 2, 0x0A000002, 5000, turn % 2 == 1)) for turn in range(40)]
    sweep = capture(sent)
    cut = {"c.pcap": one[:119]}
    return [
        Case("the capture of the README", ["c.pcap"], {"c.pcap": one}, prints(read_bytes("crates", "ctreplay", "stdout"))),
        replay("rules, two captures and a script", [data("nat.pcap"), data("icmp.pcap")], data("nat.rules"), data("demo.script")),
        replay("a list beside a capture", [one], b"", b"-L\n"),
        replay("a script behind a capture", [sweep], b"", SWEEP.encode()),
        replay("a control connection of FTP", [ftp], b"", b"wait\n-L expect\n-L\n"),
        replay("an office behind one address", [office], data("office.rules")),
        replay("one flow in four captures", [sweep] * 4, b"", b"-L\n-D\n-C\n"),
        replay("a listener beside two captures and a script", [one, ftp], b"", b"-L\nwait\n-F\n", True),
        replay("an FTP session that is translated", [data("port.pcap")], data("port.rules"), rewrite=True),
        Case("a made workload", "--make 0 --packets 8 --threads 2 --summary".split(), {}, prints(MADE)),
        Case("a cut capture", ["c.pcap"], cut, is_refused(2, "c.pcap: record 1 cut at offset 72")),
        Case("no such file", ["absent"], {}, is_refused(3, "absent: open failed")),
    ]


def judged_with_refusals(one):
    """The run's own answer, or want of memory."""

    def judge(done):
        if done.status == 6:
            is_refused(6, "out of memory")(done)
        else:
            one.judge(done)

    return one._replace(judge=judge)


def run_refused(program, library, one, kind, number, folder):
    """Runs the program with this call refused. Gives what it left, and whether a call was refused."""
    mark = os.path.join(folder, "mark")
    words = [f"LD_PRELOAD={library}", f"{kind}={number}", f"REFUSED_MARK={mark}", program, *one.words]
    done = run_case("env", one._replace(words=words), 10)
    was_refused = os.path.exists(mark)
    if was_refused:
        os.remove(mark)
    return done, was_refused


def run_kind(given, library, one, kind, folder):
    """Refuses each call of a kind in its turn. Gives how many runs there were, with which statuses, and how many were refused."""
    statuses, bad = {}, 0
    for number in range(1, given.most + 1):
        done, was_refused = run_refused(given.program, library, one, kind, number, folder)
        statuses[done.status] = statuses.get(done.status, 0) + 1
        bad += not is_good(one._replace(name=f"{one.name} {kind} {number}"), done, given)
        if not was_refused:
            return number, statuses, bad
    return given.most, statuses, bad


def run_all(given, library, folder):
    bad, ran = 0, 0
    for one in map(judged_with_refusals, all_inputs()):
        for kind in KINDS if given.only in one.name else ():
            begin = time.time()
            number, statuses, refused = run_kind(given, library, one, kind, folder)
            counts = ", ".join(f"status {status} {count}" for status, count in sorted(statuses.items(), key=str))
            print(f"{one.name}: {kind}: {number} runs in {time.time() - begin:.0f} s, {refused} refused; {counts}", flush=True)
            bad, ran = bad + refused, ran + 1
    if not ran:
        sys.exit("refused_memory: there are no such inputs")
    return bad


def self_test(folder):
    """Each wrong program on each of the inputs. Gives how many runs were not refused."""
    missed, wrong = 0, {name: text for name, text in FAKES.items() if name not in ("want of memory", "no end")}
    wrong["half a report with status 6"] = "echo 'events 2'; echo 'ctreplay: out of memory' >&2; exit 6"
    wrong["status 6 without a line"] = "exit 6"
    for name, text in wrong.items():
        place({"fake": f"#!/bin/sh\n{text}\n".encode()}, folder)
        program = os.path.join(folder, "fake")
        os.chmod(program, 0o755)
        inputs = list(map(judged_with_refusals, all_inputs()))
        good = [one.name for one in inputs if not why_refused(run_case(program, one, 10), one)]
        missed += len(good)
        print(f"self-test: {name}: {len(inputs) - len(good)} of {len(inputs)} runs refused {good}", flush=True)
    return missed


def build(folder):
    library = os.path.join(folder, "refused_memory.so")
    source = os.path.join(TOP, "measure", "refused_memory.c")
    subprocess.run(["cc", "-O2", "-shared", "-fPIC", "-o", library, source, "-ldl"], check=True)
    return library


def main():
    parser = argparse.ArgumentParser(description="Runs the program with each of its calls for memory refused.")
    parser.add_argument("--program", default=os.path.join(TOP, "crates", "ctreplay", "out", "ctreplay"))
    parser.add_argument("--only", default="")
    parser.add_argument("--keep")
    parser.add_argument("--most", type=int, default=2000)
    parser.add_argument("--self-test", action="store_true")
    given = parser.parse_args()
    given.program = os.path.abspath(given.program)
    with tempfile.TemporaryDirectory() as folder:
        if given.self_test:
            sys.exit(1 if self_test(folder) else 0)
        if not os.access(given.program, os.X_OK):
            sys.exit(f"refused_memory: {given.program} is not built")
        sys.exit(1 if run_all(given, build(folder), folder) else 0)


if __name__ == "__main__":
    main()
