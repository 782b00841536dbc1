"""Checks of what the tools share: their words, their Python, names of files, and an output that can't be written. Used by .ci/tools."""
import ast
import os
import re
import shutil

from checking import EXAMPLES, TOOLS, count, read, refuses, run, tool

ASCII = {"LC_ALL": "POSIX", "PYTHONUTF8": "0", "PYTHONCOERCECLOCALE": "0"}
LATE = ("late.report", "late.pcap")


def calls_of(room):
    """Words with which each tool prints something."""
    return {
        "check": LATE,
        "refused": LATE,
        "table": ("--at", "1795909702000000", *LATE),
        "why": ("--report", *LATE, "--", "6"),
        "compare": ("late.report", *LATE),
        "rules-from-iptables": ("late.iptables",),
        "from-inside": ("--rules", "late.rules", "--to", f"{room}/made.pcap", "late.in.pcap"),
        "draw": ("--to", f"{room}/made", *LATE),
        "page": ("--to", f"{room}/made.html", *LATE),
        "hint": ("5", "ctreplay: limit: entries"),
    }


def make_gnuplot(room):
    """The environment of a machine whose gnuplot draws nothing."""
    os.mkdir(f"{room}/bin")
    with open(f"{room}/bin/gnuplot", "w", encoding="utf-8") as file:
        file.write("#!/bin/sh\ncat >/dev/null\n")
    os.chmod(f"{room}/bin/gnuplot", 0o755)
    return {**os.environ, "PATH": f"{room}/bin:{os.environ['PATH']}"}


def check_outputs(room, env):
    ends = {">/dev/full": ": cannot write: No space left on device", ">&-": ": cannot write: standard output is closed"}
    for name, words in calls_of(room).items():
        for end, text in ends.items():
            ran = run(["bash", "-c", f'"$0" "$@" {end}', os.path.join(TOOLS, name), *words], env=env)
            refuses(f"tools/{name} {end}", ran, name + text)
        ran = run(["bash", "-c", '"$0" "$@" | true', os.path.join(TOOLS, name), *words], env=env)
        count(f"tools/{name}: a reader that goes away", not ran.stderr, ran.stderr)


def check_help(room):
    """JOBS says that --help tells a tool's words."""
    for name in calls_of(room):
        ran = tool(name, "--help")
        count(f"tools/{name} --help", ran.returncode == 0 and f"\nusage: {name} " in ran.stdout and not ran.stderr, ran.stderr)


def is_readable(text, minor):
    try:
        ast.parse(text, feature_version=(3, minor))
    except SyntaxError:
        return False
    return True


def check_pythons(room):
    """README's Python reads all of the tools, and an older one as far as to where it is refused."""
    modules = {name for name in os.listdir(TOOLS) if name.endswith(".py")}
    for name in sorted({*calls_of(room), *modules}):
        text = read(TOOLS, name)
        count(f"tools/{name}: its syntax", is_readable(text, 8 if name in modules - {"tool_run.py"} else 7))
        own = [it for it in re.findall(r"^(?:import|from) (\w+)", text, re.MULTILINE) if f"{it}.py" in modules]
        count(f"tools/{name}: what it imports first", name in modules or own[0] == "tool_run", own)


def check_words(room, env):
    """Options stand before the files or behind them, with a blank or =, and one without its value is named."""
    ruled = (("--rules", "late.rules"), LATE)
    cases = {
        "check": ruled,
        "refused": ruled,
        "table": (("--at", "1795909702000000"), LATE),
        "compare": (("--zones", "0"), ("late.report", *LATE)),
        "rules-from-iptables": (("--masquerade", "192.0.2.1"), ("late.iptables",)),
        "from-inside": (("--to", f"{room}/made.pcap"), ("--rules", "late.rules", "late.in.pcap")),
        "draw": (("--to", f"{room}/made"), LATE),
        "page": (("--to", f"{room}/made.html"), LATE),
    }
    for name, (option, words) in cases.items():
        ran = tool(name, *option, *words, env=env)
        said = [tool(name, *words, *more, env=env) for more in (option, ["=".join(option)])]
        good = ran.returncode in (0, 1) and ran.stdout and all((it.returncode, it.stdout) == (ran.returncode, ran.stdout) for it in said)
        count(f"tools/{name}: words in any order", good, [ran.stderr, *(it.stderr for it in said)])
        refuses(f"tools/{name}: no value", tool(name, *words, option[0]), f"{name}: {option[0]} has no value; usage: {name} ")
        refuses(f"tools/{name}: no such word", tool(name, *words, "--none"), f"{name}: unknown word --none; usage: {name} ")
    ran = [tool("why", *words, "--", "6") for words in (("--report", *LATE), (LATE[1], f"--report={LATE[0]}"))]
    count("tools/why: words in any order", ran[0].stdout and ran[0].stdout == ran[1].stdout, ran[1].stderr)
    refuses("tools/refused: a value that is none", tool("refused", "--all=1", *LATE), "--all takes no value")


def check_names(room, env):
    """Files whose names are no UTF-8, or not of the locale's letters."""
    for place, made in enumerate((b"sp\xe4t", "sp\u00e4t".encode())):
        name = os.path.join(os.fsencode(room), made)
        for end, kept in zip((b".report", b".pcap"), LATE):
            shutil.copy(os.path.join(EXAMPLES, kept), name + end)
        for word, locale in (("draw", {}), ("draw", ASCII), ("page", {}), ("page", ASCII), ("check", {}), ("check", ASCII)):
            ran = tool(word, name + b".report", name + b".pcap", env={**env, **locale}, errors="replace")
            count(f"tools/{word}: name {place}{', ASCII' if locale else ''}", ran.returncode == (word == "check") and not ran.stderr, ran.stderr)
        files = os.listdir(os.fsencode(room))
        count(f"tools/page: name {place}: what it writes", made + b".report.html" in files, files)


def check_all(room):
    env = make_gnuplot(room)
    check_names(room, env)
    check_help(room)
    check_pythons(room)
    check_words(room, env)
    check_outputs(room, env)
