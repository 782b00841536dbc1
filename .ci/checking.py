"""What the checks of the tools share: counting, running a tool, and the folders. Used by .ci/tools."""
import contextlib
import importlib.machinery
import importlib.util
import os
import subprocess
import sys

TOP = os.path.dirname(os.path.dirname(os.path.realpath(__file__)))
EXAMPLES, DATA = os.path.join(TOP, "examples"), os.path.join(TOP, "crates", "ctreplay", "data")
TOOLS = os.path.join(TOP, "tools")
PROGRAM = os.path.join(TOP, "ctreplay")
results = []
sys.path.insert(0, TOOLS)


def count(name, is_good, said=""):
    results.append(bool(is_good))
    print(f"{'ok' if is_good else 'FAILED'}: {name}{'' if is_good else ': ' + str(said)[-600:]}", flush=True)


def read(*parts):
    with open(os.path.join(*parts), encoding="utf-8") as file:
        return file.read()


def run(words, **how):
    how = {"stdin": subprocess.DEVNULL, "cwd": EXAMPLES, **how}
    return subprocess.run(words, capture_output=True, text=True, check=False, **how)


def tool(name, *words, **how):
    return run([os.path.join(TOOLS, name), *words], **how)


def wants(name, ran, status, *texts):
    """A run has this status, and its output has each of these texts; there is no traceback."""
    said = ran.stdout + ran.stderr
    good = ran.returncode == status and all(text in said for text in texts) and "Traceback" not in said
    count(name, good, f"status {ran.returncode}: {said}")


def refuses(name, ran, *texts):
    """A tool that can't do what it is asked: status 2, nothing printed, and one line that begins with its name."""
    lines = ran.stderr.splitlines()
    good = ran.returncode == 2 and not ran.stdout and len(lines) == 1 and all(text in ran.stderr for text in texts)
    count(name, good, f"status {ran.returncode}: {ran.stdout}{ran.stderr}")


def report_of(room, *words, name="report"):
    """The name of a file with the report of these words."""
    name = os.path.join(room, name)
    with open(name, "w", encoding="utf-8") as file:
        subprocess.run([PROGRAM, *words], stdout=file, stdin=subprocess.DEVNULL, check=True, cwd=EXAMPLES)
    return name


def write(room, name, text):
    name = os.path.join(room, name)
    with open(name, "w", encoding="utf-8") as file:
        file.write(text)
    return name


def module(name):
    """A tool as a module."""
    loader = importlib.machinery.SourceFileLoader("tool_" + name.replace("-", "_"), os.path.join(TOOLS, name))
    made = importlib.util.module_from_spec(importlib.util.spec_from_loader(loader.name, loader))
    loader.exec_module(made)
    return made


def counted_lines(main, words):
    """How many lines of the tools' Python run for these words."""
    lines = 0

    def on_line(_frame, event, _):
        nonlocal lines
        lines += event == "line"
        return on_line

    def on_call(frame, _event, _):
        return on_line if frame.f_code.co_filename.startswith(TOOLS) else None

    with open(os.devnull, "w", encoding="utf-8") as nowhere, contextlib.redirect_stdout(nowhere):
        sys.settrace(on_call)
        try:
            main(words)
        finally:
            sys.settrace(None)
    return lines
