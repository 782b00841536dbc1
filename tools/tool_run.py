"""How a tool is run, and what it says where it can't do what it is asked. Used by each tool; nothing here is proved.

Each tool imports this first: an older Python can read it, and each tool's own file, but not the other modules.
"""
import codecs
import gc
import os
import signal
import sys

if sys.version_info < (3, 8):
    sys.stderr.write(os.path.basename(sys.argv[0]) + ": it needs Python 3.8 or later, and this is " + sys.version.split()[0] + "\n")
    sys.exit(2)


class Trouble(Exception):
    """What a tool tells its user in one line."""


def run_tool(name, main):
    """Runs a tool: a trouble is one line and status 2, and a reader that has gone away ends it quietly."""
    signal.signal(signal.SIGPIPE, signal.SIG_DFL)
    # Some hundred thousand records are made and kept to the end: to look for those that are not needed any more is in vain.
    gc.disable()
    try:
        status = printed(main, sys.argv[1:])
    except Trouble as trouble:
        print(f"{name}: {trouble}", file=sys.stderr)
        status = 2
    except KeyboardInterrupt:
        status = 130
    sys.exit(status)


def kept(error):
    """For letters that can't be written: the bytes of a file's name as they are, and of others their numbers."""
    try:
        return codecs.lookup_error("surrogateescape")(error)
    except UnicodeError:
        return codecs.lookup_error("backslashreplace")(error)


def printed(main, words):
    """Runs a tool up to where all that it printed is written: status 1 of a tool is an answer, and no sign that the disk is full."""
    if sys.stdout is None:
        raise Trouble("cannot write: standard output is closed")
    codecs.register_error("kept", kept)
    sys.stdout.reconfigure(errors="kept")
    try:
        try:
            return main(words)
        finally:
            sys.stdout.flush()
    except OSError as error:
        # What is left in the buffer would be tried once more at the end, with a complaint of its own.
        os.dup2(os.open(os.devnull, os.O_WRONLY), sys.stdout.fileno())
        raise Trouble(f"{error.filename or 'cannot write'}: {error.strerror}") from error


def split_words(words, usage, valued=(), plain=()):
    """The options of a command line, by their names, and its other words. As those of the program they stand anywhere, a value
    behind its option or behind =, and what stands behind -- is no option."""
    options, names, left = {}, [], list(words)
    while left:
        word = left.pop(0)
        name, equals, value = word.partition("=")
        if word == "--":
            return options, names + left
        if not word.startswith("-") or word == "-":
            names.append(word)
        elif name in valued:
            if not equals and (not left or left[0].startswith("--")):
                raise Trouble(f"{name} has no value; {usage}")
            options[name] = value if equals else left.pop(0)
        elif word in plain:
            options[name] = True
        else:
            raise Trouble(f"{name} takes no value; {usage}" if name in plain else f"unknown word {word}; {usage}")
    return options, names
