"""Files of rules and scripts, good and bad ones, and what docs/FORMATS.md says of each: its first fault, or what it says.
Written from that document, and not from the program. It is a module of damaged.py.
"""
import re

from tracker_rules import Command, Rule, address_of

MOST_BYTES = 1_048_576
MOST_LINES = 256
RULE_OPTIONS = ("-p", "-s", "-d", "--sport", "--dport")
FILTER_OPTIONS = ("-p", "-s", "-d", "-r", "-q", "--sport", "--dport", "-w")
LOOKUP_OPTIONS = ("-p", "-s", "-d", "--sport", "--dport")


class Fault(Exception):
    """What is wrong with a line, in the word that is told for it."""


def demand(truth, word):
    if not truth:
        raise Fault(word)


def words_of(line):
    """The words of a line without its line feed; none where the line says nothing."""
    line = line[:-1] if line.endswith(b"\r") else line
    words = [word.decode("latin-1") for word in re.split(rb"[ \t]+", line) if word]
    return [] if words and words[0].startswith("#") else words


def lines_of(data):
    lines = data.split(b"\n")
    return lines if lines[-1] else lines[:-1]


def number_in(text, least, most, digits):
    """Whether a text is a number from one bound to another of at most so many digits."""
    return re.fullmatch(f"[0-9]{{1,{digits}}}", text) is not None and least <= int(text) <= most


def is_address(text):
    parts = text.split(".")
    return len(parts) == 4 and all(re.fullmatch("0|[1-9][0-9]{0,2}", part) and int(part) < 256 for part in parts)


# Rules.


def read_option(name, value):
    """Tests the value of an option of a rule."""
    if name == "-p":
        demand(value in ("tcp", "udp", "icmp"), "word")
    elif name in ("-s", "-d"):
        address, slash, length = value.partition("/")
        demand(is_address(address), "address")
        demand(not slash or number_in(length, 0, 32, 2), "prefix")
    else:
        demand(number_in(value, 1, 65535, 5), "range")


def read_target(text):
    """The address, and the bounds of its ports or none."""
    address, colon, ports = text.partition(":")
    demand(is_address(address), "address")
    if not colon:
        return address_of(address), None, None
    low, dash, high = ports.partition("-")
    high = high if dash else low
    demand(number_in(low, 1, 65535, 5) and number_in(high, 1, 65535, 5) and int(low) <= int(high), "range")
    return address_of(address), int(low), int(high)


def read_rule(words):
    demand(words[0] in ("snat", "dnat"), "word")
    options, left = {}, words[1:]
    while left and left[0] != "to":
        name = left[0]
        demand(name in RULE_OPTIONS and name not in options and len(left) > 1, "word")
        read_option(name, left[1])
        options[name], left = left[1], left[2:]
    demand(len(left) > 1, "word")
    address, low, high = read_target(left[1])
    demand(len(left) == 2, "word")
    ports = low is not None or "--sport" in options or "--dport" in options
    demand(not ports or options.get("-p") in ("tcp", "udp"), "word")
    return Rule(words[0], options, address, low, high)


def read_rules(data):
    """The rules and no fault, or none and the text of the first fault."""
    rules = []
    for number, line in enumerate(lines_of(data), 1):
        words = words_of(line)
        try:
            demand(not words or len(rules) < MOST_LINES, "too many")
            rules += [read_rule(words)] if words else []
        except Fault as fault:
            return [], f"line {number}: {fault}"
    return rules, None


# Scripts.


def read_value(name, value, lookup):
    if name == "-p":
        demand(value in ("tcp", "udp") + (() if lookup else ("icmp",)), "value")
    elif name in ("--sport", "--dport", "-w"):
        demand(number_in(value, 0, 65535, 5), "value")
    else:
        demand(is_address(value), "value")


def read_filter(words, names, lookup=False):
    options, left = {}, words
    while left:
        name = left[0]
        demand(name in names, "option")
        demand(name not in options, "repeat")
        demand(len(left) > 1, "value")
        read_value(name, left[1], lookup)
        options[name], left = left[1], left[2:]
    ports = "--sport" in options or "--dport" in options
    demand(not ports or options.get("-p") in ("tcp", "udp"), "option")
    demand(not lookup or options.keys() >= set(LOOKUP_OPTIONS), "option")
    return options


def read_command(words):
    word, behind = words[0], words[1:]
    if word == "-L" and behind[:1] == ["expect"]:
        demand(len(behind) == 1, "option")
        return Command("-L expect", {}, None)
    if word in ("-L", "-D"):
        return Command(word, read_filter(behind, FILTER_OPTIONS), None)
    if word == "-G":
        return Command(word, read_filter(behind, (*LOOKUP_OPTIONS, "-w"), lookup=True), None)
    if word in ("-F", "-C"):
        demand(not behind, "option")
        return Command(word, {}, None)
    demand(word == "expire", "command")
    demand(behind and number_in(behind[0], 0, 10**16, 17), "value")
    demand(len(behind) == 1, "option")
    return Command(word, {}, int(behind[0]))


def read_script(data):
    """The commands, how many stand above `wait`, and no fault; or the text of the first fault behind them."""
    commands, wait = [], None
    for number, line in enumerate(lines_of(data), 1):
        words = words_of(line)
        try:
            if words[:1] == ["wait"]:
                demand(wait is None, "repeat")
                demand(len(words) == 1, "option")
                wait = len(commands)
            elif words:
                demand(len(commands) < MOST_LINES, "too many")
                commands.append(read_command(words))
        except Fault as fault:
            return [], 0, f"line {number}: {fault}"
    return commands, len(commands) if wait is None else wait, None


# The files.

RULE_WORDS = (
    "snat dnat to -p tcp udp icmp sctp -s -d --sport --dport 10.0.0.1 10.0.0.0/8 10.0.0.1/33 10.0.0.1/ 10.0.0.01 1.2.3 0.0.0.0/0"
    " 192.0.2.1 192.0.2.1: 192.0.2.1:5000 192.0.2.1:5000-5001 192.0.2.1:2-1 192.0.2.1:0-1 192.0.2.1:1-65536 53 0 65535 65536"
    " 000053 00053 # \x00 snat\x00 \xff to\r"
).split(" ")
SCRIPT_WORDS = (
    "-L -G -D -F -C expire wait expect -p tcp udp icmp -s -d -r -q -w --sport --dport 10.0.0.1 10.0.0.2 10.0.0.1/8 256.0.0.1 5000 53"
    " 0 65535 65536 000053 1000500000 10000000000000000 10000000000000001 000000000000000001 # \x00 -L\x00 \xff wait\r"
).split(" ")
GOOD_RULES = (
    "snat -p udp -s 10.0.0.0/8 to 192.0.2.1:5000-5001",
    "dnat to 192.0.2.9",
    "snat -d 10.0.0.2 to 192.0.2.2",
    "dnat -p tcp --dport 80 to 10.0.0.3:8080",
)
GOOD_COMMANDS = (
    "-L",
    "-C",
    "-F",
    "-D -p udp",
    "-L expect",
    "expire 1030000000",
    "wait",
    "-G -p udp -s 10.0.0.1 -d 10.0.0.2 --sport 5000 --dport 53",
    "-L -p udp -s 10.0.0.1 --dport 53",
    "-D -w 7",
    "-L -w 00000 -p udp",
    "-G -w 0 -p udp -s 10.0.0.1 -d 10.0.0.2 --sport 5000 --dport 53",
    "-G -p udp -s 10.0.0.1 -d 10.0.0.2 --sport 5000 -w 65535 --dport 53",
)


def mixed_text(random, words, good):
    """Lines of good lines and of words in any order, with any blanks, line ends and now and then another byte."""
    lines = []
    for _ in range(random.choice((1, 2, 3, 8))):
        if random.random() < 0.6:
            line = random.choice(good)
        else:
            line = " ".join(random.choice(words) for _ in range(random.randrange(1, 9)))
        if random.random() < 0.3:
            parts = line.split(" ")
            parts[random.randrange(len(parts))] = random.choice(words)
            line = random.choice((" ", "\t", "  ")).join(parts)
        before, behind = ("", "", "", " ", "\t", "# "), ("", "", "", " ", "\r", "\r\r", " \r", "\v")
        lines.append(random.choice(before) + line + random.choice(behind))
    return ("\n".join(lines) + random.choice(("\n", "", "\n\n", "\r"))).encode("latin-1")


def long_texts(good, wrong):
    """Names and bytes of files that are long, for a good line and for a word with which no line begins."""
    line, word = good.encode(), wrong.encode()
    million = 1_000_000
    return [
        ("nothing", b""),
        ("one line feed", b"\n"),
        ("a line without a line feed", line),
        ("a carriage return alone", b"\r"),
        ("a million NUL bytes", bytes(million)),
        ("a line and NUL bytes", line + b"\n" + bytes(100)),
        ("a NUL byte in a word", line[:2] + b"\0" + line[2:] + b"\n"),
        ("a NUL byte behind a line", line + b"\0\n"),
        ("one word of a million bytes", word * (million // len(word))),
        ("one line of a million words", b"x " * (million // 2)),
        ("a good line and words behind it, of a million bytes", line + b" x" * (million // 2)),
        ("a comment of a million bytes", b"#" * million),
        ("blanks of a million bytes", b" \t" * (million // 2)),
        ("blanks of a million bytes, and a good line", b" " * million + line),
        ("a million empty lines", b"\n" * million),
        ("a million empty lines and a good line", b"\n" * million + line),
        ("half a million lines of one comment sign", b"#\n" * (million // 2)),
        ("half a million wrong lines", (b"x\n" * (million // 2))),
        ("as many good lines as may be", (line + b"\n") * MOST_LINES),
        ("as many good lines as may be, the last one open", (line + b"\n") * (MOST_LINES - 1) + line),
        ("a good line too many", (line + b"\n") * (MOST_LINES + 1)),
        ("a wrong line too many", (line + b"\n") * MOST_LINES + word),
        ("good lines of a million bytes", (line + b"\n") * (million // (len(line) + 1))),
        ("as many bytes as may be", b"#" * MOST_BYTES),
        ("a byte too many", b"#" * (MOST_BYTES + 1)),
        ("a wrong line and a byte too many", word + b"\n" + b"#" * MOST_BYTES),
    ]
