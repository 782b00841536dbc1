"""Reads the rules of NAT as iptables-save, nft list ruleset and nft -j list ruleset print them, and as a file of nft -f has them. Nothing here is proved.

Each becomes chains of rules with one form: what a rule wants of a flow, and what it does. The words of nft's JSON are put
together to the text that nft prints, which one reader reads.
"""
import json
import re
import shlex

import refusal_hints as hints
from tool_run import Trouble

LONG = {
    "--source": "-s", "--destination": "-d", "--protocol": "-p", "--proto": "-p", "--jump": "-j", "--match": "-m",
    "--source-port": "--sport", "--destination-port": "--dport", "--in-interface": "-i", "--out-interface": "-o",
    "--goto": "-g", "--source-ports": "--sports", "--destination-ports": "--dports",
}
VALUED = ("-s", "-d", "-p", "--sport", "--dport", "--sports", "--dports", "--ports", "-m", "-j", "-g", "-i", "-o")
HOOKS = ("PREROUTING", "INPUT", "OUTPUT", "POSTROUTING")
TARGETS = {"SNAT": "--to-source", "MASQUERADE": "--to-ports", "DNAT": "--to-destination"}
PRIORITIES = {"raw": -300, "mangle": -150, "dstnat": -100, "filter": 0, "security": 50, "srcnat": 100}
WORDS = re.compile(r'"[^"]*"|\{[^}]*\}|[^\s;]+')
# An older nft prints what it has of iptables as '# xt_NAME': that is no comment.
TOKENS = re.compile(r'"[^"\n]*"|#(?! xt_)[^\n]*|\\\n|[{};\n]|[^"#\\{};\n]+|.')
FAMILIES = ("ip", "ip6", "inet", "arp", "bridge", "netdev")
NFT = re.compile(r"(?:^|;)[ \t]*(?:(?:add|create)\s+)?table\s+(?:\w+\s+)?[^\s{]+\s*\{|(?:^|;)[ \t]*(?:add|create|insert)\s+(?:table|chain|rule)\s", re.MULTILINE)
# Commands that change no rule, and those that take rules away, which may stand before there are any.
QUIET_COMMAND = re.compile(r"(?:(?:add|create) )?(?:table|chain|set|map|element|flowtable|counter|quota|limit|synproxy|secmark|ct) |list ")
GOING = re.compile(r"(?:flush|delete|destroy|reset) ")
# A priority ahead of all others.
FIRST = -1 << 32
QUIET = ("persistent",)
KEYED = ("ip", "th", "tcp", "udp", "icmp", "ct", "ether", "vlan", "sctp", "dccp", "udplite", "esp", "ah", "comp", "igmp", "rt", "socket", "osf", "fib")
LOCAL = "an address of this machine"


class Unsaid(Exception):
    """Why a rule cannot be said."""


class Chain:
    """A chain: its hook and priority if packets come to it by themselves, and its rules, each with its line or handle."""

    def __init__(self, name, hook=None, priority=0):
        self.name, self.hook, self.priority, self.rules = name, hook, priority, []


class Rule:
    """One rule. wants are pairs of an option and the values of which one is wanted, nots those that are not; the action is a
    pair of a word and a value; reason is why the rule cannot be said, or None."""

    def __init__(self, place, text):
        self.place, self.text, self.wants, self.nots, self.links, self.action, self.reason = place, text, [], [], [], None, None

    def add(self, option, values, is_not):
        (self.nots if is_not else self.wants).append((option, values))


def read_ruleset(name, data):
    """The chains of a ruleset, those of a hook first in the order in which packets meet them; the others by their names."""
    text = data.decode("utf-8", "replace")
    if hints.is_capture(data):
        raise Trouble(f"{name}: it is a capture, and no ruleset")
    if not text.strip():
        raise Trouble(f"{name}: it is empty; iptables-save and nft list ruleset print rules to root alone")
    if text.lstrip().startswith("{"):
        return read_json(name, text)
    if NFT.search(text):
        return read_nft(name, text)
    if re.search(r"^(\*\w+|(\[\d+:\d+\] )?-[ANP] )", text, re.MULTILINE):
        return read_iptables(name, text)
    if "use 'nft' tool" in text or "use `nft' tool" in text:
        raise Trouble(f"{name}: iptables cannot say these rules: nft -a list ruleset | tools/rules-from-iptables")
    if re.search(r"^Chain \S+ \((policy|\d+ references)", text, re.MULTILINE):
        raise Trouble(f"{name}: it is what iptables -L prints; iptables-save -t nat has the whole rules")
    raise Trouble(f"{name}: it is neither of iptables-save nor of nft list ruleset")


# Zones: rules of any table that choose one


class ZoneRule:
    """A rule by which packets get a zone: its place and text, the zone where it is a number, and whether it is of one direction alone."""

    def __init__(self, place, text, direction, zone):
        self.place, self.text, self.is_of_one = place, text, bool(direction)
        self.zone = int(zone) if re.fullmatch(r"[0-9]{1,5}", zone) and int(zone) < 65536 else None


def read_zone_rules(data):
    """The rules of a ruleset that choose zones, in order of their lines."""
    text = data.decode("utf-8", "replace")
    numbered = ((number, said) for number, said, _ in statements_of(text)) if NFT.search(text) else enumerate(text.splitlines(), 1)
    lines = json_lines(text) if text.lstrip().startswith("{") else ((f"line {number}", line) for number, line in numbered)
    for place, line in lines:
        line = re.sub(r"^\[\d+:\d+\] | # handle \d+$", "", line.strip())
        if line.startswith("#"):
            continue
        unquoted = re.sub(r'"[^"]*"', '""', line)
        found = re.search(r"-[jg] CT\b.*? --zone(-orig|-reply)? (\S+)", unquoted) or re.search(r"\bct (?:(original|reply) )?zone set (\S+)", unquoted)
        if found:
            yield ZoneRule(place, line, found[1], found[2].strip(";"))


def json_lines(text):
    """The rules of nft's JSON as nft prints them, each with its handle."""
    for item in json.loads(text)["nftables"]:
        if rule := item.get("rule"):
            yield f"handle {rule['handle']}", " ".join(filter(None, (expression_text(it) for it in rule["expr"])))


# iptables-save


def read_iptables(name, text):
    chains, table, tables = {}, "nat", set()
    for number, line in enumerate(text.splitlines(), 1):
        line = re.sub(r"^\[\d+:\d+\] ", "", line.strip())
        if line.startswith("*"):
            table = line[1:].strip()
            tables.add(table)
        if table == "nat" and line.startswith("-A "):
            chain = line.split()[1]
            hook = chain.lower() if chain in HOOKS else None
            chains.setdefault(chain, Chain(chain, hook)).rules.append(iptables_rule(f"line {number}", line))
    if tables and "nat" not in tables:
        raise Trouble(f"{name}: there is no table nat in it: iptables-save -t nat; where that is empty too, nft -a list ruleset")
    return chains


def iptables_rule(place, line):
    rule = Rule(place, line)
    try:
        read_options(rule, options_of(shlex.split(line)[2:]))
    except (Unsaid, ValueError, IndexError) as reason:
        rule.reason = str(reason)
    return rule


def options_of(words):
    """The options of a rule: whether '!' stands before it, its name, and its value or None."""
    pairs, at = [], 0
    while at < len(words):
        negated = words[at] == "!"
        at += negated
        name = LONG.get(words[at], words[at]) if at < len(words) else ""
        if not name.startswith("-"):
            raise Unsaid(f"{name or '!'} is no option that is known here")
        at += 1
        takes = at < len(words) and not words[at].startswith("-") and words[at] != "!"
        if not takes and name in VALUED:
            raise Unsaid(f"{name} has no value")
        pairs.append((negated, name, words[at] if takes else None))
        at += takes
    return pairs


def read_options(rule, pairs):
    known = {name: value for _, name, value in pairs}
    for negated, name, value in pairs:
        if name in ("-s", "-d", "-p", "--sport", "--dport", "--sports", "--dports"):
            rule.add(name.rstrip("s") if name.endswith("ports") else name, value.split(","), negated)
        elif name in ("-i", "-o"):
            rule.links.append(f"{'! ' if negated else ''}{name} {value}")
        elif name == "--dst-type" and value == "LOCAL" and not negated:
            rule.add("-d", [LOCAL], False)
        elif name in ("-j", "-g"):
            rule.action = (value if name == "-j" else "goto", known.get(TARGETS.get(value)) if name == "-j" else value)
        elif name == "-m" and value not in ("tcp", "udp", "icmp", "comment", "addrtype", "multiport"):
            raise Unsaid(f"-m {value} cannot be said")
        elif name not in ("-m", "--comment", "--persistent", *TARGETS.values()):
            raise Unsaid(f"{'! ' if negated else ''}{name} cannot be said")


# nft list ruleset


def statements_of(text):
    """The statements of nft's text, each with the number of the line in which it begins, and whether a block begins behind it; the end of
    a block is the statement '}'. A statement ends with its line or at ';'. Braces that begin no block, as those of a set, are part of it."""
    blocks, inner, words, begun, number = [], 0, "", 0, 1
    for token in TOKENS.findall(text):
        begun = begun if words.strip() else number
        number += token.count("\n")
        if token == "{" and not inner and (block := block_of_words(blocks, words)):
            blocks.append(block)
            yield begun, " ".join(words.split()), True
            words = ""
        elif inner or token not in (";", "\n", "}"):
            inner += (token == "{") - (token == "}")
            words += " " if re.match(r"#.|\\|\n", token) else token
        else:
            if words.strip():
                yield begun, " ".join(words.split()), False
            words = ""
            if token == "}" and blocks:
                blocks.pop()
                yield number, "}", False
    if words.strip():
        yield begun, " ".join(words.split()), False


def block_of_words(blocks, words):
    """What kind of block begins behind these words, or None; within a chain, or a set, none does."""
    found = re.match(r"\s*(?:(?:add|create)\s+)?(table|chain|set|map|flowtable|counter|quota|limit|synproxy|secmark|ct)\s", words)
    if blocks and blocks[-1] != "table":
        return None
    return found[1] if found else "table's" if blocks else None


def read_nft(name, text):
    # Of each block that is open its table, and its chain; that is None of a table, and of a set, a counter and the like beside the chains.
    chains, blocks, values, beside = {}, [], {}, Chain("", HOOKS[0].lower(), FIRST)
    for number, said, is_open in statements_of(text):
        said = re.sub(r"\$(\w+)", lambda found: values.get(found[1], found[0]), said)
        try:
            if is_open:
                blocks.append(opened(chains, blocks, said))
            elif said == "}":
                blocks.pop()
            elif not blocks:
                read_command(chains, values, beside, number, said)
            elif blocks[-1][1]:
                read_line(number, *blocks[-1], said)
        except (IndexError, Unsaid) as error:
            raise Trouble(f"{name}: line {number} is not read here: {said}") from error
    if beside.rules:
        chains["ip", "", ""] = beside
    return roots_first(chains)


def place_of_words(words, count):
    """So many names in front of these words, with the family of tables that stands before them or is meant, and the words behind."""
    family = words.pop(0) if words[0] in FAMILIES else "ip"
    return (family, *words[:count]), words[count:]


def opened(chains, blocks, said):
    """The table and the chain of a block that begins with these words."""
    words = said.split()
    words = words[words[0] in ("add", "create") :]
    if words[0] == "table":
        return place_of_words(words[1:], 1)[0], None
    if words[0] != "chain":
        return None, None
    key = (*blocks[-1][0], words[1]) if blocks else place_of_words(words[1:], 2)[0]
    return key[:2], chains.setdefault(key, Chain(key[2]))


def read_line(number, table, chain, said):
    """What stands in a chain."""
    if said.startswith("type "):
        set_hook(chain, said)
    elif not said.startswith(("policy ", "comment ", "devices ")):
        chain.rules.append(nft_rule(f"line {number}", said, table))


def read_command(chains, values, beside, number, said):
    """What stands outside of all tables: a value that is named, a rule that is added, and what changes no rule; else it is kept as unsaid."""
    if found := re.fullmatch(r"(?:re)?define (\w+) ?= ?(.+)", said):
        values[found[1]] = found[2]
    elif found := re.fullmatch(r"(?:(add|insert) )?rule (.+)", said):
        add_rule(chains, number, said, found[1], found[2].split())
    elif not QUIET_COMMAND.match(said) and (not GOING.match(said) or any(chain.rules for chain in chains.values())):
        beside.rules.append(Rule(f"line {number}", said))
        beside.rules[-1].reason = "it is not read here what this changes"


def add_rule(chains, number, said, verb, words):
    key, words = place_of_words(words, 2)
    rule = nft_rule(f"line {number}", " ".join(words), key[:2])
    rule.text = said
    if words[:1] and words[0] in ("position", "handle", "index"):
        rule.reason = "its place among the rules is not read here"
    rules = chains.setdefault(key, Chain(key[2])).rules
    rules.insert(0 if verb == "insert" else len(rules), rule)


def set_hook(chain, said):
    found = re.fullmatch(r"type (\w+) hook (\w+)(?: devices? .*)? priority (-?\w+)(?: ?([+-]) ?(\d+))?", said)
    base = PRIORITIES.get(found[3], found[3]) if found else ""
    if said.startswith("type nat") and not re.fullmatch(r"-?\d+", str(base)):
        raise Unsaid("a priority that is not known")
    if found and found[1] == "nat":
        chain.hook, chain.priority = found[2], int(base) + int((found[4] or "+") + (found[5] or "0"))


def roots_first(chains):
    """The chains of hooks in the order of their packets, then the rest; of tables of IPv6 none."""
    order = [hook.lower() for hook in HOOKS]
    mine = {key: chain for key, chain in chains.items() if key[0] in ("ip", "inet")}
    return dict(sorted(mine.items(), key=lambda it: (order.index(it[1].hook), it[1].priority) if it[1].hook in order else (9, 0)))


def nft_rule(place, text, table):
    rule = Rule(place, text)
    rule.table = table
    try:
        read_words(rule, WORDS.findall(text))
    except Unsaid as reason:
        rule.reason = str(reason)
    except (IndexError, ValueError):
        rule.reason = "its words are not read here"
    return rule


def take_value(words):
    """The values behind a word, of which one is wanted, and whether none of them is."""
    is_not = words[0] == "!="
    if words[0] in ("!=", "=="):
        words.pop(0)
    value = words.pop(0)
    if value in (".", "vmap"):
        raise Unsaid("a concatenation cannot be said" if value == "." else "vmap: a map cannot be said")
    values = [it.strip() for it in value.strip("{}").split(",")] if value.startswith("{") else [value.strip('"')]
    if any(":" in it and "." not in it for it in values):
        raise Unsaid(f"{value}: a map cannot be said")
    return values, is_not


def read_words(rule, words):
    while words:
        word = words.pop(0)
        if word in ("ip", "th", "tcp", "udp") and words and words[0] in ("saddr", "daddr", "sport", "dport", "protocol"):
            read_header(rule, word, words)
        elif word in ("iifname", "oifname", "iif", "oif", "l4proto", "nfproto", "meta"):
            read_meta(rule, words.pop(0) if word == "meta" else word, words)
        elif word == "fib" and words[:3] == ["daddr", "type", "local"]:
            del words[:3]
            rule.add("-d", [LOCAL], False)
        elif word == "counter":
            del words[: 4 if words[:1] == ["packets"] else 2 if words[:1] == ["name"] else 0]
        elif word == "comment":
            words.pop(0)
        elif word in ("snat", "dnat", "masquerade"):
            read_target(rule, word, words)
        elif word in ("jump", "goto"):
            rule.action = (word, words.pop(0))
        elif word in ("return", "accept"):
            rule.action = (word.upper(), None)
        elif word == "xt":
            raise Unsaid("iptables made it, and nft's JSON has not all of its words: iptables-save -t nat or nft -a list ruleset has")
        else:
            if word == "ct" and "zone" in words[:2]:
                raise Unsaid("ct zone: a rule is for flows of every zone here")
            # A word such as tcp or ct tells nothing without what of it is wanted.
            raise Unsaid(f"{word} {words[0]} cannot be said" if word in KEYED and words else f"{word} cannot be said")


def read_header(rule, word, words):
    field = words.pop(0)
    if word in ("tcp", "udp"):
        rule.add("-p", [word], False)
    values, is_not = take_value(words)
    rule.add({"saddr": "-s", "daddr": "-d", "protocol": "-p", "sport": "--sport", "dport": "--dport"}[field], values, is_not)


def read_meta(rule, word, words):
    values, is_not = take_value(words)
    if word == "l4proto":
        rule.add("-p", values, is_not)
    elif word in ("iifname", "oifname", "iif", "oif"):
        rule.links.append(f"{word} {'!= ' if is_not else ''}{', '.join(values)}")
    elif (word, values, is_not) != ("nfproto", ["ipv4"], False):
        raise Unsaid(f"meta {word} cannot be said")


def read_target(rule, word, words):
    if words[:1] == ["ip"]:
        words.pop(0)
    value = None
    if words[:1] == ["to"]:
        words.pop(0)
        value = words.pop(0)
        if words[:1] == ["map"] or value in ("ip", "tcp", "udp", "th"):
            raise Unsaid(f"{word} by a map cannot be said")
    while words and words[0].strip(",") in QUIET:
        words.pop(0)
    if words and words[0].split(",")[0] in ("random", "fully-random"):
        raise Unsaid(f"{words[0]}: here the own port is kept where it is free")
    rule.action = ({"snat": "SNAT", "dnat": "DNAT", "masquerade": "MASQUERADE"}[word], value.lstrip(":") if value and word == "masquerade" else value)


# nft -j list ruleset


def read_json(name, text):
    try:
        items = json.loads(text)["nftables"]
        chains = {}
        for item in items:
            if chain := item.get("chain"):
                key = (chain["family"], chain["table"], chain["name"])
                is_root = chain.get("type") == "nat"
                chains[key] = Chain(chain["name"], chain["hook"] if is_root else None, chain.get("prio", 0))
        for item in items:
            if rule := item.get("rule"):
                key = (rule["family"], rule["table"], rule["chain"])
                line = " ".join(filter(None, (expression_text(it) for it in rule["expr"])))
                chains[key].rules.append(nft_rule(f"handle {rule['handle']}", line, key[:2]))
    except (ValueError, KeyError, TypeError, AttributeError, IndexError) as error:
        raise Trouble(f"{name}: it is JSON, but not what nft -j list ruleset prints") from error
    return roots_first(chains)


def expression_text(it):
    """An expression of nft's JSON as nft prints it."""
    kind, value = next(iter(it.items()))
    if kind == "match":
        op = "" if value["op"] in ("==", "in") else value["op"] + " "
        return f"{value_text(value['left'])} {op}{value_text(value['right'])}"
    if kind in ("snat", "dnat", "masquerade"):
        return target_text(kind, value or {})
    if kind in ("jump", "goto"):
        return f"{kind} {value['target']}"
    if kind == "counter":
        return ""
    if kind == "mangle":
        return f"{value_text(value['key'])} set {value_text(value['value'])}"
    if kind == "xt":
        return f"xt {value.get('type', '')} {value.get('name', '')}"
    return kind


def value_text(value):
    if isinstance(value, dict):
        kind, it = next(iter(value.items()))
        if kind == "payload":
            return f"{it['protocol']} {it['field']}"
        if kind in ("meta", "rt", "socket", "osf"):
            return f"{kind} {it['key']}"
        if kind == "ct":
            return " ".join(filter(None, ("ct", it.get("dir"), it["key"])))
        if kind in ("concat", "&", "|", "^"):
            return f" {'.' if kind == 'concat' else kind} ".join(value_text(one) for one in it)
        if kind == "fib":
            return f"fib {' '.join(it['flags'])} {it['result']}"
        if kind == "prefix":
            return f"{it['addr']}/{it['len']}"
        if kind == "range":
            return "-".join(value_text(end) for end in it)
        if kind == "set":
            return "{ " + ", ".join(value_text(one) for one in (it if isinstance(it, list) else [it])) + " }"
        return kind
    return ",".join(str(it) for it in value) if isinstance(value, list) else str(value)


def target_text(kind, value):
    to, flags = "", value.get("flags", [])
    if isinstance(value.get("addr"), dict) and "map" in value["addr"]:
        return f"{kind} to ip map"
    if "addr" in value or "port" in value:
        to = " to " + value_text(value.get("addr", "")) + (":" + value_text(value["port"]) if "port" in value else "")
    return kind + to + "".join(f" {flag}" for flag in ([flags] if isinstance(flags, str) else flags))
