"""Checks of rules-from-iptables: nft's two forms, docker's chains, and what is no ruleset. Used by .ci/tools."""
import json
import os
import shutil

from checking import EXAMPLES, count, read, refuses, run, tool, wants

NFT = """table ip filter {
	chain forward { # handle 1
		type filter hook forward priority filter; policy accept;
		tcp dport 22 drop # handle 2
	}
}
table ip nat { # handle 4
	chain postrouting { # handle 1
		type nat hook postrouting priority srcnat; policy accept;
		oifname "out0" ip saddr 192.168.1.0/24 tcp dport { 21, 80 } counter packets 5 bytes 300 snat to 203.0.113.9:41000-41003 # handle 8
		oifname "out0" ip saddr { 10.1.0.0/16, 10.2.0.0/16 } meta l4proto { tcp, udp } masquerade to :1024-2000 comment "all of them" # handle 9
		oifname "out0" masquerade random # handle 10
		ip saddr 10.3.0.0/16 udp sport 1-9 snat to 203.0.113.9 # handle 11
		ip daddr 10.4.0.1 return # handle 12
	}
	chain extra { # handle 2
		tcp dport 99 dnat to 192.168.1.11:9900 # handle 13
		ip daddr 198.18.0.1 tcp dport 98 dnat to 192.168.1.11 # handle 14
	}
	chain prerouting { # handle 3
		type nat hook prerouting priority dstnat; policy accept;
		ip daddr 203.0.113.9 tcp dport 8080 dnat to 192.168.1.10:8000 # handle 15
		fib daddr type local udp dport 53 dnat to 192.168.1.53 # handle 16
		ip daddr 203.0.113.0/24 jump extra # handle 17
		dnat to tcp dport map { 25 : 192.168.1.20 } # handle 18
	}
}
table ip6 nat {
	chain prerouting {
		type nat hook prerouting priority dstnat; policy accept;
		tcp dport 80 dnat to fd00::1
	}
}
"""
FROM_NFT = """dnat -d 203.0.113.9 -p tcp --dport 8080 to 192.168.1.10:8000
dnat -d 203.0.113.9 -p udp --dport 53 to 192.168.1.53
dnat -d 203.0.113.0/24 -p tcp --dport 99 to 192.168.1.11:9900
# line 25: dnat to tcp dport map { 25 : 192.168.1.20 }
#   not said: dnat by a map cannot be said
snat -s 192.168.1.0/24 -p tcp --dport 21 to 203.0.113.9:41000-41003
snat -s 192.168.1.0/24 -p tcp --dport 80 to 203.0.113.9:41000-41003
snat -s 10.1.0.0/16 -p tcp to 203.0.113.9:1024-2000
snat -s 10.1.0.0/16 -p udp to 203.0.113.9:1024-2000
snat -s 10.2.0.0/16 -p tcp to 203.0.113.9:1024-2000
snat -s 10.2.0.0/16 -p udp to 203.0.113.9:1024-2000
# line 12: oifname "out0" masquerade random
#   not said: random: here the own port is kept where it is free
# line 13: ip saddr 10.3.0.0/16 udp sport 1-9 snat to 203.0.113.9
#   not said: --sport 1-9: one port can be said, and not a range
# line 14: ip daddr 10.4.0.1 return
#   not said: RETURN: no rule says that a flow is left as it is
# The first rule for a flow decides here: where a line above is not said, a later rule may take its flows.
"""

# A file as nft -f takes it: several statements in a line, one over several lines, values, and rules that are added.
FILE = """#!/usr/sbin/nft -f
flush ruleset
define wan = "eth0"
define nets = { 10.0.0.0/8,
	172.16.0.0/12 }
include "/etc/nftables.d/*.nft"
table ip filter { chain forward { type filter hook forward priority 0; policy drop; ct state { established, related } accept } }
table nat { chain post { type nat hook postrouting priority 100; policy accept; ip saddr 192.168.1.0/24 snat to 203.0.113.9; log snat to 203.0.113.9; ip saddr 10.0.0.0/8 # xt_MASQUERADE
	}
	chain pre { type nat hook prerouting priority dstnat
		ip daddr 203.0.113.9 tcp dport {80,443} \\
			dnat to 192.168.1.10:8000;
	}
	chain lone { log prefix "x; {" dnat to 10.0.0.1; dnat to 10.0.0.2; } }
add rule ip nat post ip saddr $nets oifname $wan snat to 203.0.113.10
insert rule nat pre ip daddr 203.0.113.8 udp dport 53 dnat to 192.168.1.53
add rule ip nat post position 4 ip saddr 10.9.0.0/16 snat to 203.0.113.10
add chain ip nat out { type nat hook output priority dstnat-10; }
add rule ip nat out tcp dport 8081 dnat to 10.0.0.3
delete rule ip nat post handle 5
"""
FROM_FILE = """# line 6: include "/etc/nftables.d/*.nft"
#   not said: it is not read here what this changes
# line 20: delete rule ip nat post handle 5
#   not said: it is not read here what this changes
dnat -d 203.0.113.8 -p udp --dport 53 to 192.168.1.53
dnat -d 203.0.113.9 -p tcp --dport 80 to 192.168.1.10:8000
dnat -d 203.0.113.9 -p tcp --dport 443 to 192.168.1.10:8000
dnat -p tcp --dport 8081 to 10.0.0.3
snat -s 192.168.1.0/24 to 203.0.113.9
# line 8: log snat to 203.0.113.9
#   not said: log cannot be said
# line 8: ip saddr 10.0.0.0/8 # xt_MASQUERADE
#   not said: # cannot be said
snat -s 10.0.0.0/8 to 203.0.113.10
snat -s 172.16.0.0/12 to 203.0.113.10
# line 17: add rule ip nat post position 4 ip saddr 10.9.0.0/16 snat to 203.0.113.10
#   not said: its place among the rules is not read here
# line 14: log prefix "x; {" dnat to 10.0.0.1
#   not said: no chain that packets come to leads to it
# line 14: dnat to 10.0.0.2
#   not said: no chain that packets come to leads to it
# The first rule for a flow decides here: where a line above is not said, a later rule may take its flows.
"""


def payload(protocol, field, right, op="=="):
    return {"match": {"op": op, "left": {"payload": {"protocol": protocol, "field": field}}, "right": right}}


def meta(key, right, op="=="):
    return {"match": {"op": op, "left": {"meta": {"key": key}}, "right": right}}


def network(address, length):
    return {"prefix": {"addr": address, "len": length}}


def json_ruleset():
    """What nft -j prints of some rules of NFT, and one that it has of iptables."""
    def chain(name, **more):
        return {"chain": {"family": "ip", "table": "nat", "name": name, "handle": 1, **more}}

    def rule(name, handle, *expr):
        return {"rule": {"family": "ip", "table": "nat", "chain": name, "handle": handle, "expr": list(expr)}}

    local = {"match": {"op": "==", "left": {"fib": {"result": "type", "flags": ["daddr"]}}, "right": "local"}}
    return json.dumps({"nftables": [
        {"metainfo": {"version": "1.0.6", "json_schema_version": 1}},
        chain("postrouting", type="nat", hook="postrouting", prio=100, policy="accept"),
        chain("extra"),
        chain("prerouting", type="nat", hook="prerouting", prio=-100, policy="accept"),
        rule("postrouting", 8, meta("oifname", "out0"), payload("ip", "saddr", network("192.168.1.0", 24)), payload("tcp", "dport", {"set": [21, 80]}),
             {"counter": {"packets": 5, "bytes": 300}}, {"snat": {"addr": "203.0.113.9", "port": {"range": [41000, 41003]}}}),
        rule("postrouting", 9, payload("ip", "saddr", {"set": [network("10.1.0.0", 16), network("10.2.0.0", 16)]}), meta("l4proto", {"set": ["tcp", "udp"]}),
             {"masquerade": {"port": {"range": [1024, 2000]}}}),
        rule("postrouting", 10, meta("oifname", "out0"), {"masquerade": {"flags": "random"}}),
        rule("postrouting", 11, meta("oifname", "docker0", "!="), {"xt": {"type": "target", "name": "MASQUERADE"}}),
        rule("postrouting", 12, payload("ip", "daddr", "10.4.0.1"), {"return": None}),
        rule("extra", 13, payload("tcp", "dport", 99), {"dnat": {"addr": "192.168.1.11", "port": 9900}}),
        rule("prerouting", 15, payload("ip", "daddr", "203.0.113.9"), payload("tcp", "dport", 8080), {"dnat": {"addr": "192.168.1.10", "port": 8000}}),
        rule("prerouting", 16, local, payload("udp", "dport", 53), {"dnat": {"addr": "192.168.1.53"}}),
        rule("prerouting", 17, payload("ip", "daddr", network("203.0.113.0", 24)), {"jump": {"target": "extra"}}),
    ]})


FROM_JSON = """dnat -d 203.0.113.9 -p tcp --dport 8080 to 192.168.1.10:8000
dnat -d 203.0.113.9 -p udp --dport 53 to 192.168.1.53
dnat -d 203.0.113.0/24 -p tcp --dport 99 to 192.168.1.11:9900
snat -s 192.168.1.0/24 -p tcp --dport 21 to 203.0.113.9:41000-41003
snat -s 192.168.1.0/24 -p tcp --dport 80 to 203.0.113.9:41000-41003
snat -s 10.1.0.0/16 -p tcp to 203.0.113.9:1024-2000
snat -s 10.1.0.0/16 -p udp to 203.0.113.9:1024-2000
snat -s 10.2.0.0/16 -p tcp to 203.0.113.9:1024-2000
snat -s 10.2.0.0/16 -p udp to 203.0.113.9:1024-2000
# handle 10: meta oifname out0 masquerade random
#   not said: random: here the own port is kept where it is free
# handle 11: meta oifname != docker0 xt target MASQUERADE
#   not said: iptables made it, and nft's JSON has not all of its words: iptables-save -t nat or nft -a list ruleset has
# handle 12: ip daddr 10.4.0.1 return
#   not said: RETURN: no rule says that a flow is left as it is
# The first rule for a flow decides here: where a line above is not said, a later rule may take its flows.
"""
DOCKER = """# Generated by iptables-save v1.8.9 (nf_tables)
*nat
:PREROUTING ACCEPT [0:0]
:INPUT ACCEPT [0:0]
:OUTPUT ACCEPT [0:0]
:POSTROUTING ACCEPT [0:0]
:DOCKER - [0:0]
-A PREROUTING -m addrtype --dst-type LOCAL -j DOCKER
-A OUTPUT ! -d 127.0.0.0/8 -m addrtype --dst-type LOCAL -j DOCKER
-A POSTROUTING -s 172.17.0.0/16 ! -o docker0 -j MASQUERADE
-A DOCKER -i docker0 -j RETURN
-A DOCKER ! -i docker0 -p tcp -m tcp --dport 8080 -j DNAT --to-destination 172.17.0.2:80
COMMIT
"""
DOCKER_NFT = """table ip nat {
	chain DOCKER {
		iifname "docker0" counter packets 0 bytes 0 return
		iifname != "docker0" tcp dport 8080 counter packets 0 bytes 0 dnat to 172.17.0.2:80
	}

	chain PREROUTING {
		type nat hook prerouting priority dstnat; policy accept;
		fib daddr type local counter packets 0 bytes 0 jump DOCKER
	}

	chain OUTPUT {
		type nat hook output priority -100; policy accept;
		ip daddr != 127.0.0.0/8 fib daddr type local counter packets 0 bytes 0 jump DOCKER
	}

	chain POSTROUTING {
		type nat hook postrouting priority srcnat; policy accept;
		oifname != "docker0" ip saddr 172.17.0.0/16 counter packets 0 bytes 0 masquerade
	}
}
"""
FROM_DOCKER = ["dnat -d 203.0.113.9 -p tcp --dport 8080 to 172.17.0.2:80", "snat -s 172.17.0.0/16 to 203.0.113.9"]
WORDS = ("--ignore-interfaces", "--masquerade", "203.0.113.9")
# Blocks that stand ahead of the chains in what nft lists, one of them with elements over two lines; the last is behind a chain.
BLOCKS = """table ip nat { # handle 1
	comment "the office's { own"

	counter seen { # handle 2
		packets 0 bytes 0
	}

	quota q { # handle 3
		over 10 mbytes
	}

	limit l { # handle 4
		rate 10/second
	}

	ct timeout short { # handle 5
		protocol tcp
		l3proto ip
		policy = { established : 120 }
	}

	ct helper ftp-std { # handle 6
		type "ftp" protocol tcp
		l3proto ip
	}

	ct expectation ex { # handle 7
		protocol tcp
		dport 9876
		timeout 2m
		size 12
		l3proto ip
	}

	synproxy sp { # handle 8
		mss 1460
		wscale 7
		timestamp sack-perm
	}

	secmark sm { # handle 9
		"system_u:object_r:inside_t:s0"
	}

	set inside { # handle 10
		type ipv4_addr
		flags interval
		elements = { 10.0.0.0/8, 172.16.0.0/12,
			     192.168.1.0/24 }
	}

	map ports { # handle 11
		type inet_service : ipv4_addr
		elements = { 80 : 192.168.1.10 }
	}

	flowtable fast { # handle 12
		hook ingress priority filter
		devices = { eth0, eth1 }
	}

	chain post { # handle 13
		comment "to the outside"
		type nat hook postrouting priority srcnat; policy accept;
		ip saddr 192.168.1.0/24 tcp dport { 21, 80 } snat to 203.0.113.9:41000-41003 # handle 14
		ip saddr @inside snat to 203.0.113.9 # handle 15
		ip saddr 10.2.0.0/16 counter name "seen" snat to 203.0.113.9 comment "a brace {" # handle 16
	}

	ct helper tftp { # handle 17
		type "tftp" protocol udp
	}

	chain pre { # handle 18
		type nat hook prerouting priority dstnat; policy accept;
		ip daddr 203.0.113.9 tcp dport 8080 dnat to 192.168.1.10:8000 # handle 19
	}
}
"""
FROM_BLOCKS = """dnat -d 203.0.113.9 -p tcp --dport 8080 to 192.168.1.10:8000
snat -s 192.168.1.0/24 -p tcp --dport 21 to 203.0.113.9:41000-41003
snat -s 192.168.1.0/24 -p tcp --dport 80 to 203.0.113.9:41000-41003
# line 66: ip saddr @inside snat to 203.0.113.9
#   not said: @inside: one address or network can be said
snat -s 10.2.0.0/16 to 203.0.113.9
# The first rule for a flow decides here: where a line above is not said, a later rule may take its flows.
"""
LIVE_BLOCKS = """table ip nat {
	set inside { type ipv4_addr; flags interval; elements = { 10.0.0.0/8, 172.16.0.0/12, 192.168.1.0/24 }; }
	map ports { type inet_service : ipv4_addr; elements = { 80 : 192.168.1.10, 81 : 192.168.1.10, 82 : 192.168.1.10 }; }
	counter seen { packets 0 bytes 0; }
	chain post {
		type nat hook postrouting priority srcnat; policy accept;
		ip saddr 192.168.1.0/24 tcp dport 80 snat to 198.18.0.4-198.18.0.7
		ip saddr 192.168.1.0/24 counter name seen snat to 203.0.113.9
		ip saddr 192.168.2.0/24 ct mark 1 snat to 203.0.113.9
		ip saddr 192.168.2.0/24 tcp flags & (syn | ack) == syn snat to 203.0.113.9
		ip saddr 192.168.2.0/24 icmp type echo-request snat to 203.0.113.9
	}
}
"""
LIVE_REASONS = ("198.18.0.4/30: one address can be said, and not a network", "ct mark cannot be said", "tcp flags cannot be said", "icmp type cannot be said")


def check_nft():
    for name, text, wanted in (("nft -a list ruleset", NFT, FROM_NFT), ("nft -j list ruleset", json_ruleset(), FROM_JSON), ("nft -f", FILE, FROM_FILE)):
        ran = tool("rules-from-iptables", *WORDS, stdin=None, input=text)
        count(f"tools/rules-from-iptables: {name}", ran.stdout == wanted and ran.returncode == 1, ran.stdout + ran.stderr)
    for name in ("range", "again"):
        ran = tool("rules-from-iptables", "--ignore-interfaces", f"{name}.nft")
        count(f"tools/rules-from-iptables: {name}", ran.stdout == read(EXAMPLES, f"{name}.rules") and ran.returncode == 0, ran.stdout)
    ran = tool("rules-from-iptables", stdin=None, input=NFT)
    wants("tools/rules-from-iptables: nft, and interfaces count", ran, 1, "oifname out0: a capture knows no interface")


def check_blocks():
    ran = tool("rules-from-iptables", stdin=None, input=BLOCKS)
    count("tools/rules-from-iptables: sets, counters and the like beside the chains", ran.stdout == FROM_BLOCKS and ran.returncode == 1, ran.stdout + ran.stderr)
    for name in ("set", "map", "counter", "quota", "limit", "flowtable", "ct helper", "ct timeout", "ct expectation", "synproxy", "secmark"):
        start = BLOCKS.index(f"\t{name} ")
        block = BLOCKS[start : BLOCKS.index("\n\t}\n", start) + 4]
        listed = f"table ip nat {{\n{block}\n\tchain post {{\n\t\ttype nat hook postrouting priority srcnat; policy accept;\n\t\tip saddr 10.0.0.0/8 snat to 203.0.113.9\n\t}}\n}}\n"
        ran = tool("rules-from-iptables", stdin=None, input=listed)
        count(f"tools/rules-from-iptables: a {name} ahead of a chain", (ran.returncode, ran.stdout) == (0, "snat -s 10.0.0.0/8 to 203.0.113.9\n"), ran.stdout + ran.stderr)


def chain_text(*lines):
    return "table ip nat {\n\tchain post {\n\t\ttype nat hook postrouting priority srcnat; policy accept;\n" + "".join(f"\t\t{line}\n" for line in lines) + "\t}\n}\n"


def chain_json(*rules):
    chain = {"family": "ip", "table": "nat", "name": "post", "handle": 1, "type": "nat", "hook": "postrouting", "prio": 100, "policy": "accept"}
    listed = [{"rule": {"family": "ip", "table": "nat", "chain": "post", "handle": at, "expr": expr}} for at, expr in enumerate(rules, 2)]
    return json.dumps({"nftables": [{"chain": chain}, *listed]})


def check_reasons():
    """What is left out is named, of both forms of nft alike; what is printed is what the program takes."""
    to = {"snat": {"addr": "198.18.0.9"}}
    flags = {"match": {"op": "==", "left": {"&": [payload("tcp", "flags", 0)["match"]["left"], ["syn", "ack"]]}, "right": "syn"}}
    direct = {"match": {"op": "==", "left": {"ct": {"key": "ip saddr", "dir": "original"}}, "right": "10.3.0.1"}}
    pairs = {"match": {"op": "==", "left": {"concat": [payload("ip", "saddr", 0)["match"]["left"], payload("tcp", "dport", 0)["match"]["left"]]}, "right": {"set": []}}}
    cases = [
        ("snat to 198.18.0.4/30", [{"snat": {"addr": network("198.18.0.4", 30)}}], "198.18.0.4/30: one address can be said, and not a network"),
        ("udp dport 53 snat to 198.18.0.4/30:1000-2000", [payload("udp", "dport", 53), {"snat": {"addr": network("198.18.0.4", 30), "port": {"range": [1000, 2000]}}}], "198.18.0.4/30: one address"),
        ("tcp flags syn snat to 198.18.0.9", [payload("tcp", "flags", "syn"), to], "tcp flags cannot be said"),
        ("tcp flags syn / syn,ack snat to 198.18.0.9", [flags, to], "tcp flags cannot be said"),
        ("icmp type echo-request snat to 198.18.0.9", [payload("icmp", "type", "echo-request"), to], "icmp type cannot be said"),
        ("ct mark 1 snat to 198.18.0.9", [{"match": {"op": "==", "left": {"ct": {"key": "mark"}}, "right": 1}}, to], "ct mark 1 snat to 198.18.0.9\n#   not said: ct mark cannot be said"),
        ("ct original ip saddr 10.3.0.1 snat to 198.18.0.9", [direct, to], "ct original ip saddr 10.3.0.1 snat to 198.18.0.9\n#   not said: ct original cannot be said"),
        ("meta mark 2 snat to 198.18.0.9", [meta("mark", 2), to], "meta mark cannot be said"),
        ("meta mark set 5", [{"mangle": {"key": {"meta": {"key": "mark"}}, "value": 5}}], "meta mark set 5\n#   not said: meta mark cannot be said"),
        ("ip saddr . tcp dport { 10.0.0.1 . 80 } snat to 198.18.0.9", [pairs, to], "a concatenation cannot be said"),
    ]
    for text, rule, reason in cases:
        for form, listed in (("-a", chain_text(text)), ("-j", chain_json(rule))):
            ran = tool("rules-from-iptables", stdin=None, input=listed)
            said = [line for line in ran.stdout.splitlines() if not line.startswith("#")]
            count(f"tools/rules-from-iptables: nft {form}, {text}", ran.returncode == 1 and not said and reason in ran.stdout, ran.stdout + ran.stderr)


def check_docker():
    for name, text in (("iptables-save", DOCKER), ("nft", DOCKER_NFT)):
        ran = tool("rules-from-iptables", *WORDS, stdin=None, input=text)
        rules = [line for line in ran.stdout.splitlines() if not line.startswith("#")]
        count(f"tools/rules-from-iptables: docker's chains, of {name}", rules == FROM_DOCKER, ran.stdout)
        wants(f"tools/rules-from-iptables: what is left out of these, of {name}", ran, 1, "line 11" if text is DOCKER else "line 3", "RETURN: no rule says")
        excepted = ("line 10: ! -o docker0", "line 12: ! -i docker0") if text is DOCKER else ("line 19: oifname != docker0", "line 4: iifname != docker0")
        wants(f"tools/rules-from-iptables: interfaces that are excepted, of {name}", ran, 1, *(f"# {it} is left away, so this rule is for flows through" for it in excepted))
        ran = tool("rules-from-iptables", "--ignore-interfaces", "--masquerade", "203.0.113.9", "--local", "203.0.113.9,203.0.113.10", stdin=None, input=text)
        wants(f"tools/rules-from-iptables: two addresses of the machine, of {name}", ran, 1, "dnat -d 203.0.113.10 -p tcp --dport 8080 to 172.17.0.2:80")
        ran = tool("rules-from-iptables", "--ignore-interfaces", stdin=None, input=text)
        wants(f"tools/rules-from-iptables: no address, of {name}", ran, 1, "MASQUERADE names no address", "it is for this machine's addresses")
    nested = (
        "-A PREROUTING -d 203.0.113.9/32 -j MINE\n-A PREROUTING -d 203.0.113.0/24 ! -d 127.0.0.0/8 -j MINE\n-A PREROUTING ! -d 203.0.113.9/32 -j MINE\n"
        "-A MINE -d 203.0.113.0/24 -p tcp -m tcp --dport 80 -j DNAT --to-destination 10.0.0.1\n-A MINE -d 198.18.0.0/15 -p udp -j DNAT --to-destination 10.0.0.2\n"
    )
    ran = tool("rules-from-iptables", stdin=None, input=nested)
    wanted = ["dnat -d 203.0.113.9/32 -p tcp --dport 80 to 10.0.0.1", "dnat -d 203.0.113.0/24 -p tcp --dport 80 to 10.0.0.1", "dnat -d 198.18.0.0/15 -p udp to 10.0.0.2"]
    rules = [line for line in ran.stdout.splitlines() if not line.startswith("#")]
    count("tools/rules-from-iptables: conditions of jumps", rules == wanted and ran.stdout.count("! -d cannot be said") == 1, ran.stdout)
    ran = tool("rules-from-iptables", "--ignore-interfaces", stdin=None, input="-A POSTROUTING -o eth0 -j SNAT --to-source 192.0.2.1\n")
    wants("tools/rules-from-iptables: a rule for both sides is told", ran, 0, "snat to 192.0.2.1\n# line 1: this rule is for flows of both sides")


def listed_by(space):
    """What the tool makes of each form in which nft lists the rules of a network namespace."""
    for form in ("-a", "-j"):
        printed = run(["ip", "netns", "exec", space, "nft", form, "list", "ruleset"]).stdout
        yield form, tool("rules-from-iptables", *WORDS, stdin=None, input=printed)


def check_live():
    """What this machine's nft prints of rules that it took, in both its forms."""
    space = f"ctreplay-rules-{os.getpid()}"
    if not shutil.which("nft") or not shutil.which("ip") or run(["ip", "netns", "add", space]).returncode:
        print("skipped: tools/rules-from-iptables of this machine's nft: there is no nft, or no network namespace")
        return
    try:
        for name in ("range.nft", "docker"):
            text = DOCKER_NFT if name == "docker" else read(EXAMPLES, name)
            loaded = run(["ip", "netns", "exec", space, "nft", "-f", "-"], stdin=None, input="flush ruleset\n" + text)
            wanted = FROM_DOCKER if name == "docker" else read(EXAMPLES, "range.rules").splitlines()
            for form, ran in listed_by(space):
                rules = [line for line in ran.stdout.splitlines() if not line.startswith("#")]
                count(f"tools/rules-from-iptables: this machine's nft {form}, {name}", rules == wanted, loaded.stderr + ran.stdout + ran.stderr)
        loaded = run(["ip", "netns", "exec", space, "nft", "-f", "-"], stdin=None, input="flush ruleset\n" + LIVE_BLOCKS)
        for form, ran in listed_by(space):
            rules = [line for line in ran.stdout.splitlines() if not line.startswith("#")]
            good = rules == ["snat -s 192.168.1.0/24 to 203.0.113.9"] and all(reason in ran.stdout for reason in LIVE_REASONS)
            count(f"tools/rules-from-iptables: this machine's nft {form}, sets and reasons", good, loaded.stderr + ran.stdout + ran.stderr)
    finally:
        run(["ip", "netns", "del", space])


def check_none():
    """What is no ruleset is refused with a sentence, and never with nothing."""
    cases = [
        ("a capture", ["late.pcap"], None, "it is a capture"),
        ("an empty text", [], "", "it is empty"),
        ("'use nft'", [], "# Table `nat' is incompatible, use 'nft' tool.\n", "nft -a list ruleset"),
        ("another text", [], "nothing of the kind\n", "neither of iptables-save nor of nft"),
        ("iptables -L", [], "Chain PREROUTING (policy ACCEPT)\ntarget prot opt source destination\n", "iptables -L"),
        ("another table", [], "*filter\n-A INPUT -j DROP\nCOMMIT\n", "no table nat"),
        ("other JSON", [], '{"rules": []}', "not what nft -j"),
        ("a priority", [], "table ip nat {\n\tchain post { type nat hook postrouting priority $mine; }\n}\n", "standard input: line 2 is not read here: type nat"),
        ("a rule that is cut", [], "add rule ip\n", "standard input: line 1 is not read here: add rule ip"),
        ("no file", ["none.save"], None, "none.save: No such file"),
    ]
    for name, names, text, said in cases:
        how = {} if text is None else {"stdin": None, "input": text}
        refuses(f"tools/rules-from-iptables: {name}", tool("rules-from-iptables", *names, **how), said)
    ran = tool("rules-from-iptables", stdin=None, input="*nat\n:PREROUTING ACCEPT [0:0]\nCOMMIT\n")
    # An empty table nat is no trouble, and says so.
    wants("tools/rules-from-iptables: a table without rules", ran, 0, "# No rule of NAT stands in it.")


def check_all(_room):
    check_nft()
    check_blocks()
    check_reasons()
    check_docker()
    check_live()
    check_none()
