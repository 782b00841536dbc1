#!/usr/bin/env bash
# Runs the built program so often on each of seven inputs whose report is the same in every run, and compares each output
# byte for byte: a query and its answer, a control connection of FTP, an office behind one address, a script behind
# `wait` that lists, deletes and flushes, one that does so by zones, one with a listener, and an FTP session whose packets leave in
# another way. Ends with status 1 at the first difference.
#
# usage: same_runs.sh [RUNS]
set -u
cd "$(dirname "$0")/.." || exit 1
runs=${1:-100}
data=crates/ctreplay/data
room=$(mktemp -d) || exit 1
trap 'rm -rf "$room"' EXIT

# example LINE: the block of docs/FORMATS.md in which a line begins so
example() {
    awk -v line="$1" '
        /^```/ { if (inside && found) printf "%s", block; inside = !inside; block = ""; found = 0; next }
        inside { block = block $0 "\n"; if (index($0, line) == 1) found = 1 }
    ' docs/FORMATS.md
}

# repeat NAME WANT WORD..: each run on these words prints exactly what stands in this file
repeat() {
    local name=$1 want=$2
    shift 2
    [ -s "$want" ] || { echo "$name: nothing to compare with"; exit 1; }
    for _ in $(seq "$runs"); do
        ./ctreplay "$@" >"$room/got" 2>&1 || { echo "$name: failed"; exit 1; }
        cmp "$want" "$room/got" || { echo "$name: another report"; exit 1; }
    done
    echo "$name: $runs runs, one report"
}

# The query and its answer, and then a SYN of TCP at 1001 s.
cp "$data/c.pcap" "$room/sweep.pcap"
printf '%b' '\xe9\x03\0\0\0\0\0\0\x28\0\0\0\x28\0\0\0\x45\0\0\x28\0\0\0\0\x40\x06\0\0\x0a\0\0\x01\x0a\0\0\x02' \
    '\x9c\x40\0\x50\0\0\0\0\0\0\0\0\x50\x02\0\0\0\0\0\0' >>"$room/sweep.pcap"
cat >"$room/sweep.script" <<'SCRIPT'
wait
-L
-D -p udp
-C
-F
-G -p tcp -s 10.0.0.1 -d 10.0.0.2 --sport 40000 --dport 80
-L
SCRIPT
cat >"$room/sweep" <<'REPORT'
events 5
0 confirm 0.0 udp src=10.0.0.1 dst=10.0.0.2 sport=5000 dport=53 src=10.0.0.2 dst=10.0.0.1 sport=53 dport=5000 until=1030000000
1 touch 0.1 id=0 reply until=1120500000 replied
2 confirm 0.2 tcp src=10.0.0.1 dst=10.0.0.2 sport=40000 dport=80 src=10.0.0.2 dst=10.0.0.1 sport=80 dport=40000 until=1121000000 state=SYN_SENT
3 destroy s.1 id=0 deleted
4 destroy s.3 id=2 flushed
thread 0 packets 3
0 NEW id=0 @1
1 ESTABLISHED_REPLY id=0 @2
2 NEW id=2 @3
script 6
0 list 2 @3 @3
udp      17 119 src=10.0.0.1 dst=10.0.0.2 sport=5000 dport=53 src=10.0.0.2 dst=10.0.0.1 sport=53 dport=5000 @3
tcp      6 120 SYN_SENT src=10.0.0.1 dst=10.0.0.2 sport=40000 dport=80 [UNREPLIED] src=10.0.0.2 dst=10.0.0.1 sport=80 dport=40000 @3
1 deleted 1 @3 @4
udp      17 119 src=10.0.0.1 dst=10.0.0.2 sport=5000 dport=53 src=10.0.0.2 dst=10.0.0.1 sport=53 dport=5000 @3
2 count 1 @4
3 flushed 1 @4 @5
4 get 0 @5
5 list 0 @5 @5
REPORT
example '6 expect 0.4 master=0' >"$room/ftp"
example '16 expect 0.15 master=12' >"$room/office"
example '0 list 1 @2 @2' >"$room/zone"
example '-L -w 7' >"$room/zone.script"
example '2 destroy s.0 id=0 flushed' >"$room/heard"
printf 'wait\n-F\n' >"$room/flush.script"
example '4 expect 0.3 master=0 src=10.0.0.2 dst=192.0.2.1' >"$room/rewrite"

repeat 'a query and its answer' crates/ctreplay/stdout "$data/c.pcap"
repeat 'a control connection of FTP' "$room/ftp" "$data/ftp.pcap"
repeat 'an office behind one address' "$room/office" --rules "$data/office.rules" "$data/office.pcap"
repeat 'a script behind wait' "$room/sweep" --script "$room/sweep.script" "$room/sweep.pcap"
repeat 'a zone' "$room/zone" --zones 7 --script "$room/zone.script" "$data/c.pcap"
repeat 'a listener' "$room/heard" --listen --script "$room/flush.script" "$data/c.pcap"
repeat 'how packets leave' "$room/rewrite" --rewrite --rules "$data/port.rules" "$data/port.pcap"
