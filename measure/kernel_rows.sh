#!/usr/bin/env bash
# Shows what this machine's kernel does where docs/KERNEL.md says that it differs: one paragraph for each row that can be
# shown in half a minute, in the network namespaces of examples/net.sh. For measuring alone; nothing is compared.
#
# usage: kernel_rows.sh [ROW..]
# A ROW is a function below; without one it is all but full_table, for which the kernel's limit of entries, which all
# namespaces share, is 40 for some seconds. Status 77 and one line where this machine does not let it.
programs='ip ss iptables conntrack tcpdump curl dig dnsmasq vsftpd ping python3 sysctl'
# shellcheck source=examples/net.sh
. "$(dirname "$0")/../examples/net.sh"

title() {
    printf '\n== %s\n' "$1"
}

# entries WORD..: the router's entries that conntrack finds with these words
entries() {
    in_space "$router" conntrack -L "$@" 2>/dev/null || true
}

# The router brings the clients out by one address, and has no entries.
flush() {
    in_space "$router" iptables -t nat -F
    in_space "$router" iptables -t nat -A POSTROUTING -s 192.168.1.0/24 -o out0 -j SNAT --to-source 203.0.113.5
    in_space "$router" conntrack -F 2>/dev/null || true
}

# A SYN that nobody answers, sent again after 1 s and 3 s.
syn_again() {
    title 'a SYN that is sent again: seconds left after 4 s, of 120'
    in_space "$inside" curl -s -m 5 -o /dev/null --local-port 40090 http://198.51.100.54/ &
    sleep 4
    entries -p tcp --orig-port-src 40090
    wait $!  || true
}

# Data that nobody acknowledges, in a connection that both ends have made: at once, and when it was sent again.
unacknowledged() {
    title 'data that is not acknowledged: seconds left at once (tcp_timeout_unacknowledged is 250 here), after 2 s (tcp_timeout_max_retrans 290)'
    in_space "$router" sysctl -qw net.netfilter.nf_conntrack_tcp_timeout_unacknowledged=250 net.netfilter.nf_conntrack_tcp_timeout_max_retrans=290
    in_space "$inside" python3 - "$room/go" <<'PYTHON' &
import os, socket, sys, time
call = socket.create_connection(("198.51.100.80", 80), 5, ("192.168.1.10", 40091))
open(sys.argv[1], "w").close()
time.sleep(0.5)
call.sendall(b"GET")
time.sleep(4)
PYTHON
    local client=$!
    for _ in $(seq 100); do
        [ -e "$room/go" ] && break
        sleep 0.05
    done
    in_space "$outside" iptables -A INPUT -p tcp --dport 80 -j DROP
    entries -p tcp --orig-port-src 40091
    sleep 0.6
    entries -p tcp --orig-port-src 40091
    sleep 2.4
    entries -p tcp --orig-port-src 40091
    in_space "$outside" iptables -D INPUT -p tcp --dport 80 -j DROP
    wait "$client" || true
    in_space "$router" sysctl -qw net.netfilter.nf_conntrack_tcp_timeout_unacknowledged=300 net.netfilter.nf_conntrack_tcp_timeout_max_retrans=300
}

udp_assured() {
    title 'UDP: after an answer; after a second query at once; after a third, 3 s later'
    local turn
    for turn in 0 0 3; do
        sleep "$turn"
        ask 192.168.1.10#40092 198.51.100.53 53 1
        entries -p udp --orig-port-src 40092
    done
}

# Active FTP: the client names its own end, and the server opens the connection.
active() {
    title 'active FTP behind a snat: what the client sends, what comes out, and the entries'
    in_space "$router" iptables -t raw -A PREROUTING -p tcp --dport 21 -j CT --helper ftp
    start "$router" tcpdump -Z root -U -i in0 -w "$room/active.in" port 21
    start "$router" tcpdump -Z root -U -i out0 -w "$room/active.out" port 21
    sleep 1
    fetch --disable-eprt --ftp-port - ftp://198.51.100.21/numbers
    sleep 1.5
    for side in in out; do
        printf '%s: ' "$side"
        grep -aoE 'PORT [0-9,]+' "$room/active.$side" || echo none
    done
    entries -p tcp
}

# Passive FTP whose server is inside, behind a dnat.
passive_inside() {
    title 'passive FTP to a server behind a dnat: what the server sends, what comes out, and the entries'
    sed 's/198.51.100.21/192.168.1.10/' "$room/vsftpd.conf" >"$room/inside.conf"
    start "$inside" vsftpd "$room/inside.conf"
    wait_for "$inside" 192.168.1.10:21
    in_space "$router" iptables -t nat -A PREROUTING -d 203.0.113.5 -p tcp --dport 21 -j DNAT --to-destination 192.168.1.10
    start "$router" tcpdump -Z root -U -i in0 -w "$room/passive.in" port 21
    start "$router" tcpdump -Z root -U -i out0 -w "$room/passive.out" port 21
    sleep 1
    in_space "$outside" curl -s -m 5 -o /dev/null --disable-epsv --interface 198.51.100.80 ftp://203.0.113.5/numbers || echo "curl ended with status $?"
    sleep 1.5
    for side in in out; do
        printf '%s: ' "$side"
        grep -aoE '227 [^(]*\([0-9,]+' "$room/passive.$side" || echo none
    done
    entries -p tcp
}

fragments() {
    title 'an echo of 3,000 bytes, in fragments; packets of ESP and of SCTP'
    in_space "$inside" ping -c 1 -s 3000 198.51.100.80 >/dev/null || true
    in_space "$inside" python3 - <<'PYTHON'
import socket, struct
for number in (50, 132):
    raw = socket.socket(socket.AF_INET, socket.SOCK_RAW, number)
    body = bytes(16) if number == 50 else struct.pack(">HHIIBBHIIHHI", 5000, 5001, 0, 0, 1, 0, 20, 7, 65535, 1, 1, 1)
    raw.sendto(body, ("198.51.100.80", 0))
PYTHON
    entries
}

# Answers in pieces that are made by hand: LOW-HIGH of an answer's 64 bytes, '!' where the piece has other bytes, '+' where more
# come behind it though it has the end, 'o' where it has options, '~N' for seconds before it.
reassembly() {
    title 'answers in pieces made by hand: how many bytes came to the client, of 56, and the header of what came out'
    in_space "$router" sysctl -qw net.ipv4.ipfrag_time=2
    start "$router" tcpdump -Z root -U -i in0 -w "$room/reassembly.out" 'src host 198.51.100.53 and udp'
    sleep 1
    local port=40200 pieces
    for pieces in '0-24 24-64' '24-64 0-24' '0-24 0-24 24-64' '0-40 24-64' '0-24 8-64 16-32 24-64' '0-24 0-24! 24-64' '0-24 8-16! 24-64' \
        '0-24 16-40! 24-64' '0-24 16-40! 0-24 24-64' '0-20+ 24-64' '0-24o 24-64' '0-24 ~1 24-64' '0-24 ~3 24-64' '0-24 24-64 24-64 0-24'; do
        in_space "$inside" python3 - "$port" "$room/ready" <<'PYTHON' &
import socket, sys
call = socket.socket(socket.AF_INET, socket.SOCK_DGRAM)
call.bind(("192.168.1.10", int(sys.argv[1])))
call.sendto(b"x", ("198.51.100.53", 5353))
open(sys.argv[2], "w").close()
call.settimeout(4)
found = []
try:
    while True:
        data = call.recv(65536)
        found.append(f"{len(data)}{'' if data == bytes(range(8, 64)) else ', other bytes'}")
        call.settimeout(0.5)
except TimeoutError:
    print(" and ".join(found) or "none")
PYTHON
        local client=$!
        while [ ! -e "$room/ready" ]; do sleep 0.05; done
        rm "$room/ready"
        printf '%s: ' "$pieces"
        in_space "$outside" python3 - "$port" "$pieces" <<'PYTHON'
import socket, struct, sys, time
port = int(sys.argv[1])
data = struct.pack(">HHHH", 5353, port, 64, 0) + bytes(range(8, 64))
raw = socket.socket(socket.AF_INET, socket.SOCK_RAW, socket.IPPROTO_RAW)
for word in sys.argv[2].split():
    if word[0] == "~":
        time.sleep(int(word[1:]))
        continue
    low, high = map(int, word.rstrip("!+o").split("-"))
    body = bytes(byte ^ 255 for byte in data[low:high]) if "!" in word else data[low:high]
    options = bytes([1]) * 4 if "o" in word else b""
    place = (high < 64 or "+" in word) << 13 | low // 8
    head = struct.pack(">BBHHHBBH", 0x45 + len(options) // 4, 0, 20 + len(options) + len(body), port, place, 64, 17, 0)
    raw.sendto(head + socket.inet_aton("198.51.100.53") + socket.inet_aton("203.0.113.5") + options + body, ("203.0.113.5", 0))
PYTHON
        wait "$client" || true
        port=$((port + 1))
    done
    sleep 1
    tcpdump -nvr "$room/reassembly.out" 2>/dev/null | grep -o 'options (.*)' || echo 'no options came out'
    in_space "$router" sysctl -qw net.ipv4.ipfrag_time=30
}

hairpin() {
    title 'a client that asks the server beside it by the outer address: both translations of one flow'
    in_space "$router" iptables -t nat -A PREROUTING -d 203.0.113.5 -p tcp --dport 8080 -j DNAT --to-destination 192.168.1.10:8000
    in_space "$router" iptables -t nat -A POSTROUTING -s 192.168.1.0/24 -d 192.168.1.0/24 -j MASQUERADE
    in_space "$inside" curl -s -m 3 -o /dev/null --interface 192.168.1.11 http://203.0.113.5:8080/numbers || echo "curl ended with status $?"
    entries -p tcp
}

# A flow of another client that wants a reply tuple which an entry has.
taken() {
    title 'two clients from one port through one address'
    ask 192.168.1.10#40093 198.51.100.53 53 1
    ask 192.168.1.11#40093 198.51.100.53 53 1
    entries -p udp
}

# A server that has closed, and a client that has not.
half_closed() {
    title 'a connection that one end has closed: its seconds left'
    in_space "$inside" python3 - "$room/half" <<'PYTHON' &
import socket, sys, time
call = socket.create_connection(("198.51.100.80", 80), 5, ("192.168.1.10", 40094))
call.sendall(b"GET /numbers HTTP/1.0\r\n\r\n")
while call.recv(4096):
    pass
open(sys.argv[1], "w").close()
time.sleep(1)
PYTHON
    local client=$!
    for _ in $(seq 100); do
        [ -e "$room/half" ] && break
        sleep 0.05
    done
    sleep 0.3
    entries -p tcp --orig-port-src 40094
    wait "$client" || true
}

# A reply to PASV, and no connection to the end that it names.
expectation() {
    title 'what FTP lets expect: its seconds left'
    in_space "$router" iptables -t raw -A PREROUTING -p tcp --dport 21 -j CT --helper ftp
    in_space "$inside" python3 - "$room/pasv" <<'PYTHON' &
import ftplib, sys, time
call = ftplib.FTP("198.51.100.21", timeout=5)
call.login()
call.sendcmd("PASV")
open(sys.argv[1], "w").close()
time.sleep(1)
PYTHON
    local client=$!
    for _ in $(seq 100); do
        [ -e "$room/pasv" ] && break
        sleep 0.05
    done
    sleep 0.3
    in_space "$router" conntrack -L expect 2>/dev/null || true
    wait "$client" || true
}

# One flow in three zones, and what each command of conntrack does with -w and without it.
zones() {
    local zone words
    title 'one flow in the zones 0, 1 and 2: what conntrack finds, and which commands take -w'
    for zone in 0 1 2; do
        in_space "$router" conntrack -I -w "$zone" -p udp -s 10.0.0.1 -d 10.0.0.2 --sport 5000 --dport 53 --timeout 100 2>/dev/null || true
    done
    local flow='-p udp -s 10.0.0.1 -d 10.0.0.2 --sport 5000 --dport 53'
    for words in -L '-L -w 1' '-L -w 0' "-G $flow" "-G -w 1 $flow" '-L expect -w 1' '-C -w 1' '-F -w 1' '-D -w 2' -D; do
        printf '%s\n' "-- conntrack $words"
        # shellcheck disable=SC2086
        in_space "$router" conntrack $words 2>&1 | grep -v '^Try ' || true
    done
}

full_table() {
    title 'sixty queries that nobody answers, with room for forty entries: entries, and queries that came out'
    local before
    before=$(sysctl -n net.netfilter.nf_conntrack_max)
    start "$router" tcpdump -Z root -U -i out0 -w "$room/full.out" 'udp and dst port 9'
    sleep 1
    sysctl -qw net.netfilter.nf_conntrack_max=40
    in_space "$inside" python3 - <<'PYTHON' || true
import socket
for port in range(42000, 42060):
    call = socket.socket(socket.AF_INET, socket.SOCK_DGRAM)
    call.bind(("192.168.1.10", port))
    call.sendto(b"x", ("198.51.100.54", 9))
PYTHON
    sysctl -qw "net.netfilter.nf_conntrack_max=$before"
    entries | wc -l
    sleep 1.5
    tcpdump -nr "$room/full.out" 2>/dev/null | wc -l
    in_space "$router" conntrack -S 2>/dev/null | grep -o 'early_drop=[0-9]*' | sort | uniq -c
}

uname -r
make_net
start_servers
for row in "${@:-syn_again unacknowledged udp_assured active passive_inside fragments reassembly hairpin taken half_closed expectation zones}"; do
    # shellcheck disable=SC2086
    for name in $row; do
        flush
        "$name"
    done
done
