# The network namespaces in which a kernel is tried: a client's, a router's and a server's, with servers of DNS, HTTP and
# FTP. To be sourced by a script that has set `programs`, with status 77 and one line where this machine does not let it. What
# it makes is taken away when the script ends.
set -eu
inside=ctreplay-inside-$$
router=ctreplay-router-$$
outside=ctreplay-outside-$$
# Namespaces that a script makes besides.
more_spaces=


skip() {
    echo "${0##*/}: skipped, $1" >&2
    exit 77
}

[ "$(id -u)" -eq 0 ] || skip 'it needs root'
for program in $programs; do
    command -v "$program" >/dev/null || skip "there is no program $program"
done
ip netns add "$inside" 2>/dev/null || skip 'network namespaces are not allowed'
room=$(mktemp -d)
started=
# Those of them that a script has put by while it ends others.
servers=

in_space() {
    ip netns exec "$@"
}

# start SPACE WORD..: runs a program in the background, which is ended with the script
start() {
    ip netns exec "$@" >>"$room/log" 2>&1 &
    started="$started $!"
}

finish() {
    local process space
    for process in $started $servers; do
        kill "$process" 2>/dev/null || true
    done
    wait
    for space in "$inside" "$router" "$outside" $more_spaces; do
        ip netns del "$space" 2>/dev/null || true
    done
    rm -rf "$room"
}
trap finish EXIT
trap 'exit 1' HUP INT TERM

make_net() {
    local space
    ip netns add "$router"
    ip netns add "$outside"
    for space in "$inside" "$router" "$outside"; do
        in_space "$space" sysctl -qw net.ipv6.conf.all.disable_ipv6=1 net.ipv6.conf.default.disable_ipv6=1
        in_space "$space" ip link set lo up
    done
    ip -n "$inside" link add lan0 type veth peer name in0 netns "$router"
    ip -n "$outside" link add net0 type veth peer name out0 netns "$router"
    ip -n "$inside" addr add 192.168.1.10/24 dev lan0
    ip -n "$inside" addr add 192.168.1.11/24 dev lan0
    ip -n "$router" addr add 192.168.1.1/24 dev in0
    ip -n "$router" addr add 203.0.113.5/24 dev out0
    ip -n "$router" addr add 203.0.113.9/24 dev out0
    ip -n "$outside" addr add 203.0.113.1/24 dev net0
    for space in 21 53 54 80; do
        ip -n "$outside" addr add "198.51.100.$space/32" dev lo
    done
    ip -n "$inside" link set lan0 up
    ip -n "$router" link set in0 up
    ip -n "$router" link set out0 up
    ip -n "$outside" link set net0 up
    ip -n "$inside" route add default via 192.168.1.1
    ip -n "$router" route add default via 203.0.113.1
    in_space "$router" sysctl -qw net.ipv4.ip_forward=1
    in_space "$inside" sysctl -qw net.ipv4.ip_local_port_range='40000 40099'
}

# Nobody answers at 198.51.100.54; the FTP server's ports for data are 50000 to 50009, or to $last_data_port.
start_servers() {
    mkdir -p "$room/web" "$room/ftp" "$room/empty"
    seq 1 400 >"$room/web/numbers"
    seq 1 200 >"$room/ftp/numbers"
    chmod 755 "$room" "$room/web" "$room/ftp" "$room/empty"
    cat >"$room/vsftpd.conf" <<CONF
listen=YES
listen_address=198.51.100.21
background=NO
anonymous_enable=YES
anon_root=$room/ftp
secure_chroot_dir=$room/empty
seccomp_sandbox=NO
isolate_network=NO
pasv_min_port=50000
pasv_max_port=${last_data_port:-50009}
xferlog_enable=NO
CONF
    in_space "$outside" iptables -A INPUT -d 198.51.100.54 -j DROP
    start "$outside" dnsmasq --keep-in-foreground --no-resolv --no-hosts --conf-file=/dev/null --pid-file= \
        --bind-interfaces --listen-address=198.51.100.53 --address=/example.test/198.51.100.80
    start "$outside" python3 -m http.server 80 --bind 198.51.100.80 --directory "$room/web"
    start "$outside" vsftpd "$room/vsftpd.conf"
    start "$inside" python3 -m http.server 8000 --bind 192.168.1.10 --directory "$room/web"
    wait_for "$outside" 198.51.100.53:53
    wait_for "$outside" 198.51.100.80:80
    wait_for "$outside" 198.51.100.21:21
    wait_for "$inside" 192.168.1.10:8000
}

# wait_for SPACE ADDRESS:PORT: until a program listens there
wait_for() {
    local turn
    for turn in $(seq 120); do
        in_space "$1" ss -ltn | grep -qF " $2 " && return
        sleep 0.5
    done
    echo "${0##*/}: nothing listens at $2" >&2
    exit 1
}

# ask ADDRESS#PORT SERVER PORT SECONDS: one query from this address and port, and no second one
ask() {
    in_space "$inside" dig +tries=1 "+timeout=$4" +noedns -p "$3" -b "$1" "@$2" example.test >/dev/null 2>&1 || true
}

fetch() {
    in_space "$inside" curl -s -m 30 -o /dev/null "$@" || true
}
