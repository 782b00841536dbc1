#!/usr/bin/env bash
# Runs the built program so often on four captures of the same flows, and reads each report with read_report.py. Prints
# how many runs had so many changes of thread between two events. Ends with status 1 where a report has a fault.
#
# usage: many_runs.sh [RUNS [PACKETS [FLOWS]]]
set -u
cd "$(dirname "$0")/.." || exit 1
runs=${1:-200}
packets=${2:-400}
flows=${3:-1}
room=$(mktemp -d) || exit 1
trap 'rm -rf "$room"' EXIT
python3 measure/udp_capture.py "$packets" "$flows" "$room/flows.pcap" || exit 1
./ctreplay "$room/flows.pcap" >/dev/null || exit 1
for _ in $(seq "$runs"); do
    ./ctreplay "$room/flows.pcap" "$room/flows.pcap" "$room/flows.pcap" "$room/flows.pcap" >"$room/report" || exit 1
    python3 measure/read_report.py <"$room/report" >>"$room/changes" || { cat "$room/changes"; exit 1; }
done
sort -n "$room/changes" | uniq -c
