#!/usr/bin/env bash
# Runs the program by `rt try --fail-alloc N` for each N from FIRST to LAST, on the capture of the README, on the example with
# rules, and on a script that lists the entries: the Nth allocation is refused, and every access is checked.
# Each run is to print what it prints with no refused allocation, or to end with status 6 and print nothing but the line of it.
# Ends with status 1 where one does not. Each run builds the program anew, which takes most of a minute; refused_memory.py does
# the same with the built program, in milliseconds, but checks no access.
#
# usage: refused_memory.sh [FIRST [LAST [NAME]]]
# Without FIRST and LAST each allocation is refused in its turn. rt does not tell how many there are: six runs in a row that print
# all are taken to be behind the last one. NAME is readme, nat or list: one of the three.
set -u
cd "$(dirname "$0")/../crates/ctreplay" || exit 1
first=${1:-1}
last=${2:-100000}
only=${3:-}
room=$(mktemp -d) || exit 1
trap 'rm -rf "$room"' EXIT
rt=$(command -v rt || echo /opt/rattle/bin/rt)
sizes="--entries=16 --buckets=16"
printf 'wait\n-L\n' >"$room/list"
bad=0

# refuse N WORD..: a run whose Nth allocation is refused. Its output is in $room/out, all else in $room/said.
refuse() {
    local number=$1
    shift
    "$rt" try --fail-alloc "$number" --data "list=$room/list" -- "$@" >"$room/out" 2>"$room/said" </dev/null
}

# judge NAME N: the run prints what stands in $room/NAME, or it ends for want of memory
judge() {
    local name=$1 number=$2 why=
    if ! grep -Eq '^run=ended status=[06]( |$)' "$room/said"; then
        why='it did not end with status 0 or 6'
    elif grep -Eq '^run=ended status=0( |$)' "$room/said"; then
        cmp -s "$room/$name" "$room/out" || why='it printed something else'
    elif [ -s "$room/out" ]; then
        why='it ended with status 6, and something is on the output'
    elif ! grep -qx 'ctreplay: out of memory' "$room/said"; then
        why='it ended with status 6 without the line'
    fi
    [ -n "$why" ] || return 0
    bad=$((bad + 1))
    echo "$name: allocation $number: $why"
    cat "$room/said"
}

# try NAME WORD..: each refusal on these words
try() {
    local name=$1 number=$first whole=0
    shift
    [ -z "$only" ] || [ "$only" = "$name" ] || return 0
    refuse 1000000 "$@"
    cp "$room/out" "$room/$name"
    [ -s "$room/$name" ] || { cat "$room/said"; echo "$name: nothing to compare with"; exit 1; }
    while [ "$number" -le "$last" ] && [ "$whole" -lt 6 ]; do
        refuse "$number" "$@"
        judge "$name" "$number"
        whole=$((whole + 1))
        cmp -s "$room/$name" "$room/out" || whole=0
        number=$((number + 1))
    done
    echo "$name: allocations $first to $((number - 1)), $bad refused so far; of the last runs $whole printed all"
}

# The words are split at their spaces.
# shellcheck disable=SC2086
{
    try readme $sizes data/c.pcap
    try nat $sizes --rules data/nat.rules data/nat.pcap
    try list $sizes --script list data/c.pcap
}
[ "$bad" -eq 0 ]
