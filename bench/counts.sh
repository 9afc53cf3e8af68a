#!/usr/bin/env bash
# Counts the host's instructions of each kind, by valgrind's callgrind: on a shared machine
# counts can be compared where times can't. What is printed is a slot's: the difference of two
# runs by their slots; of `load` it is the whole run. Run by hand; no part of the gate.
#
# usage: bench/counts.sh [--tp PROGRAM] [KIND..]     (all of them, if none is said)
set -eu
cd "$(dirname "$0")/.."
tp=crates/tp/out/tp
if [ "${1:-}" = --tp ]; then
    tp=$2
    shift 2
fi
room=$(mktemp -d)
trap 'rm -rf "$room"' EXIT

# count SLOTS: the instructions of a run of so many slots
count() {
    valgrind --tool=callgrind --callgrind-out-file=/dev/null "$tp" run --slots "$1" \
        < "$room/image" 2>&1 > "$room/report" | awk '/Collected/ { print $4 }'
}

# shellcheck disable=SC2046
[ $# -gt 0 ] || set -- $(bench/image --kinds)
for name; do
    bench/image "$name" > "$room/image"
    case $name in
        load) printf '%-14s %12s instructions\n' "$name" "$(count 0)" && continue ;;
        many_slots | flushes | flushes_large | switches) few=20 many=420 ;;
        *) few=2 many=6 ;;
    esac
    less=$(count "$few") more=$(count "$many")
    printf '%-14s %12s instructions a slot\n' "$name" "$(((more - less) / (many - few)))"
done
