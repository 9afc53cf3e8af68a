#!/usr/bin/env bash
# Runs images of several kinds in `tp`, and prints how long each took and how many
# instructions it ran in a second. Run by hand; no part of the gate.
#
# usage: bench/kinds.sh [KIND..]     (all of them, if none is said; bench/image says what each is)
set -eu
cd "$(dirname "$0")/.."
tp=crates/tp/out/tp
[ -x "$tp" ] || (cd crates/tp && rt run -- run --slots 0 < ../../examples/two-domains.toml > /dev/null)

text=$(mktemp)
trap 'rm -f "$text"' EXIT
# shellcheck disable=SC2046
[ $# -gt 0 ] || set -- $(bench/image --kinds)
for name; do
    slots=$(bench/image --slots "$name")
    bench/image "$name" > "$text"
    begin=$(date +%s%N)
    report=$("$tp" run --slots "$slots" < "$text")
    end=$(date +%s%N)
    retired=$(printf '%s\n' "$report" | awk '$1 == "retired" { sum += $2 } END { print sum }')
    printf '%-14s %9s instructions in %5s ms: %s million a second\n' "$name" "$retired" \
        "$(((end - begin) / 1000000))" "$((retired * 1000 / (end - begin)))"
done
