#!/usr/bin/env bash
# Runs a hot loop of loads, arithmetic and branches in `tp`, and prints how many
# instructions it ran in a second. Run by hand; no part of the gate.
#
# usage: bench/hot_loop.sh [SLOTS]     (200 slots of a million cycles each, if not said)
set -eu
cd "$(dirname "$0")/.."
slots=${1:-200}
tp=crates/tp/out/tp
[ -x "$tp" ] || (cd crates/tp && rt run -- run --slots 0 < ../../examples/two-domains.toml > /dev/null)

#   lui  x5, 0x10        its own page
#   lw   x6, 0(x5)       the loop
#   add  x7, x7, x6
#   addi x8, x8, 1
#   xor  x9, x7, x8
#   slt  x10, x9, x7
#   bne  x8, x0, -20
#   jal  x0, -24
loop=b702010003a30200b383630013041400b3c4830033a57400e31604fe6ff09ffe

image=$(mktemp)
trap 'rm -f "$image"' EXIT
{
    printf 'frames = 64\nshared = 512\nline = 64\npredictor = 16\n'
    for cache in l1i l1d tlb; do
        printf '%s = { sets = 16, ways = 2, policy = "lru" }\n' "$cache"
    done
    printf 'l2 = { sets = 256, ways = 4, policy = "lru" }\n'
    printf 'costs = { base = 1, l1 = 1, l2 = 8, mem = 40, wb = 10, tlb = 1, mispredict = 3, trap = 10, flush = 20 }\n'
    colour=0
    for name in red blue; do
        colour=$((colour + 1))
        printf '[[domain]]\nname = "%s"\ncolours = [%s]\nentry = 0x10000\n' "$name" "$colour"
        printf 'segment = [{ page = 16, pages = 1, rights = "rx", hex = "%s" }]\n' "$loop"
    done
    printf '[[schedule]]\ndomain = 0\nlength = 1000000\npad = 6150\n'
    printf '[[schedule]]\ndomain = 1\nlength = 1000000\npad = 6150\n'
} > "$image"

begin=$(date +%s%N)
report=$("$tp" run --slots "$slots" < "$image")
end=$(date +%s%N)
retired=$(printf '%s\n' "$report" | awk '$1 == "retired" { sum += $2 } END { print sum }')
printf '%s instructions in %s ms: %s million a second\n' "$retired" \
    "$(((end - begin) / 1000000))" "$((retired * 1000 / (end - begin)))"
