#!/usr/bin/env bash
# Times the caches, the translation buffer and the predictor by themselves: builds
# a program over a copy of their crates in a temporary repository, and prints the
# least nanoseconds a call of several runs. Run by hand; no part of the gate.
#
# usage: bench/parts_pace.sh [lru|fifo|plru] [RUNS]     (lru and 7 runs, if not said)
set -eu
cd "$(dirname "$0")/.."
policy=${1:-lru}
runs=${2:-7}
parts='tp_base set_cache repl_policy l1_cache l2_colour tlb_model branch_pred'

room=$(mktemp -d)
trap 'rm -rf "$room"' EXIT
git -C "$room" init -q
for part in $parts; do
    mkdir -p "$room/crates/$part"
    cp -r "crates/$part/src" "crates/$part/specs" "crates/$part/proofs" "$room/crates/$part"
    grep "^$part:" crates.txt >> "$room/crates.txt"
done
mkdir -p "$room/crates/parts_pace/src" "$room/crates/parts_pace/specs" "$room/crates/parts_pace/proofs/Parts/new"
cp bench/parts_pace.main.txt "$room/crates/parts_pace/src/main.rt"
cp bench/parts_pace.answers.txt "$room/crates/parts_pace/proofs/Parts/new/Answers.antt"
touch "$room/crates/parts_pace/specs/Lib.antt" "$room/crates/parts_pace/proofs/Lib.antt"
echo "parts_pace: $parts anyhow" >> "$room/crates.txt"

(cd "$room/crates/parts_pace" && rt run -- "$policy") > "$room/log" 2>&1 || { cat "$room/log"; exit 1; }
for _ in $(seq "$runs"); do "$room/crates/parts_pace/out/parts_pace" "$policy"; done |
    sed -E 's/(.*): ([0-9]+) \(.*/\1:\2/' |
    awk -F: '!($1 in least) { names[++n] = $1; least[$1] = $2 } $2 < least[$1] { least[$1] = $2 }
        END { for (i = 1; i <= n; i++) printf "%-36s %5.1f ns\n", names[i], least[names[i]] / 10 }'
