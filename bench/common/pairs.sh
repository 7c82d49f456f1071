#!/usr/bin/env bash
# Runs a benchmark's program and its Rust twin, both built, side by side, each on a processor of its own that changes from pair to
# pair, for a machine whose speed differs from one second to the next; prints of each line that has the word in it the median of the
# pairs' ratios, and the best of each.
# Usage: bench/common/pairs.sh PROGRAM TWIN [PAIRS [WORD]]
set -euo pipefail
program="$(realpath "$1")"
twin="$(realpath "$2")"
pairs="${3:-16}"
word="${4:-}"
room="$(mktemp -d)"
trap 'rm -rf "$room"' EXIT
cd "$room"
for pair in $(seq "$pairs"); do
    if [ $((pair % 2)) = 0 ]; then ours=1 other=0; else ours=0 other=1; fi
    taskset -c "$other" "$twin" > "twin.$pair" &
    taskset -c "$ours" "$program" > "program.$pair"
    wait
done
python3 - "$pairs" "$word" <<'P'
import statistics, sys
rows = {}
for pair in range(1, int(sys.argv[1]) + 1):
    told = [{line.split()[0]: line.split()[1:] for line in open(f"{who}.{pair}") if line.strip()} for who in ("program", "twin")]
    for work, (rate, check) in told[0].items():
        if told[1][work][1] != check:
            sys.exit(f"{work}: the sums differ")
        rows.setdefault(work, []).append((int(rate), int(told[1][work][0])))
for work, pairs in rows.items():
    if sys.argv[2] in work:
        best = [max(pair[who] for pair in pairs) for who in (0, 1)]
        print(f"{work:22} median of ratios {statistics.median(a / b for a, b in pairs):.2f}, best {best[0]} beside {best[1]}: {best[0] / best[1]:.2f}")
P
