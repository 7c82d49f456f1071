#!/usr/bin/env bash
# Builds a benchmark's main.rt.txt, with its proofs/ (each file's name ends in .txt) if it has some, over crates of this repository, and its Rust twin rust.rs,
# runs both so many times, and prints the best of each. Each line that they print has the work, its MB/s (or what UNIT says) and
# a sum, which must be the same.
# Usage: bench/common/run.sh FOLDER ROUNDS CRATE..; the crates are those that main.rt.txt names. RT names the toolchain's command.
# ARGS are the arguments of both. With FOLDER both are run in a new folder below it, which is emptied before each run.
# With CLOCK=processor both are measured by processor time, for a machine with other work beside. With CLOCK=heap the clock tells
# the bytes of the heap that are in use, and a line tells what its work took of them: with UNIT=k/s bytes a piece, of a million.
set -euo pipefail
here="$(cd "$1" && pwd)"
rounds="$2"
shift 2
top="$(cd "$(dirname "$0")/../.." && pwd)"
room="$(mktemp -d)"
trap 'rm -rf "$room"' EXIT

. "$top/bench/common/build.sh"
program="$(build_program "$here" "$room" "$@")"
rustc --edition 2021 -O -C codegen-units=1 -o "$room/rust" "$here/rust.rs"

clock=()
if [ "${CLOCK:-wall}" != wall ]; then
    "${CC:-cc}" -O2 -shared -fPIC -o "$room/clock.so" "$top/bench/common/${CLOCK}_clock.c"
    clock=(env LD_PRELOAD="$room/clock.so")
fi
# Runs a program in a folder of its own.
apart() {
    local folder
    folder="$(mktemp -d "${FOLDER:-$room}/bench.XXXXXX")"
    (cd "$folder" && "${clock[@]}" "$1" ${ARGS:-}) || { rm -rf "$folder"; exit 1; }
    rm -rf "$folder"
}
for _ in $(seq "$rounds"); do
    apart "$room/rust" >> "$room/rust.out"
    apart "$program" >> "$room/rattle.out"
done
awk -v unit="${UNIT:-MB/s}" -v clock="${CLOCK:-wall}" 'FNR == NR { if ($2 > rust[$1]) rust[$1] = $2; sum[$1] = $3; next }
     { if (sum[$1] != $3) { print $1 ": the sums differ"; bad = 1 }
       if ($2 > best[$1]) best[$1] = $2; if (!($1 in seen)) { seen[$1] = 1; order[++n] = $1 } }
     END { if (clock == "heap") {
               printf "%-22s %12s %12s\n", "work", "Rattle bytes", "Rust bytes"
               for (i = 1; i <= n; i++) { w = order[i]; printf "%-22s %12.3f %12.3f\n", w, 1000000 / best[w], 1000000 / rust[w] }
               exit bad }
           printf "%-22s %12s %12s %8s\n", "work", "Rattle " unit, "Rust " unit, "ratio"
           for (i = 1; i <= n; i++) { w = order[i]; printf "%-22s %12d %12d %8.2f\n", w, best[w], rust[w], best[w] / rust[w] }
           exit bad }' "$room/rust.out" "$room/rattle.out"
