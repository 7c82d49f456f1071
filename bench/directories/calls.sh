#!/usr/bin/env bash
# Where a batch's time goes over a real directory, in microseconds: its write, its sync, and what the program itself takes besides,
# beside the plain Rust loop of run.sh, into files that are filled beforehand. What the program itself takes hardly depends on the
# disk: so the last column tells from which time of the loop's on the log reaches nine tenths of it. Medians of 2,000 batches of 1
# to 16 entries, and of the rounds, in which the two take turns.
# Usage: bench/directories/calls.sh [ROUNDS [ENTRY_BYTES..]]; RT, PROGRAM and FOLDER as run.sh has them.
set -euo pipefail
here="$(cd "$(dirname "$0")" && pwd)"
rounds="${1:-5}"
shift || true
[ $# -gt 0 ] || set -- 128 1024 2118
room="$(mktemp -d)"
folder="$(mktemp -d "${FOLDER:-$PWD}/bench.XXXXXX")"
trap 'rm -rf "$room" "$folder"' EXIT
. "$here/../common/build.sh"
rattle="${PROGRAM:-$(build_program "$here" "$room" raft_log_fs_os raft_log_engine anyhow log)}"
rustc --edition 2021 -O -C codegen-units=1 -o "$room/rust" "$here/rust.rs"
"${CC:-cc}" -O2 -shared -fPIC -o "$room/clock.so" "$here/../common/call_clock.c" -ldl
cd "$folder"

# Runs a program, and notes who it is, the entries' bytes and what the clock told.
noted() { local before="$1"; shift; LD_PRELOAD="$room/clock.so" "$@" 2>&1 > "$room/rate" | sed "s/^/$before /" >> "$room/lines"; }
for bytes; do
    for _ in $(seq "$rounds"); do
        noted "loop $bytes" "$room/rust" append "$bytes" 2000 0
        rm -f plain
        noted "log $bytes" "$rattle" append-prefilled "$bytes" 2000 128 4 16384 0
        rm -rf log
    done
done
python3 - "$room/lines" <<'P'
import statistics, sys
told = {}
for line in open(sys.argv[1]):
    who, size, *parts = line.split()
    told.setdefault(size, {}).setdefault(who, []).append([int(part) / 1000 for part in parts])
print(f"{'entries of':>10}{'who':>6}{'write':>8}{'sync':>8}{'own':>8}{'batch':>8}{'0.9 from':>10}")
for size, by in told.items():
    for who, rows in by.items():
        write, sync, own = (statistics.median(row[part] for row in rows) for part in range(3))
        most = f"{9 * own:10.0f}" if who == "log" else ""
        print(f"{size:>10}{who:>6}{write:8.1f}{sync:8.1f}{own:8.1f}{write + sync + own:8.1f}{most}")
P
