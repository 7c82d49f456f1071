#!/usr/bin/env bash
# A shared engine over a real directory: 65,536 batches of one entry of 16 bytes, each with a sync, by 1, 2, 4, 8 and 16 threads
# whose writes share syncs, in writes a second, beside the plain Rust twin, which writes as many bytes into a file with zeros ahead.
# The two take turns for each number of threads; all lines are printed.
# Usage: bench/shared_engine/directory.sh [ROUNDS [WRITES [THREADS..]]]; RT names the toolchain's command, or PROGRAM one that is
# built. FOLDER is where the logs are made (by default the current directory's disk).
set -euo pipefail
here="$(cd "$(dirname "$0")" && pwd)"
rounds="${1:-3}"
writes="${2:-65536}"
shift "$(($# < 2 ? $# : 2))"
[ $# -gt 0 ] || set -- 1 2 4 8 16
room="$(mktemp -d)"
folder="$(mktemp -d "${FOLDER:-$PWD}/bench.XXXXXX")"
trap 'rm -rf "$room" "$folder"' EXIT
. "$here/../common/build.sh"
program="${PROGRAM:-$(build_program "$here" "$room" raft_log_shared raft_log_world raft_log_engine raft_log_fs_os anyhow log)}"
rustc --edition 2021 -O -C codegen-units=1 -o "$room/rust" "$here/rust.rs"
cd "$folder"
for _ in $(seq "$rounds"); do
    for threads; do
        "$program" "$threads" "$writes" | sed 's/^/rattle /'
        rm -rf d
        "$room/rust" "$threads" "$writes" | sed 's/^/rust /'
        rm -rf d
    done
done
