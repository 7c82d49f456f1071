#!/usr/bin/env bash
# An engine over a real directory: batches of 1 to 16 entries, each made durable, and a log of about 1 GB opened, in MB/s beside a
# plain Rust program. The two take turns in each round, the first one last in the next, so that what else the machine does meets
# both; told are the best and the median of the rounds.
# Appends, of entries of 128, 1,024 and 2,118 bytes: beside a loop that writes and syncs as many bytes into a file whose blocks
# are there, filled by calls as long as the other program's, as each write into what a longer one left takes longer. `new` writes
# new files, whose blocks are made by zeros ahead; `prefilled` files that are there from the start.
# Opens: all files are loaded by as many threads as the machine has, and recovered by one or by four workers; `alone` has one
# processor for all of it. `load` is the loading alone. Beside them stands reading the same bytes whole into memory that is kept.
# Usage: bench/directories/run.sh [ROUNDS [WORK..]]; the works are new-128, .., prefilled-2118 and open; new-128x4 has four entries
# in each batch.
# RT names the toolchain's command, or PROGRAM one that is built. FOLDER is where the logs are made (the current directory's disk
# if it isn't said); the log that is opened has LOG MB (1,000), in files of FILE MB (128), of which BLOCK bytes (16,384) are read
# at once. With COLD=1, as root, what the system keeps of files is dropped before each open. QUIET is a command that runs each of
# the programs. Takes some 1.4 GB of disk. Other stores there: bench/directories/peers.sh.
set -euo pipefail
here="$(cd "$(dirname "$0")" && pwd)"
rounds="${1:-5}"
shift || true
[ $# -gt 0 ] || set -- new-128 new-1024 new-2118 prefilled-128 prefilled-1024 prefilled-2118 open
room="$(mktemp -d)"
folder="$(mktemp -d "${FOLDER:-$PWD}/bench.XXXXXX")"
trap 'rm -rf "$room" "$folder"' EXIT
. "$here/../common/build.sh"
rattle="${PROGRAM:-$(build_program "$here" "$room" raft_log_fs_os raft_log_engine anyhow log)}"
rust="$room/rust"
rustc --edition 2021 -O -C codegen-units=1 -o "$rust" "$here/rust.rs"
cd "$folder"
log=(2118 "$((${LOG:-1000} * 1000000 / 18003))" "${FILE:-128}")
block="${BLOCK:-16384}"

# Runs a command, and notes its lines: a word before them, another behind their works.
noted() { local before="$1" behind="$2"; shift 2; ${QUIET:-} "$@" | sed "s/^\([^ ]*\)/$before \1-$behind/" >> "$room/lines"; }
cool() { if [ "${COLD:-0}" = 1 ]; then sync; echo 3 > /proc/sys/vm/drop_caches; fi; }
turn() {
    local size="${1##*-}" entries=0
    case "$size" in *x*) entries="${size#*x}" size="${size%x*}" ;; esac
    case "$1" in
        rust-*) noted rust "${1#rust-}" "$rust" append "$size" 2000 "$entries"; rm -f plain ;;
        rattle-new-*) noted rattle "${1#rattle-}" "$rattle" append "$size" 2000 128 4 16384 "$entries"; rm -rf log ;;
        rattle-*) noted rattle "${1#rattle-}" "$rattle" append-prefilled "$size" 2000 128 4 16384 "$entries"; rm -rf log ;;
        read-*) cool; noted rust "${1#read-}" "$rust" open "${log[@]}" "${1#read-by-}" ;;
        open-by-*) cool; noted rattle "${1#open-}" "$rattle" open "${log[@]}" "${1#open-by-}" "$block" ;;
        open-alone) cool; noted rattle alone taskset -c 0 "$rattle" open "${log[@]}" 1 "$block" ;;
    esac
}

for work; do
    turns=("rust-$work" "rattle-$work")
    if [ "$work" = open ]; then
        ${QUIET:-} "$rattle" fill "${log[@]}"
        turns=(read-by-1 open-alone open-by-1 read-by-4 open-by-4)
    fi
    for _ in $(seq "$rounds"); do
        for turn in "${turns[@]}"; do
            turn "$turn"
        done
        mapfile -t turns < <(printf '%s\n' "${turns[@]}" | tac)
    done
    rm -rf log
done
python3 "$here/told.py" "$room/lines"
