#!/usr/bin/env bash
# A shared store over a real directory: 64 one-entry Appends of each of 1,008 groups in rounds of 1, by 1, 2, 4, 8 and 16 threads
# whose rounds share syncs, in rounds a second. The lines `sharing` tell how many rounds shared a sync, times 100. The numbers of
# threads take turns in each round; all lines are printed.
# Usage: bench/shared/directory.sh [ROUNDS [THREADS..]]; RT names the toolchain's command, or PROGRAM one that is built. FOLDER is
# where the logs are made (the current directory's disk if it isn't said).
set -euo pipefail
here="$(cd "$(dirname "$0")" && pwd)"
rounds="${1:-3}"
shift || true
[ $# -gt 0 ] || set -- 1 2 4 8 16
room="$(mktemp -d)"
folder="$(mktemp -d "${FOLDER:-$PWD}/bench.XXXXXX")"
trap 'rm -rf "$room" "$folder"' EXIT
. "$here/../common/build.sh"
program="${PROGRAM:-$(build_program "$here" "$room" raft_voter raft_voter_history raft_voter_shared_log raft_log_engine raft_log_fs_os anyhow log)}"
cd "$folder"
for _ in $(seq "$rounds"); do
    for threads; do
        "$program" "$threads"
        rm -rf d
    done
done
