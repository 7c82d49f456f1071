#!/usr/bin/env bash
# A shared store over the file system in memory: 64 one-entry Appends of each of 1,008 groups in rounds of 1 and of 16, by 1, 2, 4,
# 8 and 16 threads whose rounds share syncs, with receipts and without a journal, and by one thread at a store that isn't shared, in rounds
# a second, beside a plain Rust twin with a Mutex and a queue (rustc -O), in one run. The lines `sharing` tell how many rounds
# shared a sync, times 100. Over a real directory: bench/shared/directory.sh.
# Usage: bench/shared/run.sh [ROUNDS]; RT names the toolchain's command.
set -euo pipefail
here="$(dirname "$0")"
UNIT="r/s" exec "$here/../common/run.sh" "$here" "${1:-3}" raft_voter raft_voter_history raft_voter_shared_log raft_log_engine raft_log_fs_os anyhow log
