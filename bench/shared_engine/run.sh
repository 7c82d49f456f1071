#!/usr/bin/env bash
# A shared engine over the file system in memory: 65,536 batches of one entry of 16 bytes, each with a sync, by 1, 2, 4, 8 and 16
# threads whose writes share syncs, in writes a second, beside a plain Rust twin with a Mutex, a queue and a Condvar (rustc -O), in
# one run. Over a real directory: bench/shared_engine/directory.sh.
# Usage: bench/shared_engine/run.sh [ROUNDS [WRITES]]; RT names the toolchain's command.
set -euo pipefail
here="$(dirname "$0")"
UNIT="w/s" ARGS="0 ${2:-65536}" exec "$here/../common/run.sh" "$here" "${1:-3}" raft_log_shared raft_log_world raft_log_engine raft_log_fs_os anyhow log
