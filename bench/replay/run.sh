#!/usr/bin/env bash
# A gigabyte of records read into the tables of 1,000 groups by 1, 2 and 4 workers, and logs that cost a slow open much more than
# their bytes, a small and a large one of a kind, in bytes per second, beside a plain Rust twin (rustc -O), in one run.
# Usage: bench/replay/run.sh [ROUNDS]; RT names the toolchain's command. Takes some 3 GB of memory.
set -euo pipefail
here="$(dirname "$0")"
exec "$here/../common/run.sh" "$here" "${1:-3}" raft_log_record_base raft_log_replay_context raft_log_record_items raft_log_record_batches raft_log_replay anyhow
