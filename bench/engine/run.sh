#!/usr/bin/env bash
# An engine over the file system in memory: batches written and synced each, of long entries and, ten or 1,000 at a time, of short
# ones, the log opened, and entries of a group fetched, in bytes per second, beside a plain Rust twin (rustc -O), in one run.
# Usage: bench/engine/run.sh [ROUNDS]; RT names the toolchain's command. Takes some 8 GB of memory.
set -euo pipefail
here="$(dirname "$0")"
exec "$here/../common/run.sh" "$here" "${1:-1}" raft_log_record_base raft_log_fs raft_log_dual_pipes raft_log_engine_core raft_log_file_reader raft_log_record_items raft_log_fs_memory raft_log_record_batches raft_log_file_settings anyhow log
