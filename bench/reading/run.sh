#!/usr/bin/env bash
# Log files in memory read batch by batch, by footers alone and with entry blocks, and directories of many small files, in
# bytes per second, beside a plain Rust twin (rustc -O), in one run.
# Usage: bench/reading/run.sh [ROUNDS]; RT names the toolchain's command.
set -euo pipefail
here="$(dirname "$0")"
exec "$here/../common/run.sh" "$here" "${1:-3}" raft_log_record_base raft_log_fs raft_log_file_format \
    raft_log_file_reader raft_log_record_items raft_log_fs_memory raft_log_file_uses raft_log_record_batches anyhow
