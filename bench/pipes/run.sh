#!/usr/bin/env bash
# A pipe that is appended to, synced, rotated and purged over the file system in memory, in bytes per second, beside a plain
# Rust twin of pipe and file system (rustc -O), in one run. Works named `files` leave the pipe out: the same file calls alone.
# Usage: bench/pipes/run.sh [ROUNDS]; RT names the toolchain's command.
set -euo pipefail
here="$(dirname "$0")"
exec "$here/../common/run.sh" "$here" "${1:-1}" raft_log_file_pipe raft_log_active_file raft_log_fs_memory raft_log_fs raft_log_file_format raft_log_record_base anyhow log
