#!/usr/bin/env bash
# Appends, puts and fetches over the tables of 1,000 groups, entries alone, in batches of ten and of 1,000, of one length or of
# different ones, in thousands per second, beside a plain Rust twin (rustc -O), in one run.
# Usage: bench/tables/run.sh [ROUNDS]; RT names the toolchain's command. With CLOCK=heap: the bytes of the heap that an entry takes.
set -euo pipefail
here="$(dirname "$0")"
UNIT="k/s" exec "$here/../common/run.sh" "$here" "${1:-3}" raft_log_memtable raft_log_record_items raft_log_record_base anyhow
