#!/usr/bin/env bash
# A voter store over the file system in memory: rounds of 1, 16 and 256 one-entry Appends over 1,000 groups, a sync each,
# heartbeats in rounds of 256, and 1,000,000 entries of 10,000 groups opened, by the engine alone and as a store, in
# thousands per second, beside a plain Rust twin (rustc -O), in one run. The last line is what the outlines take of the store's open,
# a group at a time: with CLOCK=heap the bytes that an open store keeps a group beside the tables.
# Usage: bench/store/run.sh [ROUNDS]; RT names the toolchain's command. Takes some 2 GB of memory.
set -euo pipefail
here="$(dirname "$0")"
UNIT="k/s" exec "$here/../common/run.sh" "$here" "${1:-3}" raft_voter_messages raft_voter raft_voter_store raft_log_engine anyhow log
