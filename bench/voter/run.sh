#!/usr/bin/env bash
# Heartbeats and one-entry Appends decided and applied over 1,000 groups, in thousands per second, beside a plain Rust twin
# (rustc -O), in one run.
# Usage: bench/voter/run.sh [ROUNDS]; RT names the toolchain's command.
set -euo pipefail
here="$(dirname "$0")"
UNIT="k/s" exec "$here/../common/run.sh" "$here" "${1:-3}" raft_voter_outline
