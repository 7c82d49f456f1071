#!/usr/bin/env bash
# Batches filled, signed and read, in bytes per second, beside a plain Rust twin (rustc -O), in one run.
# Usage: bench/records/run.sh [ROUNDS]; RT names the toolchain's command.
set -euo pipefail
here="$(dirname "$0")"
exec "$here/../common/run.sh" "$here" "${1:-3}" raft_log_record_batches anyhow
