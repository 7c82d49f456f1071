#!/usr/bin/env bash
# Numbers and checksums in bytes per second, beside a plain Rust twin (rustc -O), in one run.
# Usage: bench/codec/run.sh [ROUNDS]; RT names the toolchain's command.
set -euo pipefail
here="$(dirname "$0")"
exec "$here/../common/run.sh" "$here" "${1:-3}" raft_log_record_base raft_log_record_checksum
