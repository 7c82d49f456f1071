#!/usr/bin/env bash
# The heap of a shared store without a journal, in bytes in use, before and after 10,000,000 rounds at one seat. The rounds only
# read, so that the log in memory stays as it is: what grows is of the sharing.
# Usage: bench/shared/heap.sh [ROUNDS]; RT names the toolchain's command, or PROGRAM one that is built.
set -euo pipefail
here="$(cd "$(dirname "$0")" && pwd)"
room="$(mktemp -d)"
trap 'rm -rf "$room"' EXIT
. "$here/../common/build.sh"
program="${PROGRAM:-$(build_program "$here" "$room" raft_voter raft_voter_history raft_voter_shared_log raft_log_engine raft_log_fs_os anyhow log)}"
"${CC:-cc}" -O2 -shared -fPIC -o "$room/clock.so" "$here/../common/heap_clock.c"
LD_PRELOAD="$room/clock.so" "$program" heap "${1:-10000000}"
