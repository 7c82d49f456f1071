#!/usr/bin/env bash
# The pauses that purges make, in microseconds: a whole purge (`purge_expired_files`), and the longest step of one that is made in
# steps (`purge_some`) with a budget of 1 MiB. The log has nine parts garbage and one part live, in groups of 200 entries of 1 KiB;
# first Append is purged, and then Rewrite, of which seven of eight parts are garbage by then. All lines are printed.
# Usage: bench/engine/pauses.sh [MB [ROUNDS [BUDGET]]], with 1,000 MB, 3 rounds and 1,048,576 bytes if they aren't said; RT names
# the toolchain's command, or PROGRAM one that is built. With FOLDER the log is in a directory below it, else in memory. Takes
# some three times MB of memory.
set -euo pipefail
here="$(cd "$(dirname "$0")" && pwd)"
size="${1:-1000}" rounds="${2:-3}" budget="${3:-1048576}"
room="$(mktemp -d)"
folder="$(mktemp -d "${FOLDER:-$room}/bench.XXXXXX")"
trap 'rm -rf "$room" "$folder"' EXIT
. "$here/../common/build.sh"
program="${PROGRAM:-$(build_program "$here/pauses" "$room" raft_log_fs_os raft_log_engine anyhow log)}"
place=memory
[ -z "${FOLDER:-}" ] || place=directory
cd "$folder"
for _ in $(seq "$rounds"); do
    "$program" "$place" "$size" 0
    rm -rf d
    "$program" "$place" "$size" "$budget"
    rm -rf d
done
