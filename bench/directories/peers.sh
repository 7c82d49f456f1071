#!/usr/bin/env bash
# Other stores on the disk of the benchmark: its batches, of entries of 128 and of 2,118 bytes, made durable each.
# Usage: bench/directories/peers.sh [STORE..]; FOLDER names where they are made (the current directory's disk if it isn't
# said), SIZES other sizes of entries, ENTRIES how many each batch has instead of 1 to 16 in turn. Needs what
# bench/engine/peers.sh needs.
set -euo pipefail
engine="$(cd "$(dirname "$0")/../engine" && pwd)"
room="$(mktemp -d "${FOLDER:-$PWD}/peers.XXXXXX")"
trap 'rm -rf "$room"' EXIT
[ $# -gt 0 ] || set -- lmdb rocksdb leveldb sqlite
for size in ${SIZES:-128 2118}; do
    "${CC:-cc}" -O2 -DBATCHES="${BATCHES:-8000}" -DSIZE="$size" ${ENTRIES:+"-DENTRIES=$ENTRIES"} -o "$room/peers" "$engine/peers.c" -llmdb -lrocksdb -lleveldb -lsqlite3
    echo "entries of $size bytes"
    for store; do
        mkdir "$room/$store.room"
        "$room/peers" "$room/$store.room" "$store"
        rm -rf "$room/$store.room"
    done
done
