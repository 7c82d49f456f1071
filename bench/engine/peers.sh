#!/usr/bin/env bash
# Other stores beside the engine: the same batches written and made durable each, in a folder in memory (/dev/shm).
# Usage: bench/engine/peers.sh [STORE..]. Needs a C compiler and Debian's liblmdb-dev, librocksdb-dev, libleveldb-dev
# and libsqlite3-dev. Takes some 4 GB of memory, one store after the other.
set -euo pipefail
here="$(cd "$(dirname "$0")" && pwd)"
room="$(mktemp -d /dev/shm/peers.XXXXXX)"
trap 'rm -rf "$room"' EXIT
"${CC:-cc}" -O2 -o "$room/peers" "$here/peers.c" -llmdb -lrocksdb -lleveldb -lsqlite3
[ $# -gt 0 ] || set -- lmdb rocksdb leveldb sqlite
for store; do
    mkdir "$room/$store.room"
    "$room/peers" "$room/$store.room" "$store"
    rm -rf "$room/$store.room"
done
