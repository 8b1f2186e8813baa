#!/bin/sh
# Times a session of 1,000 queries that are all solved: without a store, over a store in memory (/dev/shm), where a sync
# costs next to nothing, and over one on this disk. Prints the seconds of each and what an entry takes. Asserts nothing.
set -eu
cd "$(dirname "$0")/.."
folder=$(mktemp -d ./bench/saves.XXXXXX)
memory=$(mktemp -d /dev/shm/saves.XXXXXX)
trap 'rm -rf "$folder" "$memory"' EXIT
count=1000
bench/stores.py session "$count" 0 > "$folder/session"
./green solve < "$folder/session" > /dev/null

timed() {
    name=$1
    shift
    before=$(date +%s.%N)
    "$@" < "$folder/session" > /dev/null
    after=$(date +%s.%N)
    echo "$name" "$before" "$after" | awk -v count="$count" \
        '{ t = $3 - $2; printf "%-16s %.3f seconds, %.0f microseconds a query, %.0f queries a second\n", $1, t, t / count * 1e6, count / t }'
}

timed no-store ./green solve
timed store-in-memory ./green solve --store "$memory/store"
timed store-on-disk ./green solve --store "$folder/store"
