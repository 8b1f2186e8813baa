#!/bin/sh
# Times what it takes to begin with a store of 1,000, 10,000 and 100,000 entries, half of them cores, each of which is read
# and whose evidence is checked: a dump, an empty session, and a session of 1,000 queries of which nine in ten are answered
# from the store. Prints the seconds of each. Asserts nothing.
set -eu
cd "$(dirname "$0")/.."
folder=$(mktemp -d /dev/shm/store.XXXXXX)
trap 'rm -rf "$folder"' EXIT
printf 'green 1\nend\n' > "$folder/empty"
bench/stores.py session 1000 90 > "$folder/session"
./green solve < "$folder/empty" > /dev/null

timed() {
    name=$1
    count=$2
    input=$3
    shift 3
    before=$(date +%s.%N)
    "$@" < "$input" > "$folder/output"
    after=$(date +%s.%N)
    echo "$name" "$before" "$after" | awk -v count="$count" \
        '{ t = $3 - $2; printf "%8d entries, %-14s %.3f seconds, %.2f microseconds an entry\n", count, $1, t, t / count * 1e6 }'
}

for count in 1000 10000 100000; do
    bench/stores.py store "$count" > "$folder/store"
    timed dump "$count" /dev/null ./green dump --store "$folder/store"
    timed empty-session "$count" "$folder/empty" ./green solve --store "$folder/store"
    timed nine-in-ten "$count" "$folder/session" ./green solve --store "$folder/store"
    echo "         $(grep -c 'hit' "$folder/output") hits, $(grep -c 'saved' "$folder/output") saved"
done
