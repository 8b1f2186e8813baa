#!/bin/sh
# Builds `store_rows`, and prints the seconds of its three rows on trees of tens of thousands of splits: each is made from
# its text and checked. Asserts nothing.
set -eu
cd "$(dirname "$0")/../crates/store_rows"
rt run < stdin > /dev/null 2>&1
rows=$(grep -F 'split v0 \#' stdin)
before=$(date +%s.%N)
echo "$rows" | out/store_rows
after=$(date +%s.%N)
echo "$before $after" | awk '{ printf "three trees of up to 100,001 nodes: %.3f seconds\n", $2 - $1 }'
