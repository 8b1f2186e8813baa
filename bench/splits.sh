#!/bin/sh
# Times a search that spends its whole budget of 100,000 splits, and prints the splits a second. Asserts nothing.
set -eu
cd "$(dirname "$0")/.."
session() {
    printf 'green 1\nexecutor\nquery\n'
    printf 'var x 0 1000000000\nvar y 0 1000000000\nvar z 0 1000000000\n'
    printf 'x = 2*y\nx = 2*z + 1\nend\n'
}
printf 'green 1\nend\n' | ./green solve > /dev/null
before=$(date +%s.%N)
status=0
session | ./green solve --budget 100000 || status=$?
[ "$status" = 3 ] || exit 1
after=$(date +%s.%N)
echo "$before $after" | awk '{ printf "100000 splits in %.2f seconds: %d a second\n", $2 - $1, 100000 / ($2 - $1) }'
