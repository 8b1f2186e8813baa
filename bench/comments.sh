#!/bin/sh
# Times how long a query's text of 16 MiB of comments takes to read, and prints the seconds. Asserts nothing.
# The session has one query, whose answer it prints.
set -eu
cd "$(dirname "$0")/.."
text=$(mktemp)
trap 'rm -f "$text"' EXIT
{
    printf 'green 1\nexecutor\nquery\nvar x 0 9\n'
    yes '# a comment of sixty-four bytes, its line feed among them .....' | head -n 262143
    printf 'end\n'
} > "$text"
printf 'green 1\nexecutor\nquery\nvar x 0 9\nend\n' | ./green solve > /dev/null
before=$(date +%s.%N)
./green solve < "$text"
after=$(date +%s.%N)
echo "$(wc -c < "$text") bytes" "$before" "$after" | awk '{ printf "%s bytes in %.2f seconds\n", $1, $4 - $3 }'
