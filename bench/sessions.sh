#!/bin/sh
# Times sessions of 1,000 and 10,000 queries from text to text, and prints the seconds of each. Asserts nothing.
# A query has three variables over 0 to 99 and four comparisons, made from the numbers of a linear congruential generator.
set -eu
cd "$(dirname "$0")/.."
text=$(mktemp)
trap 'rm -f "$text"' EXIT
printf 'green 1\nend\n' | ./green solve > /dev/null
for count in 1000 10000; do
    awk -v count="$count" '
        function draw() { state = state * 16807 % 2147483647; return int(state / 32) }
        BEGIN {
            split("<= >= = !=", op, " ")
            state = 7
            print "green 1\nexecutor"
            for (i = 0; i < count; i++) {
                p = draw() % 5 + 1; q = draw() % 5 + 1; r = draw() % 900
                e = draw() % 120 - 20; g = draw() % 100; o = op[draw() % 4 + 1]
                print "query\nvar a 0 99\nvar b 0 99\nvar c 0 99"
                print p "*a + " q "*b <= " r "\nb - c >= " e "\nc != " g "\na " o " c"
            }
            print "end"
        }' > "$text"
    before=$(date +%s.%N)
    status=0
    ./green solve < "$text" > /dev/null || status=$?
    case $status in 0 | 3) ;; *) echo "the session was not answered: status $status" >&2; exit 1 ;; esac
    after=$(date +%s.%N)
    echo "$count $(wc -c < "$text") $before $after" |
        awk '{ printf "%d queries, %d bytes: %.2f seconds\n", $1, $2, $4 - $3 }'
done
