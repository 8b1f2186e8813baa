#!/bin/sh
# Times sessions in which a given share of the queries asks what was asked before, from text to text, and prints for each
# the seconds and how many replies were hits, were solved, and spent their budget. Asserts nothing. A query has three
# variables over 0 to 99 and four comparisons, made from the numbers of a linear congruential generator; one that asks
# again takes the numbers of an earlier query.
set -eu
cd "$(dirname "$0")/.."
folder=$(mktemp -d)
trap 'rm -rf "$folder"' EXIT
printf 'green 1\nend\n' | ./green solve > /dev/null

# session COUNT SHARE: a session of so many queries, of which this share, in hundredths, asks again
session() {
    awk -v count="$1" -v share="$2" '
        function draw() { state = state * 16807 % 2147483647; return int(state / 32) }
        BEGIN {
            split("<= >= = !=", op, " ")
            state = 7
            print "green 1\nexecutor"
            for (i = 0; i < count; i++) {
                if (made > 0 && draw() % 100 < share) {
                    text = query[(draw() * 32768 + draw()) % made]
                } else {
                    p = draw() % 5 + 1; q = draw() % 5 + 1; r = draw() % 900
                    e = draw() % 120 - 20; g = draw() % 100; o = op[draw() % 4 + 1]
                    text = p "*a + " q "*b <= " r "\nb - c >= " e "\nc != " g "\na " o " c"
                    query[made++] = text
                }
                print "query\nvar a 0 99\nvar b 0 99\nvar c 0 99\n" text
            }
            print "end"
        }'
}

# A session that solves 100,000 queries would take several minutes.
for case in "90 1000" "90 10000" "90 100000" "10 1000" "10 10000"; do
    share=${case% *}
    count=${case#* }
    session "$count" "$share" > "$folder/session"
    before=$(date +%s.%N)
    status=0
    ./green solve < "$folder/session" > "$folder/answers" || status=$?
    case $status in 0 | 3) ;; *) echo "the session was not answered: status $status" >&2; exit 1 ;; esac
    after=$(date +%s.%N)
    awk -v count="$count" -v share="$share" -v before="$before" -v after="$after" '
        { hits += gsub(/\[hit /, ""); solved += gsub(/\[new /, ""); spent += gsub(/\[spent\]/, "") }
        END {
            printf "%d queries, %d %% asked again: %.2f seconds, %d hits, %d solved, %d spent\n",
                count, share, after - before, hits, solved, spent
        }' "$folder/answers"
done
