#!/bin/sh
# Times queries of 64 variables and 256 comparisons, and prints the milliseconds of a query. No search is needed: the
# lowest corner satisfies each key. Claims nothing. In the first session each comparison has a form of its own; in the
# second all have one form, over two variables, so that the other 62 have slices of their own; in the third each
# comparison has 64 terms a side.
set -eu
cd "$(dirname "$0")/.."
text=$(mktemp)
trap 'rm -f "$text"' EXIT
printf 'green 1\nend\n' | ./green solve > /dev/null
for forms in different one long; do
    awk -v forms="$forms" '
        function side(k,   i, s) { s = k "*x0"; for (i = 1; i < 64; i++) s = s " + " k + i "*x" i; return s }
        BEGIN {
            print "green 1\nexecutor"
            queries = forms == "long" ? 4 : 100
            for (q = 0; q < queries; q++) {
                print "query"
                for (v = 0; v < 64; v++) print "var x" v " 0 1000"
                for (a = 0; a < 256; a++) {
                    if (forms == "one") print "x0 - x1 <= " 1000 + a
                    else if (forms == "different") print a + 2 "*x" a % 64 " + x" (a + 1) % 64 " >= 0"
                    else print side(a + 1) " >= " side(1)
                }
            }
            print "end"
        }' > "$text"
    queries=$(grep -c query "$text")
    before=$(date +%s.%N)
    status=0
    ./green solve < "$text" > /dev/null || status=$?
    case $status in 0 | 3) ;; *) echo "the session was not answered: status $status" >&2; exit 1 ;; esac
    after=$(date +%s.%N)
    echo "$forms $queries $(wc -c < "$text") $before $after" |
        awk '{ printf "%s: %d queries, %d bytes: %.2f milliseconds a query\n", $1, $2, $3, ($5 - $4) * 1000 / $2 }'
done
