#!/bin/sh
# Answers recorded sessions and compares verdicts. The argument is a folder in which NAME.green is a session, and
# NAME.expected has, under the same `executor` lines, the verdict of each query that other solvers agree on.
# Prints, a line a session: queries, sat, unsat, unknown, verdicts that differ, replies that were hits, that were solved
# and that spent their budget, and seconds. A verdict that is not unknown and differs ends the script with a status of 1.
set -eu
folder=$(cd "${1:?the folder of the sessions}" && pwd)
cd "$(dirname "$0")/.."
answers=$(mktemp)
trap 'rm -f "$answers"' EXIT
printf 'green 1\nend\n' | ./green solve > /dev/null
wrong=0
for session in "$folder"/*.green; do
    name=$(basename "$session" .green)
    before=$(date +%s.%N)
    status=0
    ./green solve < "$session" > "$answers" || status=$?
    case $status in 0 | 3) ;; *) echo "$name was not answered: status $status" >&2; exit 1 ;; esac
    after=$(date +%s.%N)
    marks=$(awk '
        { hits += gsub(/\[hit /, ""); solved += gsub(/\[new /, ""); spent += gsub(/\[spent\]/, "") }
        END { printf "%d hits, %d solved, %d spent", hits, solved, spent }' "$answers")
    grep -E '^(executor|sat|unsat|unknown)' "$answers" | cut -d' ' -f1 |
        paste -d' ' "$folder/$name.expected" - |
        awk -v name="$name" -v before="$before" -v after="$after" -v marks="$marks" '
            $1 != "executor" { queries++; count[$2]++; if ($2 != "unknown" && $1 != $2) differ++ }
            $1 == "executor" && $2 != "executor" { differ++ }
            END {
                printf "%s: %d queries, %d sat, %d unsat, %d unknown, %d differ, %s, %.2f seconds\n",
                    name, queries, count["sat"], count["unsat"], count["unknown"], differ, marks, after - before
                exit differ > 0
            }' || wrong=1
done
exit $wrong
