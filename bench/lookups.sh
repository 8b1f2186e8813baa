#!/usr/bin/env bash
# Times lookups in the tries, over the keys of recorded sessions and of generated queries. The argument is a folder in
# which NAME.green is a session, and NAME.expected has the verdict of each query. Asserts nothing.
#
# A small program, whose sources stand in bench/lookups, is proved and built on a copy of the crates. It holds keys in
# layers, of the sizes that a version has to which as many entries were added one by one, and looks keys up again and
# again, as a version does: the very key first, and then what decides it. What is printed is the difference of two runs,
# one of which looks up once and the other more often: microseconds a lookup, a new `Asked` included where the very key
# isn't held. Where keys are multiplied, each copy has other constants: all changed by one number ("shifted"), or each by
# a number of its own ("apart").
set -euo pipefail
folder=$(cd "${1:?the folder of the sessions}" && pwd)
root=$(cd "$(dirname "$(readlink -f "${BASH_SOURCE[0]}")")/.." && pwd)
copy=$(mktemp -d)
trap 'rm -rf "$copy"' EXIT

crates="outside lin_model atom_implies key_tree sat_trie unsat_trie"
mkdir "$copy/crates"
for crate in $crates; do
    tar -C "$root" --exclude="crates/$crate/out" --exclude="crates/$crate/must-fail" -cf - "crates/$crate" |
        tar -C "$copy" -xf -
    grep "^$crate:" "$root/crates.txt" >> "$copy/crates.txt"
done
echo "lookups: $crates anyhow" >> "$copy/crates.txt"
cp "$root/HANDLES" "$copy/"
own=$copy/crates/lookups
mkdir -p "$own/src" "$own/specs" "$own/proofs/first"
touch "$own/specs/Lib.antt" "$own/proofs/Lib.antt"
for module in main keys layer; do
    cp "$root/bench/lookups/$module.txt" "$own/src/$module.rt"
done
cp "$root/bench/lookups/ghosts.txt" "$own/proofs/first/Invariants.antt"

cd "$copy"
python3 "$root/bench/lookups/keys.py" recorded "$folder"/*.green > recorded
python3 "$root/bench/lookups/keys.py" few 110000 > few
python3 "$root/bench/lookups/keys.py" many 110000 > many
(cd "$own" && rt run -- "$copy/recorded" 1 0 0 0 0 0 > "$copy/built" 2>&1) || { cat "$copy/built" >&2; exit 1; }

# sizes COUNT: those of the layers
sizes() {
    awk -v count="$1" 'BEGIN {
        for (i = 0; i < count; i++) {
            behind = 1
            while (k > 0 && size[k] < 2 * behind) behind += size[k--]
            size[++k] = behind
        }
        for (i = 1; i <= k; i++) printf "%d ", size[i]
    }'
}

# run KEYS COPIES APART FROM COUNT MISSES ROUNDS SIZE ..: prints seconds, most KiB in memory, and how many were asked
run() {
    /usr/bin/env python3 - "$own/out/lookups" "$@" << 'END'
import resource, subprocess, sys, time
before = time.perf_counter()
printed = subprocess.run(sys.argv[1:], check=True, capture_output=True, text=True).stdout
seconds = time.perf_counter() - before
print(seconds, resource.getrusage(resource.RUSAGE_CHILDREN).ru_maxrss, printed.split()[2])
END
}

# lookups NAME KEYS COPIES APART HELD COUNT ROUNDS: keys in the middle of those held, which find themselves, in a hundred
# times as many rounds; and of those behind them the ones that find another key, and the ones that find none
lookups() {
    local held what from misses rounds
    held=$(sizes "$5")
    for what in "finds the very key" "finds another key" misses; do
        from=$5 misses=0 rounds=$7
        case $what in
            "finds the very key") from=$((($5 - $6) / 2)) rounds=$(($7 * 100)) ;;
            misses) misses=1 ;;
        esac
        # shellcheck disable=SC2086
        {
            run "$2" "$3" "$4" "$from" "$6" "$misses" 1 $held
            run "$2" "$3" "$4" "$from" "$6" "$misses" $((rounds + 1)) $held
        } |
            awk -v name="$1" -v held="$5" -v what="$what" -v rounds="$rounds" '
                { seconds[NR] = $1; asked = $3 }
                END {
                    if (asked > 0)
                        printf "%s, %d held: %.1f microseconds a lookup that %s (%d asked)\n", name, held,
                            (seconds[2] - seconds[1]) / rounds / asked * 1e6, what, asked
                }'
    done
}

# growth NAME KEYS COPIES HELD: what it takes to hold keys in one layer
growth() {
    { run "$2" "$3" 0 0 0 0 0; run "$2" "$3" 0 0 0 0 0 "$4"; } |
        awk -v name="$1" -v held="$4" '
            { seconds[NR] = $1; memory[NR] = $2 }
            END {
                printf "%s: %.1f microseconds and %d bytes for an entry more, of %d\n", name,
                    (seconds[2] - seconds[1]) / held * 1e6, (memory[2] - memory[1]) * 1024 / held, held
            }'
}

lookups recorded recorded 1 0 1000 1000 40
lookups recorded recorded 1 0 3456 3456 40
lookups "recorded, shifted" recorded 4 0 10000 2000 10
lookups "recorded, shifted" recorded 30 0 100000 2000 4
lookups "recorded, apart" recorded 60 1 10000 2000 4
lookups "recorded, apart" recorded 60 1 100000 400 2
for kind in few many; do
    for held in 100 1000 10000 90000; do
        lookups "$kind forms" "$kind" 1 0 "$held" $((held < 1000 ? held : 1000)) $((400000 / (held + 4000) + 1))
    done
done
growth recorded recorded 1 3456
growth "recorded, shifted" recorded 30 100000
growth "few forms" few 1 100000
growth "many forms" many 1 90000
