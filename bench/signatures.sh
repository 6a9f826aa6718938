#!/bin/sh
# Times the signatures of the pair (6, 3): the key, one signature and one verification, as multiples of
# their hashes times one SHA-256 compression measured in the same run of the program. A key has
# 1,097,728 steps of chains, a signature takes 569 compressions, and those of the verifications are
# counted by the program. Of several runs the median is told, since a machine's speed changes from one
# moment to the next. Ends with 1 where a median is above 1.08, or where a run fails, finds a signature
# invalid or doesn't print all its times. Run it at the top of the repository; the words are how many
# signatures a run makes and how many runs there are.
set -e
. bench/median.sh
count=${1:-500}
runs=${2:-21}
cd crates/signature_bench
echo "building the benchmark" >&2
rt run -- 6 3 1 >/dev/null
times=$(mktemp)
trap 'rm -f "$times"' EXIT
for run in $(seq "$runs"); do
    ./out/signature_bench 6 3 "$count" times >>"$times" || {
        echo "run $run failed" >&2
        exit 1
    }
done
awk -v most=1.08 -v runs="$runs" "$median"'
    $1 == "digest" && $3 == "valid" && $4 == "true" { valid++ }
    $1 == "compressions" { n++; one = $4 / $2; ones[n] = one }
    $1 == "key" { keys[++made] = $3 / (1097728 * one) }
    $1 == "signatures" { signs[++signed] = $4 / $2 / (569 * one) }
    $1 == "verifications" { each = $6 / $2; checks[++checked] = $4 / $6 / one }
    END {
        if (valid != runs || n != runs || made != runs || signed != runs || checked != runs) {
            print "a run did not verify its signatures or print its times"
            exit 1
        }
        key = median(keys, n); sign = median(signs, n); check = median(checks, n)
        printf "%d runs, one compression %.0f ns\n", n, median(ones, n)
        printf "key %.3f of 1,097,728 compressions\n", key
        printf "signature %.3f of 569 compressions\n", sign
        printf "verification %.3f of %.1f compressions\n", check, each
        exit (key > most || sign > most || check > most)
    }' "$times"
