#!/bin/sh
# Times the reading of a script of 4,194,304 bytes beside serde_json's reading of the same bytes to its value, and the
# reports of 1,024 commands and of 2,048, in the same run of one program. Of several runs the median is told, since a
# machine's speed changes from one moment to the next. Ends with 1 where the script takes above 2 times what its JSON
# takes, where a byte of the longer report takes above 1.5 times what one of the shorter takes, or where a run tells
# less. Run it at the top of the repository; the word is how many runs there are.
set -e
. bench/median.sh
runs=${1:-21}
cd crates/script_bench
echo "building the benchmark" >&2
rt run >/dev/null
for _ in $(seq "$runs"); do ./out/script_bench times || echo "the program failed"; done | awk -v runs="$runs" "$median"'
    $1 == "script" && $2 == "bytes" && $3 == 4194304 { whole++ }
    $1 == "reports" && $2 == "bytes" { half = $3; all = $4 }
    $1 == "json" { json = $3 }
    $1 == "script" && $2 == "nanoseconds" { read[++n] = $3 / json }
    $1 == "reports" && $2 == "nanoseconds" { byte[++told] = ($4 / all) / ($3 / half) }
    END {
        if (whole != runs || n != runs || told != runs) { print "a run did not tell its times"; exit 1 }
        script = median(read, n); report = median(byte, told)
        printf "%d runs: a script of 4,194,304 bytes takes %.3f of its JSON\n", n, script
        printf "a byte of a report of 2,048 commands takes %.3f of one of a report of 1,024\n", report
        exit (script > 2 || report > 1.5)
    }'
