#!/bin/sh
# Times the turn lock beside std's Mutex, in the same run of one program: 2, 4, 8 and 16 threads make 20,000
# short turns each, and 200 turns of about 50 microseconds each. Ends with 1 where, with turns that do work, the
# lock takes above 3 times the Mutex's time or above 2 times its processor time, and where a line or a call is
# missing. Of several runs the median is told, since a machine's speed changes from one moment to the next. Run it
# at the top of the repository; the word is how many runs there are.
set -e
. bench/median.sh
runs=${1:-3}
cd crates/lock_bench
echo "building the benchmark" >&2
rt run >/dev/null
for _ in $(seq "$runs"); do ./out/lock_bench times || echo "the program failed"; done | awk -v runs="$runs" "$median"'
    function usual(key,   i, list) {
        for (i = 1; i <= seen[key]; i++) list[i] = told[key, i]
        return median(list, seen[key])
    }
    NF != 6 || ($1 != "short" && $1 != "work") || ($3 != "gate" && $3 != "mutex") { print "unexpected: " $0; bad = 1; next }
    $4 != $2 * ($1 == "short" ? 20000 : 200) { print "calls are missing: " $0; bad = 1 }
    {
        key = $1 " " $2 " " $3
        n = ++seen[key]
        told[key " time", ++seen[key " time"]] = $5 / 1000000
        told[key " processor", ++seen[key " processor"]] = $6 / 1000000
    }
    END {
        split("short work", kinds)
        for (k = 1; k <= 2; k++) for (threads = 2; threads <= 16; threads *= 2) {
            key = kinds[k] " " threads
            if (seen[key " gate"] != runs || seen[key " mutex"] != runs) { print "lines are missing: " key; bad = 1; continue }
            time = usual(key " gate time"); other = usual(key " mutex time")
            processor = usual(key " gate processor"); others = usual(key " mutex processor")
            printf "%-5s %2d threads: lock %8.1f ms, Mutex %8.1f ms, %6.2f times; processor %8.1f ms, %8.1f ms, %6.2f times\n",
                kinds[k], threads, time, other, time / other, processor, others, processor / others
            if (kinds[k] == "work" && (time > 3 * other || processor > 2 * others)) { print "above the limit: " key; bad = 1 }
        }
        exit bad
    }'
