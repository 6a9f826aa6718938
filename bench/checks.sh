#!/bin/sh
# Times the check of a reply that shows so many posts from the first on, beside the verifications that it makes: one of
# each operation's signature and one of each embedded view's, in the same run of one program. Tells too how long it
# takes to count who vouches among so many operations of as many users. Of several runs the median is told, since a
# machine's speed changes from one moment to the next. Ends with 1 where the check of 64 posts or of 1,024 takes above
# 1.2 times its verifications, or where a run tells less. Run it at the top of the repository; the word is how many runs
# there are.
set -e
. bench/median.sh
runs=${1:-11}
cd crates/check_bench
echo "building the benchmark" >&2
rt run >/dev/null
for posts in 64 1024; do
    for _ in $(seq "$runs"); do ./out/check_bench "$posts" times || echo "the program failed"; done | awk -v runs="$runs" -v posts="$posts" "$median"'
        $1 == "taken" && $2 == posts && $4 == 2 * posts - 1 { whole++ }
        $1 == "check" && $6 == posts { ratio[++n] = $2 / $4; vouching[n] = $8 / 1000 }
        END {
            if (whole != runs || n != runs) { print "a run did not tell its times"; exit 1 }
            m = median(ratio, n)
            printf "%d runs: the check of %d posts takes %.3f of its verifications, ", n, posts, m
            printf "counting who vouches %.1f microseconds\n", median(vouching, n)
            exit (m > 1.2)
        }'
done
