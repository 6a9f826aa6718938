#!/bin/sh
# Times a client that takes a reply which shows so many posts from the first on, beside the check of the same reply, in
# the same run of one program: the client makes that check too, copies the leaves for its record, and learns the changes
# among them. Of several runs the median is told, since a machine's speed changes from one moment to the next. Ends with 1
# where a client takes above 1/10 beyond the check of 64 posts or of 1,024, or where a run tells less. Run it at the top of
# the repository; the word is how many runs there are.
set -e
. bench/median.sh
runs=${1:-11}
cd crates/client_bench
echo "building the benchmark" >&2
rt run >/dev/null
for posts in 64 1024; do
    for _ in $(seq "$runs"); do ./out/client_bench "$posts" times || echo "the program failed"; done | awk -v runs="$runs" -v posts="$posts" "$median"'
        $1 == "shown" && $2 == posts && $4 == posts { whole++ }
        $1 == "check" && NF == 4 { check[++n] = $2 / 1000; take[n] = $4 / 1000; beyond[n] = ($4 - $2) / 1000; part[n] = $4 / $2 - 1 }
        END {
            if (whole != runs || n != runs) { print "a run did not tell its times"; exit 1 }
            above = median(part, n)
            printf "%d runs: of %d posts the check takes %.0f microseconds, ", n, posts, median(check, n)
            printf "a client %.0f, beyond the check %.0f: %.3f of it\n", median(take, n), median(beyond, n), above
            exit (above > 0.1)
        }'
done
