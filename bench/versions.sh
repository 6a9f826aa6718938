#!/bin/sh
# Times the roots of all versions of a pruned history tree that shows 1,024 leaves of 4,800 bytes, beside the digests
# of the whole tree, in the same run of one program. Ends with 1 where all of them together take above 1.3 times the
# whole tree's digests, in the median of the runs, or where a run tells less. Run it at the top of the repository; the
# word is how many runs there are.
set -e
. bench/median.sh
runs=${1:-21}
cd crates/version_bench
echo "building the benchmark" >&2
rt run >/dev/null
for _ in $(seq "$runs"); do ./out/version_bench times || echo "the program failed"; done | awk -v runs="$runs" "$median"'
    $1 == "roots" && $2 == 1024 { whole++ }
    $1 == "tree" { tree = $3; made++ }
    $1 == "versions" { times[++n] = (tree + $3) / tree }
    END {
        if (whole != runs || made != runs || n != runs) { print "a run did not tell its times"; exit 1 }
        both = median(times, n)
        printf "%d runs: the tree and the roots of its versions take %.3f of the tree\n", n, both
        exit (both > 1.3)
    }'
