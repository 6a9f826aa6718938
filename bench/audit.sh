#!/bin/sh
# Times the audit of a world of one wall, whose owner posts so often and takes each reply, and whose reader takes them
# all at once, beside the digests of all leaves and the signatures of all posts, in the same run of one program; and
# tells the peak memory of the run by GNU time. Of several runs the median is told, since a machine's speed changes from
# one moment to the next. Ends with 1 where the audit of 1,024 posts takes above 4 times the digests or longer than the
# signatures, where twice the posts take above 2.2 times the memory, or where a run tells less. Run it at the top of the
# repository; the word is how many runs there are.
set -e
. bench/median.sh
runs=${1:-11}
cd crates/audit_bench
echo "building the benchmark" >&2
rt run >/dev/null
for posts in 256 512 1024; do
    for _ in $(seq "$runs"); do
        env time -f 'peak %M' ./out/audit_bench "$posts" times 2>&1 || echo "the program failed"
    done | awk -v posts="$posts" '{ print posts, $0 }'
done | awk -v runs="$runs" "$median"'
    $2 == "records" && $3 == $1 + 1 && $5 == $3 { whole[$1]++ }
    $2 == "leaves" && $3 == $1 { bytes[$1] = $5 }
    $2 == "audit" {
        n = ++told[$1]
        audit[$1, n] = $3 / 1000000
        digests[$1, n] = $3 / $5
        signatures[$1, n] = $3 / $7
    }
    $2 == "peak" { peak[$1, ++peaks[$1]] = $3 / 1024 }
    function usual(of, posts,   i, list) {
        for (i = 1; i <= runs; i++) list[i] = of[posts, i]
        return median(list, runs)
    }
    END {
        for (posts = 256; posts <= 1024; posts *= 2) {
            if (whole[posts] != runs || told[posts] != runs || peaks[posts] != runs || !bytes[posts]) {
                print "a run did not tell its times"
                exit 1
            }
            beside = usual(digests, posts)
            part = usual(signatures, posts)
            most = usual(peak, posts)
            printf "%d runs: the audit of %d posts, with leaves of %d bytes, ", runs, posts, bytes[posts]
            printf "takes %.1f ms: %.3f of the leaves'"'"' digests ", usual(audit, posts), beside
            printf "and %.3f of the signatures; the run has %.1f MiB at most\n", part, most
            if (posts > 256 && most > 2.2 * before) bad = 1
            before = most
        }
        exit (bad || beside > 4 || part > 1)
    }'
