#!/usr/bin/env bash
# Times whole runs of the proved program by several workers, each a process of its own:
#
# - the large script, written to a file, by 1, 2, 4 and 64 workers. Peers that keep a journal (bench/peers) run a script of its shape, if
#   their packages are installed (Debian's libtbb-dev and libboost-dev);
# - 64 blocks that each count the words of 16 MiB on a concurrent queue, by 1 worker and by 4;
# - the words of 16 MiB once, in 64 parts, which `apply` submits to a concurrent queue, by 1 worker and by 4.
#
#   whole  nanoseconds a block of a call, with its start, the reading of the script and the writing of the report; the best of 25
#   run    `whole` less a call that only reads the script (`check` over a journal of no event)
#   peer   the first run of a peer's process, and its best of nine, as it measures them itself: making its pool, running the blocks,
#          ending the pool; each the least of five processes
set -eu -o pipefail
cd "$(dirname "$0")/.."
./build
gcd=$PWD/crates/gcd/out/gcd
folder=$(mktemp -d)
trap 'rm -rf "$folder"' EXIT
peers=
peer() {
    if echo "#include <$2>" | "${CXX:-g++}" -E -x c++ - >/dev/null 2>&1; then
        # shellcheck disable=SC2086 # words
        "${CXX:-g++}" -std=c++17 -O2 -pthread -o "$folder/$1" "bench/peers/$1.cpp" ${3-}
        peers="$peers $1"
    else
        echo "$1: no <$2>, so it is left out (Debian's package $4)" >&2
    fi
}
peer tbb tbb/flow_graph.h -ltbb libtbb-dev
peer asio boost/asio/strand.hpp '' libboost-dev
cd "$folder"
awk 'BEGIN {
    split("s0 s1 s2 s3 c0 c1", queues, " ")
    print "file data data\nqueue s0 serial\nqueue s1 serial\nqueue s2 serial on s0\nqueue s3 serial on s1"
    print "queue c0 concurrent\nqueue c1 concurrent on s0"
    for (k = 1; k <= 16384; k++) print "block b" k, "sum data", 37 * k % 4033, 64
    print "main"
    for (k = 1; k <= 16384; k++) print k % 16 ? "async" : "barrier", queues[k % 6 + 1], "b" k
}' >script
LC_ALL=C awk 'BEGIN { for (i = 0; i < 4096; i++) printf "%c", (7 * i + 3) % 256 }' >data
awk 'BEGIN {
    print "file f f.txt"
    print "queue q concurrent"
    for (b = 1; b <= 64; b++) print "block b" b, "words f"
    print "main"
    for (b = 1; b <= 64; b++) print "async q b" b
}' >heavy
printf '%s\n' "file f f.txt" "queue q concurrent" "strip part words f 262144 64" "main" "apply q part" >parts
awk 'BEGIN { for (i = 0; i < 2097152; i++) print "seven77" }' >f.txt
echo "events 0" >journal

# Prints the least time of a call, in microseconds; the first argument says how many calls are made.
best() {
    local least= from spent tries=$1
    shift
    while [ $((tries -= 1)) -ge 0 ]; do
        from=${EPOCHREALTIME/./}
        "$gcd" "$@" >told 2>said || :
        spent=$((${EPOCHREALTIME/./} - from))
        if [ -z "$least" ] || [ "$spent" -lt "$least" ]; then least=$spent; fi
    done
    echo "$least"
}

echo "$(nproc) processors, load $(cut -d' ' -f1 /proc/loadavg)"
read=$(best 25 check script journal)
{
    echo "workers whole run peers first best"
    for workers in 1 2 4 64; do
        whole=$(best 25 run script --workers "$workers")
        [ "$(tail -1 told)" = drained ] || { echo "the script does not drain" >&2; exit 1; }
        theirs=
        for peer in $peers; do
            theirs="$theirs $(for _ in 1 2 3 4 5; do "./$peer" "$workers"; done |
                awk 'NR == 1 || $3 < first { first = $3 } NR == 1 || $4 < best { best = $4 } END { print $1, first, best }')"
        done
        awk -v whole="$whole" -v reading="$read" -v workers="$workers" -v theirs="$theirs" \
            'BEGIN { printf "%s %.0f %.0f%s\n", workers, whole * 1000 / 16384, (whole - reading) * 1000 / 16384, theirs }'
    done
} | column -t
# Prints how much faster four workers are than one. The arguments are the file of a script, and what it is called.
faster() {
    local one four
    one=$(best 3 run "$1")
    [ "$(tail -1 told)" = drained ] || { echo "the script $1 does not drain" >&2; exit 1; }
    four=$(best 3 run "$1" --workers 4)
    awk -v one="$one" -v four="$four" -v what="$2" \
        'BEGIN { printf "%s: %.0f ms by 1 worker, %.0f by 4, %.2f times as fast\n", what, one / 1000, four / 1000, one / four }'
}
faster heavy "64 heavy blocks"
faster parts "64 parts of one file"
