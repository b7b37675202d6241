#!/usr/bin/env bash
# Times jobs from outside: 1 and 8 senders, each in a thread of its own, send 4,096 jobs in all to one serial queue, which at most 1 and 4
# workers run. `JobsInput::run` makes one worker, since a serial queue runs one job at a time. The peer is Boost.Asio, if it is installed
# (Debian's libboost-dev): as many threads post to a strand over 1 and 4 workers (bench/peers/asio_front.cpp). The senders begin once the
# run is under way.
#
# Throughput is nanoseconds a job, from the first send to the end of the run, with the journal and the values whole. Each process gives
# the least and the median of its nine runs. Five processes take turns with the peer's, and the least of the least times and the median of
# the medians are printed.
#
# Delay is nanoseconds from a send to the beginning of the job's body. Between two sends a sender sleeps for 20 us, and as long as the
# system adds. Each process gives the median and the 99th percentile of all jobs of three runs. The medians of these over the five
# processes are printed.
#
# It says which aims are reached, and fails only if a run is wrong.
set -eu -o pipefail
cd "$(dirname "$0")/.."
. bench/setup.sh
folder=$(mktemp -d)
trap 'rm -rf "$folder"' EXIT
program front "$folder" gcd_plan gcd_outer gcd_history gcd_front gcd_jobs gcd_workers anyhow
programs=$folder/crates/bench_front/out/bench_front
if echo '#include <boost/asio/strand.hpp>' | "${CXX:-g++}" -E -x c++ - >/dev/null 2>&1; then
    "${CXX:-g++}" -std=c++17 -O2 -pthread -o "$folder/asio_front" bench/peers/asio_front.cpp
    programs="$programs $folder/asio_front"
else
    echo "no <boost/asio/strand.hpp>, so Boost.Asio is left out (Debian's package libboost-dev)" >&2
fi

# Lines: PROGRAM WHAT WORKERS SENDERS LOW HIGH.
for _ in 1 2 3 4 5; do
    for workers in 1 4; do
        for senders in 1 8; do
            for what in rate delay; do
                for program in $programs; do
                    told=$("$program" "$what" "$workers" "$senders")
                    echo "${program##*/} $told"
                done
            done
        done
    done
done >"$folder/times"

# number PROGRAM WHAT COLUMN PLACE: prints one of the five numbers in that column of the program's lines, by its place from the least on.
number() {
    awk -v key="$1 $2 $workers $senders" -v column="$3" '$1 " " $2 " " $3 " " $4 == key { print $column }' "$folder/times" |
        sort -n | sed -n "$4p"
}

# compare WHAT UNIT COLUMN PLACE NAME: prints the number, the peer's, and whether the aim is reached.
compare() {
    local ours peer
    ours=$(number bench_front "$1" "$3" "$4")
    peer=$(number asio_front "$1" "$3" "$4")
    if [ -z "$peer" ]; then
        echo "$5: $ours $2"
    elif [ "$ours" -le "$peer" ]; then
        echo "reached: $5 not behind: $ours $2, asio $peer"
    else
        echo "not reached: $5 not behind: $ours $2, asio $peer"
    fi
}

echo "$(nproc) processors, load $(cut -d' ' -f1 /proc/loadavg)"
for workers in 1 4; do
    for senders in 1 8; do
        echo "by $workers workers, from $senders senders:"
        compare rate 'ns a job' 5 1 'throughput, at best,'
        compare rate 'ns a job' 6 3 'throughput, median,'
        compare delay ns 5 3 'delay, median,'
        compare delay ns 6 3 'delay, 99th,'
    done
done
