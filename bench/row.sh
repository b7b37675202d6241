#!/usr/bin/env bash
# Times the calls of crates/gcd_row, the log (row) that workers share: appending to one row by 1, 2 and 4 threads, folding the events into
# the view of a worker (pass) that looks, and splitting off a pass of a plan with 16,384 blocks on seven queues.
#
# Each thread has a block of its own, whose acts merge into a source. All threads together make 4,000 events. That is fewer than the row has
# cells, so no thread waits for another to read on. A thread judges, exchanges and applies its own events, and reads and applies those
# of others. The time is nanoseconds an event, the start of the threads included: the least of 112 rows in a process, and of three
# processes. For a split it is the least of five processes with sixteen splits each.
set -eu -o pipefail
cd "$(dirname "$0")/.."
. bench/setup.sh
folder=$(mktemp -d)
trap 'rm -rf "$folder"' EXIT
program row "$folder" gcd_plan gcd_event gcd_jobs gcd_machine gcd_row anyhow
bench=$folder/crates/bench_row/out/bench_row

echo "$(nproc) processors, load $(cut -d' ' -f1 /proc/loadavg)"
for threads in 1 2 4; do
    for _ in 1 2 3; do "$bench" appends "$threads"; done
done | awk '
    $1 != "appends" { exit 1 }
    !($2 in append) { threads[++n] = $2; append[$2] = $3; fold[$2] = $4 }
    $3 < append[$2] { append[$2] = $3 }
    $4 < fold[$2] { fold[$2] = $4 }
    END {
        print "threads append fold"
        for (i = 1; i <= n; i++) print threads[i], append[threads[i]], fold[threads[i]]
        exit n != 3
    }' | column -t
"${CC:-gcc}" -O2 -shared -fPIC -o "$folder/held.so" bench/machine.c -ldl
LD_PRELOAD="$folder/held.so" "$bench" split 2>"$folder/held" >/dev/null
for _ in 1 2 3 4 5; do "$bench" split; done | awk -v bytes="$(awk 'NR == 1 { first = $1 } NR == 2 { print $1 - first }' "$folder/held")" '
    !least || $3 < least { least = $3 }
    { passes = $2 }
    END { printf "a split: %.2f ms, %d bytes\n", least / 1e6, bytes / passes }'
