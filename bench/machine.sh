#!/usr/bin/env bash
# Times the calls of crates/gcd_machine over the histories of five plans, and measures the memory of a machine.
#
# bench/setup.sh proves and builds the program, bench/machine. For each plan it prints how many events the history has, how many of them
# were permitted, how many were the choice of worker 0, and nanoseconds an event: of apply; of permits and apply; of choose alone.
set -eu -o pipefail
cd "$(dirname "$0")/.."
. bench/setup.sh
folder=$(mktemp -d)
trap 'rm -rf "$folder"' EXIT
program machine "$folder" gcd_plan gcd_event gcd_history gcd_refinement gcd_machine anyhow
bench=$folder/crates/bench_machine/out/bench_machine
"$bench" >"$folder/times"
{
    echo 'plan events permitted chosen apply permits choose'
    grep -E '^(large|chain|group|timers|strip) ' "$folder/times"
} | column -t
"${CC:-gcc}" -O2 -shared -fPIC -o "$folder/held.so" bench/machine.c -ldl
LD_PRELOAD="$folder/held.so" "$bench" 2>"$folder/held" >"$folder/times"
awk 'NR == 1 { first = $1 } NR == 3 { print "a machine of the large plan, with its copy of the plan:", $1 - first, "bytes" }' "$folder/held"
