#!/usr/bin/env bash
# Times whole runs of the proved program, each a process of its own, in milliseconds, the best of ninety-nine:
#
# - the large script with 16,384 blocks, made in memory;
# - a script of as many blocks that do nothing, on seven queues;
# - such a script whose blocks each count the lines of one file of 4,096 bytes;
# - a strip of as many blocks, which one `apply` submits to a concurrent queue.
#
#   start    the program with no words: it prints how it is called
#   reading  the script is read: `check` over a journal of no event, less the start
#   running  the plan runs and its report is written: `run`, less the start and the reading
#   writing  the journal's text is made and written: `run --journal`, less `run`
set -eu -o pipefail
cd "$(dirname "$0")/.."
./build
gcd=$PWD/crates/gcd/out/gcd
folder=$(mktemp -d)
trap 'rm -rf "$folder"' EXIT
cd "$folder"
# Prints a script whose blocks have this work.
script_of() {
    awk -v work="$1" 'BEGIN {
        print "file f f.txt"
        for (q = 1; q <= 7; q++) print "queue q" q, q % 2 ? "serial" : "concurrent"
        for (b = 1; b <= 16384; b++) print "block b" b work
        print "main"
        for (b = 1; b <= 16384; b++) print "async q" b % 7 + 1, "b" b
    }'
}
script_of "" >idle
script_of " lines f" >lines
printf '%s\n' "file f f.txt" "queue q concurrent" "strip part bytes f 1 16384" "main" "apply q part" >"strip"
awk 'BEGIN { for (i = 0; i < 512; i++) print "seven77" }' >f.txt
echo "events 0" >journal

# Prints the least time of the call, in microseconds.
best() {
    local least= from spent
    for _ in {1..99}; do
        from=${EPOCHREALTIME/./}
        "$gcd" "$@" >told 2>said || :
        spent=$((${EPOCHREALTIME/./} - from))
        if [ -z "$least" ] || [ "$spent" -lt "$least" ]; then least=$spent; fi
    done
    echo "$least"
}

# Prints a time, given in microseconds, in milliseconds, and what was timed.
tell() { printf '%8.1f  %s\n' "$(awk "BEGIN { print $1 / 1000 }")" "$2"; }

start=$(best)
tell "$start" "start"
for script in idle lines strip; do
    check=$(best check "$script" journal)
    run=$(best run "$script")
    [ "$(tail -1 told)" = drained ] || { echo "the script $script does not drain" >&2; exit 1; }
    whole=$(best run "$script" --journal)
    tell $((check - start)) "$script: reading"
    tell $((run - check)) "$script: running"
    tell $((whole - run)) "$script: writing"
    tell "$run" "run $script"
    tell "$whole" "run $script --journal"
done
tell "$(best big 16384)" "big 16384"
