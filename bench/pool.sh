#!/usr/bin/env bash
# Times whole runs in one process, from the plan to the journal and the values, with every event in the journal:
#
# - the large script that `gcd big` runs: 16,384 blocks that add up 64 bytes each, on six queues. It is run by worker 0 alone over a list,
#   by at most 2, 4 and 64 workers, of whom `run_workers` takes as many as pay, and as jobs of a caller by 1, 2 and 4 workers, which
#   `JobsInput::run` makes whether they pay or not: one keeps a list, more share the log. Peers that keep a journal (bench/peers) run a script of this shape, if they are
#   installed: oneTBB, Boost.Asio and rayon (Debian's libtbb-dev, libboost-dev, and librust-rayon-dev with cargo);
# - the large script with more bytes a block, at which workers may cost no more than one;
# - 16,384 blocks of 16 KiB each on 64 serial queues, and on one concurrent queue; 64 blocks of 16 MiB each on a concurrent queue; and the
#   words of 16 MiB once, in 64 parts, which `apply` submits.
#
# Each time is nanoseconds a block: `first` is the first run of a process, `best` its fastest of nine. Processes take turns, the peers' too.
# Of `first` the least is printed, of `best` the least and the median. Memory is the most that a process had, its plan included. Two and
# four processes at once, each by worker 0 alone, show what the processors of this machine give at most, of which some may share a core.
# It says which aims are reached, and fails only if a run is wrong.
set -eu -o pipefail
cd "$(dirname "$0")/.."
. bench/setup.sh
folder=$(mktemp -d)
trap 'rm -rf "$folder"' EXIT
program pool "$folder" gcd_plan gcd_outer gcd_history gcd_front gcd_jobs gcd_script gcd_workers anyhow
bench=$folder/crates/bench_pool/out/bench_pool
"${CC:-gcc}" -O2 -o "$folder/peak" bench/peak.c

peers=
peer() {
    if echo "#include <$2>" | "${CXX:-g++}" -E -x c++ - >/dev/null 2>&1; then
        # shellcheck disable=SC2086 # words
        "${CXX:-g++}" -std=c++17 -O2 -pthread -o "$folder/$1" "bench/peers/$1.cpp" ${3-}
        peers="$peers $1"
    else
        echo "$1: no <$2>, so it is left out (Debian's package $4)" >&2
    fi
}
peer tbb tbb/flow_graph.h -ltbb libtbb-dev
peer asio boost/asio/strand.hpp '' libboost-dev
crates=/usr/share/cargo/registry
if [ -d "$crates" ] && cp -r bench/peers/rayon "$folder/rayon_peer" &&
    (cd "$folder/rayon_peer" && cargo build --release --offline --quiet --config 'source.crates-io.replace-with="debian"' \
        --config "source.debian.directory=\"$crates\"" --target-dir "$folder/target") >"$folder/log" 2>&1; then
    cp "$folder/target/release/rayon_peer" "$folder/rayon"
    peers="$peers rayon"
else
    echo "rayon: it is not built, so it is left out (Debian's packages librust-rayon-dev and cargo)" >&2
fi

# Runs a process, and prints NAME TEAM FIRST BEST BYTES. A peer prints its bytes itself, and what `peak` adds is left out.
once() {
    local told
    told=$("$folder/peak" "$@") || { echo "$*: it failed" >&2; exit 1; }
    # shellcheck disable=SC2086 # a line of words
    echo $told | cut -d' ' -f1-5
}

# Runs as many processes at once as the first argument says.
together() {
    local count=$1 each
    shift
    for each in $(seq "$count"); do once "$bench" "$@" >"$folder/at_once.$each" & done
    wait
    sed "s/ alone / at-once-$count /" "$folder"/at_once.*
    rm "$folder"/at_once.*
}

# Runs each process that takes less than a fifth of a second.
short() {
    local team peer bytes
    for team in alone row1 row2 row4 2 4 64; do once "$bench" large "$team"; done
    for team in 1 2 4 64; do
        for peer in $peers; do once "$folder/$peer" "$team"; done
    done
    for bytes in 256 512 1024 2048 4096 16384; do
        for team in alone 2 4; do once "$bench" large "$team" "$bytes" | sed "s/^large/$bytes/"; done
    done
}

# A process runs at full speed or at about half, whichever program it is, so a median needs many processes.
for _ in 1 2 3 4 5 6 7 8 9; do
    for _ in 1 2 3 4 5; do short; done
    for plan in serial wide heavy parts; do
        for team in alone 2 4 64; do once "$bench" "$plan" "$team"; done
        for count in 2 4; do together "$count" "$plan" alone; done
    done
done >"$folder/times"

echo "$(nproc) processors, load $(cut -d' ' -f1 /proc/loadavg)"
exec bench/pool_aims "$folder/times"
