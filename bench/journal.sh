#!/usr/bin/env bash
# Times the reader, the checker and the writer of crates/gcd_journal over a journal of 65,535 events, the best of seven each. It fails if
# reading and checking together do less than 40 MB/s, or writing less than 200 MB/s.
#
# bench/setup.sh proves and builds the tests of tests/gcd_journal_tests. The test that is named here prints the time of one run of each.
# It is called seven times.
set -eu -o pipefail
cd "$(dirname "$0")/.."
. bench/setup.sh
folder=$(mktemp -d)
trap 'rm -rf "$folder"' EXIT
tests gcd_journal_tests "$folder/whole"
for _ in 1 2 3 4 5 6 7; do
    "$folder/whole/crates/gcd_journal_tests/out/gcd_journal_tests_tests" tests::longest_journal | grep ' us$'
done | awk '
    { bytes = $2 }
    !($1 in best) || $5 < best[$1] { best[$1] = $5 }
    END {
        printf "%d bytes\n", bytes
        printf "read %d us, check %d us, write %d us\n", best["read"], best["check"], best["write"]
        judged = bytes / (best["read"] + best["check"])
        written = bytes / best["write"]
        printf "read and checked at %.0f MB/s, written at %.0f MB/s\n", judged, written
        exit judged < 40 || written < 200
    }'
