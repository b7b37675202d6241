#!/usr/bin/env bash
# Times how crates/gcd_script reads a script of about a mebibyte with 17,001 names, the best of seven, beside a plain C loop (gcc -O2) that
# cuts such a text into lines and words. It fails if the two texts differ in length.
#
# bench/setup.sh proves and builds the tests of tests/gcd_script_tests. The test that is named here prints the time of one run of each.
# It is called seven times.
set -eu -o pipefail
cd "$(dirname "$0")/.."
. bench/setup.sh
folder=$(mktemp -d)
trap 'rm -rf "$folder"' EXIT
"${CC:-gcc}" -O2 -o "$folder/script" bench/script.c
tests gcd_script_tests "$folder/whole"
for _ in 1 2 3 4 5 6 7; do
    "$folder/whole/crates/gcd_script_tests/out/gcd_script_tests_tests" tests::reads_a_mebibyte | grep ' us$'
done | awk '!best || $4 < best { best = $4; line = $0 } END { print line }' >"$folder/ours"
"$folder/script" >"$folder/loop"
cat "$folder/ours" "$folder/loop"
awk '
    NR == 1 { bytes = $1; ours = $4 }
    NR == 2 { loop = $(NF - 1); other = $2 }
    END {
        printf "reader %.0f MB/s, loop %.0f MB/s\n", bytes / ours, bytes / loop
        exit bytes != other
    }' "$folder/ours" "$folder/loop"
