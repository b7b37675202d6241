#!/usr/bin/env bash
# Times the works of crates/gcd_jobs beside plain C loops (gcc -O2) over one text of 16 MiB, the best of seven each. It fails if a value
# differs, or if a work takes more than 1.25 times what its C loop takes.
#
# bench/setup.sh proves and builds the tests of tests/gcd_plan_tests. The test that is named here prints the time of one run of each.
# It is called seven times.
set -eu -o pipefail
cd "$(dirname "$0")/.."
. bench/setup.sh
folder=$(mktemp -d)
trap 'rm -rf "$folder"' EXIT
"${CC:-gcc}" -O2 -o "$folder/works" bench/works.c
tests gcd_plan_tests "$folder/whole"
for _ in 1 2 3 4 5 6 7; do
    "$folder/whole/crates/gcd_plan_tests/out/gcd_plan_tests_tests" jobs::works_over_sixteen_mebibytes | grep ' us$'
done | awk '
    !($1 in best) { names[++n] = $1; value[$1] = $2; best[$1] = $4 }
    $4 < best[$1] { best[$1] = $4 }
    END { for (i = 1; i <= n; i++) print names[i], value[names[i]], "in", best[names[i]], "us" }' >"$folder/ours"
"$folder/works" >"$folder/loops"
paste -d ' ' "$folder/ours" "$folder/loops" | awk '
    BEGIN { print "work value us us_of_C ratio" }
    { print $1, $2, $4, $9, sprintf("%.2f", $4 / $9) }
    $1 != $6 || $2 != $7 || $4 > 1.25 * $9 { worse = 1 }
    END { exit worse || NR != 4 }' | column -t
