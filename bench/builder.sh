#!/usr/bin/env bash
# Times how crates/gcd_builder builds a plan of 4,096 blocks one thing after the other, and how crates/gcd_script reads the script that
# declares the same plan, the best of seven of each of five processes. It fails if building takes more than 2 ms, or the plans differ.
set -eu -o pipefail
cd "$(dirname "$0")/.."
. bench/setup.sh
folder=$(mktemp -d)
trap 'rm -rf "$folder"' EXIT
program builder "$folder" gcd_plan gcd_builder gcd_script anyhow
for _ in 1 2 3 4 5; do "$folder/crates/bench_builder/out/bench_builder"; done | sort -t' ' -k5,5n | head -1 | tee "$folder/best"
awk '{ exit $5 > 2000 }' "$folder/best"
