# shellcheck shell=bash
# Sourced by benches whose program is a crate of its own. It makes a folder with the program, from bench/NAME, beside copies of the crates
# that the program uses.
#
# The program's files end in .txt, because the gate proves each file that ends in .rt or .antt. `plans.rt` comes from bench/machine.
#   program NAME FOLDER DEP..        proves and builds FOLDER/crates/bench_NAME/out/bench_NAME; DEP: the libraries that it names
#   copies FROM NAME FOLDER DEP..    only makes the folder, with the program from FROM as FOLDER/crates/NAME
#   tests NAME FOLDER                proves the tests of tests/NAME, and leaves them as the program FOLDER/crates/NAME/out/NAME_tests
#
# Libraries that the gate or a check has proved and left in out/ are taken over (tools/libraries). Those that are missing are proved first.
# `rt run` runs the program once without words, which ends with status 1.

# Adds these crates to `found`, each once, and before each crate those that it uses.
below() {
    local crate line
    for crate; do
        line=$(grep -E "^$crate( [^:]*)?:" crates.txt) || continue
        case " $found " in *" $crate "*) continue ;; esac
        # shellcheck disable=SC2086 # words
        below ${line#*:}
        found="$found $crate"
    done
}

copies() {
    local from=$1 name=$2 folder=$3 crate found=
    shift 3
    mkdir -p "$folder/crates"
    cp -r --reflink=auto "$from" "$folder/crates/$name"
    if grep -q '^mod plans;' "$from"/src/main.rt.txt; then cp bench/machine/src/plans.rt.txt "$folder/crates/$name/src/"; fi
    find "$folder/crates/$name" -name '*.txt' | while read -r file; do mv "$file" "${file%.txt}"; done
    cp HANDLES "$folder/"
    below "$@"
    for crate in $found; do
        cp -r --reflink=auto "crates/$crate" "$folder/crates/"
        rm -rf "$folder/crates/$crate/out"
        grep -E "^$crate( [^:]*)?:" crates.txt
    done >"$folder/crates.txt"
    echo "$name: $*" >>"$folder/crates.txt"
}

program() {
    local name=$1 folder=$2
    shift 2
    copies "bench/$name" "bench_$name" "$folder" "$@"
    tools/libraries . "$folder" >/dev/null
    (cd "$folder/crates/bench_$name" && rt fmt >/dev/null && rt run --) >"$folder/log" 2>&1 || :
    [ -x "$folder/crates/bench_$name/out/bench_$name" ] || { tail -20 "$folder/log" >&2; return 1; }
}

tests() {
    local name=$1 folder=$2
    tools/lay_whole "$folder"
    tools/libraries . "$folder" >/dev/null
    (cd "$folder/crates/$name" && rt test) >"$folder/log" 2>&1 || { tail -20 "$folder/log" >&2; return 1; }
}
