#!/usr/bin/env bash
# bench/shuffle.sh [MILLIONS [LIMIT]]: CPU seconds and memory of the shuffle of so many million pairs (5) to one part, with
# runs of so many bytes (4,194,304), beside `sort -S 16M --parallel=1` of the same lines: pairs in any order, and pairs of
# which the first half is in order, as a step's matrix is. The least of three runs counts.
set -eu
top=$(cd "$(dirname "$0")/.." && pwd)
. "$top/bench/common.sh"
millions=${1:-5}
limit=${2:-4194304}
bench=$top/crates/pegbench/out/pegbench
data=$(mktemp -d)
trap 'rm -rf "$data"' EXIT
mkdir "$data/work"
file=$data/work/file

before_run() { rm -rf "$data/work/job"; }
compare() {
    local sorted shuffled
    sorted=$(measured 3 sort -S 16M --parallel=1 -o "$data/sorted" "$file")
    shuffled=$(measured 3 "$bench" shuffle "$data/work" file "$limit")
    shown "$1" "$shuffled" "$sorted" sort "$data/work/job/_temporary/r-000000.in" "$data/sorted"
}
half=$((millions * 500000))
{ pairs "$half" 7; pairs "$half" 8; } >"$file"
compare "$millions million in any order"
{ pairs "$half" 7 | sort; pairs "$half" 8; } >"$file"
compare "$millions million, half in order"
