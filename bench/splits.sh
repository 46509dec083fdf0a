#!/usr/bin/env bash
# bench/splits.sh [MILLIONS [BYTES]]: CPU seconds and memory of writing the lines of a file's splits, beside `cp` of the
# file, which has so many million lines (5); the splits are of so many bytes (67,108,864). The least of five runs counts.
set -eu
top=$(cd "$(dirname "$0")/.." && pwd)
. "$top/bench/common.sh"
millions=${1:-5}
bytes=${2:-67108864}
bench=$top/crates/pegbench/out/pegbench
data=$(mktemp -d)
trap 'rm -rf "$data"' EXIT
mkdir "$data/work"
file=$data/work/file
awk -v lines="$((millions * 1000000))" 'BEGIN { for (k = 0; k < lines; k++) print k "\tV 1 " k * 7 % lines }' >"$file"

before_run() { rm -f "$data"/work/split-* "$data/copy"; }
copied=$(measured 5 cp "$file" "$data/copy")
split=$(measured 5 "$bench" split "$data/work" file "$bytes")
find "$data/work" -name 'split-*' | sort -t - -k 2 -n | xargs cat >"$data/joined"
shown "$(($(stat -c %s "$file") / 1000000)) MB in splits" "$split" "$copied" cp "$data/joined" "$file"
