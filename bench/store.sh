#!/usr/bin/env bash
# bench/store.sh [MILLIONS]: CPU seconds of what a run reads and writes of its work folder by itself, over a path of so many million
# edges (7, some 110 MB): `edges` written and compared, beside `plain`, which reads the same file and has little to do on a path; and
# the changes of a vector of as many nodes counted, beside `wc -l`. The least of five runs counts.
set -eu
top=$(cd "$(dirname "$0")/.." && pwd)
. "$top/bench/common.sh"
millions=${1:-7}
nodes=$((millions * 1000000 + 1))
bench=$top/crates/pegbench/out/pegbench
data=$(mktemp -d)
trap 'rm -rf "$data"' EXIT
gcc -O2 -o "$data/edges" "$top/bench/edges.c"
"$data/edges" path "$nodes" "$((millions * 1000000))" 7 >"$data/edges.tsv"
mkdir -p "$data/work/v" "$data/other"
awk -v nodes="$nodes" 'BEGIN { for (i = 0; i < nodes; i++) print i "\tV " i % 2 " " i }' >"$data/work/v/part-00000"

plain=$(measured 5 "$top/crates/pegmine/out/pegmine" "$data/other" "$data/edges.tsv" plain nodes="$nodes")
input=$data/edges.tsv
before_run() { rm -rf "$data/work/edges"; }
written=$(measured 5 "$bench" write "$data/work" edges "$nodes")
before_run() { :; }
compared=$(measured 5 "$bench" check "$data/work" edges "$nodes")
input=
shown 'edges written' "$written" "$plain" plain "$data/edges.tsv" "$data/work/edges/part-00000"
shown 'edges compared' "$compared" "$plain" plain "$data/edges.tsv" "$data/work/edges/part-00000"
output=$data/changes
changes=$(measured 5 "$bench" changes "$data/work" v 1)
output=
lines=$(measured 5 wc -l "$data/work/v/part-00000")
echo "$((nodes / 2))" >"$data/wanted"
shown 'changes counted' "$changes" "$lines" 'wc -l' "$data/changes" "$data/wanted"
