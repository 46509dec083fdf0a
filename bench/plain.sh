#!/usr/bin/env bash
# bench/plain.sh [MILLIONS]: how long `plain` takes over edge lists of so many million edges (1), beside `cat | wc -l` of the same file.
set -eu
top=$(cd "$(dirname "$0")/.." && pwd)
millions=${1:-1}
edges=$((millions * 1000000))
data=$(mktemp -d)
trap 'rm -rf "$data"' EXIT
gcc -O2 -o "$data/edges" "$top/bench/edges.c"
TIMEFORMAT='%R s, of which %U s in the program and %S s in the system'
for graph in "uniform $((edges / 4))" "path $((edges + 1))" "shuffled $((edges + 1))"; do
    read -r shape nodes <<<"$graph"
    "$data/edges" "$shape" "$nodes" "$edges" 7 >"$data/edges.tsv"
    echo "$shape, $nodes nodes, $edges edges"
    echo -n "  plain:       " && time "$top/pegmine-run" "$data/work" "$data/edges.tsv" plain nodes="$nodes" >"$data/labels"
    echo -n "  cat | wc -l: " && time cat "$data/edges.tsv" | wc -l >/dev/null
done
