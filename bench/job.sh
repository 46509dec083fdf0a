#!/usr/bin/env bash
# bench/job.sh [MILLIONS [LIMIT]]: CPU seconds and memory of a whole job over so many million lines (2), with `pegchild id`
# as mapper and as reducer, one part and runs of so many bytes (4,194,304), beside `cat | sort -S 16M --parallel=1 | cat`
# with the same copies of the file. The least of three runs counts.
set -eu
top=$(cd "$(dirname "$0")/.." && pwd)
. "$top/bench/common.sh"
millions=${1:-2}
limit=${2:-4194304}
bench=$top/crates/pegbench/out/pegbench
child=$top/crates/pegchild/out/pegchild
data=$(mktemp -d)
trap 'rm -rf "$data"' EXIT
mkdir "$data/work"
pairs "$((millions * 1000000))" 7 >"$data/work/file"
cat >"$data/by_hand" <<'END'
cp "$1/work/file" "$1/input"
cat <"$1/input" >"$1/mapped"
sort -S 16M --parallel=1 -o "$1/sorted" "$1/mapped"
cat <"$1/sorted" >"$1/reduced"
END

before_run() { rm -rf "$data/work/job"; }
by_hand=$(measured 3 sh "$data/by_hand" "$data")
job=$(measured 3 "$bench" job "$data/work" file "$limit" "$child" 67108864)
shown "a job over $millions million lines" "$job" "$by_hand" 'cat and sort' "$data/work/job/part-00000" "$data/reduced"
