#!/usr/bin/env bash
# bench/read.sh: how long a file of 100 MB takes through the program's own reading of files, beside `cat` to a program that counts lines.
# The file has comment lines alone, so that `plain` reads and cuts them and does nothing else. The best of five runs of each counts;
# it ends with status 3 where the program takes more than 1.2 times as long.
set -eu
top=$(cd "$(dirname "$0")/.." && pwd)
program=$top/crates/pegmine/out/pegmine
[ -x "$program" ] || { echo "build first: $top/pegmine-run --version" >&2; exit 1; }
data=$(mktemp -d)
trap 'rm -rf "$data"' EXIT
yes '# a comment line of an edge list, as a public one has it at its top' | head -c 100000000 >"$data/edges.tsv"

# best COMMAND..: the least number of milliseconds that the command took in five runs.
best() {
    local least=1000000000 from took
    for _ in 1 2 3 4 5; do
        from=$(date +%s%N)
        "$@" >/dev/null
        took=$((($(date +%s%N) - from) / 1000000))
        [ "$took" -ge "$least" ] || least=$took
    done
    echo "$least"
}

through_program() { "$program" "$data/work" "$data/edges.tsv" plain nodes=1; }
through_cat() { cat "$data/edges.tsv" | wc -l; }
ours=$(best through_program)
theirs=$(best through_cat)
echo "100 MB: plain $ours ms, cat | wc -l $theirs ms"
[ $((ours * 10)) -le $((theirs * 12)) ] || exit 3
