#!/usr/bin/env bash
# bench/child.sh FOLDER [LINES]: CPU seconds and memory of pegchild's roles over files of so many lines (2,000,000), beside
# the same roles of C programs, and how many times their CPU it takes: those over nodes of FOLDER/peer.c, those over blocks of
# bench/blocks.c. Without a FOLDER, or with `-`, the roles over nodes are left out. Both must write the same bytes. The least
# of five runs counts, and the files of a few long lines are read several times over, so that each run takes a while.
set -eu
top=$(cd "$(dirname "$0")/.." && pwd)
. "$top/bench/common.sh"
peer_folder=${1:--}
lines=${2:-2000000}
child=$top/crates/pegchild/out/pegchild
data=$(mktemp -d)
trap 'rm -rf "$data"' EXIT
[ "$peer_folder" = - ] || gcc -O2 -w -o "$data/peer" "$peer_folder/peer.c"
gcc -O2 -o "$data/blocks" "$top/bench/blocks.c"
nodes=$((lines / 10))

# Groups of ten lines, one for each node: its value, and nine entries of its column or messages to it.
groups() {
    awk -v nodes="$nodes" -v kind="$1" 'BEGIN {
        seed = 7
        for (node = 0; node < nodes; node++) {
            print node "\tV 1 " (kind == "ranks" ? 1431655765 + node : node)
            for (k = 0; k < 9; k++) {
                seed = seed * 16807 % 2147483647
                other = seed % nodes
                if (kind == "messages") print node "\tY " other
                else print node "\tW " other " " (kind == "ranks" ? 9 : 1)
            }
        }
    }'
}
awk -v lines="$lines" -v nodes="$nodes" 'BEGIN {
    seed = 7
    for (k = 0; k < lines; k++) {
        seed = seed * 16807 % 2147483647; source = seed % nodes
        seed = seed * 16807 % 2147483647
        print source "\t" seed % nodes
    }
}' >"$data/edges"

# compare PEER FILE ROLE ..: the role of both programs over this file.
compare() {
    local peer=$data/$1 input=$data/$2 ours theirs
    shift 2
    ours=$(output=$data/ours measured 5 "$child" "$@")
    theirs=$(output=$data/wanted measured 5 "$peer" "$@")
    shown "$*" "$ours" "$theirs" C "$data/ours" "$data/wanted"
}

if [ "$peer_folder" != - ]; then
    groups columns >"$data/columns"
    groups messages >"$data/messages"
    groups ranks >"$data/ranks"
    compare peer edges entries both
    compare peer columns stage1 hcc "$nodes"
    compare peer messages stage2 hcc "$nodes"
    compare peer ranks stage1 pagerank "$nodes"
fi

# repeated TIMES FILE: so many copies of a file, whose groups stay apart.
repeated() {
    for _ in $(seq "$1"); do cat "$data/$2"; done >"$data/$2.repeated"
}

# The steps of the block form over these edges, by the C program, give the roles over blocks their files.
awk '{ print $2 "\tW " $1 " 1"; print $1 "\tW " $2 " 1" }' "$data/edges" >"$data/matrix"
repeated 4 matrix
compare blocks matrix.repeated cut 16
for length in 16 256; do
    "$data/blocks" cut "$length" <"$data/matrix" | sort -t "$(printf '\t')" -k1,1 -k2 >"$data/cut"
    repeated 4 cut
    compare blocks cut.repeated blocks
    "$data/blocks" blocks <"$data/cut" >"$data/lines"
    awk -v nodes="$nodes" -v size="$length" 'BEGIN {
        for (block = 0; block * size < nodes; block++) {
            end = (block + 1) * size; if (end > nodes) end = nodes
            printf "%d\tV %d ", block, end - block * size
            for (node = block * size; node < end; node++) printf "%s%d", (node > block * size ? "," : ""), node
            print ""
        }
    }' >"$data/values"
    sort -t "$(printf '\t')" -k1,1 -k2 "$data/lines" "$data/values" >"$data/columns"
    repeated 8 columns
    compare blocks columns.repeated block1 hcc "$nodes" "$length"
    "$data/blocks" block1 hcc "$nodes" "$length" <"$data/columns" | sort -t "$(printf '\t')" -k1,1 -k2 >"$data/messages"
    repeated 16 messages
    compare blocks messages.repeated block2 hcc "$nodes" "$length"
done
