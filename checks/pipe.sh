#!/usr/bin/env bash
# checks/pipe.sh: components and ranks by hand, with pegchild as mapper and reducer and `sort` between them, as any streaming
# runner would have it. The labels must be those of `pegmine plain`, in the base, the block and the diagonal form, and the
# ranks those of a plain computation in awk, whose integers stay below 2^53; in blocks they must be the same bytes. It is
# silent where all is well.
set -u
top=$(cd "$(dirname "$0")/.." && pwd)
child=$top/crates/pegchild/out/pegchild
pegmine=$top/crates/pegmine/out/pegmine
here=$(mktemp -d)
trap 'rm -rf "$here"' EXIT
cd "$here" || exit 1
export LC_ALL=C
set -o pipefail
nodes=1000

fail() {
    echo "checks/pipe.sh: $1"
    exit 1
}

# job MAPPER REDUCER OUTPUT INPUT..: the lines of the inputs through the mapper, sorted by key and then by value, through the reducer.
job() {
    local mapper=$1 reducer=$2 output=$3
    shift 3
    # The words of a role are split at blanks.
    # shellcheck disable=SC2086
    cat "$@" | "$child" $mapper | sort -t "$(printf '\t')" -k1,1 -k2 | "$child" $reducer >"$output" || fail "$mapper, $reducer: status $?"
}

awk -v nodes="$nodes" 'BEGIN {
    seed = 7
    for (edge = 0; edge < 1200; edge++) {
        seed = seed * 16807 % 2147483647; source = seed % nodes
        seed = seed * 16807 % 2147483647
        print source "\t" seed % nodes
    }
}' >edges
awk -v nodes="$nodes" 'BEGIN { for (node = 0; node < nodes; node++) print node "\tP " node }' >places

# A line of items has at most 4,096.
for _ in $(seq 4097); do printf '3.2\t1 0 1\n'; done >entries
"$child" blocks <entries >lines || fail "blocks: status $?"
[ "$(tr ' ' '\n' <lines | awk -F , '/:/ { print NF }' | tr '\n' ' ')" = '4096 1 ' ] || fail 'lines of other lengths for 4,097 entries'
[ "$(cut -c 1-11 <lines | tr '\t\n' '  ')" = '3 X 2 1:0:1 3 X 2 1:0:1 ' ] || fail 'other lines for 4,097 entries'

# A bad line is told with its bytes, and nothing of it is written.
status=0
printf '0\tV 1 0\n1\tV 1 "\xff\n2\tV 1 2\n' | "$child" number hcc 6 >lines 2>told || status=$?
[ "$status" = 65 ] || fail "a bad line: status $status"
[ "$(cat told)" = "$(printf 'pegchild: bad line 2\npegchild: the line is "1\\tV 1 \\"\\xff"')" ] || fail "a bad line: $(cat told)"
[ "$(cat lines)" = '' ] || [ "$(cat lines)" = "$(printf '0\t0')" ] || fail "a bad line: $(cat lines) was written"

# The rows of random blocks are those of their plain computation.
if command -v python3 >/dev/null; then
    python3 "$top/checks/blocks.py" | cmp -s - "$top/crates/pegrows/data/blocks.rows" || fail 'blocks.rows is not what blocks.py writes'
fi

# The components: least labels are passed on until none changes.
job 'entries both' id matrix edges
job id "first hcc $nodes" values places
changed=$nodes
while [ "$changed" -gt 0 ]; do
    job id "stage1 hcc $nodes" sent matrix values
    job id "stage2 hcc $nodes" values sent
    changed=$(grep -c "$(printf '\tV 1 ')" values)
done
job id "number hcc $nodes" labels values
"$pegmine" work edges plain nodes="$nodes" >wanted_labels || fail "pegmine plain: status $?"
sort -n labels | cmp -s - wanted_labels || fail 'the labels are others than those of pegmine plain'

# The ranks after ten steps, in units of 2^-32.
job id degrees matrix edges
job id "first pagerank $nodes" values places
for _ in 1 2 3 4 5 6 7 8 9 10; do
    job id "stage1 pagerank $nodes" sent matrix values
    job id "stage2 pagerank $nodes" values sent
done
job id "number pagerank $nodes" ranks values
awk -v nodes="$nodes" '
    function quotient(a, b) { return (a - a % b) / b }
    { source[NR] = $1; target[NR] = $2; degree[$1]++ }
    END {
        for (node = 0; node < nodes; node++) rank[node] = quotient(4294967296, nodes)
        for (step = 0; step < 10; step++) {
            for (node = 0; node < nodes; node++) next_rank[node] = quotient(3 * 4294967296, 20 * nodes)
            for (edge = 1; edge <= NR; edge++)
                next_rank[target[edge]] += quotient(17 * rank[source[edge]], 20 * degree[source[edge]])
            for (node = 0; node < nodes; node++) rank[node] = next_rank[node]
        }
        for (node = 0; node < nodes; node++) printf "%d\t%.0f\n", node, rank[node]
    }' edges >wanted
sort -n ranks | cmp -s - wanted || fail 'the ranks are others than those of a plain computation'
cp ranks base_ranks

# form_blocks LENGTH ALGORITHM: the folder `blocks` and the first values, from the folder `matrix` and the places.
form_blocks() {
    job "cut $1" blocks blocks matrix
    job "group $1" "firstb $2 $nodes $1" values places
}

# The radii after three steps, in blocks and in the base form.
job 'entries one' id matrix edges
form_blocks 16 hadi=7
job id "first hadi=7 $nodes" base_values places
for _ in 1 2 3; do
    job id "stage1 hadi=7 $nodes" base_sent matrix base_values
    job id "stage2 hadi=7 $nodes" base_values base_sent
    job id "block1 hadi=7 $nodes 16" sent blocks values
    job id "block2 hadi=7 $nodes 16" values sent
done
job "number hadi=7 $nodes" id base_radii base_values
job "unblock hadi=7 $nodes 16" id radii values
cmp -s radii base_radii || fail 'the radii in blocks are others than those of the base form'

# The components again, in blocks whose last one is shorter, by plain steps and by steps of closed blocks.
job 'entries both' id matrix edges
for form in 'block1 hcc' diag1; do
    form_blocks 16 hcc
    changed=$nodes
    while [ "$changed" -gt 0 ]; do
        job id "$form $nodes 16" sent blocks values
        job id "block2 hcc $nodes 16" values sent
        changed=$(awk '{ sum += $3 } END { print sum }' values)
    done
    job "unblock hcc $nodes 16" id labels values
    sort -n labels | cmp -s - wanted_labels || fail "the labels by $form are others than those of pegmine plain"
done

# The ranks again: in blocks, and in blocks of nodes in another order, whose numbers are joined with the nodes.
job id degrees matrix edges
form_blocks 16 pagerank
for _ in 1 2 3 4 5 6 7 8 9 10; do
    job id "block1 pagerank $nodes 16" sent blocks values
    job id "block2 pagerank $nodes 16" values sent
done
job "unblock pagerank $nodes 16" id ranks values
cmp -s ranks base_ranks || fail 'the ranks in blocks are others than those of the base form'

awk -v nodes="$nodes" 'BEGIN { for (place = 0; place < nodes; place++) print place "\tP " (place * 7 + 3) % nodes }' >places
awk -v nodes="$nodes" 'NR == FNR { place[$3] = $1; next } { print place[$1] "\t" place[$2] }' places edges >placed
job id degrees matrix placed
form_blocks 16 pagerank
for _ in 1 2 3 4 5 6 7 8 9 10; do
    job id "block1 pagerank $nodes 16" sent blocks values
    job id "block2 pagerank $nodes 16" values sent
done
job "unplace pagerank $nodes 16" place joined places values
job id id ranks joined
cmp -s ranks base_ranks || fail 'the ranks of nodes in another order are others than those of the base form'
