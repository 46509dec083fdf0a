#!/usr/bin/env bash
# bench/soak.sh [SECONDS [SEED]]: whole runs over random graphs for so many seconds (600), each command in turn, over several parts,
# slots and splits, with one attempt of a task at once or two. Of each run the driver is killed at random moments and each eighth
# child fails, until it is done; then what it leaves must be what a run over the same edges leaves that nothing befell, and its
# result that of a plain computation (checks/model.py). A line for each hundred runs, and the first difference ends it with 1 and
# leaves the folders in place.
set -u
top=$(cd "$(dirname "$0")/.." && pwd)
pegmine=$top/crates/pegmine/out/pegmine
child=$top/crates/pegchild/out/pegchild
until=$((SECONDS + ${1:-600}))
RANDOM=${2:-1}
here=$(mktemp -d)
cd "$here" || exit 1
export LC_ALL=C

fail() {
    echo "bench/soak.sh: run $runs, in $here: $1"
    exit 1
}

cat >weak <<END
#!/bin/sh
[ \$((\$\$ % 8)) != 0 ] || exit 3
exec "$child" "\$@"
END
chmod +x weak

runs=0
kills=0
while [ "$SECONDS" -lt "$until" ]; do
    nodes=$((1 + RANDOM % 60))
    awk -v nodes="$nodes" -v edges=$((RANDOM % 120)) -v seed="$RANDOM" 'BEGIN {
        srand(seed)
        for (edge = 0; edge < edges; edge++) print int(rand() * nodes) "\t" int(rand() * nodes)
    }' >edges
    case $((runs % 3)) in
    0) words=(hcc) ;;
    1) words=(pagerank iters=$((1 + RANDOM % 4))) ;;
    2) words=(hadi hops=$((1 + RANDOM % 4)) seed=$RANDOM) ;;
    esac
    sizes=(reducers=$((1 + RANDOM % 4)) split=$((40 + RANDOM % 400)) spill=$((1024 + RANDOM % 4096)) slots=$((1 + RANDOM % 5)))
    [ $((RANDOM % 2)) = 0 ] || sizes+=(backup=yes)
    rm -rf wanted work
    PEGCHILD=$child "$pegmine" wanted edges "${words[@]}" nodes=$nodes "${sizes[@]}" >wanted-said 2>faults ||
        fail "status $?: $(cat faults)"
    python3 "$top/checks/model.py" edges "${words[@]}" nodes=$nodes >model || fail 'checks/model.py'
    { cat wanted-said; echo; cat wanted/result/part-* | sort -n; } | cmp -s - model || fail 'other lines than the model says'
    status=137
    most=0.1
    while [ "$status" != 0 ]; do
        PEGCHILD=$here/weak "$pegmine" work edges "${words[@]}" nodes=$nodes "${sizes[@]}" >said 2>faults &
        run=$!
        sleep "$(awk -v most=$most -v part=$RANDOM 'BEGIN { print most * part / 32768 }')"
        most=$(awk -v most=$most 'BEGIN { print most * 1.2 }')
        kill -KILL "$run" 2>/dev/null
        { wait "$run"; } 2>/dev/null
        status=$?
        case $status in
        0) ;;
        137) kills=$((kills + 1)) ;;
        5) grep -q '^pegmine: task failed ' faults || fail "status 5: $(cat faults)" ;;
        *) fail "status $status: $(cat faults)" ;;
        esac
    done
    diff -r wanted work >difference || fail "$(head -3 difference)"
    [ "$(tail -1 said)" = "$(tail -1 wanted-said)" ] || fail "it says $(tail -1 said)"
    runs=$((runs + 1))
    [ $((runs % 100)) != 0 ] || echo "$runs runs, $kills kills"
done
echo "$runs runs, $kills kills, no difference"
rm -rf "$here"
