#!/usr/bin/env bash
# checks/run.sh: whole runs on the machine, with real children: components, ranks and radii of a small graph over two reducers,
# small splits and small runs, each against a plain computation (model.py), and each again with its driver killed and the same
# words given anew until it is done. It is silent where all is well.
set -u
top=$(cd "$(dirname "$0")/.." && pwd)
pegmine=$top/crates/pegmine/out/pegmine
export PEGCHILD=$top/crates/pegchild/out/pegchild
here=$(mktemp -d)
trap 'rm -rf "$here"' EXIT
cd "$here" || exit 1
export LC_ALL=C
nodes=60

fail() {
    echo "checks/run.sh: $1"
    exit 1
}

awk -v nodes="$nodes" 'BEGIN {
    seed = 7
    print "# " nodes " nodes\r"
    for (edge = 0; edge < 50; edge++) {
        seed = (seed * 1103515245 + 12345) % 2147483648; source = int(seed / 65536) % nodes
        seed = (seed * 1103515245 + 12345) % 2147483648
        print source "\t" int(seed / 65536) % nodes
    }
}' >edges
small='reducers=2 split=200 spill=1024 slots=3'

# results WORK: the lines of the result in the order of their ids.
results() { cat "$1"/result/part-* | sort -n; }

# is_done WORK: whether all that stands there is what the run that wasn't stopped left.
is_done() { diff -r wanted-work "$1" >/dev/null; }

for words in 'hcc' 'pagerank iters=4' 'hadi hops=5 seed=9' 'hadi seed=3 sym=yes'; do
    # The words of a command are split at blanks.
    # shellcheck disable=SC2086
    python3 "$top/checks/model.py" edges $words nodes=$nodes >wanted || fail "model.py $words"
    rm -rf wanted-work
    # shellcheck disable=SC2086
    "$pegmine" wanted-work edges $words nodes=$nodes $small >said 2>faults || fail "$words: status $?: $(cat faults)"
    [ ! -s faults ] || fail "$words: $(head -1 faults)"
    { cat said; echo; results wanted-work; } | cmp -s - wanted || fail "$words: other lines than a plain computation says"

    # Once more in the finished folder: nothing is made anew.
    last=$(($(wc -l <said) - 2))
    # shellcheck disable=SC2086
    "$pegmine" wanted-work edges $words nodes=$nodes $small >again || fail "$words, finished: status $?"
    { echo "resumed after iteration $last"; tail -1 said; } | cmp -s - again || fail "$words, finished: it says $(cat again)"

    # Killed at one moment after another, until a run is done.
    rm -rf work
    wait=0.02
    runs=0
    while :; do
        runs=$((runs + 1))
        [ "$runs" -lt 200 ] || fail "$words: killed too often"
        # shellcheck disable=SC2086
        "$pegmine" work edges $words nodes=$nodes $small >>killed 2>/dev/null &
        run=$!
        sleep "$wait"
        { kill -KILL $run; wait $run; } 2>/dev/null
        status=$?
        [ "$status" != 0 ] || break
        [ "$status" = 137 ] || fail "$words, killed: status $status"
        # What children that were left still write is no part of the next run.
        sleep 0.05
        wait=$(awk -v wait="$wait" 'BEGIN { print wait * 1.15 }')
    done
    is_done work || fail "$words, killed $runs times: other folders"
    tail -1 killed | cmp -s - <(tail -1 said) || fail "$words, killed: another last line"
    rm -f killed
done

# Other settings and other edges in a work folder are refused, and so is a result that somebody changed.
"$pegmine" work edges hadi seed=4 sym=yes nodes=$nodes $small >/dev/null 2>faults
[ $? = 4 ] && [ "$(cat faults)" = 'pegmine: another job at conf line 8' ] || fail "another job: $(cat faults)"
sed '$d' edges >fewer
"$pegmine" work fewer hadi seed=3 sym=yes nodes=$nodes $small >/dev/null 2>faults
[ $? = 4 ] && [ "$(cat faults)" = 'pegmine: other edges at line 50' ] || fail "other edges: $(cat faults)"
sed -i '2s/$/x/' work/result/part-00001
"$pegmine" work edges hadi seed=3 sym=yes nodes=$nodes $small >/dev/null 2>faults
[ $? = 4 ] && [ "$(cat faults)" = 'pegmine: bad store result/part-00001 line 2' ] || fail "a changed result: $(cat faults)"

# A task whose children only fail.
printf '#!/bin/sh\nexit 1\n' >failing
chmod +x failing
PEGCHILD=$here/failing "$pegmine" failed edges hcc nodes=$nodes >/dev/null 2>faults
[ $? = 5 ] && [ "$(cat faults)" = 'pegmine: task failed matrix map 0' ] || fail "children that fail: $(cat faults)"

# Generated edges, in `plain` and in a mining command.
"$pegmine" generated - hcc nodes=16 gen=3:42 >said || fail "generated edges: status $?"
[ "$(tail -1 said)" = 'done hcc iterations 2 components 13' ] || fail "generated edges: $(tail -1 said)"
"$pegmine" - - plain nodes=16 gen=3:42 | cmp -s - <(results generated) || fail 'generated edges: plain says other labels'
