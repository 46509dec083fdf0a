#!/usr/bin/env bash
# checks/hadoop.sh: cluster/hadoop.sh on a random graph: the labels must be those of `pegmine plain`, the ranks and radii those of a
# plain computation (hadoop/plain). Without a Hadoop client `mapred` and `hdfs` are those of hadoop/, which do to folders here what
# Hadoop's do, for just the options that the script uses, and some attempts are killed and the script too. The script with each of
# some faults must be refused. It says which client it took, and then nothing where all is well.
set -u -o pipefail
top=$(cd "$(dirname "$0")/.." && pwd)
here=$(mktemp -d)
trap 'rm -rf "$here"' EXIT
export LC_ALL=C PEGCHILD=${PEGCHILD:-$top/crates/pegchild/out/pegchild} STAND_ROOT=$here/hdfs STAND_KILL=0
pegmine=${PEGMINE:-$top/crates/pegmine/out/pegmine}
nodes=100 root=/tmp/pegmine-check-$$ script=$top/cluster/hadoop.sh
if command -v mapred >/dev/null && command -v hdfs >/dev/null; then
    echo "checks/hadoop.sh: on this machine's Hadoop"
    stands=no
elif command -v python3 >/dev/null; then
    echo "checks/hadoop.sh: no Hadoop here: a stand-in takes its place"
    stands=yes
    export PATH=$top/checks/hadoop:$PATH
    mkdir "$STAND_ROOT"
else
    echo "checks/hadoop.sh: not checked, since neither Hadoop nor python3 is there"
    exit 0
fi

fail() {
    echo "checks/hadoop.sh: $1"
    exit 1
}

# run STATUS FOLDER WORDS..: the script ends with this status; its lines are in the file `said`.
run() {
    local wanted=$1 folder=$2
    shift 2
    "$script" "$root/$folder" "$root/edges" "$@" >"$here/said" 2>"$here/log"
    [ $? = "$wanted" ]
}
# The pattern has no quotes.
# shellcheck disable=SC2053
says() { [[ $(tail -n 1 "$here/said") == $1 ]]; }
numbers_are() { hdfs dfs -cat "$root/$1/result/part-*" | sort -n | cmp -s - "$here/$2"; }
removed() { hdfs dfs -rm -r -f -skipTrash "$root/$1" >/dev/null; }

# Each is a run of the script in a folder that is new, and tells whether all was right.
labels() { # FOLDER REDUCERS
    run 0 "$1" hcc nodes="$nodes" reducers="$2" && numbers_are "$1" labels && says "done hcc iterations * components $components"
}
ranks() { # FOLDER REDUCERS
    run 0 "$1" pagerank nodes="$nodes" reducers="$2" iters=4 && numbers_are "$1" ranks && says "done pagerank iterations 4 units $units"
}
radii() { # FOLDER REDUCERS HOPS ITERATIONS
    run 0 "$1" hadi nodes="$nodes" reducers="$2" hops="$3" seed=18446744073709551615 && numbers_are "$1" "radii-$3" &&
        says "done hadi iterations $4 radius $(cut -f 2 "$here/radii-$3" | sort -n | tail -n 1)"
}
# A part of the values that somebody removed is missed.
missed() { # FOLDER
    run 0 "$1" pagerank nodes="$nodes" reducers=6 iters=1 && removed "$1/result" && removed "$1/v-0000000001/part-00005" &&
        run 1 "$1" pagerank nodes="$nodes" reducers=6 iters=1
}

awk -v nodes="$nodes" 'BEGIN { seed = 7; for (edge = 0; edge < 200; edge++) {
    seed = seed * 16807 % 2147483647; source = seed % nodes
    seed = seed * 16807 % 2147483647; print source "\t" seed % nodes } }' >"$here/edges"
# The same as it might be found in public.
awk 'BEGIN { print "# source\ttarget\r" } NR % 9 == 0 { print "\r"; print "00" $0 "\r"; next } 1' "$here/edges" >"$here/public"
hdfs dfs -mkdir -p "$root" && hdfs dfs -put - "$root/edges" <"$here/public" || fail 'the edges cannot be put'
plain() { "$top/checks/hadoop/plain" "$@" <"$here/edges"; }
"$pegmine" work "$here/public" plain nodes="$nodes" >"$here/labels" || fail 'pegmine plain'
plain ranks "$nodes" 4 >"$here/ranks" && plain radii "$nodes" 3 18446744073709551615 >"$here/radii-3" &&
    plain radii "$nodes" 64 18446744073709551615 >"$here/radii-64" || fail 'hadoop/plain'
components=$(awk '$1 == $2' "$here/labels" | wc -l) units=$(awk '{ sum += $2 } END { printf "%.0f", sum }' "$here/ranks")

# Every third task's first attempt is killed. A run of the same words has nothing to do then, and one of others is refused.
STAND_KILL=3 labels labels-4 4 || fail 'the labels, 4 reducers'
labels labels-4 7 && grep -q '^resumed after' "$here/said" || fail 'a run that was done began anew'
run 5 labels-4 pagerank nodes="$nodes" || fail 'the folder of another run was not refused'
labels labels-1 1 || fail 'the labels, 1 reducer'
for reducers in 2 3; do ranks "ranks-$reducers" "$reducers" || fail "the ranks, $reducers reducers"; done
STAND_KILL=2 radii radii-5 5 3 '3 capped' || fail 'the radii within three steps'
radii radii-7 7 64 '* settled' || fail 'the radii'
missed missed || fail 'a part that was removed was not missed'

# Refusals.
run 2 refused hcc && run 2 refused hcc nodes="$nodes" iters=3 && run 2 refused hcc nodes=5 nodes=5 && run 2 refused plain nodes=5 &&
    run 2 refused hadi nodes=5 seed=18446744073709551616 || fail 'words that were not refused'
run 1 small hcc nodes=50 && grep -q 'job matrix failed' "$here/log" || fail 'a node that is not there was not refused'
PEGCHILD=/none run 69 refused hcc nodes="$nodes" || fail 'a child that is not there was not missed'
STREAMING=/none run 69 refused hcc nodes="$nodes" || fail 'an engine that is not there was not missed'

if [ "$stands" = yes ]; then
    # The script is killed at its first call, at the second one of the next start, and so on, until a start comes to its end. The
    # jobs that it started live on; they hold the pipe, which ends with the last of them.
    killed_at() {
        : >"$here/calls"
        export STAND_STOP=$1 STAND_CALLS=$here/calls STAND_SCRIPT=$BASHPID
        exec "$script" "$root/killed" "$root/edges" hcc nodes="$nodes" reducers=3
    }
    {
        for stop in $(seq 100); do (killed_at "$stop") && break; done
        echo "$stop" >"$here/stop"
    } 2>&1 | cat >"$here/starts"
    { [ "$(cat "$here/stop")" -gt 10 ] && labels killed 3; } || fail 'the labels of a script that was killed'

    # planted WHAT EDIT CHECK WORDS..: with this fault in the script the check must fail.
    planted() {
        local what=$1 edit=$2
        shift 2
        sed "$edit" "$top/cluster/hadoop.sh" >"$here/planted"
        chmod +x "$here/planted"
        ! cmp -s "$here/planted" "$top/cluster/hadoop.sh" || fail "planted: $what: the edit changes nothing"
        removed planted
        ! script=$here/planted "$@" || fail "planted: $what: not seen"
    }
    planted 'no partitioner' 's/ -partitioner [A-Za-z.]*//' labels planted 4
    planted 'whole lines as fields' '/keypartitioner/s/=-k1,1/=/' labels planted 4
    planted 'reducers read values' 's/-D stream.reduce.input=keyonlytext//' labels planted 4
    planted 'one way of the edges' '/^hcc) /s/both/one/' labels planted 4
    planted 'never a reducer' 's/echo "\${given\[reducers\]}"/echo 0/' labels planted 4
    planted 'lines are not counted' 's/exit NR != nodes//' missed planted
    planted 'degrees by whole lines' 's/-partitioner \([A-Za-z.]*\)/$([ "$folder" = matrix ] || echo -partitioner \1)/' ranks planted 3
fi
removed ''
