#!/usr/bin/env bash
# cluster/hadoop.sh WORK EDGES hcc|pagerank|hadi nodes=N [NAME=VALUE ..]: a mining run as jobs of Hadoop Streaming, with pegchild
# as their mapper and reducer. WORK is a folder of HDFS, and EDGES an edge list or a folder of them there, as in README.md, both
# as `hdfs dfs` takes them. The options are iters, hops, seed and sym as there, and reducers, 1 to 100000. In the environment:
#   PEGCHILD        the child that is sent to the machines (crates/pegchild/out/pegchild)
#   STREAMING       what starts a streaming job (mapred streaming); for Hadoop 2: hadoop jar ../hadoop-streaming-2.x.jar
#   HADOOP_OPTIONS  further generic options, as -D mapreduce.job.queuename=night
# The numbers come to WORK/result, a line `node TAB number` for each node, in no order. The same words go on where a run stopped.
# The status is 0, or 1 where a job or a call of HDFS failed, 2 for refused words, 5 for the folder of another run, 69 where a
# program is missing.
set -u -o pipefail
export LC_ALL=C
top=$(cd "$(dirname "${BASH_SOURCE[0]}")/.." && pwd)
child=${PEGCHILD:-$top/crates/pegchild/out/pegchild}
read -ra streaming <<<"${STREAMING:-mapred streaming} ${HADOOP_OPTIONS:-}"

fail() { # STATUS TEXT
    echo "cluster/hadoop.sh: $2" >&2
    exit "$1"
}

# at_most A B: of two decimals without leading zeros, of any length.
at_most() { [ ${#1} -lt ${#2} ] || { [ ${#1} -eq ${#2} ] && [[ ! $1 > $2 ]]; }; }

within() { # VALUE LEAST MOST
    [[ $1 =~ ^(0|[1-9][0-9]*)$ ]] && at_most "$2" "$1" && at_most "$1" "$3"
}

[ $# -ge 3 ] || fail 2 'usage: cluster/hadoop.sh WORK EDGES hcc|pagerank|hadi nodes=N [NAME=VALUE ..]'
work=$1 edges=$2 command=$3
case $command in hcc | pagerank | hadi) ;; *) fail 2 'bad word 2' ;; esac
shift 3
declare -A given=([reducers]=1 [iters]=10 [hops]=64 [seed]=1 [sym]=no)
at=2 names=' '
for word in "$@"; do
    at=$((at + 1)) name=${word%%=*} value=${word#*=}
    case $command:$name in
    *:nodes) within "$value" 1 1073741824 ;;
    *:reducers) within "$value" 1 100000 ;;
    pagerank:iters) within "$value" 1 9999 ;;
    hadi:hops) within "$value" 1 256 ;;
    hadi:seed) within "$value" 0 18446744073709551615 ;;
    hadi:sym) [ "$value" = yes ] || [ "$value" = no ] ;;
    *) false ;;
    esac && [[ $names != *" $name "* ]] || fail 2 "bad word $at"
    names="$names$name " given[$name]=$value
done
nodes=${given[nodes]:-}
[ -n "$nodes" ] || fail 2 'nodes=N is missing'
for program in "${streaming[0]}" hdfs; do
    command -v "$program" >/dev/null || fail 69 "$program isn't there: this needs the client of a Hadoop cluster"
done
[ -x "$child" ] || fail 69 "$child isn't there: build pegchild"
[ "${child##*/}" = pegchild ] || fail 69 "$child isn't called pegchild"

# What a run is, by which its folder is known again, after how many steps it ends at the latest, and how its matrix is made.
case $command in
hcc) algorithm=hcc matrix='entries both' limit=$nodes conf='' ;;
pagerank) algorithm=pagerank matrix=degrees limit=${given[iters]} conf=" iters $limit" ;;
hadi)
    algorithm=hadi=${given[seed]} limit=${given[hops]} conf=" hops $limit seed ${given[seed]} sym ${given[sym]}"
    [ "${given[sym]}" = yes ] && matrix='entries both' || matrix='entries one'
    ;;
esac
conf="$command nodes $nodes$conf edges $edges"

# The roles of each job: its mapper, and its reducer or none, where it is a job of maps alone. A form is two columns.
declare -A mapper=([matrix]="edges $nodes" [first]="first $algorithm $nodes" [sent]=id [value]=id
    [number]="number $algorithm $nodes")
declare -A reducer=([matrix]=$matrix [first]='' [sent]="stage1 $algorithm $nodes" [value]="stage2 $algorithm $nodes" [number]='')

# A folder gets its name by one move, once what is in it is whole.
stamp=$(date +%s)-$$
is_there() { hdfs dfs -test -e "$work/$1"; }
name_made() { # FOLDER
    ! is_there "$1" || fail 1 "$1 is there already: does another run work in $work?"
    hdfs dfs -mv "$work/_making/$1-$stamp" "$work/$1" || fail 1 "$1 can't be moved to its name"
}
removed() { hdfs dfs -rm -r -f -skipTrash "$work/$1" >/dev/null || fail 1 "$1 can't be removed"; }
named() { printf '%s-%010d' "$1" "$2"; }

# job FOLDER ROLES INPUT..: one streaming job, unless its folder is there.
# A whole line is the key, so that a reducer gets its lines in order, the value of a node before its messages; the part of a line
# is that of its first field, so that the lines of a node come to one reducer. A job outlives a script that is killed; so each
# submission has an output of its own, and such a job can't end in the folder of a later one.
job() {
    local folder=$1 map=${mapper[$2]} reduce=${reducer[$2]} input words
    shift 2
    ! is_there "$folder" || return 0
    words=(-files "$child" -output "$work/_making/$folder-$stamp" -mapper "pegchild $map")
    for input in "$@"; do words+=(-input "$input"); done
    [ -z "$reduce" ] || words+=(-reducer "pegchild $reduce" -partitioner org.apache.hadoop.mapred.lib.KeyFieldBasedPartitioner)
    "${streaming[@]}" -D mapreduce.job.name="pegmine $work/$folder" \
        -D mapreduce.job.reduces="$([ -z "$reduce" ] && echo 0 || echo "${given[reducers]}")" \
        -D stream.map.output=keyonlytext -D stream.reduce.input=keyonlytext -D stream.reduce.output=keyonlytext \
        -D mapreduce.partition.keypartitioner.options=-k1,1 \
        "${words[@]}" >&2 || fail 1 "job $folder failed: see the logs of its tasks"
    name_made "$folder"
}

# lines_of FOLDER PROGRAM: what an awk program makes of the lines of a folder, which has to have one for each node.
lines_of() {
    hdfs dfs -cat "$work/$1/part-*" | awk -v nodes="$nodes" "$2 END { exit NR != nodes }" || fail 1 "$1 hasn't a line for each node"
}

# settle: counts the nodes that changed in the last step, and removes what it was made of.
settle() {
    count=$(lines_of "$(named v "$step")" '{ count += $3 } END { printf "%.0f\n", count }') || exit
    [ "$step" -gt 0 ] || return 0
    removed "$(named s "$step")"
    removed "$(named v $((step - 1)))"
}

# The last words of a run, from the numbers of its nodes.
total() {
    case $command in
    hcc) lines_of result '{ count += $1 == $2 } END { printf " components %.0f\n", count }' ;;
    pagerank) lines_of result '{ sum += $2 } END { printf " units %.0f\n", sum }' ;;
    hadi)
        lines_of result '$2 > most { most = $2 } END { printf " radius %d\n", most }' |
            sed "s/^/$([ "$count" -eq 0 ] && echo ' settled' || echo ' capped')/"
        ;;
    esac
}

hdfs dfs -mkdir -p "$work/_making" || fail 1 "$work can't be made"
if is_there conf; then
    [ "$(hdfs dfs -cat "$work/conf")" = "$conf" ] || fail 5 "$work is the folder of another run"
else
    echo "$conf" | hdfs dfs -put - "$work/_making/conf-$stamp" || fail 1 "conf can't be written"
    name_made conf
fi
job matrix matrix "$edges"
step=$(hdfs dfs -ls "$work" | sed -n 's|.*/v-\([0-9]\{10\}\)$|\1|p' | sort | tail -n 1) || fail 1 "$work can't be listed"
if [ -n "$step" ]; then
    step=$((10#$step))
    echo "resumed after iteration $step"
else
    step=0
    if ! is_there nodes; then
        awk -v nodes="$nodes" 'BEGIN { for (node = 0; node < nodes; node++) print node "\tP " node }' |
            hdfs dfs -put - "$work/_making/nodes-$stamp" || fail 1 "nodes can't be written"
        name_made nodes
    fi
    job "$(named v 0)" first "$work/nodes"
fi
settle
while [ "$step" -lt "$limit" ] && { [ "$count" -gt 0 ] || [ "$command" = pagerank ]; }; do
    before=$(named v "$step") step=$((step + 1))
    job "$(named s "$step")" sent "$work/matrix" "$work/$before"
    job "$(named v "$step")" value "$work/$(named s "$step")"
    settle
    echo "iteration $step changed $count"
done
job result number "$work/$(named v "$step")"
last=$(total) || exit
removed _making
echo "done $command iterations $step$last"
