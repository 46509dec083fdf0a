#!/usr/bin/env bash
# checks/job.sh: whole jobs on the machine, over children that work, that fail and that are stopped with the job. A job's folder
# must have the lines of its input in order, or no mark that it is whole. It is silent where all is well.
set -u
top=$(cd "$(dirname "$0")/.." && pwd)
bench=$top/crates/pegbench/out/pegbench
child=$top/crates/pegchild/out/pegchild
here=$(mktemp -d)
trap 'rm -rf "$here"' EXIT
cd "$here" || exit 1
export LC_ALL=C
mkdir work
whole=work/job/_SUCCESS

fail() {
    echo "checks/job.sh: $1"
    exit 1
}

# job LENGTH [CHILD]: the job over work/file, in splits of this length.
job() { "$bench" job work file 1024 "${2:-$child}" "$1"; }

is_whole() { [ -e "$whole" ] && sort work/file | cmp -s - work/job/part-00000 && [ "$(ls work/job)" = $'_SUCCESS\npart-00000' ]; }

# A task for each of 4,096 lines.
for line in $(seq 4096 -1 1); do printf '%04d\tline\n' "$line"; done >work/file
job 10 || fail "4,096 splits: status $?"
is_whole || fail '4,096 splits: other lines'

# The first child of each map task fails.
cat >failing <<END
#!/bin/sh
cat >"$here/input-\$\$"
if mkdir "$here/failed-\$(head -n 1 "$here/input-\$\$" | cut -f 1)" 2>/dev/null; then
    echo garbage
    exit 1
fi
exec "$child" "\$@" <"$here/input-\$\$"
END
chmod +x failing
job 10000 "$here/failing" || fail "failing children: status $?"
is_whole || fail 'failing children: other lines'

# A task of which each attempt fails.
printf '#!/bin/sh\nexit 1\n' >failing
job 10000 "$here/failing"
[ $? = 5 ] || fail 'children that only fail: another status than 5'
[ ! -e "$whole" ] || fail 'children that only fail: a whole folder'

# The job is killed while it runs, and run again once its children have ended.
for wait in 0.01 0.05 0.1 0.2 0.4; do
    "$bench" job work file 1024 "$child" 1000 2>/dev/null &
    run=$!
    sleep "$wait"
    { kill -KILL $run; wait $run; } 2>/dev/null
    sleep 0.3
    [ ! -e "$whole" ] || is_whole || fail "killed after $wait s: a folder that seems whole"
    job 1000 || fail "after a kill: status $?"
    is_whole || fail 'after a kill: other lines'
done
