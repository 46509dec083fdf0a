#!/usr/bin/env bash
# checks/twice.sh: runs with two attempts of a task at once, over real children of which each fifth is slow and each seventh
# fails. They must leave what a run over the plain child leaves, with each child waited for; and a free slot must have a second
# attempt. It is silent where all is well.
set -u
top=$(cd "$(dirname "$0")/.." && pwd)
pegmine=$top/crates/pegmine/out/pegmine
child=$top/crates/pegchild/out/pegchild
here=$(mktemp -d)
trap 'rm -rf "$here"' EXIT
cd "$here" || exit 1
export LC_ALL=C
nodes=40

fail() {
    echo "checks/twice.sh: $1"
    exit 1
}

for program in "$pegmine" "$child"; do
    [ -x "$program" ] || fail "not checked, since $program isn't there"
done

awk -v nodes="$nodes" 'BEGIN { for (node = 1; node < nodes; node++) if (node % 2) print node - 1 "\t" node }' >edges

# mine WORK CHILD COMMAND WORD ..: a run over four slots; what it says goes to `said`.
mine() {
    PEGCHILD=$2 "$pegmine" "$1" edges "$3" nodes=$nodes slots=4 "${@:4}" >said 2>faults ||
        fail "$1: status $?: $(head -1 faults)"
}

# is_as_wanted WORK: whether all that stands there, and all that was said, is what the run over the plain child left.
is_as_wanted() { diff -r wanted "$1" >/dev/null && cmp -s said wanted-said; }

mine wanted "$child" hcc reducers=2 split=50
cp said wanted-said
sort -n wanted/result/part-* | cmp -s - <("$pegmine" - edges plain nodes=$nodes) ||
    fail 'the plain child: other labels than plain says'

# Each start has a number: each fifth one sleeps, and each seventh one writes its output and fails.
cat >mixed <<END
#!/bin/sh
echo \$\$ >>"$here/started"
number=\$(wc -l <"$here/started")
[ \$((number % 5)) != 0 ] || sleep 0.3
"$child" "\$@"
status=\$?
[ \$((number % 7)) != 0 ] || status=1
echo \$\$ >>"$here/ended"
exit \$status
END
chmod +x mixed
for backup in yes no; do
    rm -f started ended
    mine "mixed-$backup" "$here/mixed" hcc reducers=2 split=50 backup=$backup
    # Those that were started have ended when the driver has, the slower ones of two too.
    [ "$(sort started)" = "$(sort ended)" ] || fail "backup=$backup: a child was left running"
    is_as_wanted "mixed-$backup" || fail "backup=$backup: other folders or lines than over the plain child"
done

# Where each phase has one task, a second attempt of it is started in a free slot: twice as many children, and no more.
cat >counted <<END
#!/bin/sh
echo >>"$here/count"
exec "$child" "\$@"
END
chmod +x counted
for backup in no yes; do
    rm -f count
    mine "counted-$backup" "$here/counted" hcc backup=$backup
    wc -l <count >"count-$backup"
    sort -n "counted-$backup"/result/part-* | cmp -s - <(sort -n wanted/result/part-*) ||
        fail "one task a phase, backup=$backup: other labels"
done
[ "$(cat count-yes)" = $((2 * $(cat count-no))) ] ||
    fail "one task a phase: $(cat count-yes) children with backup=yes, and $(cat count-no) with backup=no"
