#!/usr/bin/env bash
# checks/orphans.sh: a run is killed while its children are slow, and the same words are given again at once: what the children that
# were left still write harms nobody. It is silent where all is well.
set -u
top=$(cd "$(dirname "$0")/.." && pwd)
pegmine=$top/crates/pegmine/out/pegmine
child=$top/crates/pegchild/out/pegchild
here=$(mktemp -d)
trap 'rm -rf "$here"' EXIT
cd "$here" || exit 1
export LC_ALL=C

fail() {
    echo "checks/orphans.sh: $1"
    exit 1
}

printf '0\t1\n1\t2\n3\t4\n4\t5\n' >edges
labels=$("$pegmine" - edges plain nodes=6) || fail "plain: status $?"

# A shell that opens a child's files only when it is told to, and says when the child has ended; children that write what is not to be
# in any result.
mkdir slow
cat >slow/sh <<END
#!/bin/sh
for wait in \$(seq 300); do [ -e "$here/go" ] && break; sleep 0.1; done
/bin/sh "\$@"
touch "$here/ended"
END
cat >garbage <<END
#!/bin/sh
printf '5\\tW 0 1\\n'
printf '0\\tW 5 1\\n'
END
# A child that has written its output when the shells that were left go on, and ends once they have.
cat >late <<END
#!/bin/sh
"$child" "\$@" || exit 1
touch "$here/go"
for wait in \$(seq 300); do [ -e "$here/ended" ] && exit 0; sleep 0.1; done
END
chmod +x slow/sh garbage late

PATH=$here/slow:$PATH PEGCHILD=$here/garbage "$pegmine" work edges hcc nodes=6 >/dev/null 2>&1 &
run=$!
for wait in $(seq 200); do [ -z "$(find work -name 'attempt-m-*' 2>/dev/null)" ] || break; sleep 0.05; done
sleep 0.3
{ kill -9 $run; wait $run; } 2>/dev/null

PEGCHILD=$here/late "$pegmine" work edges hcc nodes=6 >said 2>faults || fail "status $?: $(cat faults)"
[ -e ended ] || fail 'no child was left over'
[ "$(cat work/result/part-* | sort -n)" = "$labels" ] || fail "other labels: $(cat work/result/part-* | tr '\n' ',')"
[ ! -s faults ] || fail "$(head -1 faults)"
PEGCHILD=$child "$pegmine" wanted edges hcc nodes=6 >wanted-said || fail "status $?"
cmp -s said wanted-said && diff -r work wanted >/dev/null || fail "other lines or folders: $(diff -r work wanted | head -3)"
