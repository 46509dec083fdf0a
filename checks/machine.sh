#!/usr/bin/env bash
# checks/machine.sh: what no contract can see of a site on the machine: its files, its children and how they are started and waited
# for, the lock of the work folder, and the lines on progress. It is silent where all is well.
set -u
top=$(cd "$(dirname "$0")/.." && pwd)
bench=$top/crates/pegbench/out/pegbench
pegmine=$top/crates/pegmine/out/pegmine
child=$top/crates/pegchild/out/pegchild
here=$(mktemp -d)
trap 'rm -rf "$here"' EXIT
cd "$here" || exit 1
export LC_ALL=C
failed=0

fail() {
    echo "checks/machine.sh: $1"
    failed=1
}

for program in "$bench" "$pegmine" "$child"; do
    [ -x "$program" ] || { fail "not checked, since $program isn't there"; exit 1; }
done
gcc -shared -fPIC -o synced.so "$top/checks/synced.c" || { fail 'not checked, since synced.c could not be compiled'; exit 1; }

# Calls of the directory, and what they answer; blanks at the ends of lines don't count.
mkdir -p work/b/to/empty/folders work/c/empty
"$bench" calls work size:v-0/part append:v-0/part:01 append:v-0/part:23 size:v-0/part size:v-0 read:v-0/part \
    move:v-0:b/to size:v-0/part read:b/to/part append:c:x read:c append:c/under:y move:absent:d read:absent \
    remove:absent remove:b size:b/to/part >said 2>&1
printf '%s\n' done done done 'done 4' done 'done 0123' done done 'done 0123' done 'done x' failed failed failed done done done |
    cmp -s - <(sed 's/ *$//' said) || fail "files: the calls answered $(tr '\n' ',' <said)"

printf '0\t1\n1\t2\n3\t4\n4\t5\n' >edges
labels=$("$pegmine" - edges plain nodes=6)

# mine WORK WORD ..: components of the edges with the child in `child`; the lines of the result must be those of `plain`.
mine() {
    PEGCHILD=$child "$pegmine" "$1" edges hcc nodes=6 "${@:2}" >said 2>faults || { fail "$1: status $?: $(cat faults)"; return 1; }
    [ "$(cat "$1"/result/part-* | sort -n)" = "$labels" ] || fail "$1: other labels"
    [ -z "$(find "$1" -name 'run+*')" ] || fail "$1: what children write on the side is left"
}

# A child and a work folder whose paths have blanks and signs that mean something to a shell.
odd="a 'child' of \"\$x\" *"
mkdir "$odd"
cp "$child" "$odd/pegchild"
bundled=$child
child=$here/$odd/pegchild
mine "$odd/work"
child=$bundled

# Four children run at once: none of the four first ones goes on before the others have started.
cat >meets <<END
#!/bin/sh
if mkdir "$here/place-1" 2>/dev/null || mkdir "$here/place-2" 2>/dev/null || mkdir "$here/place-3" 2>/dev/null ||
    mkdir "$here/place-4" 2>/dev/null; then
    for wait in \$(seq 100); do
        [ -d "$here/place-4" ] && exec "$bundled" "\$@"
        sleep 0.1
    done
    touch "$here/alone"
fi
exec "$bundled" "\$@"
END
chmod +x meets
"$bench" calls four append:edges:"$(cat edges)" >said
"$bench" job four edges 1024 "$here/meets" 4 || fail "four children at once: status $?"
cmp -s <(sort edges) four/job/part-00000 || fail 'four children at once: other lines'
[ ! -e alone ] || fail 'four children at once: some waited in vain'

# How children end, as the lines on progress say; the attempts of a task are four.
for end in 'exit 66' 'kill -9 $$' 'exit 255'; do
    printf '#!/bin/sh\n%s\n' "$end" >ends
    chmod +x ends
    status=${end#exit }
    [ "$status" != "$end" ] || status=255
    PEGMINE_PROGRESS=yes PEGCHILD=$here/ends "$pegmine" ended edges hcc nodes=6 >said 2>faults
    [ $? = 5 ] && [ "$(grep -c "^matrix map 0 attempt [1-4] ended with $status after [0-9]*\.[0-9] s\$" faults)" = 4 ] ||
        fail "children that $end: $(cat faults)"
done
PEGMINE_PROGRESS=yes PEGCHILD=no-program-of-this-name "$pegmine" ended edges hcc nodes=6 >said 2>faults
grep -q '^matrix map 0 attempt 1 ended with 127 ' faults || fail "a program that isn't there: $(cat faults)"
PATH=/nowhere PEGMINE_PROGRESS=yes "$pegmine" ended edges hcc nodes=6 >said 2>faults
[ $? = 5 ] && grep -qx 'matrix map 0 attempt 1 could not be started' faults || fail "no shell: $(cat faults)"

# Progress: standard output is the same, and each line says one thing; a few a second. Without the variable nothing is said.
child=$bundled
mine quiet
[ ! -s faults ] || fail "without progress: $(head -1 faults)"
mv said quiet-said
begin=$(date +%s)
PEGMINE_PROGRESS=yes mine told
seconds=$(($(date +%s) - begin + 2))
cmp -s said quiet-said || fail 'progress: another standard output'
lines=$(wc -l <faults)
grep -qx 'matrix map 0 attempt 1 started' faults || fail "progress: no first line: $(head -1 faults)"
! grep -qvE '^[a-z0-9-]+ (map|reduce) [0-9]+ attempt [1-4] (started|ended with 0 after [0-9]+\.[0-9] s)$' faults ||
    fail "progress: another line: $(head -1 faults)"
[ "$lines" -ge 4 ] && [ "$lines" -le $((4 * seconds)) ] || fail "progress: $lines lines in $seconds s"
PEGMINE_PROGRESS=no mine silent
[ ! -s faults ] || fail 'progress: lines that nobody asked for'

# A second run in the same work folder at once: it says so, and changes nothing; once the first one was killed its words go on.
printf '#!/bin/sh\nsleep 5\nexec %s "$@"\n' "$bundled" >slow
chmod +x slow
PEGCHILD=$here/slow "$pegmine" shared edges hcc nodes=6 >/dev/null 2>&1 &
first=$!
for wait in $(seq 200); do [ -z "$(find shared -name 'attempt-m-*' 2>/dev/null)" ] || break; sleep 0.05; done
sleep 0.5
find shared -printf '%p %s %T@ %C@\n' | sort >before
"$pegmine" shared edges hcc nodes=6 >said 2>faults
status=$?
find shared -printf '%p %s %T@ %C@\n' | sort >after
{ kill -9 $first; wait $first; } 2>/dev/null
[ $status = 6 ] && [ ! -s said ] && [ "$(cat faults)" = 'pegmine: work folder in use' ] ||
    fail "two runs at once: status $status: $(cat faults)"
cmp -s before after || fail "two runs at once: the second one changed something: $(diff before after | head -3)"
mine shared

# Ends of children are ignored where the run was started: their statuses are told another way.
cat >ignoring <<'END'
import os, signal, sys
signal.signal(signal.SIGCHLD, signal.SIG_IGN)
os.execv(sys.argv[1], sys.argv[1:])
END
PEGCHILD=$bundled timeout 50 python3 ignoring "$pegmine" ignored edges hcc nodes=6 >said 2>faults ||
    fail "ends of children are ignored: status $?: $(cat faults)"
[ "$(cat ignored/result/part-* 2>/dev/null | sort -n)" = "$labels" ] || fail 'ends of children are ignored: other labels'
printf '#!/bin/sh\nexit 3\n' >ends
PEGMINE_PROGRESS=yes PEGCHILD=$here/ends timeout 30 python3 ignoring "$pegmine" ignored-too edges hcc nodes=6 >said 2>faults
[ $? = 5 ] && grep -q '^matrix map 0 attempt 2 ended with 3 ' faults || fail "ends of children are ignored: $(cat faults)"

# Streams that are closed where the run is started are open where a child is.
printf '#!/bin/sh\nfor stream in 0 1 2; do [ -e /proc/$$/fd/$stream ] || echo $stream >>"%s/closed"; done\nexec %s "$@"\n' \
    "$here" "$bundled" >looks
chmod +x looks
PEGCHILD=$here/looks "$pegmine" closed-2 edges hcc nodes=6 >said 2>&- || fail "standard error is closed: status $?"
PEGCHILD=$here/looks "$pegmine" closed-0 edges hcc nodes=6 >said <&- 2>faults || fail "standard input is closed: status $?"
PEGCHILD=$here/looks "$pegmine" closed-all edges hcc nodes=6 <&- >&- 2>&- || fail "all streams are closed: status $?"
[ ! -e closed ] || fail "a child was started without stream $(head -1 closed)"

# Want of memory at a start is no failed attempt.
SPAWN_FAULT=12 LD_PRELOAD=$here/synced.so PEGMINE_PROGRESS=yes PEGCHILD=$bundled "$pegmine" hungry edges hcc nodes=6 >said 2>faults
[ $? = 9 ] && [ "$(cat faults)" = 'pegmine: no memory' ] || fail "want of memory at a start: $(cat faults)"
SPAWN_FAULT=11 LD_PRELOAD=$here/synced.so PEGCHILD=$bundled "$pegmine" hungry edges hcc nodes=6 >said 2>faults ||
    fail "a start that the system refuses: status $?: $(cat faults)"

# The least refused word is the answer, whether or not a word is text.
said_of() { "$pegmine" "$@" 2>&1; }
[ "$(said_of work edges other $'nodes=\xff')" = 'pegmine: bad word 2' ] || fail 'a word that is no text behind a refused one'
[ "$(said_of $'w\xff' edges hcc nodes=0)" = 'pegmine: bad word 0' ] || fail 'a work folder that is no text'
[ "$(said_of w $'e\xff' hcc nodes=0)" = 'pegmine: bad word 1' ] || fail 'an edge file that is no text'
[ "$(said_of w - hcc nodes=6 $'gen=\xff')" = 'pegmine: bad word 4' ] || fail 'generated edges that are no text'
[ "$(said_of w edges hcc $'nodes=6\xff' slots=0)" = 'pegmine: bad word 3' ] || fail 'an option that is no text'
[ "$(said_of "$(printf '%0100000d' 0)" edges plain nodes=6)" = "$labels" ] || fail 'a long word before others'
exit $failed
