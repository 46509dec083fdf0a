#!/usr/bin/env bash
# checks/hostile.sh: runs on the machine that meet what a long run meets: its driver killed at a hundred moments, children that fail
# in many ways, a disk that is full, a file where the work folder is to be, a reader that goes away, and a byte changed at forty
# places of each file that a run reads of what a finished one has left. None may end with another result than a run that nothing
# befell. It takes less than a minute, and is silent where all is well. bench/soak.sh does the first two for as long as one likes.
set -u
top=$(cd "$(dirname "$0")/.." && pwd)
pegmine=$top/crates/pegmine/out/pegmine
child=$top/crates/pegchild/out/pegchild
export PEGCHILD=$child
here=$(mktemp -d)
trap 'rm -rf "$here"' EXIT
cd "$here" || exit 1
export LC_ALL=C
RANDOM=11
nodes=30
words=(hcc nodes=$nodes reducers=2 split=60 spill=1024 slots=3)

fail() {
    echo "checks/hostile.sh: $1"
    exit 1
}

for program in "$pegmine" "$child"; do
    [ -x "$program" ] || fail "not checked, since $program isn't there"
done

awk -v nodes=$nodes 'BEGIN { for (node = 3; node < nodes; node++) print node "\t" (node * 7) % nodes }' >edges

# mine WORK: a run over the edges; what it says goes to `said`, its fault line to `faults`.
mine() { "$pegmine" "$1" edges "${words[@]}" >said 2>faults; }

# is_right WORK: whether all that stands there is what the run left that nothing befell.
is_right() { diff -r wanted "$1" >/dev/null; }

mine wanted || fail "the run that nothing befalls: status $?: $(cat faults)"
cp said wanted-said

# Killed at a hundred random moments: the same words go on from there each time, and begin again where they were done.
rm -rf work
for kill in $(seq 100); do
    "$pegmine" work edges "${words[@]}" >said 2>faults &
    run=$!
    sleep "0.$((RANDOM % 2))$((RANDOM % 10))"
    kill -KILL "$run" 2>/dev/null
    { wait "$run"; } 2>/dev/null
    status=$?
    [ "$status" = 137 ] && continue
    [ "$status" = 0 ] || fail "kill $kill: status $status: $(cat faults)"
    is_right work || fail "kill $kill: a run that was done has left other folders"
    rm -rf work
done
mine work || fail "after the last kill: status $?: $(cat faults)"
is_right work || fail 'after the last kill: other folders'
[ "$(tail -1 said)" = "$(tail -1 wanted-said)" ] || fail 'after the last kill: another last line'

# Children that end in many ways, each by its number: with a status, by a signal, or after half of its output and garbage; each
# fourth one does its work.
cat >ends <<END
#!/bin/sh
echo >>"$here/started"
case \$((\$(wc -l <"$here/started") % 4)) in
1) exit 3 ;;
2) kill -9 \$\$ ;;
3) "$child" "\$@" | head -c 7; printf 'x\\ty\\n\\377'; exit 65 ;;
esac
exec "$child" "\$@"
END
chmod +x ends
PEGCHILD=$here/ends "$pegmine" failing edges "${words[@]/slots=3/slots=1}" >said 2>faults ||
    fail "children that fail: status $?: $(cat faults)"
is_right failing && cmp -s said wanted-said || fail 'children that fail: other folders or lines'

# No file may grow, and then each may grow by a few blocks: a disk that is full, and isn't any more.
for blocks in 0 1 2; do
    (
        ulimit -f "$blocks"
        trap '' XFSZ
        mine full
    )
    status=$?
    case $status in
    0) is_right full || fail "a limit of $blocks blocks: a run that was done has left other folders" ;;
    5 | 6) ;;
    *) fail "a limit of $blocks blocks: status $status" ;;
    esac
done
mine full || fail "a disk that isn't full any more: status $?: $(cat faults)"
is_right full || fail "a disk that isn't full any more: other folders"

# A file where the work folder is to be.
cp edges taken
mine taken && fail 'a file for a work folder: done'
cmp -s edges taken || fail 'a file for a work folder: the file has changed'

# Who reads the lines goes away; the next run goes on behind what was said.
"$pegmine" away edges "${words[@]}" 2>/dev/null | true
mine away || fail "after a reader went away: status $?: $(cat faults)"
is_right away || fail 'after a reader went away: other folders'

# A byte is changed in what a finished run has left, where a run reads it: an x is nowhere right. A place in the settings
# or the edges makes them those of another run; one in a line of the last vector, up to its count, or of the result is named.
last=$(printf 'v-%010d' $(($(wc -l <wanted-said) - 2)))
for file in conf/part-00000 edges/part-00000 "$last/part-00000" result/part-00001; do
    case $file in
    conf/*) fault='another job at conf line' ;;
    edges/*) fault='other edges at line' ;;
    *) fault="bad store $file line" ;;
    esac
    awk -v file="$file" '{
        wide = file ~ /^v-/ ? index($0, " ") - 1 : length($0)
        for (place = 0; place < wide; place++) print NR, begin + place
        begin += length($0) + 1
    }' "wanted/$file" >places
    while read -r line place; do
        cp "wanted/$file" kept
        printf x | dd of="wanted/$file" bs=1 seek="$place" conv=notrunc status=none
        mine wanted && fail "$file, byte $place: done"
        cp kept "wanted/$file"
        [ "$(cat faults)" = "pegmine: $fault $line" ] || fail "$file, byte $place: $(cat faults)"
    done < <(shuf --random-source=<(yes) -n 40 places)
done
mine wanted || fail "each byte as it was: status $?: $(cat faults)"
