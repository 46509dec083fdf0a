#!/usr/bin/env bash
# checks/settle.sh: that what is settled reaches the disk, which no contract can see: which files and folders a settled folder has the
# system sync, by which handles, and what comes of a sync that fails. It is silent where all is well.
set -u
top=$(cd "$(dirname "$0")/.." && pwd)
bench=$top/crates/pegbench/out/pegbench
here=$(cd "$(mktemp -d)" && pwd -P)
trap 'rm -rf "$here"' EXIT
cd "$here" || exit 1
export LC_ALL=C
failed=0

fail() {
    echo "checks/settle.sh: $1"
    failed=1
}

[ -x "$bench" ] || { fail "not checked, since $bench isn't there"; exit 1; }
gcc -shared -fPIC -o synced.so "$top/checks/synced.c" || { fail 'not checked, since synced.c could not be compiled'; exit 1; }

# calls WORK CALL ..: the calls of the directory, what they answer in `said`, and what was synced by the name under `here` in `synced`.
calls() {
    : >notes
    SYNCED=$here/notes LD_PRELOAD=$here/synced.so "$bench" calls "$@" >said 2>&1 || fail "$*: status $?: $(cat said)"
    sed "s|^\(.\) $here\$|\1 .|; s|^\(.\) $here/|\1 |" notes | sort -u >synced
}

# synced LINE ..: compares the set of what was synced with these lines.
synced() { cmp -s synced <(printf '%s\n' "$@" | sort) || fail "synced were: $(tr '\n' ',' <synced)"; }

# answers LINE ..: compares what the calls answered with these lines; blanks at their ends don't count.
answers() { cmp -s <(sed 's/ *$//' said) <(printf '%s\n' "$@") || fail "the calls answered: $(tr '\n' ',' <said)"; }

# A folder of two files and a folder, in a work folder that is made with one above it: what was written last is synced by the handle
# that wrote it, and all by its path; then the folders above, up to the one that the first new folder lies in, and that one's own.
calls up/work append:a/x:1 append:a/sub/z:2 append:a/y:3 append:b:4 append:a/y:5 settle:a
synced 'r up/work/a' 'r up/work/a/x' 'r up/work/a/y' 'r up/work/a/sub' 'r up/work/a/sub/z' 'w up/work/a/y' \
    'r up/work' 'r up' 'r .' "r $(dirname "$here")"
answers done done done done done done

# In a work folder that was there: a file by its path, with the folders above it up to the one that holds the work folder.
calls up/work settle:a/x
synced 'r up/work/a/x' 'r up/work/a' 'r up/work' 'r up'
(cd up && SYNCED=$here/notes LD_PRELOAD=$here/synced.so "$bench" calls work settle:nothing >/dev/null) || fail 'a path without a slash'
grep -qx "r $here/up" notes || fail 'a path without a slash: the folder around it was not synced'

# The work folder is a link to another one: all in that is synced, and removing leaves both.
ln -s up/work link
calls link settle:
synced 'r up/work/a' 'r up/work/a/x' 'r up/work/a/y' 'r up/work/a/sub' 'r up/work/a/sub/z' 'r up/work/b' 'r up/work' 'r up'
calls link/ append:c:6 remove: size:c settle:
answers done done done done
[ -L link ] && [ -d up/work ] && [ -z "$(ls -A up/work)" ] || fail 'removing all of a linked work folder'

# A link below leads elsewhere: it is a fault, and nothing behind it is touched.
mkdir outside && echo kept >outside/x
ln -s ../../outside up/work/out
calls up/work settle: size:out settle:out remove:out settle:
answers failed failed failed done done
[ "$(cat outside/x)" = kept ] && [ ! -e up/work/out ] || fail 'a link below the work folder'

# What is no file of the directory hinders nothing: a pipe, names that no path has, and a folder that may not be entered.
mkfifo up/work/pipe
mkdir -m 0 up/work/shut 'up/work/lost+found'
ln -s nowhere 'up/work/a link'
touch up/work/$'\xff'
chmod 777 up/work
cp "$bench" pegbench
chmod 755 "$here" up
as_nobody=()
[ "$(id -u)" != 0 ] || as_nobody=(setpriv --reuid=65534 --regid=65534 --clear-groups)
timeout 20 "${as_nobody[@]}" ./pegbench calls up/work append:d/x:7 settle: size:pipe size:d/x >said 2>&1 || fail "strange files: status $?"
answers done done done 'done 1'
chmod 700 up/work/shut 'up/work/lost+found'
rm -rf up/work

# The system reports that what was written could not be stored, at the handle that wrote it, or at another one.
fault() { SYNC_FAULT=$1 LD_PRELOAD=$here/synced.so "$bench" calls up/work append:a:1 "settle:$2" >said 2>&1; }
fault w:5 a; answers done failed
fault r:5 a; answers failed failed
# A file system that can't sync a folder has no way to keep what is promised.
mkdir -p up/work
fault d:22 a; answers done failed
# Want of memory is no fault.
fault w:12 a; answers done 'no memory'
exit $failed
