#!/usr/bin/env bash
# checks/program.sh: what no proof and no test of the gate can show of the built program: its streams on the real machine.
# It is silent where all is well.
set -u
program=$(cd "$(dirname "$0")/.." && pwd)/crates/pegmine/out/pegmine
here=$(mktemp -d)
trap 'rm -rf "$here"' EXIT
cd "$here" || exit 1
failed=0

# expect WHAT STATUS WANTED: compares the status of the last run, and what it wrote to the file `got`.
expect() {
    if [ "$2" != "$status" ] || [ "$(cat got)" != "$3" ]; then
        echo "checks/program.sh: $1: status $status where $2 is wanted, and it wrote: $(head -c 200 got)"
        failed=1
    fi
}

printf '# three nodes\r\n0\t1\r\n\r\n02\t1' >edges
plain=("$program" work edges plain)

"${plain[@]}" nodes=3 >got 2>&1; status=$?
expect 'a public edge list' 0 $'0\t0\n1\t0\n2\t0'
"${plain[@]}" nodes=3 >&- 2>got; status=$?
expect 'standard output is closed' 0 ''
"${plain[@]}" nodes=3 >/dev/full 2>got; status=$?
expect 'standard output is full' 8 'pegmine: say fault'
{ "${plain[@]}" nodes=1000000 2>got; echo $? >status; } | true
status=$(cat status)
expect 'nobody reads' 8 'pegmine: say fault'
"${plain[@]}" nodes=2 >got 2>&1; status=$?
expect 'an id too many' 3 'pegmine: node 2 out of range at line 4'
"${plain[@]}" nodes=2 2>&- >got; status=$?
expect 'standard error is closed' 3 ''
"$program" work absent plain nodes=2 >got 2>&1; status=$?
expect 'no edge file' 7 'pegmine: read fault'
"$program" work . plain nodes=2 >got 2>&1; status=$?
expect 'a folder for an edge file' 7 'pegmine: read fault'
"$program" work edges plain $'nodes=\xff' >got 2>&1; status=$?
expect 'a word that is no text' 2 'pegmine: bad word 3'
"$program" --version >got 2>&1; status=$?
expect 'the version' 0 'pegmine 0.1.0'
exit $failed
