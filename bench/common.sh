# Sourced by the scripts beside it: the pairs of a step, what a command takes, and the line that shows it beside another.
export LC_ALL=C

# pairs COUNT SEED: so many pairs as a step of a graph of a million nodes has them: a value in each five, and messages.
pairs() {
    awk -v lines="$1" -v seed="$2" 'BEGIN {
        for (k = 0; k < lines; k++) {
            seed = seed * 16807 % 2147483647; node = seed % 1000000
            seed = seed * 16807 % 2147483647
            if (k % 5 == 0) print node "\tV 1 " seed % 1000000; else print node "\tY " seed % 1000000
        }
    }'
}

# measured RUNS COMMAND ..: runs a command so often, with the function `before_run` before each run, and prints the least CPU
# seconds of it and its children, and the most memory of a process in kB. It reads $input and writes $output where they are set.
measured() {
    local runs=$1
    shift
    for _ in $(seq "$runs"); do
        before_run
        /usr/bin/time -f '%U %S %M' "$@" <"${input:-/dev/null}" 2>&1 >"${output:-/dev/null}" | tail -n 1
    done | awk '{ cpu = $1 + $2; if (NR == 1 || cpu < least) least = cpu; if ($3 > most) most = $3 } END { printf "%.2f %d\n", least, most }'
}
before_run() { :; }

# shown WHAT OURS PEER NAME FILE WANTED: one line of two measures, the second of a peer of this name, with what was wanted of the file.
shown() {
    local same='the same bytes'
    cmp -s "$5" "$6" || same='OTHER BYTES'
    awk -v what="$1" -v ours="$2" -v peer="$3" -v name="$4" -v same="$same" 'BEGIN {
        split(ours, our); split(peer, their)
        printf "%-28s %s s, %d kB; %s %s s: %.2f times; %s\n", what, our[1], our[2], name, their[1], (their[1] > 0 ? our[1] / their[1] : 0), same
    }'
}
