#!/usr/bin/env bash
# bench/gate.sh [NAME ..]: processor minutes that the gate takes for each crate, as a table: its proof, its tests, and its
# wrong bodies. It runs `rt ci --anew` in a clone of what is committed, for all crates or for those named and the ones below
# them, and adds up what each process of it takes. The gate's own words go to standard error. It wants the machine to itself.
# bench/gate.sh --of PID: the same of a gate that runs already, from now on until it ends or this is interrupted. What
# processes of it have taken that still run is counted whole.
# bench/gate.sh --sum TABLE ..: one table of several, as those of an interrupted run and of the one after it.
# What a process takes in its last quarter of a second isn't seen.
set -eu
top=$(cd "$(dirname "$0")/.." && pwd)
data=$(mktemp -d)
trap 'rm -rf "$data"' EXIT
case "${1-}" in
--of | --sum) ;;
*) git clone -q "$top" "$data/clone" ;;
esac
cat >"$data/gate.py" <<'END'
import collections, os, re, signal, subprocess, sys, time

top, clone, words = sys.argv[1], sys.argv[2], sys.argv[3:]
TICKS = os.sysconf("SC_CLK_TCK")
KINDS = ["proof", "tests", "edits"]


def processes():
    """Each process: its number and beginning, its parent, and the seconds that it took by itself."""
    for entry in os.listdir("/proc"):
        if entry.isdigit():
            try:
                text = open(f"/proc/{entry}/stat").read()
            except OSError:
                continue
            fields = text[text.rindex(")") + 2 :].split()
            yield (int(entry), fields[19]), int(fields[1]), (int(fields[11]) + int(fields[12])) / TICKS


def about(number):
    """What a process is for: a crate, and `proof`, `tests` or `edits`."""
    try:
        words = open(f"/proc/{number}/cmdline").read().split("\0")
        folder = os.readlink(f"/proc/{number}/cwd")
    except OSError:
        return None
    if "--crate-name" not in words:
        return None
    crate = words[words.index("--crate-name") + 1]
    if "/rt-edit-" in folder:
        return crate, "edits"
    return crate, "tests" if "--test" in words else "proof"


def watch(gate, has_ended):
    """Adds up the seconds of a process and of all below it, by what they are for, until it has ended."""
    ours, taken, purposes = {gate}, {}, {}
    while True:
        ended = has_ended()
        found = list(processes())
        # A process stands behind its parent only once that one is known, so we look until no more are found.
        grown = True
        while grown:
            more = {key[0] for key, parent, _ in found if parent in ours} - ours
            grown = bool(more)
            ours |= more
        for key, _, seconds in found:
            if key[0] in ours:
                taken[key] = seconds
                purposes[key] = about(key[0]) or purposes.get(key)
        ours &= {key[0] for key, _, _ in found}
        if ended:
            break
        time.sleep(0.25)
    sums = collections.Counter()
    for key, seconds in taken.items():
        sums[purposes[key] or ("", "else")] += seconds / 60
    return sums


def read(file):
    """The minutes of a table that was printed."""
    sums = collections.Counter()
    for line in open(file):
        row = re.fullmatch(r"\| `(\w+)` \| ([\d.]+) \| ([\d.]+) \| ([\d.]+) \| [\d.]+ \|\n", line)
        if row:
            for kind, minutes in zip(KINDS, row.groups()[1:]):
                sums[row[1], kind] += float(minutes)
        rest = re.match(r"Besides, building, running and comparing took ([\d.]+);", line)
        if rest:
            sums["", "else"] += float(rest[1])
    return sums


def show(sums):
    """Prints the table, with the crates in the order of crates.txt."""
    text = open(f"{top}/crates.txt").read()
    crates = re.findall(r"^(\w+)[^#\n]*:", text, re.M)
    crates += sorted({crate for crate, _ in sums} - {*crates, ""})
    print("| Crate | Proof | Tests | Wrong bodies | All |\n|---|---|---|---|---|")
    line = lambda name, row: print(f"| {name} | {' | '.join(f'{it:.1f}' for it in [*row, sum(row)])} |")
    for crate in crates:
        row = [sums[crate, kind] for kind in KINDS]
        if any(row):
            line(f"`{crate}`", row)
    line("all crates", [sum(sums[crate, kind] for crate in crates) for kind in KINDS])
    print(f"\nBesides, building, running and comparing took {sums['', 'else']:.1f}; all in all {sum(sums.values()):.1f}.")


def is_stopped():
    """From now on, whether this program was told to stop."""
    told = []
    for it in (signal.SIGINT, signal.SIGTERM):
        signal.signal(it, lambda number, frame: told.append(number))
    return lambda: bool(told)


if words[:1] == ["--sum"]:
    show(sum(map(read, words[1:]), collections.Counter()))
elif words[:1] == ["--of"]:
    stopped = is_stopped()
    show(watch(int(words[1]), lambda: stopped() or not os.path.exists(f"/proc/{words[1]}")))
else:
    gate = subprocess.Popen(["rt", "ci", "--anew", *words], cwd=clone, stdout=sys.stderr)
    show(watch(gate.pid, lambda: gate.poll() is not None))
    sys.exit(gate.returncode)
END
python3 "$data/gate.py" "$top" "$data/clone" "$@"
