"""model.py EDGES COMMAND nodes=N [NAME=VALUE ..]: what a mining command says and finds, by a plain computation in memory.

It writes the lines of the console, an empty line, and the lines of the result in the order of their ids.
"""

import sys

U = 1 << 32


def edges_of(path):
    """The edges of a file whose records are all accepted ones."""
    with open(path, "rb") as file:
        records = file.read().split(b"\n")
    for record in records:
        record = record.removesuffix(b"\r")
        if record and not record.startswith(b"#"):
            source, target = record.split(b"\t")
            yield int(source), int(target)


def words_of(seed, count):
    """The first words of the PCG32 generator (O'Neill 2014) of this seed on stream 54."""
    step, mask = 54 << 1 | 1, (1 << 64) - 1
    state = (step + seed) * 6364136223846793005 + step & mask
    for _ in range(count):
        mixed = (state >> 18 ^ state) >> 27 & 0xFFFFFFFF
        turn = state >> 59
        yield (mixed >> turn | mixed << (-turn & 31)) & 0xFFFFFFFF
        state = state * 6364136223846793005 + step & mask


def zeros(word):
    """The number of trailing zeros, at most 31."""
    return min((word & -word).bit_length() - 1, 31) if word else 31


def place(word):
    """The number of the lowest bit that is 0."""
    return (~word & word + 1).bit_length() - 1


class Components:
    def __init__(self, edges, nodes, options):
        self.entries = [entry for s, t in edges for entry in ((s, t), (t, s))]
        self.most = nodes

    def first(self, nodes):
        return list(range(nodes))

    def step(self, values):
        new = values[:]
        for row, column in self.entries:
            new[row] = min(new[row], values[column])
        return new

    def numbers(self, history):
        return history[-1]

    def done(self, last, settled, numbers):
        total = sum(node == number for node, number in enumerate(numbers))
        return f"done hcc iterations {last} components {total}"


class Ranks:
    def __init__(self, edges, nodes, options):
        self.edges, self.nodes = edges, nodes
        self.most = int(options.get("iters", 10))
        self.degree = [0] * nodes
        for source, _ in edges:
            self.degree[source] += 1

    def first(self, nodes):
        return [U // nodes] * nodes

    def step(self, values):
        new = [3 * U // (20 * self.nodes)] * self.nodes
        for source, target in self.edges:
            new[target] += 17 * values[source] // (20 * self.degree[source])
        return new

    def numbers(self, history):
        return history[-1]

    def done(self, last, settled, numbers):
        return f"done pagerank iterations {last} units {sum(numbers)}"


class Radii:
    def __init__(self, edges, nodes, options):
        self.entries = [(s, t) for s, t in edges]
        if options.get("sym") == "yes":
            self.entries += [(t, s) for s, t in edges]
        self.most = int(options.get("hops", 64))
        self.seed = int(options.get("seed", 1))

    def first(self, nodes):
        words = list(words_of(self.seed, 32 * nodes))
        return [tuple(1 << zeros(word) for word in words[32 * i : 32 * i + 32]) for i in range(nodes)]

    def step(self, values):
        new = [list(value) for value in values]
        for row, column in self.entries:
            for at, word in enumerate(values[column]):
                new[row][at] |= word
        return [tuple(value) for value in new]

    def numbers(self, history):
        sums = [[sum(map(place, value)) for value in values] for values in history]
        return [next(h for h, s in enumerate(sums) if sums[-1][i] - s[i] <= 4) for i in range(len(sums[0]))]

    def done(self, last, settled, numbers):
        return f"done hadi iterations {last} {'settled' if settled else 'capped'} radius {max(numbers)}"


def main():
    path, command, *words = sys.argv[1:]
    options = dict(word.split("=", 1) for word in words)
    nodes = int(options["nodes"])
    # An edge from s to t brings t's value to s where radii are computed: the entry (row, column) is (s, t).
    model = {"hcc": Components, "pagerank": Ranks, "hadi": Radii}[command](list(edges_of(path)), nodes, options)
    history = [model.first(nodes)]
    changed = nodes
    print("iteration 0 changed", changed)
    while len(history) == 1 or (len(history) <= model.most and (command == "pagerank" or changed)):
        history.append(model.step(history[-1]))
        changed = sum(one != other for one, other in zip(history[-1], history[-2]))
        print("iteration", len(history) - 1, "changed", changed)
    numbers = model.numbers(history)
    print(model.done(len(history) - 1, changed == 0, numbers))
    print()
    for node, number in enumerate(numbers):
        print(node, number, sep="\t")


main()
