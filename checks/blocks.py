"""blocks.py: rows of the roles over blocks, with random blocks and what a plain computation over nodes makes of them.

    python3 checks/blocks.py >crates/pegrows/data/blocks.rows

It writes the same bytes each time. Nothing of it is taken from the program: entries, places and values belong to nodes, and
texts are cut and joined only where a record is read or written.
"""

U = 1 << 32


def words_of(seed):
    """The words of the PCG32 generator (O'Neill 2014) of this seed on stream 54."""
    step, mask = 54 << 1 | 1, (1 << 64) - 1
    state = (step + seed) * 6364136223846793005 + step & mask
    while True:
        mixed = (state >> 18 ^ state) >> 27 & 0xFFFFFFFF
        turn = state >> 59
        yield (mixed >> turn | mixed << (-turn & 31)) & 0xFFFFFFFF
        state = state * 6364136223846793005 + step & mask


WORDS = words_of(29)


def below(bound):
    return next(WORDS) % bound


def shuffled(items):
    items = list(items)
    for at in range(len(items) - 1, 0, -1):
        other = below(at + 1)
        items[at], items[other] = items[other], items[at]
    return items


class Components:
    name = "hcc"

    def __init__(self, nodes):
        self.nodes = nodes

    def first(self, node):
        return node

    def value(self):
        return below(3 * self.nodes)

    def weight(self):
        return 1

    def passed(self, weight, value):
        return value

    def together(self, messages):
        return min(messages, default=(1 << 64) - 1)

    def assigned(self, value, message):
        return min(value, message)

    def same(self, one, other):
        return one == other

    def number(self, value):
        return value

    text = message_text = staticmethod(str)


class Ranks:
    name = "pagerank"

    def __init__(self, nodes):
        self.nodes = nodes

    def first(self, node):
        return U // self.nodes

    def value(self):
        return below(U)

    def weight(self):
        return 1 + below(9)

    def passed(self, weight, value):
        return 17 * value // (20 * weight)

    def together(self, messages):
        return sum(messages)

    def assigned(self, value, message):
        return 3 * U // (20 * self.nodes) + message

    def same(self, one, other):
        return one == other

    def number(self, value):
        return value

    text = message_text = staticmethod(str)


class Radii:
    """A value is 32 words and the sums of their places of the lowest 0 so far; a message is 32 words."""

    seed = 5
    name = f"hadi={seed}"

    def __init__(self, nodes):
        self.nodes = nodes

    def first(self, node):
        words = words_of(self.seed)
        for _ in range(32 * node):
            next(words)
        bits = tuple(1 << self.zeros(next(words)) for _ in range(32))
        return bits, (self.places(bits),)

    def zeros(self, word):
        return min((word & -word).bit_length() - 1, 31) if word else 31

    def places(self, bits):
        return sum((~word & word + 1).bit_length() - 1 for word in bits)

    def value(self):
        bits, sums = self.first(below(100))
        return bits, sums * (1 + below(3))

    def weight(self):
        return 1

    def passed(self, weight, value):
        return value[0]

    def together(self, messages):
        bits = [0] * 32
        for message in messages:
            bits = [one | other for one, other in zip(bits, message)]
        return tuple(bits)

    def assigned(self, value, message):
        bits = self.together([value[0], message])
        return bits, value[1] + (self.places(bits),)

    def same(self, one, other):
        return one[0] == other[0]

    def number(self, value):
        sums = value[1]
        return next(h for h, s in enumerate(sums) if sums[-1] - s <= 4)

    def text(self, value):
        return ":".join([self.message_text(value[0]), *map(str, value[1])])

    def message_text(self, message):
        return "".join(f"{word:08x}" for word in message)


def blocks_of(nodes, length):
    """The nodes of each block; the last one may have fewer."""
    return [range(start, min(start + length, nodes)) for start in range(0, nodes, length)]


def runs(items, key):
    """The longest runs of items with the same key."""
    found = []
    for item in items:
        if found and found[-1][0] == key(item):
            found[-1][1].append(item)
        else:
            found.append((key(item), [item]))
    return found


def entries_of(algorithm, count):
    """Random entries of the matrix, as row, column and weight."""
    nodes = algorithm.nodes
    return [(below(nodes), below(nodes), algorithm.weight()) for _ in range(count)]


def lines_from(entries, block, blocks):
    """The entries whose column is in this block, by the blocks of their rows, each run cut in up to two lines."""
    length = len(blocks[0])
    for row_block in shuffled(range(len(blocks))):
        chosen = [e for e in entries if e[1] in block and e[0] in blocks[row_block]]
        cut = below(len(chosen) + 1)
        for line in (chosen[:cut], chosen[cut:]):
            if line:
                items = ",".join(f"{row % length}:{column % length}:{weight}" for row, column, weight in line)
                yield row_block, line, items


def parts_of(algorithm, values, line, block, length):
    """What a line of entries passes on to each row of a block, as a text."""
    parts = []
    for row in block:
        messages = [algorithm.passed(weight, values[column]) for r, column, weight in line if r == row]
        if messages:
            parts.append(f"{row % length}:{algorithm.message_text(algorithm.together(messages))}")
    return ",".join(parts)


def row_of_group(nodes, length):
    places = shuffled(range(nodes))
    read = [f"{place}\tP {node}" for place, node in enumerate(places)]
    wrote = [f"{place // length}\tP {place % length} {node}" for place, node in enumerate(places)]
    return f"group {length}", read, wrote


def row_of_cut(algorithm, length):
    read, wrote = [], []
    for row, column, weight in entries_of(algorithm, 9):
        read.append(f"{column}\tW {row} {weight}")
        wrote.append(f"{column // length}.{row // length}\t{row % length} {column % length} {weight}")
    return f"cut {length}", read, wrote


def row_of_blocks(algorithm, length):
    keyed = [(column // length, row // length, row % length, column % length, weight)
             for row, column, weight in entries_of(algorithm, 14)]
    keyed.sort(key=lambda entry: f"{entry[0]}.{entry[1]}")
    read, wrote = [], []
    for (column_block, row_block), entries in runs(keyed, lambda entry: entry[:2]):
        read += [f"{column_block}.{row_block}\t{row} {column} {weight}" for _, _, row, column, weight in entries]
        items = ",".join(f"{row}:{column}:{weight}" for _, _, row, column, weight in entries)
        wrote.append(f"{column_block}\t{'W' if row_block == column_block else 'X'} {row_block} {items}")
    return "blocks", read, wrote


def row_of_firstb(algorithm, length):
    nodes = algorithm.nodes
    at = shuffled(range(nodes))
    read, wrote = [], []
    for number, block in enumerate(blocks_of(nodes, length)):
        read += [f"{number}\tP {place - block[0]} {at[place]}" for place in shuffled(block)]
        values = ",".join(algorithm.text(algorithm.first(at[place])) for place in block)
        wrote.append(f"{number}\tV {len(block)} {values}")
    return f"firstb {algorithm.name} {nodes} {length}", read, wrote


def value_line(algorithm, number, changed, values):
    return f"{number}\tV {changed} {','.join(map(algorithm.text, values))}"


def row_of_block1(algorithm, length):
    nodes = algorithm.nodes
    values, entries = [algorithm.value() for _ in range(nodes)], entries_of(algorithm, 2 * nodes)
    blocks = blocks_of(nodes, length)
    read, wrote = [], []
    for number, block in enumerate(blocks):
        head = value_line(algorithm, number, below(257), [values[node] for node in block])
        read.append(head)
        wrote.append(head)
        for row_block, line, items in lines_from(entries, block, blocks):
            read.append(f"{number}\t{'W' if row_block == number else 'X'} {row_block} {items}")
            wrote.append(f"{row_block}\tY {parts_of(algorithm, values, line, blocks[row_block], length)}")
    return f"block1 {algorithm.name} {nodes} {length}", read, wrote


def row_of_diag1(algorithm, length):
    nodes = algorithm.nodes
    values, entries = [algorithm.value() for _ in range(nodes)], entries_of(algorithm, 2 * nodes)
    blocks = blocks_of(nodes, length)
    read, wrote = [], []
    for number, block in enumerate(blocks):
        closed, before = values, None
        while closed != before:
            before, closed = closed, list(closed)
            for row, column, _ in entries:
                if row in block and column in block:
                    closed[row] = min(closed[row], before[column])
        head = value_line(algorithm, number, below(257), [values[node] for node in block])
        read.append(head)
        wrote.append(head)
        wrote.append(f"{number}\tY {','.join(f'{node - block[0]}:{closed[node]}' for node in block)}")
        for row_block, line, items in lines_from(entries, block, blocks):
            read.append(f"{number}\t{'W' if row_block == number else 'X'} {row_block} {items}")
            wrote.append(f"{row_block}\tY {parts_of(algorithm, closed, line, blocks[row_block], length)}")
    return f"diag1 {nodes} {length}", read, wrote


def row_of_block2(algorithm, length):
    nodes = algorithm.nodes
    read, wrote = [], []
    for number, block in enumerate(blocks_of(nodes, length)):
        old = [algorithm.value() for _ in block]
        sent = [[] for _ in block]
        read.append(value_line(algorithm, number, below(257), old))
        for _ in range(below(4)):
            parts = []
            for _ in range(1 + below(4)):
                offset = below(len(block))
                message = algorithm.passed(algorithm.weight(), algorithm.value())
                sent[offset].append(message)
                parts.append(f"{offset}:{algorithm.message_text(message)}")
            read.append(f"{number}\tY {','.join(parts)}")
        new = [algorithm.assigned(value, algorithm.together(messages)) for value, messages in zip(old, sent)]
        changed = sum(not algorithm.same(*pair) for pair in zip(new, old))
        wrote.append(value_line(algorithm, number, changed, new))
    return f"block2 {algorithm.name} {nodes} {length}", read, wrote


def row_of_unblock(algorithm, length):
    nodes = algorithm.nodes
    read, wrote = [], []
    for number, block in enumerate(blocks_of(nodes, length)):
        values = [algorithm.value() for _ in block]
        read.append(value_line(algorithm, number, below(257), values))
        wrote += [f"{node}\t{algorithm.number(value)}" for node, value in zip(block, values)]
    return f"unblock {algorithm.name} {nodes} {length}", read, wrote


def row_of_unplace(algorithm, length):
    nodes = algorithm.nodes
    records = []
    for number, block in enumerate(blocks_of(nodes, length)):
        values = [algorithm.value() for _ in block]
        numbers = [f"{place}\tQ {algorithm.number(value)}" for place, value in zip(block, values)]
        records.append((value_line(algorithm, number, below(257), values), numbers))
    for place, node in enumerate(shuffled(range(nodes))):
        records.append((f"{place}\tP {node}", [f"{place}\tP {node}"]))
    records = shuffled(records)
    read = [record for record, _ in records]
    return f"unplace {algorithm.name} {nodes} {length}", read, [line for _, lines in records for line in lines]


def quoted(lines):
    text = "".join(line + "\n" for line in lines)
    return '"' + text.replace("\t", "\\t").replace("\n", "\\n") + '"'


# Nodes and the length of a block: the last block is shorter, as long as the others, the only one, and the blocks are nodes.
SHAPES = [(7, 3), (10, 4), (8, 4), (5, 256), (4, 1)]
OVER_ALGORITHMS = [row_of_firstb, row_of_block1, row_of_block2, row_of_unblock, row_of_unplace]


def rows():
    yield "nodes and entries go to their blocks", [
        row for nodes, length in SHAPES
        for row in (row_of_group(nodes, length), row_of_cut(Ranks(nodes), length), row_of_blocks(Ranks(nodes), length))
    ]
    for algorithm, shapes in ((Components, SHAPES), (Ranks, SHAPES), (Radii, [(3, 2), (2, 2)])):
        yield f"blocks of {algorithm.name}", [
            make(algorithm(nodes), length) for nodes, length in shapes for make in OVER_ALGORITHMS
        ]
    yield "closed blocks", [row_of_diag1(Components(nodes), length) for nodes, length in SHAPES + [(12, 7), (9, 9)]]


print("# Random blocks, and what a plain computation over their nodes makes of them. Written by checks/blocks.py.")
for title, steps in rows():
    print()
    print("row", title)
    for words, read, wrote in steps:
        print(f"  child {quoted(read)} {words} -> 0 {quoted(wrote)}")
