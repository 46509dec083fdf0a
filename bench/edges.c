// edges SHAPE NODES EDGES SEED: an edge list on standard output, a line `source TAB target` for each edge.
// SHAPE: uniform, both ends at random; path, 0 to 1, 1 to 2 and so on; shuffled, that path with its nodes and edges in random order.
#include <stdint.h>
#include <stdio.h>
#include <stdlib.h>
#include <string.h>

static uint64_t state;

static uint64_t next(void) { // splitmix64
    uint64_t z = (state += 0x9e3779b97f4a7c15u);
    z = (z ^ (z >> 30)) * 0xbf58476d1ce4e5b9u;
    z = (z ^ (z >> 27)) * 0x94d049bb133111ebu;
    return z ^ (z >> 31);
}

static uint32_t *shuffled(uint32_t count) {
    uint32_t *order = malloc(4 * (size_t)count);
    for (uint32_t i = 0; i < count; i++) order[i] = i;
    for (uint32_t i = count; i > 1; i--) {
        uint32_t j = next() % i, kept = order[i - 1];
        order[i - 1] = order[j];
        order[j] = kept;
    }
    return order;
}

int main(int argc, char **argv) {
    if (argc != 5) return 2;
    uint32_t nodes = strtoul(argv[2], 0, 10), edges = strtoul(argv[3], 0, 10);
    state = strtoull(argv[4], 0, 10);
    if (!strcmp(argv[1], "uniform")) {
        for (uint32_t i = 0; i < edges; i++) printf("%u\t%u\n", (uint32_t)(next() % nodes), (uint32_t)(next() % nodes));
    } else if (edges >= nodes) {
        return 2;
    } else if (!strcmp(argv[1], "path")) {
        for (uint32_t i = 0; i < edges; i++) printf("%u\t%u\n", i, i + 1);
    } else if (!strcmp(argv[1], "shuffled")) {
        uint32_t *name = shuffled(nodes), *order = shuffled(edges);
        for (uint32_t i = 0; i < edges; i++) printf("%u\t%u\n", name[order[i]], name[order[i] + 1]);
    } else {
        return 2;
    }
    return 0;
}
