// blocks ROLE ..: roles of a child over blocks, for components, as a careful program in C would have them: cut B, blocks,
// block1 hcc N B and block2 hcc N B, from standard input to standard output. A bad record ends it with status 65.
#include <stdint.h>
#include <stdio.h>
#include <stdlib.h>
#include <string.h>
#include <unistd.h>

enum { BUFFER = 1 << 18, LONGEST = 256, MOST_ITEMS = 4096 };

static unsigned char in[BUFFER + 1], out[BUFFER];
static size_t at, filled, held;
static int ended;

static void die(void) { exit(65); }

static void flush(void) {
    for (size_t done = 0; done < held;) {
        ssize_t wrote = write(1, out + done, held - done);
        if (wrote <= 0) exit(74);
        done += wrote;
    }
    held = 0;
}

static inline void room(size_t more) {
    if (held + more > BUFFER) flush();
}

// The next line without its LF; it stays until the next call.
static inline unsigned char *line(unsigned char **end) {
    for (;;) {
        unsigned char *start = in + at, *lf = memchr(start, '\n', filled - at);
        if (lf) { *end = lf; at = lf - in + 1; return start; }
        if (ended) {
            if (at == filled) return NULL;
            *end = in + filled; at = filled;
            return start;
        }
        if (at) { memmove(in, start, filled - at); filled -= at; at = 0; }
        if (filled == BUFFER) die();
        ssize_t got = read(0, in + filled, BUFFER - filled);
        if (got < 0) exit(74);
        if (got == 0) ended = 1;
        filled += got;
    }
}

static inline uint64_t number(unsigned char **p, unsigned char *end) {
    unsigned char *q = *p;
    if (q == end || (unsigned)(*q - '0') > 9) die();
    uint64_t value = 0;
    do value = value * 10 + (*q++ - '0'); while (q < end && (unsigned)(*q - '0') <= 9);
    *p = q;
    return value;
}

static inline void want(unsigned char **p, unsigned char *end, unsigned char byte) {
    if (*p == end || **p != byte) die();
    ++*p;
}

static inline void put(unsigned char byte) { out[held++] = byte; }
static inline void put_all(const void *bytes, size_t count) { memcpy(out + held, bytes, count); held += count; }

static inline void put_number(uint64_t value) {
    unsigned char digits[20];
    int first = 20;
    do digits[--first] = '0' + value % 10; while (value /= 10);
    put_all(digits + first, 20 - first);
}

static uint64_t nodes, length;

static uint64_t size_of_block(uint64_t block) {
    uint64_t start = block * length;
    if (start >= nodes) die();
    return nodes - start < length ? nodes - start : length;
}

static void cut(void) {
    unsigned char *p, *end;
    while ((p = line(&end))) {
        uint64_t column = number(&p, end);
        want(&p, end, '\t'); want(&p, end, 'W'); want(&p, end, ' ');
        uint64_t row = number(&p, end);
        want(&p, end, ' ');
        uint64_t weight = number(&p, end);
        if (p != end || weight == 0 || column >> 32 || row >> 32) die();
        room(128);
        put_number(column / length); put('.'); put_number(row / length); put('\t');
        put_number(row % length); put(' '); put_number(column % length); put(' '); put_number(weight); put('\n');
    }
}

static void blocks(void) {
    unsigned char *p, *end, key[64];
    size_t key_length = 0;
    uint64_t column_block = 0, row_block = 0;
    unsigned items = 0;
    while ((p = line(&end))) {
        unsigned char *tab = memchr(p, '\t', end - p);
        if (!tab || tab - p > 60) die();
        int same = items && (size_t)(tab - p) == key_length && !memcmp(p, key, key_length);
        if (!same) {
            unsigned char *q = p;
            key_length = tab - p;
            memcpy(key, p, key_length);
            column_block = number(&q, tab); want(&q, tab, '.'); row_block = number(&q, tab);
            if (q != tab) die();
        }
        p = tab + 1;
        uint64_t row = number(&p, end);
        want(&p, end, ' ');
        uint64_t column = number(&p, end);
        want(&p, end, ' ');
        uint64_t weight = number(&p, end);
        if (p != end || weight == 0) die();
        room(192);
        if (same && items < MOST_ITEMS) { put(','); items++; }
        else {
            if (items) put('\n');
            put_number(column_block); put('\t'); put(column_block == row_block ? 'W' : 'X'); put(' ');
            put_number(row_block); put(' ');
            items = 1;
        }
        put_number(row); put(':'); put_number(column); put(':'); put_number(weight);
    }
    if (items) { room(1); put('\n'); }
}

static uint64_t values[LONGEST], messages[LONGEST];
static unsigned char there[LONGEST];

static void read_values(unsigned char *p, unsigned char *end, uint64_t size) {
    want(&p, end, 'V'); want(&p, end, ' ');
    if (number(&p, end) > 256) die();
    want(&p, end, ' ');
    for (uint64_t k = 0; k < size; k++) {
        if (k) want(&p, end, ',');
        values[k] = number(&p, end);
    }
    if (p != end) die();
}

static inline void take(uint64_t row, uint64_t message) {
    if (!there[row] || message < messages[row]) messages[row] = message;
    there[row] = 1;
}

static void block1(void) {
    unsigned char *p, *end;
    uint64_t open = UINT64_MAX, columns = 0;
    while ((p = line(&end))) {
        unsigned char *start = p;
        uint64_t block = number(&p, end);
        want(&p, end, '\t');
        if (block != open) {
            columns = size_of_block(block);
            read_values(p, end, columns);
            open = block;
            room(end - start + 1);
            put_all(start, end - start); put('\n');
            continue;
        }
        if (p == end || (*p != 'W' && *p != 'X')) die();
        int own = *p++ == 'W';
        want(&p, end, ' ');
        uint64_t to = number(&p, end);
        want(&p, end, ' ');
        if (own != (to == block)) die();
        uint64_t rows = size_of_block(to);
        memset(there, 0, rows);
        for (;;) {
            uint64_t row = number(&p, end);
            want(&p, end, ':');
            uint64_t column = number(&p, end);
            want(&p, end, ':');
            if (row >= rows || column >= columns || number(&p, end) != 1) die();
            take(row, values[column]);
            if (p == end) break;
            want(&p, end, ',');
        }
        room(64 + 28 * rows);
        put_number(to); put_all("\tY ", 3);
        int first = 1;
        for (uint64_t row = 0; row < rows; row++) {
            if (!there[row]) continue;
            if (!first) put(',');
            first = 0;
            put_number(row); put(':'); put_number(messages[row]);
        }
        put('\n');
    }
}

static void renew(uint64_t block, uint64_t size) {
    uint64_t changed = 0;
    for (uint64_t row = 0; row < size; row++) {
        if (!there[row] || messages[row] >= values[row]) continue;
        values[row] = messages[row];
        changed++;
    }
    room(64 + 21 * size);
    put_number(block); put_all("\tV ", 3); put_number(changed); put(' ');
    for (uint64_t row = 0; row < size; row++) {
        if (row) put(',');
        put_number(values[row]);
    }
    put('\n');
}

static void block2(void) {
    unsigned char *p, *end;
    uint64_t open = UINT64_MAX, size = 0;
    while ((p = line(&end))) {
        uint64_t block = number(&p, end);
        want(&p, end, '\t');
        if (block != open) {
            if (open != UINT64_MAX) renew(open, size);
            size = size_of_block(block);
            read_values(p, end, size);
            memset(there, 0, size);
            open = block;
            continue;
        }
        want(&p, end, 'Y'); want(&p, end, ' ');
        for (;;) {
            uint64_t row = number(&p, end);
            want(&p, end, ':');
            uint64_t message = number(&p, end);
            if (row >= size) die();
            take(row, message);
            if (p == end) break;
            want(&p, end, ',');
        }
    }
    if (open != UINT64_MAX) renew(open, size);
}

int main(int count, char **words) {
    if (count == 2 && !strcmp(words[1], "blocks")) { blocks(); flush(); return 0; }
    if (count != 3 && count != 5) return 2;
    length = strtoull(words[count - 1], NULL, 10);
    if (length < 1 || length > LONGEST) return 2;
    if (count == 5) nodes = strtoull(words[3], NULL, 10);
    if (count == 3 && !strcmp(words[1], "cut")) cut();
    else if (count == 5 && !strcmp(words[1], "block1") && !strcmp(words[2], "hcc")) block1();
    else if (count == 5 && !strcmp(words[1], "block2") && !strcmp(words[2], "hcc")) block2();
    else return 2;
    flush();
    return 0;
}
