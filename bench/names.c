/* The least that an index with a hash table by name does: goes from event to event of a log and looks up the names of
   each table map, with fresh memory and cold caches. Nothing is checked, and nothing else is kept. To compare the growth
   of the index with; docs/DECISIONS.md tells why.

       cc -O2 -o names bench/names.c
       GLIBC_TUNABLES=glibc.malloc.mmap_threshold=131072 ./names bench/out/tables-25000.binlog */
#include <stdint.h>
#include <stdio.h>
#include <stdlib.h>
#include <string.h>
#include <time.h>

enum { ROUNDS = 8, LANES = 12, LOAD = 9, TABLE_MAP = 19, HEADER = 19 };
static const uint64_t COLD = 1 << 30; /* bytes to change between two rounds */

typedef struct {
    uint8_t tags[LANES];
    uint32_t overflowed, index[LANES];
} Group; /* 64 bytes */

typedef struct {
    const uint8_t *names;
    uint32_t length, hash;
} Table;

static Group *groups;
static Table *tables;
static uint64_t count, used, room;

static uint64_t number(const uint8_t *bytes, uint32_t length) {
    uint64_t n = 0;
    memcpy(&n, bytes, length < 8 ? length : 8);
    return n;
}

static uint32_t hash_of(const uint8_t *bytes, uint32_t length) {
    uint64_t state = 0x243f6a8885a308d3;
    for (uint32_t at = 0; at < length; at += 8) {
        unsigned __int128 product = (unsigned __int128)(state ^ number(bytes + at, length - at)) * 0x9e3779b97f4a7c15;
        state = (uint64_t)product ^ (uint64_t)(product >> 64);
    }
    return (uint32_t)(state ^ state >> 32);
}

static uint8_t tag_of(uint32_t hash) { return hash >> 24 ? hash >> 24 : 1; }

static void insert(uint32_t hash, uint32_t index) {
    for (uint64_t g = hash & (count - 1);; g = (g + 1) & (count - 1)) {
        for (int lane = 0; lane < LANES; lane++) {
            if (!groups[g].tags[lane]) {
                groups[g].tags[lane] = tag_of(hash);
                groups[g].index[lane] = index;
                return;
            }
        }
        groups[g].overflowed = 1;
    }
}

static int is_known(const uint8_t *names, uint32_t length, uint32_t hash) {
    for (uint64_t g = hash & (count - 1);; g = (g + 1) & (count - 1)) {
        for (int lane = 0; lane < LANES; lane++) {
            if (groups[g].tags[lane] == tag_of(hash)) {
                Table *table = &tables[groups[g].index[lane]];
                if (table->length == length && !memcmp(table->names, names, length)) return 1;
            }
        }
        if (!groups[g].overflowed) return 0;
    }
}

static void take(const uint8_t *names, uint32_t length) {
    uint32_t hash = hash_of(names, length);
    if (count && is_known(names, length, hash)) return;
    if (used == room) {
        count = count ? 2 * count : 1;
        room = LOAD * count;
        free(groups);
        groups = calloc(count, sizeof *groups);
        tables = realloc(tables, room * sizeof *tables);
        if (!groups || !tables) exit(1);
        for (uint64_t i = 0; i < used; i++) insert(tables[i].hash, (uint32_t)i);
    }
    tables[used] = (Table){names, length, hash};
    insert(hash, (uint32_t)used++);
}

static uint64_t index_of(const uint8_t *log, uint64_t length) {
    groups = NULL, tables = NULL, count = used = room = 0;
    for (uint64_t at = 4; at + HEADER <= length; at += number(log + at + 9, 4)) {
        if (log[at + 4] == TABLE_MAP) {
            const uint8_t *schema = log + at + HEADER + 8, *table = schema + schema[0] + 2;
            take(schema, (uint32_t)(table - schema) + table[0] + 1);
        }
    }
    free(groups), free(tables);
    return used;
}

static double nanoseconds(void) {
    struct timespec time;
    clock_gettime(CLOCK_MONOTONIC, &time);
    return time.tv_sec * 1e9 + time.tv_nsec;
}

int main(int words, char **word) {
    FILE *file = words == 2 ? fopen(word[1], "rb") : NULL;
    if (!file || fseek(file, 0, SEEK_END)) return fputs("names LOG\n", stderr), 2;
    uint64_t length = (uint64_t)ftell(file), seen = 0;
    uint8_t *log = calloc(length + 8, 1), *other = calloc(COLD, 1);
    rewind(file);
    if (!log || !other || fread(log, 1, length, file) != length) return 1;
    double best = 1e18;
    for (int round = 0; round < ROUNDS; round++) {
        for (uint64_t i = 0; i < COLD; i++) other[i] = ~other[i];
        double start = nanoseconds();
        seen = index_of(log, length);
        double took = nanoseconds() - start;
        if (took < best) best = took;
    }
    printf("%lu tables, %.1f ms, %.0f ns a table (%d)\n", (unsigned long)seen, best / 1e6, best / (double)seen, other[0]);
    return 0;
}
