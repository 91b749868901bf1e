/* For `tools/bench`: works the table of a game as rbgsolve does, unit by unit, with a commit after each 256, and keeps it in SQLite (a write-ahead
 * log, full syncs), in LMDB, or in memory alone. It knows its games and nothing of the language, so that it also counts their positions for itself.
 * Compiled with -DSQLITE -lsqlite3 or -DLMDB -llmdb, or with neither. LENGTH is the bytes of a position.
 *
 *     graph count BOUND LENGTH UNITS FILE            a white stone counts up to BOUND: BOUND + 2 positions
 *     graph connect WIDTHxHEIGHT LENGTH UNITS FILE   connect three
 *     graph free WIDTHxHEIGHT LENGTH UNITS FILE      three in a line, on any square
 *     graph break WIDTHxHEIGHT LENGTH UNITS FILE     breakthrough with one row of pawns each
 *     graph rook WIDTHxHEIGHT LENGTH UNITS FILE      king and rook against king
 *     graph check FILE                               reads all that is in such a file, and prints how many positions that are
 *
 * It ends after the commit with which UNITS are reached, or at the end of the game, and prints the counts and the value of the start.
 */
#include <stdint.h>
#include <stdio.h>
#include <stdlib.h>
#include <string.h>

#define BATCH 256
#define LONGEST 64
#define NONE UINT32_MAX

typedef struct {
    uint8_t state, winner;
    uint32_t distance, left, successors;
} record;

static void check(int good, const char *what) {
    if (!good) {
        fprintf(stderr, "graph: %s failed\n", what);
        exit(1);
    }
}

static void put_number(uint8_t *at, uint32_t number) {
    for (int k = 0; k < 4; k++) at[k] = (uint8_t)(number >> (24 - 8 * k));
}

static uint32_t number_at(const uint8_t *at) {
    return (uint32_t)at[0] << 24 | (uint32_t)at[1] << 16 | (uint32_t)at[2] << 8 | at[3];
}

#include "games.h"

/* The stores: a position's number, a number's position and record, edges, and the settled order. */

static void cell_of(uint8_t *cell, const uint8_t *packed, const record *kept) {
    memcpy(cell, packed, (size_t)length);
    cell += length;
    cell[0] = kept->state;
    cell[1] = kept->winner;
    cell[2] = cell[3] = 0;
    put_number(cell + 4, kept->distance);
    put_number(cell + 8, kept->left);
    put_number(cell + 12, kept->successors);
}

static void cell_in(const uint8_t *cell, uint8_t *packed, record *kept) {
    memcpy(packed, cell, (size_t)length);
    cell += length;
    *kept = (record){cell[0], cell[1], number_at(cell + 4), number_at(cell + 8), number_at(cell + 12)};
}

#ifdef SQLITE
#include "in_sqlite.h"
#elif defined LMDB
#include "in_lmdb.h"
#else
#include "in_memory.h"
#endif

/* The work. */

static uint32_t known, expanded, settled_count, processed;

static void add(const uint8_t *packed) {
    record fresh = {0, 0, 0, 0, 0};
    put_position(packed, known);
    put_record(known++, packed, &fresh);
}

static void expand(void) {
    uint8_t packed[LONGEST], next[MOST_SUCCESSORS][LONGEST];
    position it;
    record kept;
    get_record(expanded, packed, &kept);
    int count = packed_successors(packed, next);
    for (int k = 0; k < count; k++) {
        uint32_t number = find(next[k]);
        if (number == NONE) {
            number = known;
            add(next[k]);
        }
        put_edge(number, expanded);
    }
    unpack(packed, &it);
    kept = (record){1, 0, 0, (uint32_t)count, (uint32_t)count};
    if (count == 0 && it.ahead) {
        kept.state = 2;
        kept.winner = it.ahead;
        put_order(settled_count++, expanded);
    }
    put_record(expanded++, packed, &kept);
}

static void process(void) {
    uint8_t packed[LONGEST], before[LONGEST];
    position it;
    record kept, other;
    uint32_t number = get_order(processed++), predecessor;
    get_record(number, packed, &kept);
    kept.state = 3;
    put_record(number, packed, &kept);
    for (int64_t after = -1; (predecessor = next_edge(number, after)) != NONE; after = predecessor) {
        get_record(predecessor, before, &other);
        unpack(before, &it);
        other.left--;
        if (other.state == 1 && (it.role == kept.winner || other.left == 0)) {
            other.state = 2;
            other.winner = kept.winner;
            other.distance = kept.distance + 1;
            put_order(settled_count++, predecessor);
        }
        put_record(predecessor, before, &other);
    }
}

/* Works units until there are so many, or none is left. */
static void work(uint64_t most) {
    int open = 1;
    while (open && (uint64_t)expanded + processed < most) {
        begin();
        for (int unit = 0; unit < BATCH && open; unit++) {
            if (expanded < known) expand();
            else if (processed < settled_count) process();
            else open = 0;
        }
        commit();
    }
}

static void solve(const char *file, uint64_t most) {
    uint8_t packed[LONGEST];
    record kept;
    open_store(file);
    packed_start(packed);
    begin();
    add(packed);
    commit();
    work(most);
    begin();
    get_record(0, packed, &kept);
    commit();
    printf("units %u known %u expanded %u settled %u processed %u winner %d in %u\n", expanded + processed, known, expanded, settled_count, processed,
           kept.winner, kept.distance);
}

int main(int count, char **words) {
    if (count == 3 && strcmp(words[1], "check") == 0) {
        open_store(words[2]);
        printf("positions %u\n", checked());
        return 0;
    }
    check(count == 6 && is_game(words[1], words[2], words[3]), "usage: graph GAME SIZE LENGTH UNITS FILE, or check FILE: it");
    solve(words[5], strtoull(words[4], 0, 10));
    return 0;
}
