/* For `graph.c`: its games. A position has a board, the role that has the turn (0 the keeper), who is ahead (0 nobody), whether a player
 * has moved, and in the count a number. Packed it has as many bytes as the program gives it by bits (docs/FORMAT.md), with the fields in an
 * order that sorts successors as the program does. */

#define MOST_CELLS 32
#define MOST_SUCCESSORS 64

typedef struct {
    uint8_t board[MOST_CELLS], role, ahead, begun;
    uint32_t number;
} position;

typedef struct {
    const char *name;
    void (*start)(position *it);
    int (*successors)(const position *from, position *to);
} game;

static const game *played;
static int length, width, height, cells;
static uint32_t bound;

/* Four cells a byte, and one byte for the rest. */
static void pack(const position *it, uint8_t *packed) {
    uint8_t *at = packed;
    memset(packed, 0, (size_t)length);
    if (cells == 0) {
        put_number(packed + length - 4, it->number);
        packed[0] = (uint8_t)(it->ahead << 3 | it->role << 1 | it->begun);
        return;
    }
    for (int from = 0; from < cells; from += 4, at++)
        *at = (uint8_t)(it->board[from] << 6 | it->board[from + 1] << 4 | it->board[from + 2] << 2 | it->board[from + 3]);
    /* the scores 1 and 0 come behind 0 and 1, and those behind 0 and 0 */
    *at = (uint8_t)((it->ahead == 1 ? 2 : it->ahead == 2 ? 1 : 0) << 3 | it->role << 1 | it->begun);
}

static void unpack(const uint8_t *packed, position *it) {
    memset(it, 0, sizeof *it);
    if (cells == 0) {
        it->number = number_at(packed + length - 4);
        it->ahead = packed[0] >> 3;
        it->role = packed[0] >> 1 & 3;
        it->begun = packed[0] & 1;
        return;
    }
    for (int from = 0; from < cells; from += 4, packed++)
        for (int k = 0; k < 4; k++) it->board[from + k] = *packed >> (6 - 2 * k) & 3;
    it->ahead = *packed >> 3 == 2 ? 1 : *packed >> 3 == 1 ? 2 : 0;
    it->role = *packed >> 1 & 3;
    it->begun = *packed & 1;
}

/* A new successor: the same position, with the turn handed on. */
static position *handed_on(const position *from, position *to) {
    *to = *from;
    to->role = from->role == 1 ? 2 : 1;
    to->begun = from->role != 0;
    return to;
}

static int on_board(int x, int y) { return x >= 0 && x < width && y >= 0 && y < height; }
static int has(const position *it, int x, int y, int piece) { return on_board(x, y) && it->board[y * width + x] == piece; }

/* The count: a white stone counts up to a bound, and white is ahead from the first move on. */

static void empty_start(position *it) { (void)it; }

static int count_successors(const position *from, position *to) {
    if (from->role != 0 && from->number == bound) return 0;
    *to = *from;
    to->number += from->role != 0;
    to->role = to->ahead = 1;
    return 1;
}

/* Three in a line: on any square, or on the lowest of a column. */

static int has_line(const position *it, int piece) {
    static const int ways[4][2] = {{1, 0}, {0, 1}, {1, 1}, {-1, 1}};
    for (int y = 0; y < height; y++)
        for (int x = 0; x < width; x++)
            for (int w = 0; w < 4; w++)
                if (has(it, x, y, piece) && has(it, x + ways[w][0], y + ways[w][1], piece)
                    && has(it, x + 2 * ways[w][0], y + 2 * ways[w][1], piece)) return 1;
    return 0;
}

static void put_stone(const position *from, position *to, int cell) {
    handed_on(from, to)->board[cell] = from->role;
    if (has_line(to, from->role)) to->ahead = from->role;
}

static int free_successors(const position *from, position *to) {
    int count = 0;
    if (from->ahead != 0) return 0;
    for (int cell = 0; cell < cells; cell++)
        if (from->board[cell] == 0) put_stone(from, &to[count++], cell);
    return count;
}

static int connect_successors(const position *from, position *to) {
    int count = 0;
    if (from->ahead != 0) return 0;
    for (int x = 0; x < width; x++) {
        int y = 0;
        while (y < height && !has(from, x, y, 0)) y++;
        if (y < height) put_stone(from, &to[count++], y * width + x);
    }
    return count;
}

/* Breakthrough with a row of pawns each: whoever moved last is ahead. */

static void break_start(position *it) {
    for (int x = 0; x < width; x++) {
        it->board[x] = 1;
        it->board[cells - 1 - x] = 2;
    }
}

static int break_successors(const position *from, position *to) {
    int role = from->role, other = 3 - role, up = role == 1 ? 1 : -1, count = 0;
    for (int x = 0; x < width; x++)
        if (has(from, x, role == 1 ? 0 : height - 1, other)) return 0;
    for (int cell = 0; cell < cells; cell++)
        for (int side = -1; side <= 1 && from->board[cell] == role; side++) {
            int x = cell % width + side, y = cell / width + up;
            if (!has(from, x, y, 0) && !(side != 0 && has(from, x, y, other))) continue;
            position *it = handed_on(from, &to[count++]);
            it->board[cell] = 0;
            it->board[y * width + x] = (uint8_t)role;
            it->ahead = (uint8_t)role;
        }
    return count;
}

/* King and rook, 1 and 2, of white against the king 3 of black: white is ahead while black stands in check. */

static void rook_start(position *it) {
    it->board[0] = 1;
    it->board[1] = 2;
    it->board[width * (height - 2) + width - 1] = 3;
}

static int cell_with(const position *it, int piece) {
    int cell = 0;
    while (cell < cells && it->board[cell] != piece) cell++;
    return cell;
}

static int are_beside(int one, int other) {
    return abs(one % width - other % width) <= 1 && abs(one / width - other / width) <= 1;
}

/* Whether the rook has an open line to this cell. */
static int is_attacked(const position *it, int cell) {
    static const int ways[4][2] = {{1, 0}, {-1, 0}, {0, 1}, {0, -1}};
    for (int w = 0; w < 4; w++) {
        int x = cell % width + ways[w][0], y = cell / width + ways[w][1];
        while (has(it, x, y, 0)) x += ways[w][0], y += ways[w][1];
        if (has(it, x, y, 2)) return 1;
    }
    return 0;
}

static int king_moves(const position *from, position *to, int king, int taken, int other) {
    int cell = cell_with(from, king), count = 0;
    for (int next = 0; next < cells; next++) {
        int is_free = from->board[next] == 0 || (taken != 0 && from->board[next] == taken);
        if (!is_free || !are_beside(cell, next) || are_beside(next, cell_with(from, other))) continue;
        position *it = handed_on(from, &to[count]);
        it->board[cell] = 0;
        it->board[next] = (uint8_t)king;
        count += king == 1 || !is_attacked(it, next);
    }
    return count;
}

static int rook_moves(const position *from, position *to) {
    static const int ways[4][2] = {{1, 0}, {-1, 0}, {0, 1}, {0, -1}};
    int cell = cell_with(from, 2), count = 0;
    for (int w = 0; w < 4 && cell < cells; w++)
        for (int k = 1; has(from, cell % width + k * ways[w][0], cell / width + k * ways[w][1], 0); k++) {
            position *it = handed_on(from, &to[count++]);
            it->board[cell] = 0;
            it->board[cell + k * (ways[w][1] * width + ways[w][0])] = 2;
        }
    return count;
}

static int rook_successors(const position *from, position *to) {
    int is_white = from->role == 1, count = is_white ? king_moves(from, to, 1, 0, 3) : king_moves(from, to, 3, 2, 1);
    if (is_white) count += rook_moves(from, to + count);
    for (int k = 0; k < count; k++) to[k].ahead = is_white && is_attacked(&to[k], cell_with(&to[k], 3));
    return count;
}

static const game games[] = {
    {"count", empty_start, count_successors}, {"connect", empty_start, connect_successors}, {"free", empty_start, free_successors},
    {"break", break_start, break_successors}, {"rook", rook_start, rook_successors},
};

static int by_bytes(const void *one, const void *other) { return memcmp(one, other, (size_t)length); }

/* The packed successors of a packed position, in the order of their bytes. */
static int packed_successors(const uint8_t *packed, uint8_t (*next)[LONGEST]) {
    position from, to[MOST_SUCCESSORS];
    int count = 1;
    unpack(packed, &from);
    if (from.role == 0 && cells != 0) handed_on(&from, to);
    else count = played->successors(&from, to);
    for (int k = 0; k < count; k++) pack(&to[k], next[k]);
    if (count > 1) qsort(next, (size_t)count, LONGEST, by_bytes);
    return count;
}

static void packed_start(uint8_t *packed) {
    position it;
    memset(&it, 0, sizeof it);
    played->start(&it);
    pack(&it, packed);
}

/* The game of these words, as `connect` and `3x10`, and so many bytes for a position. */
static int is_game(const char *name, const char *size, const char *bytes) {
    for (size_t k = 0; k < sizeof games / sizeof *games; k++)
        if (strcmp(games[k].name, name) == 0) played = &games[k];
    if (played == &games[0]) bound = (uint32_t)atol(size);
    else if (sscanf(size, "%dx%d", &width, &height) != 2) return 0;
    cells = width * height;
    length = atoi(bytes);
    return played != 0 && cells >= 0 && cells <= MOST_CELLS && length >= (cells == 0 ? 5 : (cells + 3) / 4 + 1) && length <= LONGEST;
}
