/* For `graph.c`: the store in memory, which keeps nothing. */

typedef struct {
    uint32_t predecessor, next;
} edge;

static uint8_t *cell_room;
static uint32_t *buckets, *chains, *first_edges, *order, room, edge_count, edge_room;
static edge *all_edges;

static void open_store(const char *file) { (void)file; }
static void begin(void) {}
static void commit(void) {}
static uint32_t checked(void) { return 0; }

static void *grown(void *old, size_t size) {
    void *it = realloc(old, size);
    check(it != 0, "memory");
    return it;
}

static uint8_t *cell_at(uint32_t number) { return cell_room + (size_t)number * (size_t)(length + 16); }

/* There are as many buckets as there is room for positions, a power of two. */
static uint32_t *bucket_of(const uint8_t *packed) {
    uint64_t mixed = 14695981039346656037u;
    for (int k = 0; k < length; k++) mixed = (mixed ^ packed[k]) * 1099511628211u;
    return &buckets[(uint32_t)(mixed >> 20) & (room - 1)];
}

static void link_in(const uint8_t *packed, uint32_t number) {
    uint32_t *bucket = bucket_of(packed);
    chains[number] = *bucket;
    *bucket = number;
}

static void double_room(uint32_t known) {
    room = room ? 2 * room : 1024;
    cell_room = grown(cell_room, (size_t)room * (size_t)(length + 16));
    buckets = grown(buckets, room * sizeof *buckets);
    chains = grown(chains, room * sizeof *chains);
    first_edges = grown(first_edges, room * sizeof *first_edges);
    order = grown(order, room * sizeof *order);
    memset(buckets, 255, room * sizeof *buckets);
    for (uint32_t number = 0; number < known; number++) link_in(cell_at(number), number);
}

static uint32_t find(const uint8_t *packed) {
    uint32_t number = *bucket_of(packed);
    while (number != NONE && memcmp(cell_at(number), packed, (size_t)length) != 0) number = chains[number];
    return number;
}

static void put_position(const uint8_t *packed, uint32_t number) {
    if (number == room) double_room(number);
    link_in(packed, number);
    first_edges[number] = NONE;
}

static void put_record(uint32_t number, const uint8_t *packed, const record *kept) { cell_of(cell_at(number), packed, kept); }
static void get_record(uint32_t number, uint8_t *packed, record *kept) { cell_in(cell_at(number), packed, kept); }

/* Predecessors come in ascending order, so that the last is put at the end. */
static void put_edge(uint32_t successor, uint32_t predecessor) {
    if (edge_count == edge_room) {
        edge_room = 2 * edge_room + 1024;
        all_edges = grown(all_edges, edge_room * sizeof *all_edges);
    }
    uint32_t *at = &first_edges[successor];
    while (*at != NONE) at = &all_edges[*at].next;
    *at = edge_count;
    all_edges[edge_count++] = (edge){predecessor, NONE};
}

static uint32_t next_edge(uint32_t successor, int64_t after) {
    uint32_t at = first_edges[successor];
    while (at != NONE && all_edges[at].predecessor <= after) at = all_edges[at].next;
    return at == NONE ? NONE : all_edges[at].predecessor;
}

static void put_order(uint32_t place, uint32_t number) { order[place] = number; }
static uint32_t get_order(uint32_t place) { return order[place]; }
