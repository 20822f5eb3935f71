/*
 * Tests libstall.a from C through include/stall.h: the worked examples, every limit, null pointers, bytes behind what is
 * written, and the header's own functions.
 * Prints a line a group and a line with the totals; the exit status is 1 where a check failed.
 */
#include "stall.h" /* first, so that it is seen to need nothing before it */

#include "check.h"
#include "frame.h"

/* ---- the worked rows: a grid of 2 x 2 x 2 cells of edge 10, one triangle, one byte of map */

struct row {
    const char *name;
    long corners[9];
    uint8_t map;
    unsigned count;
};

static const struct row ROWS[] = {
    {"a", {5, 5, 5, 5, 5, 5, 5, 5, 5}, 0x80, 1},         {"b", {10, 5, 5, 10, 5, 5, 10, 5, 5}, 0xc0, 2},
    {"c", {10, 10, 10, 10, 10, 10, 10, 10, 10}, 0xff, 8}, {"d", {20, 5, 5, 20, 5, 5, 20, 5, 5}, 0x40, 1},
    {"e", {21, 5, 5, 21, 5, 5, 21, 5, 5}, 0x00, 0},       {"f", {0, 20, 5, 20, 20, 5, 20, 0, 5}, 0xf0, 4},
    {"g", {1, 20, 5, 20, 20, 5, 20, 1, 5}, 0x70, 3},      {"h", {30, 0, 0, 0, 30, 0, 0, 0, 30}, 0xff, 8},
    {"i", {31, 0, 0, 0, 31, 0, 0, 0, 31}, 0x7f, 7},
};

static const struct row *const G = &ROWS[6];

/* The frame file of a row. */
static struct frame worked(const struct row *row)
{
    struct frame f = header(1, 2, 10, 0, 1);
    record(&f, 0, row->corners);
    return f;
}

/* Row a has the printed bytes, and each row fills its map; a file with no triangle empties it. */
static void rows(void)
{
    static const uint8_t printed[28] = {0x10, 0x41, 0x04, 0x28, 0x00, 0x00, 0x00, 0x00, 0x00, 0x00, 0x10, 0x00, 0x00, 0x05,
                                        0x00, 0x14, 0x00, 0x50, 0x01, 0x40, 0x05, 0x00, 0x14, 0x00, 0x50, 0x01, 0x40, 0x05};
    struct frame a = worked(&ROWS[0]);
    CHECK("rows", length(&a) == 28 && memcmp(a.bytes, printed, 28) == 0);
    for (size_t i = 0; i < sizeof ROWS / sizeof ROWS[0]; i++) {
        const struct row *row = &ROWS[i];
        struct frame f = worked(row);
        uint8_t map[4] = {0xaa, 0xaa, 0xaa, 0xaa};
        uint64_t answer = stall_fill(f.bytes, length(&f), map, sizeof map);
        check(stall_tag(answer) == STALL_DONE && stall_count(answer) == row->count, "rows", row->name, __LINE__);
        check(map[0] == row->map, "rows", row->name, __LINE__);
        check(map[1] == 0xaa && map[2] == 0xaa && map[3] == 0xaa, "rows: bytes behind", row->name, __LINE__);
    }
    struct frame none = header(1, 2, 10, 0, 0);
    uint8_t map[1] = {0xaa};
    CHECK("rows", stall_fill(none.bytes, length(&none), map, 1) == 0);
    CHECK("rows", map[0] == 0);
    puts("c: worked rows");
}

/* ---- the fill in steps: two triangles, in any order, into a map that had other cells */

/* Both orders give the whole map; records that the file has not fill nothing. */
static void steps(void)
{
    struct frame f = header(1, 2, 10, 0, 2);
    record(&f, 0, G->corners);
    record(&f, 2, ROWS[0].corners);
    size_t len = length(&f);
    for (uint64_t first = 0; first < 2; first++) {
        uint8_t map[2] = {0x0f, 0xaa};
        CHECK("steps", stall_fill_begin(f.bytes, len, map, 2) == 2 && map[0] == 0 && map[1] == 0xaa);
        CHECK("steps", stall_fill_some(f.bytes, len, map, 2, first, 1) == 1);
        CHECK("steps", map[0] == (first == 0 ? G->map : ROWS[0].map) && map[1] == 0xaa);
        CHECK("steps", stall_fill_some(f.bytes, len, map, 2, 1 - first, 1) == 1);
        CHECK("steps", map[0] == (G->map | ROWS[0].map) && map[1] == 0xaa);
        CHECK("steps", stall_fill_end(f.bytes, len, map, 2) == 4);
        CHECK("steps", stall_fill(f.bytes, len, map, 2) == 4 && map[0] == (G->map | ROWS[0].map));
    }
    uint8_t map[1] = {0x08};
    CHECK("steps", stall_fill_some(f.bytes, len, map, 1, 2, 1) == 0 && map[0] == 0x08);
    CHECK("steps", stall_fill_some(f.bytes, len, map, 1, UINT64_MAX, UINT64_MAX) == 0 && map[0] == 0x08);
    CHECK("steps", stall_fill_some(f.bytes, len, map, 1, 0, 0) == 0 && map[0] == 0x08);
    CHECK("steps", stall_fill_some(f.bytes, len, map, 1, 0, UINT64_MAX) == 2 && map[0] == (0x08 | G->map | ROWS[0].map));
    CHECK("steps", stall_fill_end(f.bytes, len, map, 1) == 5);
    puts("c: fill in steps");
}

/* ---- the worked routes, on the map of g */

/* The route test of g's file with a map of one byte, and with its own. */
static uint64_t route_with(uint8_t map, const int16_t *numbers, size_t count)
{
    struct frame f = worked(G);
    return stall_route(f.bytes, length(&f), &map, 1, numbers, count);
}

static uint64_t route_on_g(const int16_t *numbers, size_t count)
{
    return route_with(G->map, numbers, count);
}

/* Free routes and blocked ones, on the map of g and on bytes that are no map of g. */
static void routes(void)
{
    static const int16_t free_low[6] = {0, 0, 0, 9, 9, 0}, blocked_low[6] = {0, 0, 0, 10, 10, 0};
    static const int16_t free_high[6] = {5, 5, 15, 15, 15, 15}, blocked_high[6] = {5, 5, 10, 15, 15, 10};
    static const int16_t edge[6] = {0, 0, 15, 20, 20, 20}, second[9] = {0, 0, 0, 9, 9, 0, 20, 20, 0};
    static const int16_t back[6] = {20, 20, 5, 0, 0, 5};
    CHECK("routes", stall_tag(route_on_g(free_low, 6)) == STALL_FREE);
    CHECK("routes", route_on_g(free_low, 6) == (uint64_t)STALL_FREE << 56);
    uint64_t answer = route_on_g(blocked_low, 6);
    CHECK("routes", stall_tag(answer) == STALL_BLOCKED && stall_leg(answer) == 0 && stall_cell(answer) == 1);
    CHECK("routes", stall_tag(route_on_g(free_high, 6)) == STALL_FREE);
    answer = route_on_g(blocked_high, 6);
    CHECK("routes", stall_tag(answer) == STALL_BLOCKED && stall_leg(answer) == 0 && stall_cell(answer) == 1);
    answer = route_on_g(back, 6);
    CHECK("routes", stall_tag(answer) == STALL_BLOCKED && stall_leg(answer) == 0 && stall_cell(answer) == 3);
    CHECK("routes", stall_tag(route_on_g(edge, 6)) == STALL_FREE);
    answer = route_on_g(second, 9);
    CHECK("routes", stall_tag(answer) == STALL_BLOCKED && stall_leg(answer) == 1 && stall_cell(answer) == 1);
    CHECK("routes", stall_tag(route_with(0x00, second, 9)) == STALL_FREE);
    answer = route_with(0x80, free_low, 6);
    CHECK("routes", stall_tag(answer) == STALL_BLOCKED && stall_leg(answer) == 0 && stall_cell(answer) == 0);
    puts("c: worked routes");
}

/* ---- the cell that is named: the filled one that the leg reaches first, and of several reached at once the lowest */

struct leg {
    const char *name;
    uint8_t map;
    int16_t numbers[6];
    uint32_t cell, cell_turned; /* that the leg names, and the leg turned round */
};

static const struct leg LEGS[] = {
    {"through the corner of all cells", 0xff, {0, 0, 0, 20, 20, 20}, 0, 7},
    {"to six cells at once", 0x7e, {0, 0, 0, 20, 20, 20}, 1, 1},
    {"through the edge of four cells", 0xf0, {20, 20, 5, 0, 0, 5}, 3, 0},
    {"along faces", 0xff, {10, 3, 5, 10, 17, 5}, 0, 2},
    {"along faces, one cell empty", 0xd0, {10, 3, 5, 10, 17, 5}, 0, 3},
    {"along edges", 0xff, {10, 10, 2, 10, 10, 18}, 0, 4},
    {"along edges, three cells empty", 0x1f, {10, 10, 2, 10, 10, 18}, 3, 4},
    {"from steel into steel", 0xff, {15, 15, 15, 1, 2, 3}, 7, 0},
    {"on x", 0xc0, {0, 5, 5, 20, 5, 5}, 0, 1},
    {"on y", 0xa0, {5, 0, 5, 5, 20, 5}, 0, 2},
    {"on z", 0x88, {5, 5, 0, 5, 5, 20}, 0, 4},
    {"of equal points", 0x03, {10, 10, 10, 10, 10, 10}, 6, 6},
};

/* Whether an answer is blocked by leg 0 at a cell. */
static int is_blocked_at(uint64_t answer, uint32_t cell)
{
    return answer == ((uint64_t)STALL_BLOCKED << 56 | cell);
}

/* Each leg, and the same turned round. */
static void named_cells(void)
{
    for (size_t i = 0; i < sizeof LEGS / sizeof LEGS[0]; i++) {
        const struct leg *leg = &LEGS[i];
        const int16_t *n = leg->numbers;
        const int16_t turned[6] = {n[3], n[4], n[5], n[0], n[1], n[2]};
        check(is_blocked_at(route_with(leg->map, n, 6), leg->cell), "named cells", leg->name, __LINE__);
        check(is_blocked_at(route_with(leg->map, turned, 6), leg->cell_turned), "turned round", leg->name, __LINE__);
    }
    puts("c: named cells");
}

/* ---- the limits */

/* Every call that can meet the limit gives its number and place, and leaves what it was lent as it was. */
static void refuses(const uint8_t *file, size_t file_len, size_t map_len, unsigned number, uint32_t place, int line)
{
    static const int16_t numbers[6] = {0, 0, 0, 0, 0, 0};
    uint8_t map[2] = {0xaa, 0xaa};
    int32_t out[20];
    for (int i = 0; i < 20; i++) {
        out[i] = 77;
    }
    uint64_t wanted = (uint64_t)STALL_REFUSED << 56 | (uint64_t)number << 48 | place;
    uint64_t answer = stall_fill(file, file_len, map, map_len);
    check(answer == wanted, "limits", "stall_fill", line);
    check(stall_tag(answer) == STALL_REFUSED && stall_number(answer) == number && stall_place(answer) == place, "limits",
          "the parts of an answer", line);
    check(stall_route(file, file_len, map, map_len, numbers, 6) == wanted, "limits", "stall_route", line);
    check(stall_fill_begin(file, file_len, map, map_len) == wanted, "limits", "stall_fill_begin", line);
    check(stall_fill_some(file, file_len, map, map_len, 0, 1) == wanted, "limits", "stall_fill_some", line);
    check(stall_fill_end(file, file_len, map, map_len) == wanted, "limits", "stall_fill_end", line);
    check(map[0] == 0xaa && map[1] == 0xaa, "limits", "the map is as it was", line);
    if (number != STALL_LIMIT_SHORT_MAP) {
        check(stall_read(file, file_len, 0, out, 20) == wanted, "limits", "stall_read", line);
        check(stall_read(file, file_len, 0, out, 0) == wanted, "limits", "stall_read with no room", line);
    }
    for (int i = 0; i < 20; i++) {
        check(out[i] == 77, "limits", "out is as it was", line);
    }
}

/* Limits 1 to 8, on both sides of each where it has two. */
static void limits(void)
{
    struct frame g = worked(G);
    refuses(g.bytes, 0, 2, STALL_LIMIT_SHORT_HEADER, 0, __LINE__);
    refuses(g.bytes, 11, 2, STALL_LIMIT_SHORT_HEADER, 0, __LINE__);
    struct frame f = header(2, 2, 10, 0, 0);
    refuses(f.bytes, 12, 2, STALL_LIMIT_VERSION, 0, __LINE__);
    f = header(1, 2, 0, 0, 0);
    refuses(f.bytes, 12, 2, STALL_LIMIT_ZERO_EDGE, 0, __LINE__);
    f = header(1, 2, 10, 0, 0);
    f.bytes[11] = 1;
    refuses(f.bytes, 12, 2, STALL_LIMIT_RESERVED_BITS, 0, __LINE__);
    f = header(1, 33, 255, 0, 0);
    refuses(f.bytes, 12, 2, STALL_LIMIT_EXTENT, 0, __LINE__);
    refuses(g.bytes, 27, 2, STALL_LIMIT_FILE_LENGTH, 0, __LINE__);
    refuses(g.bytes, 29, 2, STALL_LIMIT_FILE_LENGTH, 0, __LINE__);
    f = header(1, 2, 10, 0, 3);
    record(&f, 2, G->corners);
    record(&f, 3, G->corners);
    record(&f, 3, G->corners);
    refuses(f.bytes, length(&f), 2, STALL_LIMIT_UNUSED_KIND, 1, __LINE__);
    refuses(f.bytes, length(&f), 0, STALL_LIMIT_UNUSED_KIND, 1, __LINE__);
    refuses(g.bytes, length(&g), 0, STALL_LIMIT_SHORT_MAP, 0, __LINE__);
    f = header(1, 32, 255, 0, 0);
    refuses(f.bytes, 12, 2, STALL_LIMIT_SHORT_MAP, 0, __LINE__);
    puts("c: limits 1 to 8");
}

/* Limits 9 and 10, of the route test alone. */
static void point_limits(void)
{
    int16_t numbers[195] = {0};
    const uint64_t nine = (uint64_t)STALL_REFUSED << 56 | (uint64_t)STALL_LIMIT_POINT_COUNT << 48;
    const uint64_t ten = (uint64_t)STALL_REFUSED << 56 | (uint64_t)STALL_LIMIT_POINT_OUTSIDE << 48;
    CHECK("points", route_on_g(numbers, 0) == nine);
    CHECK("points", route_on_g(numbers, 3) == nine);
    CHECK("points", route_on_g(numbers, 7) == nine);
    CHECK("points", route_on_g(numbers, 195) == nine);
    CHECK("points", stall_tag(route_on_g(numbers, 6)) == STALL_FREE);
    CHECK("points", stall_tag(route_on_g(numbers, 192)) == STALL_FREE);
    numbers[3] = 21;
    CHECK("points", route_on_g(numbers, 6) == (ten | 1));
    numbers[2] = -1;
    CHECK("points", route_on_g(numbers, 6) == ten);
    puts("c: limits 9 and 10");
}

/* ---- null pointers, each with length 0 */

/* Whether an answer is a refusal by this limit, with place 0. */
static int is_refusal(uint64_t answer, unsigned number)
{
    return answer == ((uint64_t)STALL_REFUSED << 56 | (uint64_t)number << 48);
}

/* No file. */
static void null_files(void)
{
    static const int16_t numbers[6] = {0, 0, 0, 0, 0, 0};
    uint8_t map[1] = {0xaa};
    int32_t out[STALL_READ_NUMBERS] = {77};
    CHECK("null file", is_refusal(stall_fill(NULL, 0, map, 1), STALL_LIMIT_SHORT_HEADER));
    CHECK("null file", is_refusal(stall_fill_begin(NULL, 0, map, 1), STALL_LIMIT_SHORT_HEADER));
    CHECK("null file", is_refusal(stall_fill_some(NULL, 0, map, 1, 0, 1), STALL_LIMIT_SHORT_HEADER));
    CHECK("null file", is_refusal(stall_fill_end(NULL, 0, map, 1), STALL_LIMIT_SHORT_HEADER));
    CHECK("null file", is_refusal(stall_route(NULL, 0, map, 1, numbers, 6), STALL_LIMIT_SHORT_HEADER));
    CHECK("null file", is_refusal(stall_read(NULL, 0, 0, out, STALL_READ_NUMBERS), STALL_LIMIT_SHORT_HEADER));
    CHECK("null file", map[0] == 0xaa && out[0] == 77);
    CHECK("all null", is_refusal(stall_fill(NULL, 0, NULL, 0), STALL_LIMIT_SHORT_HEADER));
    CHECK("all null", is_refusal(stall_fill_begin(NULL, 0, NULL, 0), STALL_LIMIT_SHORT_HEADER));
    CHECK("all null", is_refusal(stall_fill_some(NULL, 0, NULL, 0, 0, 1), STALL_LIMIT_SHORT_HEADER));
    CHECK("all null", is_refusal(stall_fill_end(NULL, 0, NULL, 0), STALL_LIMIT_SHORT_HEADER));
    CHECK("all null", is_refusal(stall_route(NULL, 0, NULL, 0, NULL, 0), STALL_LIMIT_SHORT_HEADER));
    CHECK("all null", is_refusal(stall_read(NULL, 0, 0, NULL, 0), STALL_LIMIT_SHORT_HEADER));
}

/* No map, no numbers, no room for a reading. */
static void null_others(void)
{
    static const int16_t numbers[6] = {0, 0, 0, 0, 0, 0};
    struct frame f = worked(G);
    size_t len = length(&f);
    CHECK("null map", is_refusal(stall_fill(f.bytes, len, NULL, 0), STALL_LIMIT_SHORT_MAP));
    CHECK("null map", is_refusal(stall_fill_begin(f.bytes, len, NULL, 0), STALL_LIMIT_SHORT_MAP));
    CHECK("null map", is_refusal(stall_fill_some(f.bytes, len, NULL, 0, 0, 1), STALL_LIMIT_SHORT_MAP));
    CHECK("null map", is_refusal(stall_fill_end(f.bytes, len, NULL, 0), STALL_LIMIT_SHORT_MAP));
    CHECK("null map", is_refusal(stall_route(f.bytes, len, NULL, 0, numbers, 6), STALL_LIMIT_SHORT_MAP));
    CHECK("null numbers", is_refusal(route_on_g(NULL, 0), STALL_LIMIT_POINT_COUNT));
    uint64_t answer = stall_read(f.bytes, len, 0, NULL, 0);
    CHECK("null out", stall_tag(answer) == STALL_SHORT && stall_count(answer) == STALL_READ_NUMBERS);
    answer = stall_read(f.bytes, len, 1, NULL, 0);
    CHECK("null out", stall_tag(answer) == STALL_SHORT && stall_count(answer) == STALL_HEADER_NUMBERS);
}

/* Every call takes a null pointer where its length is 0. */
static void nulls(void)
{
    null_files();
    null_others();
    puts("c: null pointers");
}

/* ---- the header's own functions */

/* The cells of a grid with three different sides, in the order of their numbers, have their places. */
static void places(void)
{
    const int32_t nx = 64, ny = 3, nz = 5;
    uint32_t cell = 0;
    for (uint32_t k = 0; k < (uint32_t)nz; k++) {
        for (uint32_t j = 0; j < (uint32_t)ny; j++) {
            for (uint32_t i = 0; i < (uint32_t)nx; i++, cell++) {
                CHECK("places", stall_cell_i(cell, nx) == i);
                CHECK("places", stall_cell_j(cell, nx, ny) == j);
                CHECK("places", stall_cell_k(cell, nx, ny) == k);
            }
        }
    }
    puts("c: places of cells");
}

/* Each limit has a text of its own, and every other number the same one. */
static void texts(void)
{
    const char *other = stall_limit_text(0);
    for (uint32_t limit = STALL_LIMIT_SHORT_HEADER; limit <= STALL_LIMIT_POINT_OUTSIDE; limit++) {
        CHECK("texts", strlen(stall_limit_text(limit)) > 0 && strcmp(stall_limit_text(limit), other) != 0);
        for (uint32_t before = STALL_LIMIT_SHORT_HEADER; before < limit; before++) {
            CHECK("texts", strcmp(stall_limit_text(limit), stall_limit_text(before)) != 0);
        }
    }
    CHECK("texts", strlen(other) > 0);
    CHECK("texts", strcmp(stall_limit_text(STALL_LIMIT_POINT_OUTSIDE + 1), other) == 0);
    CHECK("texts", strcmp(stall_limit_text(UINT32_MAX), other) == 0);
    puts("c: texts of limits");
}

/* ---- the plain reading */

/* The numbers of a reading stand at the places that the header names. */
static void number_places(void)
{
    struct frame f = header(1, 2, 10, -7, 1);
    int32_t out[STALL_READ_NUMBERS];
    record(&f, STALL_KIND_EXIT_GATE, G->corners);
    CHECK("places", stall_count(stall_read(f.bytes, length(&f), 0, out, STALL_READ_NUMBERS)) == STALL_READ_NUMBERS);
    CHECK("places", out[STALL_AT_VERSION] == 1 && out[STALL_AT_EDGE] == 10 && out[STALL_AT_COUNT] == 1);
    CHECK("places", out[STALL_AT_KIND] == STALL_KIND_EXIT_GATE);
    for (int axis = 0; axis < 3; axis++) {
        CHECK("places", out[STALL_AT_CELLS + axis] == 2 && out[STALL_AT_ORIGIN + axis] == -7);
    }
    for (int i = 0; i < 9; i++) {
        CHECK("places", out[STALL_AT_CORNERS + i] == G->corners[i]);
    }
}

/* Each record, and none, into buffers of every length up to one more than is wanted. */
static void readings(void)
{
    struct frame f = header(1, 2, 10, -7, 2);
    static const long low[9] = {-8192, 8191, 0, 1, 2, 3, -4, -5, -6};
    record(&f, 1, low);
    record(&f, 2, G->corners);
    static const int32_t head[9] = {1, 2, 2, 2, 10, -7, -7, -7, 2};
    for (size_t i = 0; i < 4; i++) {
        for (size_t room = 0; room <= 20; room++) {
            int32_t out[21];
            for (int j = 0; j < 21; j++) {
                out[j] = 77;
            }
            size_t wanted = i < 2 ? STALL_READ_NUMBERS : STALL_HEADER_NUMBERS;
            uint64_t answer = stall_read(f.bytes, length(&f), i, out, room);
            CHECK("reading", stall_tag(answer) == (room < wanted ? STALL_SHORT : STALL_DONE));
            CHECK("reading", stall_count(answer) == wanted);
            size_t written = room < wanted ? 0 : wanted;
            const long *corners = i == 0 ? low : G->corners;
            for (size_t j = 0; j < 21; j++) {
                int32_t now = j >= written ? 77 : j < 9 ? head[j] : j == 9 ? (int32_t)i + 1 : (int32_t)corners[j - 10];
                CHECK("reading", out[j] == now);
            }
        }
    }
    number_places();
    puts("c: plain reading");
}

/* Every group in turn, and the totals. */
int main(void)
{
    rows();
    steps();
    routes();
    named_cells();
    limits();
    point_limits();
    nulls();
    readings();
    places();
    texts();
    return totals();
}
