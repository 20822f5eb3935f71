/*
 * Tests both libraries in one program, through both headers: what libdesk.a writes, from numbers and from a scanner's file,
 * libstall.a reads, fills and tests routes on, and libdesk.a shows the bars behind what is filled.
 * Prints a line with the totals; the exit status is 1 where a check failed.
 */
#include "desk.h"
#include "stall.h"

#include "check.h"
#include "ply.h"

#include <string.h>

/* The grid of the worked examples, row g of the frame, and an exit gate far outside. */
static const int32_t GRID[DESK_GRID_NUMBERS] = {2, 2, 2, 10, 0, 0, 0};
static const int32_t TRIANGLES[2 * DESK_TRIANGLE_NUMBERS] = {
    DESK_KIND_FRAME,     1,     20,   5, 20,    20,   5, 20,    1,    5,
    DESK_KIND_EXIT_GATE, -8192, 8191, 0, -8192, 8191, 1, -8192, 8191, 2,
};

/* Names that mean the same have the same values. */
static void names(void)
{
    CHECK("names", (int)STALL_DONE == (int)DESK_DONE && (int)STALL_REFUSED == (int)DESK_REFUSED);
    CHECK("names", (int)STALL_SHORT == (int)DESK_SHORT);
    for (uint32_t limit = STALL_LIMIT_SHORT_HEADER; limit <= STALL_LIMIT_UNUSED_KIND; limit++) {
        CHECK("names", strcmp(stall_limit_text(limit), desk_limit_text(limit)) == 0);
    }
    CHECK("names", (int)STALL_KIND_FRAME == (int)DESK_KIND_FRAME);
    CHECK("names", (int)STALL_KIND_ENTRY_GATE == (int)DESK_KIND_ENTRY_GATE);
    CHECK("names", (int)STALL_KIND_EXIT_GATE == (int)DESK_KIND_EXIT_GATE);
    CHECK("names", STALL_FILE_MOST == DESK_FILE_MOST);
    CHECK("names", (int)STALL_READ_NUMBERS - (int)STALL_AT_KIND == DESK_TRIANGLE_NUMBERS);
}

/* What is written reads back as the values given. */
static void reads(const uint8_t *file, uint64_t file_len)
{
    for (uint64_t i = 0; i < 2; i++) {
        int32_t numbers[STALL_READ_NUMBERS];
        CHECK("reads", stall_read(file, file_len, i, numbers, STALL_READ_NUMBERS) == STALL_READ_NUMBERS);
        CHECK("reads", numbers[STALL_AT_VERSION] == 1 && numbers[STALL_AT_COUNT] == 2);
        for (unsigned j = 0; j < DESK_GRID_NUMBERS; j++) {
            CHECK("reads", numbers[STALL_AT_CELLS + j] == GRID[j]);
        }
        for (unsigned j = 0; j < DESK_TRIANGLE_NUMBERS; j++) {
            CHECK("reads", numbers[STALL_AT_KIND + j] == TRIANGLES[DESK_TRIANGLE_NUMBERS * i + j]);
        }
    }
}

/* A bar is behind each cell of a map that is filled, and behind no other. */
static void bars(const uint8_t *file, uint64_t file_len, uint8_t map)
{
    for (uint64_t cell = 0; cell < 8; cell++) {
        int64_t weights[DESK_WEIGHTS];
        uint64_t answer = desk_bar(file, file_len, cell, weights, DESK_WEIGHTS);
        CHECK("bars", desk_tag(answer) == (unsigned)(map >> (7 - cell) & 1 ? DESK_DONE : DESK_CLEAR));
    }
}

/* What is scanned reads back as the rounded vertices, in the faces' order, and fills the cells of row g. */
static void scans(void)
{
    static const char *const types[3] = {"float", "double", "int"};
    static const int32_t corners[9] = {20, 1, 5, 1, 20, 5, 20, 20, 5};
    static struct ply ply;
    uint8_t file[28], map[1];
    int32_t numbers[STALL_READ_NUMBERS];
    ply_header(&ply, "3", types, "1");
    for (int i = 0; i < 3; i++) {
        /* each is a quarter beside a corner of row g, or a half beside an even number */
        ply_float(&ply, i == 0 ? 1.25f : 20.5f);
        ply_double(&ply, i == 2 ? 0.75 : 19.5);
        ply_int(&ply, 5);
    }
    ply_face(&ply, 2, 0, 1);
    uint64_t answer = desk_scan(ply.bytes, ply.length, GRID, DESK_GRID_NUMBERS, file, sizeof file);
    CHECK("scans", desk_tag(answer) == DESK_DONE && desk_length(answer) == desk_file_length(1));
    CHECK("scans", stall_read(file, sizeof file, 0, numbers, STALL_READ_NUMBERS) == STALL_READ_NUMBERS);
    CHECK("scans", numbers[STALL_AT_COUNT] == 1 && numbers[STALL_AT_KIND] == STALL_KIND_FRAME);
    for (unsigned i = 0; i < 9; i++) {
        CHECK("scans", numbers[STALL_AT_CORNERS + i] == corners[i]);
    }
    CHECK("scans", stall_count(stall_fill(file, sizeof file, map, 1)) == 3 && map[0] == 0x70);
    bars(file, sizeof file, map[0]);
}

/* Writes, reads, fills, shows bars, tests a route, scans. */
int main(void)
{
    static const int16_t free_low[6] = {0, 0, 0, 9, 9, 0};
    uint8_t file[60], map[1];
    uint64_t answer = desk_write(GRID, DESK_GRID_NUMBERS, TRIANGLES, 2 * DESK_TRIANGLE_NUMBERS, file, sizeof file);
    CHECK("writes", desk_tag(answer) == DESK_DONE && desk_length(answer) == desk_file_length(2));
    names();
    reads(file, desk_length(answer));
    CHECK("fills", stall_count(stall_fill(file, desk_length(answer), map, 1)) == 3 && map[0] == 0x70);
    bars(file, desk_length(answer), map[0]);
    CHECK("routes", stall_tag(stall_route(file, desk_length(answer), map, 1, free_low, 6)) == STALL_FREE);
    scans();
    return totals();
}
