/*
 * Cells, steel and routes in a milking stall: the calls of libstall.a, for C99 and C++.
 *
 * `tools/staticlib stall` proves the library and writes target/staticlib/libstall.a. docs/FORMAT.md has the formats whole: the
 * file's bits, the map, when a cell is filled, routes, and what to do about each limit.
 *
 * Common to all calls
 * -------------------
 * - A buffer passes as a pointer and then its length in elements. The pointer points to so many elements, for reading
 *   where it is const. What is written overlaps nothing that is read.
 * - A pointer may be NULL where its length is 0.
 * - Lengths and record numbers are 64 bits wide on every machine.
 * - There is no global state, no allocation and no lock. Calls on different buffers may run at the same time.
 * - Every input is answered: a bad one with a refusal, and then every buffer holds what it held before.
 * - Bytes and numbers behind what a call writes keep their contents.
 * - Stack use: see docs/PERFORMANCE.md.
 * - What the archive asks of the program that links it: on x86-64 memset; on a Cortex-M3 __aeabi_ldivmod, which libgcc has,
 *   and __aeabi_memclr, __aeabi_memclr8 and __aeabi_memcpy, which a C library has. `nm -u libstall.a` lists them.
 *
 * The answer is one number of 64 bits:
 *
 *   bits 63 to 56   the tag (enum stall_tags)
 *   bits 55 to 48   the limit's number (enum stall_limits), where the tag is STALL_REFUSED; else 0
 *   bits 47 to 32   the leg, where the tag is STALL_BLOCKED; else 0
 *   bits 31 to 0    a count, a place or a cell, by the tag; 0 for STALL_FREE
 *
 * The functions at the end take it apart.
 */
#ifndef STALL_H
#define STALL_H

#include <stdint.h>

#ifdef __cplusplus
extern "C" {
#endif

/* The longest file, in bytes: 4,095 triangles. */
#define STALL_FILE_MOST 65532
/* The longest map, in bytes: 64 x 64 x 64 cells. */
#define STALL_MAP_MOST 32768
/* The most points of a route. */
#define STALL_POINTS_MOST 64
/* How many numbers stall_read writes: the header's, and the header's with a record's. */
#define STALL_HEADER_NUMBERS 9
#define STALL_READ_NUMBERS 19

/* The top byte of an answer. */
enum stall_tags {
    STALL_DONE = 0,    /* done; the low 32 bits count filled cells, records, or numbers written, by the call */
    STALL_REFUSED = 1, /* every call: the number of the limit, and the place in the low 32 bits */
    STALL_FREE = 2,    /* stall_route: no leg touches a filled cell */
    STALL_BLOCKED = 3, /* stall_route: the first leg that touches one; the low 32 bits are the one that it reaches first */
    STALL_SHORT = 4    /* stall_read: `out` is too short; the low 32 bits count the numbers wanted */
};

/* The limits. The first that the input breaks is the answer, in this order. The place is 0 but for two of them. */
enum stall_limits {
    STALL_LIMIT_SHORT_HEADER = 1,  /* the file has fewer than 12 bytes */
    STALL_LIMIT_VERSION = 2,       /* the version is not 1 */
    STALL_LIMIT_ZERO_EDGE = 3,     /* the cell edge is 0 */
    STALL_LIMIT_RESERVED_BITS = 4, /* the header's last 12 bits are not zero */
    STALL_LIMIT_EXTENT = 5,        /* on some axis the grid reaches beyond 8,191 */
    STALL_LIMIT_FILE_LENGTH = 6,   /* the file's length is not 12 + 16 x count */
    STALL_LIMIT_UNUSED_KIND = 7,   /* a record's kind is 3; place: the lowest such record, from 0 */
    STALL_LIMIT_SHORT_MAP = 8,     /* the map buffer is shorter than the map (every call but stall_read) */
    STALL_LIMIT_POINT_COUNT = 9,   /* not 2 to 64 points, or numbers left over (stall_route) */
    STALL_LIMIT_POINT_OUTSIDE = 10 /* a point outside the grid; place: the lowest such point, from 0 (stall_route) */
};

/* The kind of a record. All kinds fill cells alike: a gate is an obstacle, open or shut. */
enum stall_kinds { STALL_KIND_FRAME = 0, STALL_KIND_ENTRY_GATE = 1, STALL_KIND_EXIT_GATE = 2 };

/* Where the numbers of a reading stand in `out`. */
enum stall_numbers {
    STALL_AT_VERSION = 0,
    STALL_AT_CELLS = 1, /* along x, y and z */
    STALL_AT_EDGE = 4,
    STALL_AT_ORIGIN = 5, /* x, y and z */
    STALL_AT_COUNT = 8,  /* the triangles */
    STALL_AT_KIND = 9,
    STALL_AT_CORNERS = 10 /* x, y and z of corner 0, of corner 1, of corner 2 */
};

/*
 * Fills the map of a frame file.
 *
 * With nx, ny, nz cells the map takes nx x ny x nz bits, rounded up to bytes, at most STALL_MAP_MOST. Cell (i, j, k) has
 * the number n = i + nx x (j + ny x k), and is bit 7 - n % 8 of byte n / 8. Unused bits of the last byte are 0.
 *
 * Answer: STALL_DONE with the number of filled cells, or a refusal by limits 1 to 8.
 */
uint64_t stall_fill(const uint8_t *file, uint64_t file_len, uint8_t *map, uint64_t map_len);

/*
 * The same fill in steps, for a caller that must do other work between them, as kick a watchdog. Begin, then some records
 * at a time until every record has had its turn, in any order, then end: the map and the count are those of stall_fill.
 * Each call asks the file its questions again, so that a file is never trusted: take ranges of records, not single ones.
 *
 * stall_fill_begin   empties the map; STALL_DONE with the number of records
 * stall_fill_some    fills the cells of `count` records from number `first` on, and leaves the other cells as they are;
 *                    STALL_DONE with the number of these records that the file has, 0 where it has none
 * stall_fill_end     writes nothing; STALL_DONE with the number of filled cells
 *
 * Each answers with a refusal by limits 1 to 8 instead, and then writes nothing.
 */
uint64_t stall_fill_begin(const uint8_t *file, uint64_t file_len, uint8_t *map, uint64_t map_len);
uint64_t stall_fill_some(const uint8_t *file, uint64_t file_len, uint8_t *map, uint64_t map_len, uint64_t first,
                         uint64_t count);
uint64_t stall_fill_end(const uint8_t *file, uint64_t file_len, const uint8_t *map, uint64_t map_len);

/*
 * Tests a route of the arm on the map of a frame file, as stall_fill left it. Writes nothing.
 *
 * `numbers` holds x, y, z of each point, 2 to STALL_POINTS_MOST points; numbers_len counts numbers, not points. Leg m joins
 * point m to point m + 1, from 0.
 *
 * The cells are read from the lent map as it is: any bytes are taken as a map, and the answer is about those bits on this
 * file's grid. That a free route meets no triangle of the file is promised only for a map that stall_fill, or begin, some
 * and end with every record, made from this very file, and that was not changed since. No call can see where a map came
 * from: fill it again whenever the file may be another.
 *
 * Answer: STALL_FREE; or STALL_BLOCKED with the leg and the cell; or a refusal by limits 1 to 10.
 *
 * The leg is the first that touches a filled cell. The cell is, of the filled ones that this leg touches, the one that it
 * reaches first: by the least fraction of the leg, from its first point on, whose point lies in the cell's closed cube.
 * Fractions are compared exactly. Of several cells reached at once it is the one with the lowest number.
 */
uint64_t stall_route(const uint8_t *file, uint64_t file_len, const uint8_t *map, uint64_t map_len, const int16_t *numbers,
                     uint64_t numbers_len);

/*
 * Reads the header's values and one record of a frame file.
 *
 * Written to the start of `out`: version, cells along x, y, z, cell edge, origin x, y, z, triangle count; and behind these,
 * where the file has the record, its kind (enum stall_kinds) and x, y, z of its three corners. enum stall_numbers has
 * their places. Records are counted from 0; no file has record 4,095, so that asking for it reads the header alone.
 *
 * Answer: STALL_DONE with the numbers written, STALL_READ_NUMBERS, or STALL_HEADER_NUMBERS where there is no such record;
 * STALL_SHORT with the numbers wanted, where out_len is less: then nothing is written; or a refusal by limits 1 to 7.
 */
uint64_t stall_read(const uint8_t *file, uint64_t file_len, uint64_t record, int32_t *out, uint64_t out_len);

/* The tag of an answer: one of enum stall_tags. */
static inline unsigned stall_tag(uint64_t answer)
{
    return (unsigned)(answer >> 56);
}

/* The number of the limit, of a refusal: one of enum stall_limits. */
static inline unsigned stall_number(uint64_t answer)
{
    return (unsigned)(answer >> 48 & 0xff);
}

/* The place, of a refusal. */
static inline uint32_t stall_place(uint64_t answer)
{
    return (uint32_t)(answer & 0xffffffffu);
}

/* The filled cells of a fill, the records of a step, or the numbers of a reading. */
static inline uint32_t stall_count(uint64_t answer)
{
    return (uint32_t)(answer & 0xffffffffu);
}

/* The leg, of a blocked route. */
static inline unsigned stall_leg(uint64_t answer)
{
    return (unsigned)(answer >> 32 & 0xffff);
}

/* The cell number, of a blocked route. */
static inline uint32_t stall_cell(uint64_t answer)
{
    return (uint32_t)(answer & 0xffffffffu);
}

/*
 * The place (i, j, k) of a cell, counted from 0 along x, y and z, in a grid with nx and ny cells along x and y: 1 to 64, as
 * stall_read gives them from STALL_AT_CELLS on. In millimetres, the cell's closed box begins on the x axis at the origin's
 * x plus i times the edge, and is one edge long; on the y and z axes likewise, with j and k.
 */

/* The place along x. */
static inline uint32_t stall_cell_i(uint32_t cell, int32_t nx)
{
    return cell % (uint32_t)nx;
}

/* The place along y. */
static inline uint32_t stall_cell_j(uint32_t cell, int32_t nx, int32_t ny)
{
    return cell / (uint32_t)nx % (uint32_t)ny;
}

/* The place along z. */
static inline uint32_t stall_cell_k(uint32_t cell, int32_t nx, int32_t ny)
{
    return cell / (uint32_t)nx / (uint32_t)ny;
}

/* A limit in words, for a message. Any number has a text. */
static inline const char *stall_limit_text(uint32_t limit)
{
    switch (limit) {
    case STALL_LIMIT_SHORT_HEADER:
        return "the file has fewer than 12 bytes";
    case STALL_LIMIT_VERSION:
        return "the file's version is not 1";
    case STALL_LIMIT_ZERO_EDGE:
        return "the cell edge is 0";
    case STALL_LIMIT_RESERVED_BITS:
        return "the header's last 12 bits are not zero";
    case STALL_LIMIT_EXTENT:
        return "the grid reaches beyond 8,191 mm";
    case STALL_LIMIT_FILE_LENGTH:
        return "the file's length does not fit its triangle count";
    case STALL_LIMIT_UNUSED_KIND:
        return "a record has the unused kind 3";
    case STALL_LIMIT_SHORT_MAP:
        return "the map buffer is too short for the grid";
    case STALL_LIMIT_POINT_COUNT:
        return "a route needs 2 to 64 points of three numbers each";
    case STALL_LIMIT_POINT_OUTSIDE:
        return "a point of the route lies outside the grid";
    default:
        return "no limit of this library has this number";
    }
}

#ifdef __cplusplus
}
#endif

#endif
