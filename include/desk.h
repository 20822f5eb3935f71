/*
 * Frame files for the drawing office and the service laptop: the calls of libdesk.a, for C99 and C++.
 *
 * `tools/staticlib desk` proves the library and writes target/staticlib/libdesk.a. docs/FORMAT.md has the formats whole: the
 * file's bits, a scanner's PLY file, and what to do about each limit. A program may use this header and library beside
 * stall.h and libstall.a.
 *
 * Common to all calls
 * -------------------
 * - A buffer passes as a pointer and then its length in elements. The pointer points to so many elements, for reading
 *   where it is const. What is written overlaps nothing that is read.
 * - A pointer may be NULL where its length is 0.
 * - Lengths and cell numbers are 64 bits wide on every machine.
 * - There is no global state, no allocation and no lock. Calls on different buffers may run at the same time.
 * - Every input is answered: a bad one with a refusal, and then every buffer holds what it held before.
 * - Bytes and numbers behind what a call writes keep their contents.
 * - Stack use: see docs/PERFORMANCE.md.
 * - What the archive asks of the program that links it: nothing. `nm -u libdesk.a` lists it.
 *
 * The answer is one number of 64 bits:
 *
 *   bits 63 to 56   the tag (enum desk_tags)
 *   bits 55 to 48   the limit's number (enum desk_limits), where the tag is DESK_REFUSED; else 0
 *   bits 47 to 32   0
 *   bits 31 to 0    a length, a record, a place or a count, by the tag and the call; 0 for DESK_CLEAR
 *
 * The functions at the end take it apart.
 */
#ifndef DESK_H
#define DESK_H

#include <stdint.h>

#ifdef __cplusplus
extern "C" {
#endif

/* The most triangles of a file, and the longest file, in bytes. */
#define DESK_TRIANGLES_MOST 4095
#define DESK_FILE_MOST 65532
/* The numbers of a grid, and of a triangle. */
#define DESK_GRID_NUMBERS 7
#define DESK_TRIANGLE_NUMBERS 10
/* The weights of a triangle that desk_bar writes: one a corner. */
#define DESK_WEIGHTS 3

/* The top byte of an answer. */
enum desk_tags {
    DESK_DONE = 0,    /* done; the low 32 bits are the length of what was written, or the number of a record, by the call */
    DESK_REFUSED = 1, /* every call: the number of the limit, and the place in the low 32 bits */
    DESK_SHORT = 4,   /* desk_bar: `weights` is too short; the low 32 bits count the weights wanted */
    DESK_CLEAR = 5    /* desk_bar: no triangle reaches the cell */
};

/*
 * The limits. The first that the input breaks is the answer: desk_write asks for 12, then 11; desk_scan for 12 to 15 in
 * this order, then 11; desk_bar for 1 to 7 in this order, then 16. The place is 0 but for three of them. Numbers 1 to 10
 * are those of stall.h.
 */
enum desk_limits {
    DESK_LIMIT_SHORT_HEADER = 1,  /* the file has fewer than 12 bytes */
    DESK_LIMIT_VERSION = 2,       /* the version is not 1 */
    DESK_LIMIT_ZERO_EDGE = 3,     /* the cell edge is 0 */
    DESK_LIMIT_RESERVED_BITS = 4, /* the header's last 12 bits are not zero */
    DESK_LIMIT_EXTENT = 5,        /* on some axis the grid reaches beyond 8,191 */
    DESK_LIMIT_FILE_LENGTH = 6,   /* the file's length is not 12 + 16 x count */
    DESK_LIMIT_UNUSED_KIND = 7,   /* a record's kind is 3; place: the lowest such record, from 0 */
    DESK_LIMIT_SHORT_OUTPUT = 11, /* the output is shorter than the file */
    DESK_LIMIT_UNWRITABLE = 12,   /* a value outside its field, a far corner above 8,191, or a wrong list of triangles */
    DESK_LIMIT_PLY_FORM = 13,     /* another header form, more than 4,095 faces, or a body of another length */
    DESK_LIMIT_PLY_VERTEX = 14,   /* a vertex's number is no corner's; place: the lowest such vertex, from 0 */
    DESK_LIMIT_PLY_FACE = 15,     /* a face has not three corners of the file; place: the lowest such face, from 0 */
    DESK_LIMIT_CELL_OUTSIDE = 16  /* the cell number is not in the grid */
};

/* The kind of a triangle. All kinds fill cells alike: a gate is an obstacle, open or shut. */
enum desk_kinds { DESK_KIND_FRAME = 0, DESK_KIND_ENTRY_GATE = 1, DESK_KIND_EXIT_GATE = 2 };

/* Where the numbers of a grid stand in `grid`. */
enum desk_grid_numbers {
    DESK_AT_CELLS = 0, /* along x, y and z: 1 to 64 */
    DESK_AT_EDGE = 3,  /* the edge of a cell, in millimetres: 1 to 255 */
    DESK_AT_ORIGIN = 4 /* x, y and z of the lowest corner: -8,192 to 8,191 */
};

/* Where the numbers of a triangle stand in its ten. */
enum desk_triangle_numbers {
    DESK_AT_KIND = 0,   /* enum desk_kinds */
    DESK_AT_CORNERS = 1 /* x, y and z of corner 0, of corner 1, of corner 2: -8,192 to 8,191 */
};

/*
 * Writes a frame file.
 *
 * `grid` has DESK_GRID_NUMBERS numbers; on each axis origin + cells x edge is at most 8,191. `triangles` has
 * DESK_TRIANGLE_NUMBERS numbers for each triangle, at most DESK_TRIANGLES_MOST triangles; triangles_len counts numbers, not
 * triangles. The file is written to the start of `out`. It has 12 + 16 x triangles bytes: see desk_file_length.
 *
 * Answer: DESK_DONE with the file's length; or a refusal by limit 12 where a number is outside its field, a far corner is
 * above 8,191, the grid has another number of numbers, or the list has too many triangles or a part of one; then by limit
 * 11 where `out` is shorter than the file.
 */
uint64_t desk_write(const int32_t *grid, uint64_t grid_len, const int32_t *triangles, uint64_t triangles_len, uint8_t *out,
                    uint64_t out_len);

/*
 * Writes the frame file of a frame that was measured with a scanner.
 *
 * `ply` is a PLY file in binary little-endian 1.0. Its header is these lines, each ended by one line feed, with one space
 * between words and nothing else:
 *
 *   ply
 *   format binary_little_endian 1.0
 *   element vertex N
 *   property T x
 *   property T y
 *   property T z
 *   element face M
 *   property list uchar int vertex_indices
 *   end_header
 *
 * N and M are one or more decimal digits, and may begin with zeros. M is at most DESK_TRIANGLES_MOST. Each T is float (4
 * bytes), double (8) or int (4, signed); the axes may differ. Comment lines may stand anywhere behind the first line: the
 * word comment alone, or the word, a space and anything up to the line feed. Behind the header are N vertices, M faces and
 * nothing else. A vertex is its x, y and z, in millimetres. A face is a byte that counts its corners, three, and for each
 * of them the number of a vertex, from 0, as an int.
 *
 * Each number becomes the nearest whole millimetre, and a half goes to the even one: 0.5 to 0, 1.5 to 2, -2.5 to -2. A
 * number of type float or int is widened to a double first, without loss. Every vertex must be from -8,192 to 8,191 then,
 * also one that no face uses.
 *
 * `grid` has DESK_GRID_NUMBERS numbers, as for desk_write. Triangle k is face k, with its corners in the face's order, and
 * its kind is DESK_KIND_FRAME. What is written to the start of `out` is what desk_write would write from the grid and these
 * triangles: 12 + 16 x M bytes, at most DESK_FILE_MOST.
 *
 * Answer: DESK_DONE with the length of the file written; or a refusal by limit 12 where desk_write would refuse the grid,
 * whatever its triangles; then by limit 13 where the header has another form, there are too many faces, or the body's
 * length is not that of the vertices and of the faces by their own counts; then by limit 14 with the lowest vertex that has
 * a number which is infinite, not a number, or outside -8,192 to 8,191 once rounded; then by limit 15 with the lowest face
 * that has not three corners, or an index that is negative or not below N; then by limit 11 where `out` is shorter than the
 * file. A vertex's number is said modulo 2^32, which matters for files of 51 GB and more.
 */
uint64_t desk_scan(const uint8_t *ply, uint64_t ply_len, const int32_t *grid, uint64_t grid_len, uint8_t *out,
                   uint64_t out_len);

/*
 * Says which triangle of a frame file, which bar of the steel, is behind a cell.
 *
 * A triangle reaches a cell where some point of it, its border included, lies in the cell's closed cube: exactly where it
 * fills the cell. Cell (i, j, k) of a grid with nx, ny, nz cells has the number i + nx x (j + ny x k). Of the triangles
 * that reach the cell, the one with the lowest record number is named. Records are counted from 0.
 *
 * Written to the start of `weights`, where there is such a triangle: DESK_WEIGHTS weights, w0, w1, w2, one for each corner
 * v0, v1, v2 of its record. None is negative, and W = w0 + w1 + w2 is at least 1 and less than 2^30. The weighted point
 * (w0 x v0 + w1 x v1 + w2 x v2) / W lies in the cell's closed cube. Which weights are written, of those of which this
 * holds, is left open.
 *
 * Answer: DESK_DONE with the record's number; DESK_CLEAR where no triangle reaches the cell; DESK_SHORT with DESK_WEIGHTS,
 * where one does and weights_len is less; or a refusal by limits 1 to 7, and then by limit 16 where the grid has no cell of
 * this number. Nothing is written but with DESK_DONE.
 */
uint64_t desk_bar(const uint8_t *file, uint64_t file_len, uint64_t cell, int64_t *weights, uint64_t weights_len);

/* The length in bytes of a file with so many triangles. */
static inline uint64_t desk_file_length(uint64_t triangles)
{
    return 12 + 16 * triangles;
}

/* The tag of an answer: one of enum desk_tags. */
static inline unsigned desk_tag(uint64_t answer)
{
    return (unsigned)(answer >> 56);
}

/* The length in bytes of what was written. */
static inline uint32_t desk_length(uint64_t answer)
{
    return (uint32_t)(answer & 0xffffffffu);
}

/* The number of the record, of a bar: from 0. */
static inline uint32_t desk_record(uint64_t answer)
{
    return (uint32_t)(answer & 0xffffffffu);
}

/* The number of the limit, of a refusal: one of enum desk_limits. */
static inline unsigned desk_number(uint64_t answer)
{
    return (unsigned)(answer >> 48 & 0xff);
}

/* The place, of a refusal. */
static inline uint32_t desk_place(uint64_t answer)
{
    return (uint32_t)(answer & 0xffffffffu);
}

/* A limit in words, for a message. Any number has a text. */
static inline const char *desk_limit_text(uint32_t limit)
{
    switch (limit) {
    case DESK_LIMIT_SHORT_HEADER:
        return "the file has fewer than 12 bytes";
    case DESK_LIMIT_VERSION:
        return "the file's version is not 1";
    case DESK_LIMIT_ZERO_EDGE:
        return "the cell edge is 0";
    case DESK_LIMIT_RESERVED_BITS:
        return "the header's last 12 bits are not zero";
    case DESK_LIMIT_EXTENT:
        return "the grid reaches beyond 8,191 mm";
    case DESK_LIMIT_FILE_LENGTH:
        return "the file's length does not fit its triangle count";
    case DESK_LIMIT_UNUSED_KIND:
        return "a record has the unused kind 3";
    case DESK_LIMIT_SHORT_OUTPUT:
        return "the output is too short for the file";
    case DESK_LIMIT_UNWRITABLE:
        return "a value, the grid's far corner or the list of triangles does not fit a file";
    case DESK_LIMIT_PLY_FORM:
        return "the PLY file has another header form, too many faces or a length that does not fit them";
    case DESK_LIMIT_PLY_VERTEX:
        return "a vertex of the PLY file is infinite, not a number, or outside -8,192 to 8,191 mm once rounded";
    case DESK_LIMIT_PLY_FACE:
        return "a face of the PLY file has not three corners, or an index that no vertex has";
    case DESK_LIMIT_CELL_OUTSIDE:
        return "the cell number is not in the grid";
    default:
        return "no limit of this library has this number";
    }
}

#ifdef __cplusplus
}
#endif

#endif
