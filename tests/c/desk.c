/*
 * Tests libdesk.a from C through include/desk.h: the worked file, every field at its borders, lists and outputs of every
 * length that matters, scanner files, bars behind cells, every limit, null pointers, bytes and numbers behind what is
 * written, and the header's own functions.
 * Prints a line a group and a line with the totals; the exit status is 1 where a check failed.
 */
#include "desk.h" /* first, so that it is seen to need nothing before it */

#include "check.h"
#include "frame.h"
#include "ply.h"

/* The numbers of a grid and of the longest list, with some more of each, and room for every file. */
struct given {
    int32_t grid[DESK_GRID_NUMBERS + 1];
    int32_t triangles[DESK_TRIANGLE_NUMBERS * (DESK_TRIANGLES_MOST + 1)];
    uint64_t grid_len, triangles_len;
};

static struct given given;
static uint8_t out[DESK_FILE_MOST + 16];

/* The grid of the worked examples, and so many triangles of row g. */
static void worked(uint64_t count)
{
    static const int32_t grid[DESK_GRID_NUMBERS + 1] = {2, 2, 2, 10, 0, 0, 0, 0};
    static const int32_t g[DESK_TRIANGLE_NUMBERS] = {0, 1, 20, 5, 20, 20, 5, 20, 1, 5};
    memcpy(given.grid, grid, sizeof grid);
    for (size_t i = 0; i < count; i++) {
        memcpy(given.triangles + DESK_TRIANGLE_NUMBERS * i, g, sizeof g);
    }
    given.grid_len = DESK_GRID_NUMBERS;
    given.triangles_len = DESK_TRIANGLE_NUMBERS * count;
}

/* The answer with this room, and whether the bytes behind what is written are as they were. */
static uint64_t answer_in(uint64_t room, int *kept)
{
    memset(out, 0xaa, sizeof out);
    uint64_t answer = desk_write(given.grid, given.grid_len, given.triangles, given.triangles_len, out, room);
    size_t end = desk_tag(answer) == DESK_DONE ? desk_length(answer) : 0;
    *kept = 1;
    for (size_t i = end; i < sizeof out; i++) {
        *kept &= out[i] == 0xaa;
    }
    return answer;
}

/* Whether what is given is written into this room, to a file of its length. */
static int writes(uint64_t room)
{
    int kept;
    uint64_t answer = answer_in(room, &kept);
    return kept && answer == desk_file_length(given.triangles_len / DESK_TRIANGLE_NUMBERS);
}

/* Whether it is refused by this limit, and nothing is written. */
static int refuses(uint64_t room, unsigned number)
{
    int kept;
    uint64_t answer = answer_in(room, &kept);
    return kept && desk_tag(answer) == DESK_REFUSED && desk_number(answer) == number && desk_place(answer) == 0 &&
           answer == ((uint64_t)DESK_REFUSED << 56 | (uint64_t)number << 48);
}

/* ---- the bytes */

/* The worked file, byte for byte, and the one with no triangle. */
static void bytes(void)
{
    static const uint8_t printed[28] = {0x10, 0x41, 0x04, 0x28, 0x00, 0x00, 0x00, 0x00, 0x00, 0x00, 0x10, 0x00, 0x00, 0x05,
                                        0x00, 0x14, 0x00, 0x50, 0x01, 0x40, 0x05, 0x00, 0x14, 0x00, 0x50, 0x01, 0x40, 0x05};
    worked(1);
    for (int i = DESK_AT_CORNERS; i < DESK_TRIANGLE_NUMBERS; i++) {
        given.triangles[i] = 5;
    }
    CHECK("bytes", writes(sizeof out) && memcmp(out, printed, 28) == 0);
    worked(0);
    struct frame none = header(1, 2, 10, 0, 0);
    CHECK("bytes", writes(sizeof out) && memcmp(out, none.bytes, 12) == 0);
    puts("c: worked bytes");
}

/* Each number at its place: all of them different. */
static void places(void)
{
    static const int32_t grid[DESK_GRID_NUMBERS] = {3, 14, 64, 27, -8192, 5000, -7};
    static const long corners[9] = {-8192, 8191, -1, 0, 1, 4096, -4097, 77, -78};
    struct frame f;
    memset(&f, 0, sizeof f);
    put(&f, 4, 1);
    worked(3);
    for (int i = 0; i < DESK_GRID_NUMBERS; i++) {
        given.grid[i] = grid[i];
        put(&f, i < DESK_AT_EDGE ? 6 : i == DESK_AT_EDGE ? 8 : 14, i < DESK_AT_EDGE ? grid[i] - 1 : grid[i]);
    }
    put(&f, 12, 3);
    put(&f, 12, 0);
    for (int kind = DESK_KIND_FRAME; kind <= DESK_KIND_EXIT_GATE; kind++) {
        int32_t *triangle = given.triangles + DESK_TRIANGLE_NUMBERS * kind;
        triangle[DESK_AT_KIND] = kind;
        for (int i = 0; i < 9; i++) {
            triangle[DESK_AT_CORNERS + i] = (int32_t)corners[i];
        }
        record(&f, kind, corners);
    }
    CHECK("places", writes(sizeof out) && length(&f) == 60 && memcmp(out, f.bytes, 60) == 0);
    puts("c: places of numbers");
}

/* ---- limit 12 */

/* A number of what is given is written from low to high, and refused beyond. */
static void borders(int32_t *number, int32_t low, int32_t high, int line)
{
    const int32_t inside[4] = {low, low + 1, high - 1, high}, outside[4] = {low - 1, high + 1, INT32_MIN, INT32_MAX};
    const int32_t before = *number;
    for (int i = 0; i < 4; i++) {
        *number = inside[i];
        check(writes(sizeof out), "borders", "a value in its field", line);
        check(refuses(0, DESK_LIMIT_SHORT_OUTPUT), "borders", "a value in its field, no room", line);
        *number = outside[i];
        check(refuses(sizeof out, DESK_LIMIT_UNWRITABLE), "borders", "a value outside its field", line);
        check(refuses(0, DESK_LIMIT_UNWRITABLE), "borders", "a value outside its field, no room", line);
    }
    *number = before;
}

/* Every number of the grid, and of the first and the last of three triangles. */
static void fields(void)
{
    worked(3);
    for (int axis = 0; axis < 3; axis++) {
        borders(&given.grid[DESK_AT_CELLS + axis], 1, 64, __LINE__);
    }
    borders(&given.grid[DESK_AT_EDGE], 1, 255, __LINE__);
    for (int axis = 0; axis < 3; axis++) {
        /* two cells of 10 mm end at 8,191 */
        borders(&given.grid[DESK_AT_ORIGIN + axis], -8192, 8171, __LINE__);
    }
    for (int i = 0; i < DESK_TRIANGLE_NUMBERS; i++) {
        const int32_t low = i == DESK_AT_KIND ? 0 : -8192, high = i == DESK_AT_KIND ? 2 : 8191;
        borders(&given.triangles[i], low, high, __LINE__);
        borders(&given.triangles[2 * DESK_TRIANGLE_NUMBERS + i], low, high, __LINE__);
    }
    puts("c: limit 12, fields");
}

/* Far corners, on each axis: from origin 0 on, 32 cells of 255 mm reach 8,160. */
static void far_corners(void)
{
    for (int axis = 0; axis < 3; axis++) {
        worked(1);
        given.grid[DESK_AT_CELLS] = given.grid[DESK_AT_CELLS + 1] = given.grid[DESK_AT_CELLS + 2] = 1;
        given.grid[DESK_AT_EDGE] = 255;
        borders(&given.grid[DESK_AT_CELLS + axis], 1, 32, __LINE__);
        given.grid[DESK_AT_CELLS + axis] = 32;
        borders(&given.grid[DESK_AT_ORIGIN + axis], -8192, 31, __LINE__);
    }
    puts("c: limit 12, far corners");
}

/* Grids of 0 to 8 numbers, parts of triangles, and lists at the most triangles. */
static void lists(void)
{
    worked(1);
    for (given.grid_len = 0; given.grid_len <= DESK_GRID_NUMBERS + 1; given.grid_len++) {
        CHECK("lists", given.grid_len == DESK_GRID_NUMBERS ? writes(28) : refuses(28, DESK_LIMIT_UNWRITABLE));
    }
    worked(2);
    for (given.triangles_len = 0; given.triangles_len <= 20; given.triangles_len++) {
        CHECK("lists", given.triangles_len % 10 == 0 ? writes(sizeof out) : refuses(sizeof out, DESK_LIMIT_UNWRITABLE));
    }
    worked(DESK_TRIANGLES_MOST);
    CHECK("lists", writes(DESK_FILE_MOST) && writes(sizeof out));
    CHECK("lists", refuses(DESK_FILE_MOST - 1, DESK_LIMIT_SHORT_OUTPUT));
    given.triangles_len--;
    CHECK("lists", refuses(sizeof out, DESK_LIMIT_UNWRITABLE));
    worked(DESK_TRIANGLES_MOST + 1);
    CHECK("lists", refuses(sizeof out, DESK_LIMIT_UNWRITABLE) && refuses(0, DESK_LIMIT_UNWRITABLE));
    given.triangles_len -= 9;
    CHECK("lists", refuses(sizeof out, DESK_LIMIT_UNWRITABLE));
    puts("c: limit 12, lists");
}

/* ---- limit 11 */

/* Outputs of every length up to one more than the file. */
static void outputs(void)
{
    for (uint64_t count = 0; count < 3; count++) {
        worked(count);
        for (uint64_t room = 0; room <= desk_file_length(count) + 1; room++) {
            CHECK("outputs", room < desk_file_length(count) ? refuses(room, DESK_LIMIT_SHORT_OUTPUT) : writes(room));
        }
    }
    puts("c: limit 11");
}

/* ---- scanner files */

static struct ply ply;
static uint8_t same[DESK_FILE_MOST + 16];

static const char *const INTS[3] = {"int", "int", "int"};
/* The numbers of the worked vertices: three of row g and a far one. */
static const int32_t VERTICES[4][3] = {{1, 20, 5}, {20, 20, 5}, {20, 1, 5}, {-8192, 8191, 0}};

/* The worked vertices, and the faces of row g and of the far one. */
static void worked_body(void)
{
    for (int i = 0; i < 4; i++) {
        for (int axis = 0; axis < 3; axis++) {
            ply_int(&ply, VERTICES[i][axis]);
        }
    }
    ply_face(&ply, 0, 1, 2);
    ply_face(&ply, 3, 0, 3);
}

/* The worked scanner file: whole numbers. */
static void worked_ply(void)
{
    ply_header(&ply, "4", INTS, "2");
    worked_body();
}

/* A scanner file of so many vertices (0, 0, 0), with no face behind them yet. */
static void flat_ply(const char *vertices, unsigned count, const char *faces)
{
    ply_header(&ply, vertices, INTS, faces);
    for (unsigned i = 0; i < 3 * count; i++) {
        ply_int(&ply, 0);
    }
}

/* The answer to the scanner file with this room, and whether the bytes behind what is written are as they were. */
static uint64_t scan_in(uint64_t room, int *kept)
{
    const size_t lent = room + 16 < sizeof out ? (size_t)room + 16 : sizeof out;
    memset(out, 0xaa, lent);
    uint64_t answer = desk_scan(ply.bytes, ply.length, given.grid, given.grid_len, out, room);
    size_t end = desk_tag(answer) == DESK_DONE ? desk_length(answer) : 0;
    *kept = 1;
    for (size_t i = end; i < lent; i++) {
        *kept &= out[i] == 0xaa;
    }
    return answer;
}

/* Whether the scanner file gives what desk_write writes from what is given, into this room. */
static int scans(uint64_t room)
{
    int kept;
    uint64_t answer = scan_in(room, &kept);
    uint64_t wanted = desk_write(given.grid, given.grid_len, given.triangles, given.triangles_len, same, sizeof same);
    return kept && answer == wanted && desk_tag(wanted) == DESK_DONE && memcmp(out, same, (size_t)desk_length(wanted)) == 0;
}

/* Whether it is refused by this limit with this place, and nothing is written. */
static int refuses_scan(uint64_t room, unsigned number, uint32_t place)
{
    int kept;
    uint64_t answer = scan_in(room, &kept);
    return kept && answer == ((uint64_t)DESK_REFUSED << 56 | (uint64_t)number << 48 | place);
}

/* The worked grid, and the triangles of the worked scanner file. */
static void worked_scan(void)
{
    static const int corners[2][3] = {{0, 1, 2}, {3, 0, 3}};
    worked(2);
    for (int i = 0; i < 2; i++) {
        int32_t *triangle = given.triangles + DESK_TRIANGLE_NUMBERS * i;
        triangle[DESK_AT_KIND] = DESK_KIND_FRAME;
        for (int j = 0; j < 3; j++) {
            memcpy(triangle + DESK_AT_CORNERS + 3 * j, VERTICES[corners[i][j]], sizeof VERTICES[0]);
        }
    }
}

/* The worked scanner file, byte for byte; no face, no vertex. */
static void scan_bytes(void)
{
    static const uint8_t printed[44] = {0x10, 0x41, 0x04, 0x28, 0x00, 0x00, 0x00, 0x00, 0x00, 0x00, 0x20,
                                        0x00, 0x00, 0x01, 0x00, 0x50, 0x00, 0x50, 0x05, 0x00, 0x14, 0x00,
                                        0x14, 0x01, 0x40, 0x00, 0x40, 0x05, 0x20, 0x00, 0x7f, 0xfc, 0x00,
                                        0x00, 0x00, 0x40, 0x14, 0x00, 0x16, 0x00, 0x07, 0xff, 0xc0, 0x00};
    int kept;
    worked_scan();
    worked_ply();
    CHECK("scan bytes", scan_in(44, &kept) == 44 && kept && memcmp(out, printed, 44) == 0);
    CHECK("scan bytes", scans(44) && scans(sizeof out));
    worked(0);
    flat_ply("0", 0, "0");
    CHECK("scan bytes", scans(12));
    flat_ply("1", 1, "0");
    CHECK("scan bytes", scans(12));
    puts("c: scanned bytes");
}

/* Every choice of types: on each axis its own numbers, of two vertices. */
static void scan_types(void)
{
    static const char *const names[3] = {"float", "double", "int"};
    static const double numbers[2][3] = {{-8192.0, 8190.75, 1.5}, {17.25, -0.5, -4096.5}};
    static const int32_t rounded[2][3] = {{-8192, 8191, 2}, {17, 0, -4096}};
    worked(1);
    for (int choice = 0; choice < 27; choice++) {
        const int types[3] = {choice % 3, choice / 3 % 3, choice / 9};
        const char *const chosen[3] = {names[types[0]], names[types[1]], names[types[2]]};
        ply_header(&ply, "2", chosen, "1");
        for (int i = 0; i < 2; i++) {
            for (int axis = 0; axis < 3; axis++) {
                if (types[axis] == 0) {
                    ply_float(&ply, (float)numbers[i][axis]);
                } else if (types[axis] == 1) {
                    ply_double(&ply, numbers[i][axis]);
                } else {
                    ply_int(&ply, rounded[i][axis]);
                }
            }
        }
        ply_face(&ply, 1, 0, 1);
        for (int i = 0; i < 9; i++) {
            given.triangles[DESK_AT_CORNERS + i] = rounded[i / 3 % 2 ? 0 : 1][i % 3];
        }
        CHECK("scan types", scans(28));
        ply.length--;
        CHECK("scan types", refuses_scan(28, DESK_LIMIT_PLY_FORM, 0));
    }
    puts("c: types of numbers");
}

/* Whether a vertex with this number on each axis in turn, else 7, is written with it rounded; or is refused by limit 14. */
static int rounds(const char *type, unsigned bytes, uint64_t bits, int good, int32_t rounded)
{
    int all = 1;
    worked(1);
    for (int axis = 0; axis < 3; axis++) {
        const char *const types[3] = {axis == 0 ? type : "int", axis == 1 ? type : "int", axis == 2 ? type : "int"};
        ply_header(&ply, "2", types, "1");
        for (int i = 0; i < 6; i++) {
            if (i % 3 != axis) {
                ply_int(&ply, 7);
            } else {
                ply_bits(&ply, bytes, i < 3 ? 0 : bits);
            }
        }
        ply_face(&ply, 1, 1, 1);
        for (int i = 0; i < 9; i++) {
            given.triangles[DESK_AT_CORNERS + i] = i % 3 == axis ? rounded : 7;
        }
        all &= good ? scans(28) : refuses_scan(28, DESK_LIMIT_PLY_VERTEX, 1);
    }
    return all;
}

static int double_bits(uint64_t bits, int good, int32_t rounded)
{
    return rounds("double", 8, bits, good, rounded);
}

static int float_bits(uint32_t bits, int good, int32_t rounded)
{
    return rounds("float", 4, bits, good, rounded);
}

/* A number of type double, and of both signs. */
static int as_double(double number, int good, int32_t rounded)
{
    uint64_t bits;
    memcpy(&bits, &number, sizeof bits);
    return double_bits(bits, good, rounded) && double_bits(bits ^ UINT64_C(1) << 63, good, -rounded);
}

/* The same of type float. */
static int as_float(float number, int good, int32_t rounded)
{
    uint32_t bits;
    memcpy(&bits, &number, sizeof bits);
    return float_bits(bits, good, rounded) && float_bits(bits ^ UINT32_C(1) << 31, good, -rounded);
}

/* The nearest whole number, and the even one of a half. */
static void scan_rounding(void)
{
    static const struct {
        double number;
        int32_t rounded;
    } rows[] = {
        {0.0, 0},       {0.25, 0},      {0.5, 0},       {0.75, 1},       {1.0, 1},       {1.5, 2},
        {2.5, 2},       {3.5, 4},       {4.5, 4},       {99.5, 100},     {100.5, 100},   {4095.5, 4096},
        {4096.5, 4096}, {8189.5, 8190}, {8190.5, 8190}, {8190.75, 8191}, {8191.0, 8191}, {8191.25, 8191},
    };
    for (size_t i = 0; i < sizeof rows / sizeof rows[0]; i++) {
        CHECK("rounding", as_double(rows[i].number, 1, rows[i].rounded));
        CHECK("rounding", as_float((float)rows[i].number, 1, rows[i].rounded));
    }
    /* next to a half: one unit in the last place */
    for (int32_t whole = 0; whole < 8191; whole += whole < 20 ? 1 : 389) {
        const double half = whole + 0.5;
        const float short_half = (float)half;
        uint64_t bits;
        uint32_t short_bits;
        memcpy(&bits, &half, sizeof bits);
        memcpy(&short_bits, &short_half, sizeof short_bits);
        CHECK("halves", double_bits(bits, 1, whole + whole % 2) && float_bits(short_bits, 1, whole + whole % 2));
        CHECK("halves", double_bits(bits - 1, 1, whole) && double_bits(bits + 1, 1, whole + 1));
        CHECK("halves", float_bits(short_bits - 1, 1, whole) && float_bits(short_bits + 1, 1, whole + 1));
    }
    /* the ends: -8,192.5 goes to -8,192, and 8,191.5 to 8,192 */
    CHECK("ends", double_bits(UINT64_C(0x40bfff7fffffffff), 1, 8191) && double_bits(UINT64_C(0x40bfff8000000000), 0, 0));
    CHECK("ends", double_bits(UINT64_C(0xc0c0004000000000), 1, -8192) && double_bits(UINT64_C(0xc0c0004000000001), 0, 0));
    CHECK("ends", float_bits(UINT32_C(0x45fffbff), 1, 8191) && float_bits(UINT32_C(0x45fffc00), 0, 0));
    CHECK("ends", float_bits(UINT32_C(0xc6000200), 1, -8192) && float_bits(UINT32_C(0xc6000201), 0, 0));
    CHECK("ends", rounds("int", 4, 8191, 1, 8191) && rounds("int", 4, 8192, 0, 0));
    CHECK("ends", rounds("int", 4, UINT32_C(0xffffe000), 1, -8192) && rounds("int", 4, UINT32_C(0xffffdfff), 0, 0));
    CHECK("ends", rounds("int", 4, UINT32_C(0x80000000), 0, 0) && rounds("int", 4, UINT32_C(0x7fffffff), 0, 0));
    CHECK("ends", rounds("int", 4, UINT32_C(0xffffffff), 1, -1));
    CHECK("ends", as_double(8193.0, 0, 0) && as_double(65536.0, 0, 0) && as_double(4294967296.0, 0, 0));
    CHECK("ends", as_double(9007199254740992.0, 0, 0) && as_double(18446744073709551616.0, 0, 0) && as_double(1e300, 0, 0));
    CHECK("ends", as_float(8193.0f, 0, 0) && as_float(4294967296.0f, 0, 0) && as_float(1e38f, 0, 0));
    puts("c: rounding");
}

/* What is tiny is 0; what is infinite or not a number is refused, with every sign. */
static void scan_bits(void)
{
    static const uint64_t tiny[] = {0, 1, UINT64_C(0xfffffffffffff), UINT64_C(0x10000000000000),
                                    UINT64_C(0x3fdfffffffffffff)};
    static const uint32_t short_tiny[] = {0, 1, UINT32_C(0x7fffff), UINT32_C(0x800000), UINT32_C(0x3effffff)};
    /* infinity, then signalling and quiet ones that are not a number */
    static const uint64_t none[] = {0, 1, UINT64_C(0x7ffffffffffff), UINT64_C(0x8000000000000), UINT64_C(0xfffffffffffff)};
    static const uint32_t short_none[] = {0, 1, UINT32_C(0x3fffff), UINT32_C(0x400000), UINT32_C(0x7fffff)};
    for (int i = 0; i < 5; i++) {
        for (uint64_t sign = 0; sign < 2; sign++) {
            const uint64_t exponent = UINT64_C(0x7ff) << 52;
            CHECK("tiny", double_bits(sign << 63 | tiny[i], 1, 0));
            CHECK("tiny", float_bits((uint32_t)sign << 31 | short_tiny[i], 1, 0));
            CHECK("no number", double_bits(sign << 63 | exponent | none[i], 0, 0));
            CHECK("no number", float_bits((uint32_t)sign << 31 | UINT32_C(0xff) << 23 | short_none[i], 0, 0));
        }
    }
    puts("c: tiny numbers, and none");
}

/* Other forms of each line of the header. */
static void scan_lines(void)
{
    static const struct {
        int at;
        const char *other;
    } rows[] = {
        {0, ""},
        {0, "PLY\n"},
        {0, "ply \n"},
        {0, "ply\r\n"},
        {0, "\nply\n"},
        {0, " ply\n"},
        {0, "comment\nply\n"},
        {0, "ply\nply\n"},
        {0, "ply\n\n"},
        {0, "ply\nobj_info a\n"},
        {0, "ply\ncomments\n"},
        {0, "ply\ncomment\ta\n"},
        {0, "ply\ncomment\r\n"},
        {0, "ply\n comment\n"},
        {0, "ply\nComment a\n"},
        {0, "ply\ncommen\n"},
        {1, ""},
        {1, "format ascii 1.0\n"},
        {1, "format binary_big_endian 1.0\n"},
        {1, "format binary_little_endian 1.1\n"},
        {1, "format binary_little_endian 1.00\n"},
        {1, "format binary_little_endian  1.0\n"},
        {1, "format binary_little_endian\t1.0\n"},
        {1, "format binary_little_endian 1.0 \n"},
        {1, "format binary_little_endian 1.0\r\n"},
        {2, ""},
        {2, "element vertex\n"},
        {2, "element vertex \n"},
        {2, "element vertex 4 \n"},
        {2, "element vertex +4\n"},
        {2, "element vertex -4\n"},
        {2, "element vertex 4.0\n"},
        {2, "element vertex 0x4\n"},
        {2, "element vertex  4\n"},
        {2, "element vertex 4\r\n"},
        {2, "element vertex four\n"},
        {2, "element vertices 4\n"},
        {2, "element Vertex 4\n"},
        {3, ""},
        {3, "property float32 x\n"},
        {3, "property int32 x\n"},
        {3, "property uint x\n"},
        {3, "property short x\n"},
        {3, "property Int x\n"},
        {3, "property  x\n"},
        {3, "property x\n"},
        {3, "property int X\n"},
        {3, "property int x \n"},
        {3, "property int  x\n"},
        {3, "property int y\n"},
        {3, "property uchar red\nproperty int x\n"},
        {4, ""},
        {4, "property int x\n"},
        {4, "property int nx\n"},
        {5, ""},
        {5, "property int z\nproperty float nx\n"},
        {6, ""},
        {6, "element face\n"},
        {6, "element face 2 \n"},
        {6, "element face -2\n"},
        {6, "element faces 2\n"},
        {6, "element edge 0\nelement face 2\n"},
        {7, ""},
        {7, "property list uchar int vertex_index\n"},
        {7, "property list uchar uint vertex_indices\n"},
        {7, "property list uint8 int32 vertex_indices\n"},
        {7, "property list int int vertex_indices\n"},
        {7, "property list uchar int vertex_indices \n"},
        {7, "property list uchar int vertex_indices\nproperty uchar red\n"},
        {8, ""},
        {8, "end_header\r\n"},
        {8, "end_header \n"},
        {8, "end_header"},
        {8, "\nend_header\n"},
        {8, "element edge 0\nend_header\n"},
    };
    worked_scan();
    for (size_t i = 0; i < sizeof rows / sizeof rows[0]; i++) {
        ply_header_with(&ply, "4", INTS, "2", rows[i].at, rows[i].other);
        worked_body();
        check(refuses_scan(44, DESK_LIMIT_PLY_FORM, 0), "lines", rows[i].other, rows[i].at);
    }
    /* with no face and no vertex there is nothing behind the last line feed */
    flat_ply("0", 0, "0");
    ply.length--;
    CHECK("lines", refuses_scan(12, DESK_LIMIT_PLY_FORM, 0));
    puts("c: lines of a header");
}

/* Every cut of a file, every byte more, and every other byte at every place of the header. */
static void scan_damage(void)
{
    worked_scan();
    ply_header(&ply, "4", INTS, "2");
    const size_t body = ply.length;
    worked_ply();
    const size_t whole = ply.length;
    for (ply.length = 0; ply.length < whole; ply.length++) {
        CHECK("damage", refuses_scan(44, DESK_LIMIT_PLY_FORM, 0));
    }
    CHECK("damage", scans(44));
    for (int i = 0; i < 14; i++) {
        ply_bits(&ply, 1, 0);
        CHECK("damage", refuses_scan(44, DESK_LIMIT_PLY_FORM, 0));
    }
    ply.length = whole;
    for (size_t at = 0; at < body; at++) {
        const uint8_t before = ply.bytes[at];
        for (int byte = 0; byte < 256; byte++) {
            /* a digit for a digit, behind the format's line, is another count, which says nothing of the form */
            const int digits = at > 36 && before >= '0' && before <= '9' && byte >= '0' && byte <= '9';
            int kept;
            ply.bytes[at] = (uint8_t)byte;
            if (byte == before) {
                CHECK("damage", scans(44));
            } else if (digits) {
                CHECK("damage", desk_tag(scan_in(44, &kept)) == DESK_REFUSED && kept);
            } else {
                CHECK("damage", refuses_scan(44, DESK_LIMIT_PLY_FORM, 0));
            }
        }
        ply.bytes[at] = before;
    }
    puts("c: damaged scanner files");
}

/* Comments behind each line of the header but the last. */
static void scan_comments(void)
{
    static const char *const comments[] = {
        "comment\n",
        "comment \n",
        "comment a\n",
        "comment  two spaces, a tab \t and a carriage return \r\n",
        "comment end_header\n",
        "comment comment\n",
        "comment element vertex 7\n",
        "comment \x01\x7f\x80\xff\n",
        "comment\ncomment\ncomment a\ncomment\n",
    };
    worked_scan();
    for (size_t i = 0; i < sizeof comments / sizeof comments[0]; i++) {
        for (int line = 0; line < PLY_LINES; line++) {
            worked_ply();
            const struct ply plain = ply;
            size_t at = 0;
            for (int feeds = 0; feeds <= line; at++) {
                feeds += plain.bytes[at] == '\n';
            }
            ply.length = at;
            ply_text(&ply, comments[i]);
            memcpy(ply.bytes + ply.length, plain.bytes + at, plain.length - at);
            ply.length += plain.length - at;
            /* behind the last line it is no comment, but a part of the body */
            const int holds = line < PLY_LINES - 1 ? scans(44) : refuses_scan(44, DESK_LIMIT_PLY_FORM, 0);
            check(holds, "comments", comments[i], line);
        }
    }
    /* a comment may have any byte but the line feed */
    ply_header_with(&ply, "4", INTS, "2", 0, "ply\ncomment ?\n");
    worked_body();
    for (int byte = 0; byte < 256; byte++) {
        ply.bytes[12] = (uint8_t)byte;
        CHECK("comments", byte == '\n' ? refuses_scan(44, DESK_LIMIT_PLY_FORM, 0) : scans(44));
    }
    /* a long one, and many */
    static char many[50000] = "ply\ncomment ";
    memset(many + 12, 'a', 5000);
    for (size_t at = 5012; at < 45000; at += 8) {
        memcpy(many + at, "\ncomment", 9);
    }
    strcat(many, "\n");
    ply_header_with(&ply, "4", INTS, "2", 0, many);
    worked_body();
    CHECK("comments", scans(44));
    puts("c: comments");
}

/* Counts with zeros in front, and counts that no file has. */
static void scan_counts(void)
{
    static const char *const four[] = {"4", "04", "0000000000000000000000000000000000000004"};
    static const char *const two[] = {"2", "02", "0000000000000000000000000000000000000002"};
    /* some are 4 or 2 modulo 2^32, 2^64 or 2^128, or make the length of 4 vertices modulo these */
    static const char *const others[] = {
        "0",
        "40",
        "4098",
        "1073741828",
        "4294967298",
        "4294967300",
        "4611686018427387908",
        "9223372036854775812",
        "18446744073709551614",
        "18446744073709551615",
        "18446744073709551616",
        "18446744073709551618",
        "18446744073709551620",
        "36893488147419103236",
        "99999999999999999999",
        "340282366920938463463374607431768211458",
        "340282366920938463463374607431768211460",
        "999999999999999999999999999999999999999999999999999999999999",
    };
    worked_scan();
    for (int i = 0; i < 9; i++) {
        ply_header(&ply, four[i / 3], INTS, two[i % 3]);
        worked_body();
        CHECK("counts", scans(44));
    }
    for (size_t i = 0; i < sizeof others / sizeof others[0]; i++) {
        ply_header(&ply, others[i], INTS, "2");
        worked_body();
        check(refuses_scan(44, DESK_LIMIT_PLY_FORM, 0), "counts", others[i], __LINE__);
        ply_header(&ply, "4", INTS, others[i]);
        worked_body();
        check(refuses_scan(44, DESK_LIMIT_PLY_FORM, 0), "counts", others[i], __LINE__);
    }
    puts("c: counts");
}

/* The most faces of a file, and one more. */
static void scan_most(void)
{
    worked(DESK_TRIANGLES_MOST);
    ply_header(&ply, "3", INTS, "4095");
    for (int i = 0; i < 9; i++) {
        ply_int(&ply, VERTICES[i / 3][i % 3]);
    }
    for (int i = 0; i < DESK_TRIANGLES_MOST; i++) {
        ply_face(&ply, 0, 1, 2);
    }
    CHECK("most faces", scans(DESK_FILE_MOST) && scans(sizeof out));
    CHECK("most faces", refuses_scan(DESK_FILE_MOST - 1, DESK_LIMIT_SHORT_OUTPUT, 0));
    /* the last face */
    ply.length -= 13;
    ply_face(&ply, 0, 1, 3);
    CHECK("most faces", refuses_scan(sizeof out, DESK_LIMIT_PLY_FACE, DESK_TRIANGLES_MOST - 1));
    flat_ply("1", 1, "4096");
    for (int i = 0; i <= DESK_TRIANGLES_MOST; i++) {
        ply_face(&ply, 0, 0, 0);
    }
    CHECK("most faces", refuses_scan(sizeof out, DESK_LIMIT_PLY_FORM, 0));
    puts("c: the most faces");
}

/* The lowest vertex is named, used by a face or not. */
static void scan_vertices(void)
{
    worked(0);
    for (int from = 0; from < 15; from++) {
        flat_ply("5", 5, "1");
        const size_t end = ply.length;
        for (int i = from; i < 15; i += 4) {
            /* another number of the same and of later vertices is out of the field */
            ply.length = end - 4 * (15 - (size_t)i);
            ply_int(&ply, i % 2 ? 8192 : -8193);
        }
        ply.length = end;
        ply_face(&ply, 4, 4, 4);
        CHECK("vertices", refuses_scan(28, DESK_LIMIT_PLY_VERTEX, (uint32_t)from / 3));
    }
    puts("c: vertices");
}

/* Faces of other corners than three, and of indices that no vertex has; the lowest is named. */
static void scan_faces(void)
{
    static const unsigned corners[] = {0, 1, 2, 4, 5, 127, 128, 254, 255};
    static const int32_t wrong[] = {3, 256, 65536, 16777216, INT32_MAX, INT32_MIN, INT32_MIN + 1, -1, -3};
    worked(1);
    for (size_t i = 0; i < sizeof corners / sizeof corners[0]; i++) {
        flat_ply("1", 1, "4");
        ply_face(&ply, 0, 0, 0);
        ply_corners(&ply, corners[i], 0);
        ply_corners(&ply, corners[i], 0);
        ply_face(&ply, 0, 0, 0);
        CHECK("corners", refuses_scan(sizeof out, DESK_LIMIT_PLY_FACE, 1));
        ply.length--;
        CHECK("corners", refuses_scan(sizeof out, DESK_LIMIT_PLY_FORM, 0));
        ply.length++;
        ply_bits(&ply, 1, 0);
        CHECK("corners", refuses_scan(sizeof out, DESK_LIMIT_PLY_FORM, 0));
    }
    for (size_t i = 0; i < sizeof wrong / sizeof wrong[0]; i++) {
        for (int corner = 0; corner < 3; corner++) {
            flat_ply("3", 3, "3");
            ply_face(&ply, 0, 1, 2);
            ply_face(&ply, corner == 0 ? wrong[i] : 0, corner == 1 ? wrong[i] : 1, corner == 2 ? wrong[i] : 2);
            ply_face(&ply, wrong[i], wrong[i], wrong[i]);
            CHECK("indices", refuses_scan(sizeof out, DESK_LIMIT_PLY_FACE, 1));
        }
    }
    /* without a vertex there is no index */
    flat_ply("0", 0, "1");
    ply_face(&ply, 0, 0, 0);
    CHECK("indices", refuses_scan(28, DESK_LIMIT_PLY_FACE, 0));
    puts("c: faces");
}

/* Scanner files that break several limits: the answer is by the first, with any room. */
static void scan_order(void)
{
    static const uint64_t rooms[] = {0, 11, 12, 27, 28, 100};
    for (unsigned number = DESK_LIMIT_PLY_FORM; number <= DESK_LIMIT_PLY_FACE; number++) {
        /* a vertex out of the field for 13 and 14, a face without a vertex for all, and a byte too many for 13 */
        flat_ply("2", 2, "1");
        if (number <= DESK_LIMIT_PLY_VERTEX) {
            ply.length -= 4;
            ply_int(&ply, 8192);
        }
        ply_face(&ply, 0, 0, 2);
        if (number == DESK_LIMIT_PLY_FORM) {
            ply_bits(&ply, 1, 0);
        }
        for (size_t i = 0; i < sizeof rooms / sizeof rooms[0]; i++) {
            worked(0);
            CHECK("order", refuses_scan(rooms[i], number, number == DESK_LIMIT_PLY_VERTEX ? 1 : 0));
            for (given.grid_len = 0; given.grid_len <= DESK_GRID_NUMBERS + 1; given.grid_len++) {
                CHECK("order", given.grid_len == DESK_GRID_NUMBERS || refuses_scan(rooms[i], DESK_LIMIT_UNWRITABLE, 0));
            }
            for (int at = 0; at < DESK_GRID_NUMBERS; at++) {
                worked(0);
                given.grid[at] = at < DESK_AT_ORIGIN ? 0 : 8172;
                CHECK("order", refuses_scan(rooms[i], DESK_LIMIT_UNWRITABLE, 0));
            }
        }
    }
    puts("c: order of a scanner file's limits");
}

/* The grid's numbers at their borders, and outputs of every length, with a good scanner file. */
static void scan_grids(void)
{
    static const int32_t low[3] = {1, 1, -8192}, high[3] = {64, 255, 8171};
    for (int at = 0; at < DESK_GRID_NUMBERS; at++) {
        const int field = at < DESK_AT_EDGE ? 0 : at == DESK_AT_EDGE ? 1 : 2;
        const int32_t inside[2] = {low[field], high[field]};
        const int32_t outside[4] = {low[field] - 1, high[field] + 1, INT32_MIN, INT32_MAX};
        worked_scan();
        worked_ply();
        for (int i = 0; i < 2; i++) {
            given.grid[at] = inside[i];
            CHECK("grids", scans(44));
        }
        for (int i = 0; i < 4; i++) {
            given.grid[at] = outside[i];
            CHECK("grids", refuses_scan(44, DESK_LIMIT_UNWRITABLE, 0));
        }
    }
    worked_scan();
    for (uint64_t room = 0; room <= 46; room++) {
        CHECK("grids", room < 44 ? refuses_scan(room, DESK_LIMIT_SHORT_OUTPUT, 0) : scans(room));
    }
    puts("c: grids and outputs of a scanner file");
}

/* ---- the bar behind a cell */

/* What the weights hold before a call, and room for more of them than a call writes. */
#define HELD INT64_C(-6148914691236517206)
#define ROOM 5

static int64_t weights[ROOM];

/* The answer with this room for weights, and whether the numbers behind what is written are as they were. */
static uint64_t bar_in(const struct frame *f, uint64_t cell, uint64_t room, int *kept)
{
    for (unsigned i = 0; i < ROOM; i++) {
        weights[i] = HELD;
    }
    uint64_t answer = desk_bar(f->bytes, length(f), cell, weights, room);
    *kept = 1;
    for (unsigned i = desk_tag(answer) == DESK_DONE ? DESK_WEIGHTS : 0; i < ROOM; i++) {
        *kept &= weights[i] == HELD;
    }
    return answer;
}

/* Whether the answer for a cell is this one, with every room, and nothing is written. */
static int answers(const struct frame *f, uint64_t cell, uint64_t wanted)
{
    int all = 1;
    for (uint64_t room = 0; room <= ROOM; room++) {
        int kept;
        all &= bar_in(f, cell, room, &kept) == wanted && kept;
    }
    return all;
}

/* Whether no triangle reaches a cell. */
static int clear(const struct frame *f, uint64_t cell)
{
    return answers(f, cell, (uint64_t)DESK_CLEAR << 56);
}

/* Whether a cell is refused by this limit with this place. */
static int refuses_bar(const struct frame *f, uint64_t cell, unsigned number, uint32_t place)
{
    return answers(f, cell, (uint64_t)DESK_REFUSED << 56 | (uint64_t)number << 48 | place);
}

/* Whether the weights that were written are as promised, with these corners and the cell's lowest corner and edge. */
static int weighted(const long corners[9], const long low[3], long edge)
{
    int64_t total = 0;
    for (int i = 0; i < DESK_WEIGHTS; i++) {
        if (weights[i] < 0 || weights[i] >= INT64_C(1) << 30) {
            return 0;
        }
        total += weights[i];
    }
    int inside = total >= 1 && total < INT64_C(1) << 30;
    for (int axis = 0; axis < 3; axis++) {
        int64_t sum = 0;
        for (int i = 0; i < DESK_WEIGHTS; i++) {
            sum += weights[i] * corners[3 * i + axis];
        }
        inside &= low[axis] * total <= sum && sum <= (low[axis] + edge) * total;
    }
    return inside;
}

/* Whether this record is behind a cell of the worked grid, by the weights that are written, with every room. */
static int behind(const struct frame *f, uint64_t cell, uint32_t number, const long corners[9])
{
    const long low[3] = {(long)(cell % 2) * 10, (long)(cell / 2 % 2) * 10, (long)(cell / 4) * 10};
    int all = 1;
    for (uint64_t room = 0; room <= ROOM; room++) {
        int kept;
        uint64_t answer = bar_in(f, cell, room, &kept);
        if (room < DESK_WEIGHTS) {
            all &= kept && answer == ((uint64_t)DESK_SHORT << 56 | DESK_WEIGHTS);
        } else {
            all &= kept && answer == number && desk_tag(answer) == DESK_DONE && desk_record(answer) == number;
            all &= weighted(corners, low, 10);
        }
    }
    return all;
}

/* Rows of the worked grid: one triangle, and the cells that it reaches, cell 0 in the highest bit. */
static const struct row {
    const char *name;
    long corners[9];
    uint8_t cells;
} ROWS[] = {
    {"a point in a cell", {5, 5, 5, 5, 5, 5, 5, 5, 5}, 0x80},
    {"a point in a face", {10, 5, 5, 10, 5, 5, 10, 5, 5}, 0xc0},
    {"a point in a corner", {10, 10, 10, 10, 10, 10, 10, 10, 10}, 0xff},
    {"a point in the border", {20, 5, 5, 20, 5, 5, 20, 5, 5}, 0x40},
    {"a point outside", {21, 5, 5, 21, 5, 5, 21, 5, 5}, 0x00},
    {"a line in a face", {10, 1, 2, 10, 8, 9, 10, 8, 9}, 0xc0},
    {"a line along an edge", {10, 10, 11, 10, 10, 30, 10, 10, 11}, 0x0f},
    {"a line through corners", {0, 0, 0, 5, 5, 5, 20, 20, 20}, 0xff},
    {"a line beside a corner", {0, 19, 5, 19, 0, 5, 19, 0, 5}, 0xe0},
    {"f", {0, 20, 5, 20, 20, 5, 20, 0, 5}, 0xf0},
    {"g", {1, 20, 5, 20, 20, 5, 20, 1, 5}, 0x70},
    {"h", {30, 0, 0, 0, 30, 0, 0, 0, 30}, 0xff},
    {"i", {31, 0, 0, 0, 31, 0, 0, 0, 31}, 0x7f},
    {"corners in faces", {10, 0, 0, 10, 10, 0, 10, 0, 10}, 0xfc},
    {"corners far outside", {-8192, -8192, 10, 8191, -8192, 10, 0, 8191, 10}, 0xff},
    {"far outside", {-8192, -8192, -8192, -8192, 8191, 8191, -8192, 8191, -8192}, 0x00},
};

static const struct row *const F = &ROWS[9], *const G = &ROWS[10], *const OUTSIDE = &ROWS[4];

/* A file of up to three rows, in the worked grid. */
static struct frame rows_file(long count, const struct row *first, const struct row *second, const struct row *third)
{
    const struct row *const rows[3] = {first, second, third};
    struct frame f = header(1, 2, 10, 0, count);
    for (long i = 0; i < count; i++) {
        record(&f, i, rows[i]->corners);
    }
    return f;
}

/* Each row alone, and behind two that are far away. */
static void bars(void)
{
    for (size_t i = 0; i < sizeof ROWS / sizeof ROWS[0]; i++) {
        const struct row *row = &ROWS[i];
        struct frame alone = rows_file(1, row, NULL, NULL), last = rows_file(3, OUTSIDE, OUTSIDE, row);
        for (uint64_t cell = 0; cell < 8; cell++) {
            int reached = row->cells >> (7 - cell) & 1;
            check(reached ? behind(&alone, cell, 0, row->corners) : clear(&alone, cell), "bars", row->name, __LINE__);
            check(reached ? behind(&last, cell, 2, row->corners) : clear(&last, cell), "bars", row->name, __LINE__);
        }
    }
    struct frame none = header(1, 2, 10, 0, 0);
    for (uint64_t cell = 0; cell < 8; cell++) {
        CHECK("bars", clear(&none, cell));
    }
    puts("c: bars");
}

/* Of several triangles that reach a cell the lowest is named. */
static void lowest(void)
{
    struct frame f = rows_file(3, OUTSIDE, G, F), twice = rows_file(3, G, G, F);
    for (uint64_t cell = 0; cell < 4; cell++) {
        CHECK("lowest", cell == 0 ? behind(&f, cell, 2, F->corners) : behind(&f, cell, 1, G->corners));
        CHECK("lowest", cell == 0 ? behind(&twice, cell, 2, F->corners) : behind(&twice, cell, 0, G->corners));
        CHECK("lowest", clear(&f, cell + 4) && clear(&twice, cell + 4));
    }
    puts("c: lowest records");
}

/* Cells are numbered along x, then y, then z: a point stands in the middle of each. */
static void cell_numbers(void)
{
    static const int32_t cells[3] = {3, 2, 4};
    worked(24);
    memcpy(given.grid + DESK_AT_CELLS, cells, sizeof cells);
    for (int n = 0; n < 24; n++) {
        int32_t *corners = given.triangles + DESK_TRIANGLE_NUMBERS * n + DESK_AT_CORNERS;
        for (int i = 0; i < 9; i += 3) {
            corners[i] = n % 3 * 10 + 5;
            corners[i + 1] = n / 3 % 2 * 10 + 5;
            corners[i + 2] = n / 6 * 10 + 5;
        }
    }
    CHECK("cell numbers", writes(sizeof out));
    for (uint64_t n = 0; n < 24; n++) {
        CHECK("cell numbers", desk_bar(out, desk_file_length(24), n, weights, ROOM) == n);
    }
    puts("c: numbers of cells");
}

/* The last record of the longest file alone reaches a cell: a point among points far away. */
static void longest(void)
{
    int32_t *last = given.triangles + DESK_TRIANGLE_NUMBERS * (DESK_TRIANGLES_MOST - 1);
    const uint64_t done = DESK_TRIANGLES_MOST - 1, none = (uint64_t)DESK_CLEAR << 56;
    worked(DESK_TRIANGLES_MOST);
    for (size_t i = 0; i < DESK_TRIANGLE_NUMBERS * DESK_TRIANGLES_MOST; i++) {
        given.triangles[i] = i % DESK_TRIANGLE_NUMBERS == DESK_AT_KIND ? 0 : 8191;
    }
    CHECK("longest", writes(DESK_FILE_MOST) && desk_bar(out, DESK_FILE_MOST, 0, weights, ROOM) == none);
    for (int i = DESK_AT_CORNERS; i < DESK_TRIANGLE_NUMBERS; i++) {
        last[i] = 5;
    }
    CHECK("longest", writes(DESK_FILE_MOST) && desk_bar(out, DESK_FILE_MOST, 0, weights, ROOM) == done);
    CHECK("longest", desk_bar(out, DESK_FILE_MOST, 1, weights, ROOM) == none);
    puts("c: the longest file");
}

/* Cells at the end of the grid and beyond, and a file for each limit, whose refusal comes before that of the cell. */
static void bar_limits(void)
{
    static const uint64_t outside[] = {8, 9, 10, UINT32_MAX, (UINT64_C(1) << 32) + 3, INT64_MAX, UINT64_MAX};
    const size_t count = sizeof outside / sizeof outside[0];
    struct frame good = rows_file(1, G, NULL, NULL), f;
    struct frame unused = header(1, 2, 10, 0, 3);
    record(&unused, 2, G->corners);
    record(&unused, 3, G->corners);
    record(&unused, 3, G->corners);
    CHECK("bar limits", clear(&good, 7) && behind(&good, 3, 0, G->corners));
    for (size_t i = 0; i <= count; i++) {
        /* at last a cell of the grid */
        const uint64_t cell = i < count ? outside[i] : 3;
        CHECK("bar limits", cell == 3 || refuses_bar(&good, cell, DESK_LIMIT_CELL_OUTSIDE, 0));
        f = good;
        f.bits = 8 * 11;
        CHECK("bar limits", refuses_bar(&f, cell, DESK_LIMIT_SHORT_HEADER, 0));
        f = header(2, 2, 10, 0, 0);
        CHECK("bar limits", refuses_bar(&f, cell, DESK_LIMIT_VERSION, 0));
        f = header(1, 2, 0, 0, 0);
        CHECK("bar limits", refuses_bar(&f, cell, DESK_LIMIT_ZERO_EDGE, 0));
        f = good;
        f.bytes[11] = 1;
        CHECK("bar limits", refuses_bar(&f, cell, DESK_LIMIT_RESERVED_BITS, 0));
        f = header(1, 33, 255, 0, 0);
        CHECK("bar limits", refuses_bar(&f, cell, DESK_LIMIT_EXTENT, 0));
        f = good;
        f.bits -= 8;
        CHECK("bar limits", refuses_bar(&f, cell, DESK_LIMIT_FILE_LENGTH, 0));
        CHECK("bar limits", refuses_bar(&unused, cell, DESK_LIMIT_UNUSED_KIND, 1));
    }
    /* a grid whose map has unused bits, and the largest one */
    f = header(1, 3, 10, 0, 0);
    CHECK("bar limits", clear(&f, 26) && refuses_bar(&f, 27, DESK_LIMIT_CELL_OUTSIDE, 0));
    f = header(1, 64, 10, 0, 0);
    CHECK("bar limits", clear(&f, 262143) && refuses_bar(&f, 262144, DESK_LIMIT_CELL_OUTSIDE, 0));
    puts("c: limits of bars");
}

/* ---- null pointers, each with length 0 */

static void nulls(void)
{
    const uint64_t twelve = (uint64_t)DESK_REFUSED << 56 | (uint64_t)DESK_LIMIT_UNWRITABLE << 48;
    const uint64_t eleven = (uint64_t)DESK_REFUSED << 56 | (uint64_t)DESK_LIMIT_SHORT_OUTPUT << 48;
    worked(1);
    memset(out, 0xaa, sizeof out);
    CHECK("null grid", desk_write(NULL, 0, given.triangles, 10, out, 28) == twelve && out[0] == 0xaa);
    CHECK("null triangles", desk_write(given.grid, 7, NULL, 0, out, 28) == 12 && out[0] == 0x10 && out[12] == 0xaa);
    CHECK("null out", desk_write(given.grid, 7, given.triangles, 10, NULL, 0) == eleven);
    CHECK("null out", desk_write(given.grid, 7, NULL, 0, NULL, 0) == eleven);
    CHECK("all null", desk_write(NULL, 0, NULL, 0, NULL, 0) == twelve);
    const uint64_t thirteen = (uint64_t)DESK_REFUSED << 56 | (uint64_t)DESK_LIMIT_PLY_FORM << 48;
    worked_ply();
    memset(out, 0xaa, sizeof out);
    CHECK("null ply", desk_scan(NULL, 0, given.grid, 7, out, 44) == thirteen && out[0] == 0xaa);
    CHECK("null ply", desk_scan(NULL, 0, given.grid, 7, NULL, 0) == thirteen);
    CHECK("null grid", desk_scan(ply.bytes, ply.length, NULL, 0, out, 44) == twelve && out[0] == 0xaa);
    CHECK("null out", desk_scan(ply.bytes, ply.length, given.grid, 7, NULL, 0) == eleven);
    CHECK("all null", desk_scan(NULL, 0, NULL, 0, NULL, 0) == twelve);
    struct frame g = rows_file(1, G, NULL, NULL);
    const uint64_t one = (uint64_t)DESK_REFUSED << 56 | (uint64_t)DESK_LIMIT_SHORT_HEADER << 48;
    CHECK("null file", desk_bar(NULL, 0, 0, weights, ROOM) == one && desk_bar(NULL, 0, 0, NULL, 0) == one);
    CHECK("null weights", desk_bar(g.bytes, length(&g), 3, NULL, 0) == ((uint64_t)DESK_SHORT << 56 | DESK_WEIGHTS));
    CHECK("null weights", desk_bar(g.bytes, length(&g), 0, NULL, 0) == (uint64_t)DESK_CLEAR << 56);
    puts("c: null pointers");
}

/* ---- the header's own functions */

/* Each limit has a text of its own, and every other number the same one. */
static void texts(void)
{
    static const uint32_t limits[] = {1, 2, 3, 4, 5, 6, 7, 11, 12, 13, 14, 15, 16}, others[] = {8, 9, 10, 17, UINT32_MAX};
    const size_t count = sizeof limits / sizeof limits[0];
    const char *other = desk_limit_text(0);
    CHECK("texts", strlen(other) > 0);
    for (size_t i = 0; i < sizeof others / sizeof others[0]; i++) {
        CHECK("texts", strcmp(desk_limit_text(others[i]), other) == 0);
    }
    for (size_t i = 0; i < count; i++) {
        const char *text = desk_limit_text(limits[i]);
        CHECK("texts", strcmp(text, other) != 0);
        for (size_t j = 0; j < i; j++) {
            CHECK("texts", strcmp(text, desk_limit_text(limits[j])) != 0);
        }
    }
    puts("c: texts of limits");
}

/* Every group in turn, and the totals. */
int main(void)
{
    bytes();
    places();
    fields();
    far_corners();
    lists();
    outputs();
    scan_bytes();
    scan_types();
    scan_rounding();
    scan_bits();
    scan_lines();
    scan_damage();
    scan_comments();
    scan_counts();
    scan_most();
    scan_vertices();
    scan_faces();
    scan_order();
    scan_grids();
    bars();
    lowest();
    cell_numbers();
    longest();
    bar_limits();
    nulls();
    texts();
    CHECK("lengths", desk_file_length(0) == 12 && desk_file_length(DESK_TRIANGLES_MOST) == DESK_FILE_MOST);
    return totals();
}
