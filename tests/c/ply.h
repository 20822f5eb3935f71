/* What the tests in C share: a writer of PLY files, binary little-endian. It checks nothing. */
#ifndef PLY_H
#define PLY_H

#include <stddef.h>
#include <stdint.h>
#include <string.h>

struct ply {
    uint8_t bytes[60000];
    size_t length;
};

/* A text behind what is there. */
static inline void ply_text(struct ply *p, const char *text)
{
    memcpy(p->bytes + p->length, text, strlen(text));
    p->length += strlen(text);
}

/* So many bytes of a number, the lowest first. */
static inline void ply_bits(struct ply *p, unsigned bytes, uint64_t bits)
{
    for (unsigned i = 0; i < bytes; i++) {
        p->bytes[p->length++] = (uint8_t)(bits >> 8 * i & 0xff);
    }
}

/* A number of each type. */
static inline void ply_int(struct ply *p, int32_t value)
{
    ply_bits(p, 4, (uint64_t)value);
}

static inline void ply_float(struct ply *p, float value)
{
    uint32_t bits;
    memcpy(&bits, &value, sizeof bits);
    ply_bits(p, 4, bits);
}

static inline void ply_double(struct ply *p, double value)
{
    uint64_t bits;
    memcpy(&bits, &value, sizeof bits);
    ply_bits(p, 8, bits);
}

/* A face of so many corners with the same index. */
static inline void ply_corners(struct ply *p, unsigned corners, int32_t index)
{
    ply_bits(p, 1, corners);
    for (unsigned i = 0; i < corners; i++) {
        ply_int(p, index);
    }
}

/* A face of three corners. */
static inline void ply_face(struct ply *p, int32_t first, int32_t second, int32_t third)
{
    ply_bits(p, 1, 3);
    ply_int(p, first);
    ply_int(p, second);
    ply_int(p, third);
}

#define PLY_LINES 9

/* The lines of a header with these counts and types begin a file. Line `at` is another text, where there is one. */
static inline void ply_header_with(struct ply *p, const char *vertices, const char *const types[3], const char *faces,
                                   int at, const char *other)
{
    const char *const lines[PLY_LINES][3] = {
        {"ply", "", ""},
        {"format binary_little_endian 1.0", "", ""},
        {"element vertex ", vertices, ""},
        {"property ", types[0], " x"},
        {"property ", types[1], " y"},
        {"property ", types[2], " z"},
        {"element face ", faces, ""},
        {"property list uchar int vertex_indices", "", ""},
        {"end_header", "", ""},
    };
    p->length = 0;
    for (int i = 0; i < PLY_LINES; i++) {
        if (i == at) {
            ply_text(p, other);
            continue;
        }
        for (int part = 0; part < 3; part++) {
            ply_text(p, lines[i][part]);
        }
        ply_text(p, "\n");
    }
}

static inline void ply_header(struct ply *p, const char *vertices, const char *const types[3], const char *faces)
{
    ply_header_with(p, vertices, types, faces, -1, "");
}

#endif
