/* What the tests in C share: a writer of frame files, as bit fields, most significant bit first. It checks nothing. */
#ifndef FRAME_H
#define FRAME_H

#include <stddef.h>
#include <stdint.h>
#include <string.h>

struct frame {
    uint8_t bytes[12 + 16 * 8];
    size_t bits;
};

/* A field of so many bits behind those that are there. */
static inline void put(struct frame *f, unsigned width, long value)
{
    for (unsigned i = width; i-- > 0; f->bits++) {
        if ((unsigned long)value >> i & 1) {
            f->bytes[f->bits / 8] |= (uint8_t)(0x80 >> f->bits % 8);
        }
    }
}

/* A header with n x n x n cells. */
static inline struct frame header(long version, long n, long edge, long origin, long count)
{
    struct frame f;
    memset(&f, 0, sizeof f);
    put(&f, 4, version);
    for (int axis = 0; axis < 3; axis++) {
        put(&f, 6, n - 1);
    }
    put(&f, 8, edge);
    for (int axis = 0; axis < 3; axis++) {
        put(&f, 14, origin);
    }
    put(&f, 12, count);
    put(&f, 12, 0);
    return f;
}

/* A record behind those that are there. */
static inline void record(struct frame *f, long kind, const long corners[9])
{
    put(f, 2, kind);
    for (int i = 0; i < 9; i++) {
        put(f, 14, corners[i]);
    }
}

/* The bytes of a frame file. */
static inline size_t length(const struct frame *f)
{
    return f->bits / 8;
}

#endif
