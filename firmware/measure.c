/*
 * Prints what the library's calls take on the controller, a line a call: its name, on what, instructions in thousands,
 * and what it answers, with '|' between them. firmware/measure makes a table of the lines. Then the stack of each call.
 *
 * With FOLLOWED the same calls are probed in the same order, for firmware/cycles to follow. A fill of the two files that take
 * longest is then a step of their first 64 records: the whole of it has too many instructions to follow each.
 */
#include <inttypes.h>
#include <stdio.h>
#include <string.h>

#include "probe.h"
#include "stall.h"

static uint8_t map[STALL_MAP_MOST];

/* ---- the scenes and routes of scenes.S */

#define SCENES(each) \
    each(stall) each(rails) each(plates) each(small) each(diagonal) each(flat) each(outside) each(worst) each(whole)
#define ROUTES(each) each(slim, free, rails) each(slim, blocked, rails) each(wide, free, sides) each(wide, blocked, sides)

#define DECLARE_SCENE(name) extern const uint8_t name[], name##_end[];
#define DECLARE_ROUTE(shape, answer, scene) extern const int16_t shape##_##answer[], shape##_##answer##_end[];
SCENES(DECLARE_SCENE)
DECLARE_SCENE(sides)
ROUTES(DECLARE_ROUTE)

struct scene {
    const char *name;
    const uint8_t *file, *file_end;
};

struct route {
    const char *name;
    struct scene scene;
    const int16_t *numbers, *numbers_end;
};

#define SCENE(name) {#name, name, name##_end}
#define SCENE_ITEM(name) SCENE(name),
#define ROUTE_ITEM(shape, answer, scene) {#shape ", " #answer, SCENE(scene), shape##_##answer, shape##_##answer##_end},
static const struct scene SCENE_LIST[] = {SCENES(SCENE_ITEM)};
static const struct route ROUTE_LIST[] = {ROUTES(ROUTE_ITEM)};
#define SCENE_COUNT (sizeof SCENE_LIST / sizeof SCENE_LIST[0])
#define ROUTE_COUNT (sizeof ROUTE_LIST / sizeof ROUTE_LIST[0])
static const struct scene *const WHOLE = &SCENE_LIST[SCENE_COUNT - 1];

static uint64_t length_of(const struct scene *s)
{
    return (uint64_t)(s->file_end - s->file);
}

/* ---- the calls */

/* Says what the call before took. A count is said with what it counts. */
static void say(const char *call, const char *of, uint64_t answer, const char *counted)
{
    printf("%s|%s|%" PRIu32 "|", call, of, (uint32_t)((probe_instructions + 500) / 1000));
    if (stall_tag(answer) == STALL_DONE) {
        printf("%" PRIu32 " %s\n", stall_count(answer), counted);
    } else {
        printf("%s\n", stall_tag(answer) == STALL_FREE      ? "free"
                       : stall_tag(answer) == STALL_BLOCKED ? "blocked"
                                                            : "refused");
    }
}

/* Records from the first on, in a step. */
static void step(const struct scene *s, uint64_t count)
{
    probe_begin();
    uint64_t answer = stall_fill_some(s->file, length_of(s), map, sizeof map, 0, count);
    probe_end(FILL_SOME);
    say("stall_fill_some", s->name, answer, count == 1 ? "record" : "records");
}

static void fill(const struct scene *s)
{
#ifdef FOLLOWED
    if (s->file == worst || s->file == whole) {
        step(s, 64);
        return;
    }
#endif
    memset(map, 0xff, sizeof map);
    probe_begin();
    uint64_t answer = stall_fill(s->file, length_of(s), map, sizeof map);
    probe_end(FILL);
    say("stall_fill", s->name, answer, "cells");
}

static void test_route(const struct route *r)
{
    stall_fill(r->scene.file, length_of(&r->scene), map, sizeof map);
    probe_begin();
    uint64_t answer = stall_route(r->scene.file, length_of(&r->scene), map, sizeof map, r->numbers,
                                  (uint64_t)(r->numbers_end - r->numbers));
    probe_end(ROUTE);
    say("stall_route", r->name, answer, "");
}

/* The fill of the worst file in steps, but for the most of its records. */
static void steps(void)
{
    probe_begin();
    uint64_t answer = stall_fill_begin(WHOLE->file, length_of(WHOLE), map, sizeof map);
    probe_end(FILL_BEGIN);
    say("stall_fill_begin", WHOLE->name, answer, "records");
    step(WHOLE, 0);
    step(WHOLE, 1);
    step(WHOLE, 64);
    probe_begin();
    answer = stall_fill_end(WHOLE->file, length_of(WHOLE), map, sizeof map);
    probe_end(FILL_END);
    say("stall_fill_end", WHOLE->name, answer, "cells");
}

static void reading(void)
{
    int32_t out[STALL_READ_NUMBERS];
    probe_begin();
    uint64_t answer = stall_read(WHOLE->file, length_of(WHOLE), 0, out, STALL_READ_NUMBERS);
    probe_end(READ);
    say("stall_read", WHOLE->name, answer, "numbers");
}

int main(void)
{
    for (size_t i = 0; i < SCENE_COUNT; i++) {
        fill(&SCENE_LIST[i]);
    }
    steps();
    for (size_t i = 0; i < ROUTE_COUNT; i++) {
        test_route(&ROUTE_LIST[i]);
    }
    reading();
    probe_say_stack();
    return 0;
}
