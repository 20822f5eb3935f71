/*
 * Runs every call of the library, on a controller under QEMU and, compiled for x86-64, on the computer that builds it:
 *   - the map of every example frame, as its listing;
 *   - the same fills in steps, whose maps and counts must be those of stall_fill;
 *   - readings of the stall's file, and routes through the stall and on g;
 *   - lengths and numbers beyond 32 bits, one at a time: a half that is lost on the way changes an answer;
 *   - the frames and routes of crates/digests, in the lines that it prints.
 * What is printed must be the same on both machines. Frames and maps stand at odd addresses. On the controller an access
 * that is not aligned is a fault during each call, and lines that start with '#' say how much stack the calls took.
 */
#include <inttypes.h>
#include <stdio.h>
#include <string.h>

#include "probe.h"
#include "stall.h"

/* Two bytes more than the largest map, as the cases of crates/digests lend them, behind one that makes the address odd. */
#define ROOM (STALL_MAP_MOST + 2)
static struct odd_map {
    uint8_t pad;
    uint8_t bytes[ROOM];
} __attribute__((aligned(8))) lent, other;
static uint8_t *const map = lent.bytes;

static unsigned failed;

static void check(int holds, const char *what)
{
    if (!holds) {
        failed++;
        printf("FAILED: %s\n", what);
    }
}

/* ---- the calls, each probed */

static uint64_t fill(const uint8_t *file, uint64_t length, uint8_t *into, uint64_t room)
{
    probe_begin();
    uint64_t answer = stall_fill(file, length, into, room);
    probe_end(FILL);
    return answer;
}

static uint64_t begin(const uint8_t *file, uint64_t length, uint8_t *into, uint64_t room)
{
    probe_begin();
    uint64_t answer = stall_fill_begin(file, length, into, room);
    probe_end(FILL_BEGIN);
    return answer;
}

static uint64_t some(const uint8_t *file, uint64_t length, uint8_t *into, uint64_t room, uint64_t first, uint64_t count)
{
    probe_begin();
    uint64_t answer = stall_fill_some(file, length, into, room, first, count);
    probe_end(FILL_SOME);
    return answer;
}

static uint64_t end(const uint8_t *file, uint64_t length, const uint8_t *from, uint64_t room)
{
    probe_begin();
    uint64_t answer = stall_fill_end(file, length, from, room);
    probe_end(FILL_END);
    return answer;
}

static uint64_t route(const uint8_t *file, uint64_t length, const uint8_t *from, uint64_t room, const int16_t *numbers,
                      uint64_t count)
{
    probe_begin();
    uint64_t answer = stall_route(file, length, from, room, numbers, count);
    probe_end(ROUTE);
    return answer;
}

static uint64_t reading(const uint8_t *file, uint64_t length, uint64_t record, int32_t *out, uint64_t room)
{
    probe_begin();
    uint64_t answer = stall_read(file, length, record, out, room);
    probe_end(READ);
    return answer;
}

/* Prints an answer as two halves, since newlib's small printf takes no number of 64 bits. */
static void say(const char *what, uint64_t answer)
{
    printf("%s: %08" PRIx32 "%08" PRIx32 "\n", what, (uint32_t)(answer >> 32), (uint32_t)answer);
}

/* ---- the example frames */

#define DECLARE(name) extern const uint8_t frame_##name[], frame_##name##_end[];
#define FRAMES(each) \
    each(a) each(b) each(c) each(d) each(e) each(f) each(g) each(h) each(i) \
    each(scan_float) each(scan_double) each(scan_int) each(stall)
FRAMES(DECLARE)

struct example {
    const char *name;
    const uint8_t *file, *file_end;
};

#define EXAMPLE(name) {#name, frame_##name, frame_##name##_end},
static const struct example EXAMPLES[] = {FRAMES(EXAMPLE)};
#define EXAMPLE_COUNT (sizeof EXAMPLES / sizeof EXAMPLES[0])
static const struct example *const STALL = &EXAMPLES[EXAMPLE_COUNT - 1];

static uint64_t length_of(const struct example *e)
{
    return (uint64_t)(e->file_end - e->file);
}

/* The map's listing, as examples/NAME.listing has it. */
static void list(const struct example *e)
{
    int32_t head[STALL_HEADER_NUMBERS];
    uint64_t answer = fill(e->file, length_of(e), map, ROOM);
    uint64_t read = reading(e->file, length_of(e), 4095, head, STALL_HEADER_NUMBERS);
    check((uintptr_t)e->file % 2 == 1 && (uintptr_t)map % 2 == 1, "the addresses are odd");
    check(stall_tag(answer) == STALL_DONE && read == STALL_HEADER_NUMBERS, e->name);
    int32_t nx = head[1], ny = head[2], cells = nx * ny * head[3];
    printf("frame %s\nFILLED %" PRIu32 " OF %" PRId32 "\n", e->name, stall_count(answer), cells);
    for (int32_t n = 0; n < cells; n++) {
        if (map[n / 8] & 0x80 >> n % 8) {
            printf("%" PRId32 " %" PRId32 " %" PRId32 "\n", n % nx, n / nx % ny, n / nx / ny);
        }
    }
    printf("end\n");
}

/* The same fill in steps of `count` records, the last records first. */
static void in_steps(const struct example *e, uint32_t count)
{
    memset(map, 0xaa, ROOM);
    memset(other.bytes, 0xaa, ROOM);
    uint64_t whole = fill(e->file, length_of(e), map, ROOM);
    uint32_t records = stall_count(begin(e->file, length_of(e), other.bytes, ROOM));
    uint32_t done = 0;
    for (uint32_t step = (records + count - 1) / count; step-- > 0;) {
        done += stall_count(some(e->file, length_of(e), other.bytes, ROOM, step * count, count));
    }
    uint64_t answer = end(e->file, length_of(e), other.bytes, ROOM);
    check(answer == whole && done == records && memcmp(map, other.bytes, ROOM) == 0, "a fill in steps is the fill");
    printf("%s in steps of %" PRIu32 ": %" PRIu32 " records, %" PRIu32 " cells\n", e->name, count, done,
           stall_count(answer));
}

/* ---- the stall: its map is filled */

/* Every record, with and without room for it, and records that there are not, some beyond 32 bits. */
static void readings(void)
{
    for (unsigned i = 0; i < 270; i++) {
        uint64_t record = i < 206 ? i : (uint64_t)1 << (i - 206);
        int32_t out[20];
        for (int j = 0; j < 20; j++) {
            out[j] = 77;
        }
        say("read", reading(STALL->file, length_of(STALL), record, out, 20 - i % 3));
        for (int j = 0; j < 20; j++) {
            printf("%" PRId32 "%c", out[j], j < 19 ? ' ' : '\n');
        }
    }
}

static void through(const char *what, const int16_t *numbers, uint64_t count)
{
    say(what, route(STALL->file, length_of(STALL), map, ROOM, numbers, count));
}

static void routes(void)
{
    static const int16_t reach[] = {-1000, -400, 1200, -300, -300, 700, -200, -100, 500, -200, 0, 520};
    static const int16_t feeder[] = {-1000, -400, 1200, -300, -300, 700, 900, 0, 700};
    static const int16_t side[] = {600, 100, 460, 600, -600, 460}, inward[] = {600, -600, 460, 600, 100, 460};
    int16_t wide[3 * STALL_POINTS_MOST];
    for (int i = 0; i < STALL_POINTS_MOST; i++) {
        int far = i % 2;
        wide[3 * i] = (int16_t)(far ? 640 - i : i - 1090);
        wide[3 * i + 1] = (int16_t)(far ? 420 - i : i - 420);
        wide[3 * i + 2] = (int16_t)(far ? 1800 - i : i);
    }
    through("to the udder, 3 legs", reach, 12);
    through("into the feeder, 2 legs", feeder, 9);
    through("into the side", side, 6);
    through("into the side, turned round", inward, 6);
    through("across the stall, 63 legs", wide, 192);
    wide[189] = 900;
    wide[190] = 0;
    wide[191] = 700;
    through("the last leg into the feeder", wide, 192);
    wide[191] = 2000;
    through("out of the grid", wide, 192);
}

/* A leg on g that starts in cell 3 and comes to cells 1 and 2 later. */
static void route_on_g(void)
{
    static const int16_t back[] = {20, 20, 5, 0, 0, 5};
    const struct example *g = &EXAMPLES[6];
    fill(g->file, length_of(g), other.bytes, ROOM);
    uint64_t answer = route(g->file, length_of(g), other.bytes, ROOM, back, 6);
    say("back on g", answer);
    check(answer == ((uint64_t)STALL_BLOCKED << 56 | 3), "the cell named is the one that the leg reaches first");
}

/*
 * Each 64-bit parameter in turn is 2^32, or more by 2^32 than is there. No call looks beyond what the map or the record
 * needs, so that it touches nothing that is not there.
 */
static void beyond_32_bits(void)
{
    const uint64_t more = (uint64_t)1 << 32, length = length_of(STALL);
    const uint8_t *file = STALL->file;
    static const int16_t point[6];
    int32_t out[STALL_READ_NUMBERS];
    say("fill, file", fill(file, length + more, map, ROOM));
    say("fill, map", fill(file, length, map, more));
    say("begin, file", begin(file, length + more, other.bytes, ROOM));
    say("begin, map", begin(file, length, other.bytes, more));
    say("some, file", some(file, length + more, other.bytes, ROOM, 0, 9));
    say("some, map", some(file, length, other.bytes, more, 0, 9));
    say("some, first", some(file, length, other.bytes, ROOM, more, 9));
    say("some, count", some(file, length, other.bytes, ROOM, 7, more));
    say("end, file", end(file, length + more, other.bytes, ROOM));
    say("end, map", end(file, length, other.bytes, more));
    say("route, file", route(file, length + more, map, ROOM, point, 6));
    say("route, map", route(file, length, map, more, point, 6));
    say("route, numbers", route(file, length, map, ROOM, point, more + 6));
    say("read, file", reading(file, length + more, 0, out, STALL_READ_NUMBERS));
    say("read, record", reading(file, length, more, out, STALL_READ_NUMBERS));
    say("read, out", reading(file, length, 0, out, more));
}

/* ---- the cases of crates/digests: crates/cases/src/lib.rt says what their lines are */

extern const char digest_cases[], digest_cases_end[];

static struct odd_file {
    uint8_t pad;
    uint8_t bytes[256];
} __attribute__((aligned(8))) given;
static uint64_t given_length;

static uint64_t digested(uint64_t sum, uint64_t number)
{
    return (sum * 257 + number) % 4294967291;
}

static unsigned digit(char c)
{
    return (unsigned)(c <= '9' ? c - '0' : c - 'a' + 10);
}

/* Takes the frame file, in hexadecimal. */
static void take_file(const char *at, const char *stop)
{
    given_length = (uint64_t)(stop - at) / 2;
    check(given_length <= sizeof given.bytes, "room for the file of a case");
    for (uint64_t i = 0; i < given_length && i < sizeof given.bytes; i++) {
        given.bytes[i] = (uint8_t)(digit(at[2 * i]) << 4 | digit(at[2 * i + 1]));
    }
}

/* Takes the numbers of a route, up to a comma, and gives where they end. */
static const char *take_route(const char *at, const char *stop, int16_t *numbers, uint64_t *count)
{
    *count = 0;
    while (at < stop && *at != ',') {
        int negative = *at == '-', value = 0;
        for (at += negative; at < stop && *at >= '0' && *at <= '9'; at++) {
            value = 10 * value + (*at - '0');
        }
        if (*count < 3 * STALL_POINTS_MOST) {
            numbers[(*count)++] = (int16_t)(negative ? -value : value);
        }
        while (at < stop && *at == ' ') {
            at++;
        }
    }
    return at;
}

/* The digest with the answer of a route. */
static uint64_t with_answer(uint64_t sum, uint64_t answer)
{
    switch (stall_tag(answer)) {
    case STALL_FREE:
        return digested(sum, 1);
    case STALL_BLOCKED:
        return digested(digested(digested(sum, 2), stall_leg(answer)), stall_cell(answer));
    default:
        return digested(digested(digested(sum, 3), stall_number(answer)), stall_place(answer));
    }
}

static uint64_t digest_of_routes(const char *at, const char *stop)
{
    uint64_t sum = 0;
    while (at < stop) {
        int16_t numbers[3 * STALL_POINTS_MOST];
        uint64_t count;
        at = take_route(at, stop, numbers, &count);
        sum = with_answer(sum, route(given.bytes, given_length, map, ROOM, numbers, count));
        at += at < stop ? 2 : 0; /* a comma and a blank */
    }
    return sum;
}

/* Fills a buffer of bytes 0xaa, and prints the line of a case. */
static void digest(const char *name, const char *at, const char *stop)
{
    memset(map, 0xaa, ROOM);
    uint64_t answer = fill(given.bytes, given_length, map, ROOM);
    printf("%.*s ", (int)(at - name), name);
    if (stall_tag(answer) == STALL_DONE) {
        printf("FILLED %" PRIu32, stall_count(answer));
    } else {
        printf("REFUSED %u %" PRIu32, stall_number(answer), stall_place(answer));
    }
    uint64_t sum = 0;
    for (size_t i = 0; i < ROOM; i++) {
        sum = digested(sum, map[i]);
    }
    printf(" MAP %" PRIu32 " ROUTES %" PRIu32 "\n", (uint32_t)sum, (uint32_t)digest_of_routes(at + 1, stop));
}

/* Each case is three lines: the file, the buffer, which is always the same, and the routes. */
static void digests(void)
{
    static const char file[] = "given: ", buffer[] = "buffer 32770: aa", routes[] = "digest ";
    for (const char *line = digest_cases, *stop; line < digest_cases_end; line = stop + 1) {
        stop = memchr(line, '\n', (size_t)(digest_cases_end - line));
        if (strncmp(line, file, strlen(file)) == 0) {
            take_file(line + strlen(file), stop);
        } else if (strncmp(line, routes, strlen(routes)) == 0) {
            const char *colon = memchr(line, ':', (size_t)(stop - line));
            digest(line + strlen(routes), colon + 1, stop);
        } else {
            check(strncmp(line, buffer, strlen(buffer)) == 0, "the line of a case");
        }
    }
}

int main(void)
{
    check(probe_traps(), "an access that is not aligned is a fault");
    for (size_t i = 0; i < EXAMPLE_COUNT; i++) {
        list(&EXAMPLES[i]);
    }
    for (size_t i = 0; i < EXAMPLE_COUNT; i++) {
        in_steps(&EXAMPLES[i], 1);
        in_steps(&EXAMPLES[i], 7);
        in_steps(&EXAMPLES[i], 64);
    }
    readings();
    routes();
    route_on_g();
    beyond_32_bits();
    printf("digests\n");
    digests();
    printf("end\n");
    probe_say_stack();
    return failed != 0;
}
