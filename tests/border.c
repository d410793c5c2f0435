/* Bad input at the border, through the C interface: images of other lengths, words of other numbers, nothing at all;
 * and every bit of valid images flipped in turn. Each flip is another valid image or is answered 3 by all five
 * calls, with nothing changed. What is printed is compared with tests/border.stdout; a call that writes where it
 * must not, or two calls that do not agree, end the run. */
#include "tondravik.h"

#include <stdio.h>
#include <stdlib.h>
#include <string.h>

enum { N = 10, CLOCKS = 3, ROOM = 8, CALLS = 5, FILL = 0x5A };

/* All that a call is lent, with a margin behind each buffer that no call may touch. */
struct lent {
    uint8_t image[TONDRAVIK_IMAGE + ROOM];
    uint8_t memory[(1u << N) + ROOM];
    uint8_t area[TONDRAVIK_AREA_M32 + ROOM];
    uint8_t output[CLOCKS + ROOM];
    size_t counts[TONDRAVIK_COUNTS + ROOM];
};

static const uint8_t identity[8] = {0x0D, 0x5D, 0x52, 0x80, 0x01, 0x02, 0x03, 0x04};
static const uint8_t samples[CLOCKS] = {1, 0, 1};

static void fail(const char *what, unsigned answer)
{
    printf("%s: answer %u, or something was written\n", what, answer);
    exit(1);
}

/* Call `k` over an image of a length, with so many words for counts. */
static unsigned call(int k, struct lent *x, size_t image_length, size_t area_length, size_t words)
{
    const size_t size = 1u << N;
    switch (k) {
    case 0:
        return tondravik_transact(x->image, image_length, x->memory, size, x->area, area_length, samples, CLOCKS,
                                  x->output, CLOCKS, x->counts, words);
    case 1:
        return tondravik_power_cycle(x->image, image_length, x->memory, size, x->area, area_length);
    case 2:
        return tondravik_open(x->image, image_length, x->memory, size, x->area, area_length);
    case 3:
        return tondravik_feed(x->image, image_length, x->memory, size, x->area, area_length, samples, CLOCKS,
                              x->output, CLOCKS);
    default:
        return tondravik_close(x->image, image_length, x->memory, size, x->area, area_length, x->counts, words);
    }
}

/* Whether a refusal left everything as it was, but that the five counts, where they have their room, are 0. */
static int is_kept(int k, const struct lent *before, const struct lent *after, size_t words)
{
    struct lent due = *before;
    if ((k == 0 || k == 4) && words == TONDRAVIK_COUNTS) {
        memset(due.counts, 0, TONDRAVIK_COUNTS * sizeof due.counts[0]);
    }
    return memcmp(due.image, after->image, sizeof due.image) == 0 &&
           memcmp(due.memory, after->memory, sizeof due.memory) == 0 &&
           memcmp(due.area, after->area, sizeof due.area) == 0 &&
           memcmp(due.output, after->output, sizeof due.output) == 0 &&
           memcmp(due.counts, after->counts, sizeof due.counts) == 0;
}

/* Every call is answered as `due`, and leaves everything. */
static void all_refuse(const char *what, const struct lent *x, size_t image_length, size_t area_length, size_t words,
                       unsigned due)
{
    for (int k = 0; k < CALLS; k++) {
        struct lent y = *x;
        unsigned answer = call(k, &y, image_length, area_length, words);
        if (answer != due || !is_kept(k, x, &y, words)) {
            fail(what, answer);
        }
    }
    printf("%s: answered %u five times\n", what, due);
}

/* Whether nothing was written behind a buffer. */
static int is_within(const struct lent *before, const struct lent *after)
{
    return memcmp(before->image + TONDRAVIK_IMAGE, after->image + TONDRAVIK_IMAGE, ROOM) == 0 &&
           memcmp(before->memory + (1u << N), after->memory + (1u << N), ROOM) == 0 &&
           memcmp(before->area + TONDRAVIK_AREA_M32, after->area + TONDRAVIK_AREA_M32, ROOM) == 0 &&
           memcmp(before->output + CLOCKS, after->output + CLOCKS, ROOM) == 0 &&
           memcmp(before->counts + TONDRAVIK_COUNTS, after->counts + TONDRAVIK_COUNTS,
                  ROOM * sizeof before->counts[0]) == 0;
}

/* Every bit flipped in turn. What a call leaves of a valid image the next call accepts. */
static void flip(const char *name, const struct lent *x, size_t area_length)
{
    unsigned valid = 0, refused = 0;
    for (size_t bit = 0; bit < 8 * TONDRAVIK_IMAGE; bit++) {
        struct lent flipped = *x;
        int threes = 0;
        flipped.image[bit / 8] ^= (uint8_t)(1u << bit % 8);
        for (int k = 0; k < CALLS; k++) {
            struct lent y = flipped;
            unsigned answer = call(k, &y, TONDRAVIK_IMAGE, area_length, TONDRAVIK_COUNTS);
            if (!is_within(&flipped, &y)) {
                fail(name, answer);
            }
            if (answer == TONDRAVIK_STATE) {
                threes += 1;
                if (!is_kept(k, &flipped, &y, TONDRAVIK_COUNTS)) {
                    fail(name, answer);
                }
            } else if (call(2, &y, TONDRAVIK_IMAGE, area_length, TONDRAVIK_COUNTS) == TONDRAVIK_STATE) {
                fail(name, TONDRAVIK_STATE);
            }
        }
        if (threes != 0 && threes != CALLS) {
            fail(name, TONDRAVIK_STATE);
        }
        valid += threes == 0;
        refused += threes == CALLS;
    }
    printf("%s: of %d bits %u make another valid image, %u are answered 3\n", name, 8 * TONDRAVIK_IMAGE, valid,
           refused);
}

/* A transaction opened, and its first clocks on one wire, high bit first. */
static void begin(struct lent *x, size_t area_length, const uint8_t *bytes, size_t clocks)
{
    const size_t size = 1u << N;
    unsigned answer = tondravik_open(x->image, TONDRAVIK_IMAGE, x->memory, size, x->area, area_length);
    for (size_t i = 0; i < clocks && answer == TONDRAVIK_DONE; i++) {
        uint8_t sample = (uint8_t)(bytes[i / 8] >> (7 - i % 8) & 1), driven = 0;
        answer = tondravik_feed(x->image, TONDRAVIK_IMAGE, x->memory, size, x->area, area_length, &sample, 1, &driven,
                                1);
    }
    if (answer != TONDRAVIK_DONE) {
        fail("begin", answer);
    }
}

/* Calls of part P with no area, no samples and no output. */
static void empty(const uint8_t *fresh)
{
    static uint8_t image[TONDRAVIK_IMAGE], memory[1u << N];
    size_t counts[TONDRAVIK_COUNTS] = {1, 1, 1, 1, 1};
    const size_t size = sizeof memory;
    unsigned opened, fed, closed, whole, cycled;
    memcpy(image, fresh, sizeof image);
    opened = tondravik_open(image, sizeof image, memory, size, NULL, 0);
    fed = tondravik_feed(image, sizeof image, memory, size, NULL, 0, NULL, 0, NULL, 0);
    closed = tondravik_close(image, sizeof image, memory, size, NULL, 0, counts, TONDRAVIK_COUNTS);
    whole = tondravik_transact(image, sizeof image, memory, size, NULL, 0, NULL, 0, NULL, 0, counts, TONDRAVIK_COUNTS);
    cycled = tondravik_power_cycle(image, sizeof image, memory, size, NULL, 0);
    printf("no clocks, with NULL: opened %u, fed %u, closed %u, whole %u, power cycle %u\n", opened, fed, closed, whole,
           cycled);
}

int main(void)
{
    static const uint8_t write_memory[5] = {0x02, 0x00, 0x03, 0xFF, 0xA7};
    static const uint8_t write_configurations[5] = {0x87, 0x00, 0x08, 0x13, 0x05};
    static struct lent x, m, p, m32;
    memset(&x, FILL, sizeof x);
    m = p = m32 = x;
    if (tondravik_fresh_m(N, identity, 4, identity, 8, m.image, TONDRAVIK_IMAGE) != TONDRAVIK_DONE ||
        tondravik_fresh_p(N, identity, 8, p.image, TONDRAVIK_IMAGE) != TONDRAVIK_DONE ||
        tondravik_fresh_m32(N, identity, 4, identity, 8, m32.image, TONDRAVIK_IMAGE) != TONDRAVIK_DONE) {
        fail("fresh", 0);
    }

    /* lengths: 3 comes first, whatever else is wrong */
    all_refuse("image of 0 bytes", &m, 0, TONDRAVIK_AREA_M, TONDRAVIK_COUNTS, TONDRAVIK_STATE);
    all_refuse("image of 127 bytes", &m, 127, TONDRAVIK_AREA_M, TONDRAVIK_COUNTS, TONDRAVIK_STATE);
    all_refuse("image of 129 bytes", &m, 129, TONDRAVIK_AREA_M, TONDRAVIK_COUNTS, TONDRAVIK_STATE);
    all_refuse("image of 127 bytes, no area, four words", &m, 127, 0, 4, TONDRAVIK_STATE);
    all_refuse("no area", &m, TONDRAVIK_IMAGE, 0, TONDRAVIK_COUNTS, TONDRAVIK_SIZE);
    all_refuse("no area, four words", &m, TONDRAVIK_IMAGE, 0, 4, TONDRAVIK_SIZE);
    all_refuse("no area, six words", &m, TONDRAVIK_IMAGE, 0, 6, TONDRAVIK_SIZE);
    x = m;
    x.image[TONDRAVIK_AT_PART] = 4;
    all_refuse("part 4", &x, TONDRAVIK_IMAGE, TONDRAVIK_AREA_M, TONDRAVIK_COUNTS, TONDRAVIK_STATE);
    all_refuse("part 4, no area, no words", &x, TONDRAVIK_IMAGE, 0, 0, TONDRAVIK_STATE);
    x = m;
    x.image[TONDRAVIK_AT_N] = 22;
    all_refuse("part M with n 22", &x, TONDRAVIK_IMAGE, TONDRAVIK_AREA_M, TONDRAVIK_COUNTS, TONDRAVIK_STATE);

    /* nothing at all */
    printf("nothing: %u %u %u %u %u, fresh %u %u %u\n",
           (unsigned)tondravik_transact(NULL, 0, NULL, 0, NULL, 0, NULL, 0, NULL, 0, NULL, 0),
           (unsigned)tondravik_power_cycle(NULL, 0, NULL, 0, NULL, 0),
           (unsigned)tondravik_open(NULL, 0, NULL, 0, NULL, 0),
           (unsigned)tondravik_feed(NULL, 0, NULL, 0, NULL, 0, NULL, 0, NULL, 0),
           (unsigned)tondravik_close(NULL, 0, NULL, 0, NULL, 0, NULL, 0),
           (unsigned)tondravik_fresh_m(N, NULL, 0, NULL, 0, NULL, 0), (unsigned)tondravik_fresh_p(N, NULL, 0, NULL, 0),
           (unsigned)tondravik_fresh_m32(N, NULL, 0, NULL, 0, NULL, 0));
    x = m;
    printf("fresh: identities of no bytes %u, n 22 on part M %u, 23 on part M32 %u, image of 129 bytes %u\n",
           (unsigned)tondravik_fresh_m(N, NULL, 0, NULL, 0, x.image, TONDRAVIK_IMAGE),
           (unsigned)tondravik_fresh_m(22, identity, 4, identity, 8, x.image, TONDRAVIK_IMAGE),
           (unsigned)tondravik_fresh_m32(23, identity, 4, identity, 8, x.image, TONDRAVIK_IMAGE),
           (unsigned)tondravik_fresh_m(N, identity, 4, identity, 8, x.image, 129));
    if (!is_kept(1, &m, &x, 0)) {
        fail("fresh", 0);
    }

    /* an empty buffer may be NULL also in a call that is made */
    empty(p.image);

    /* flips */
    flip("fresh part M", &m, TONDRAVIK_AREA_M);
    flip("fresh part P", &p, TONDRAVIK_AREA_P);
    flip("fresh part M32", &m32, TONDRAVIK_AREA_M32);
    x = m;
    begin(&x, TONDRAVIK_AREA_M, write_memory, 0);
    flip("part M, just opened", &x, TONDRAVIK_AREA_M);
    x = m;
    begin(&x, TONDRAVIK_AREA_M, write_memory, 5);
    flip("part M, in the command", &x, TONDRAVIK_AREA_M);
    x = m;
    begin(&x, TONDRAVIK_AREA_M, write_memory, 20);
    flip("part M, in the address", &x, TONDRAVIK_AREA_M);
    x = p;
    begin(&x, TONDRAVIK_AREA_P, write_memory, 36);
    flip("part P, in a byte of memory", &x, TONDRAVIK_AREA_P);
    x = m32;
    begin(&x, TONDRAVIK_AREA_M32, write_configurations, 27);
    flip("part M32, in a register write", &x, TONDRAVIK_AREA_M32);
    return 0;
}
