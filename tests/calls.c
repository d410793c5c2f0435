/* Generated calls over images, made through the C interface, and for each the line that the second program prints
 * for it: the answer, the counts, the image, and digests of memory, area and output. The calls come on standard
 * input in the format of second/README.md; those over records are not C's, and end the run with `cut`, as any other
 * fault does. */
#include "tondravik.h"

#include <stdio.h>
#include <stdlib.h>
#include <string.h>

enum { HEAD = 32, MOST_IMAGE = 256, MOST = 1 << 24 };
enum { TRANSACT = 11, POWER_CYCLE = 12, OPEN = 13, FEED = 14, CLOSE = 15, FRESH_M = 21, FRESH_P = 22, FRESH_M32 = 23 };

/* What is lent. Image, memory and area stay as a call left them for one that goes on. Behind each buffer lies a margin
 * that no call may touch. */
enum { MARGIN = 16, FILL = 0x5A };
struct buffer {
    uint8_t *bytes;
    size_t length;
};
static struct buffer image, memory, area, samples, output;

static void renew(struct buffer *b, size_t length)
{
    free(b->bytes);
    b->bytes = malloc(length + MARGIN);
    b->length = length;
    if (b->bytes == NULL) {
        exit(2);
    }
    memset(b->bytes + length, FILL, MARGIN);
}

static int is_kept(const struct buffer *b)
{
    for (size_t i = 0; i < MARGIN; i++) {
        if (b->bytes[b->length + i] != FILL) {
            return 0;
        }
    }
    return 1;
}

static int take(uint8_t *bytes, size_t length)
{
    return fread(bytes, 1, length, stdin) == length;
}

static size_t number_at(const uint8_t *head, size_t at)
{
    return (size_t)head[at] | (size_t)head[at + 1] << 8 | (size_t)head[at + 2] << 16 | (size_t)head[at + 3] << 24;
}

/* A number in which order and length of the bytes both count. */
static unsigned long digest(const uint8_t *bytes, size_t length)
{
    uint64_t sum = 1;
    for (size_t i = 0; i < length; i++) {
        sum = (sum * 65599 + bytes[i] + 1) % 4294967291u;
    }
    return (unsigned long)sum;
}

static void print_image(void)
{
    printf(" ");
    if (image.length == 0) {
        printf("-");
    }
    for (size_t i = 0; i < image.length; i++) {
        printf("%02X", (unsigned)image.bytes[i]);
    }
}

/* The call of a number, over what is lent: `m` and `a` bytes of memory and area. */
static unsigned call(const uint8_t *head, size_t m, size_t a, size_t *counts)
{
    const uint8_t *device = samples.bytes;
    size_t device_length = number_at(head, 24), unique_length = number_at(head, 28);
    const uint8_t *unique = samples.bytes + device_length;
    switch (head[0]) {
    case TRANSACT:
        return tondravik_transact(image.bytes, image.length, memory.bytes, m, area.bytes, a, samples.bytes,
                                  samples.length, output.bytes, output.length, counts, TONDRAVIK_COUNTS);
    case POWER_CYCLE:
        return tondravik_power_cycle(image.bytes, image.length, memory.bytes, m, area.bytes, a);
    case OPEN:
        return tondravik_open(image.bytes, image.length, memory.bytes, m, area.bytes, a);
    case FEED:
        return tondravik_feed(image.bytes, image.length, memory.bytes, m, area.bytes, a, samples.bytes, samples.length,
                              output.bytes, output.length);
    case CLOSE:
        return tondravik_close(image.bytes, image.length, memory.bytes, m, area.bytes, a, counts, TONDRAVIK_COUNTS);
    case FRESH_M:
        return tondravik_fresh_m(head[3], device, device_length, unique, unique_length, image.bytes, image.length);
    case FRESH_P:
        return tondravik_fresh_p(head[3], device, device_length, image.bytes, image.length);
    default:
        return tondravik_fresh_m32(head[3], device, device_length, unique, unique_length, image.bytes, image.length);
    }
}

static int is_call(uint8_t number)
{
    return (number >= TRANSACT && number <= CLOSE) || (number >= FRESH_M && number <= FRESH_M32);
}

/* Everything that a probe brings, or 0 where it cannot be made. */
static int lend(const uint8_t *head, int any)
{
    size_t m = number_at(head, 4), a = number_at(head, 8), seed = head[2];
    size_t device_length = number_at(head, 24), unique_length = number_at(head, 28);
    if (!is_call(head[0]) || head[1] > 1 || m > MOST || a > MOST || number_at(head, 12) > MOST ||
        number_at(head, 16) > MOST || number_at(head, 20) > MOST_IMAGE) {
        return 0;
    }
    if (head[1] == 1) {
        if (!any || number_at(head, 20) != 0 || m > memory.length || a > area.length) {
            return 0;
        }
    } else {
        renew(&image, number_at(head, 20));
        renew(&memory, m);
        renew(&area, a);
        for (size_t i = 0; i < m; i++) {
            memory.bytes[i] = (uint8_t)(seed + 7 * i + i / 251);
        }
        for (size_t i = 0; i < a; i++) {
            area.bytes[i] = (uint8_t)(seed + 3 + 5 * i);
        }
        if (!take(image.bytes, image.length)) {
            return 0;
        }
    }
    renew(&samples, number_at(head, 12));
    renew(&output, number_at(head, 16));
    for (size_t i = 0; i < output.length; i++) {
        output.bytes[i] = (uint8_t)(seed + 11 + 13 * i);
    }
    if (device_length > samples.length || unique_length > samples.length - device_length) {
        return 0;
    }
    return take(samples.bytes, samples.length);
}

int main(void)
{
    uint8_t head[HEAD];
    size_t length;
    unsigned long number = 0;
    while ((length = fread(head, 1, HEAD, stdin)) != 0) {
        size_t counts[TONDRAVIK_COUNTS] = {0};
        unsigned answer;
        if (length == HEAD && (head[0] == TRANSACT || head[0] == CLOSE)) {
            memset(counts, 0xFF, sizeof counts); /* these two have to write them */
        }
        if (length != HEAD || !lend(head, number != 0)) {
            printf("cut\n");
            break;
        }
        answer = call(head, number_at(head, 4), number_at(head, 8), counts);
        number += 1;
        if (!is_kept(&image) || !is_kept(&memory) || !is_kept(&area) || !is_kept(&samples) || !is_kept(&output)) {
            printf("call %lu has written past the end of a buffer\n", number);
            return 1;
        }
        printf("%lu %u", number, answer);
        for (size_t i = 0; i < TONDRAVIK_COUNTS; i++) {
            printf(" %zu", counts[i]);
        }
        print_image();
        printf(" %08lX %08lX %08lX\n", digest(memory.bytes, number_at(head, 4)), digest(area.bytes, number_at(head, 8)),
               digest(output.bytes, output.length));
    }
    free(image.bytes);
    free(memory.bytes);
    free(area.bytes);
    free(samples.bytes);
    free(output.bytes);
    return 0;
}
