/* A host in C. A fresh PSRAM goes to four wires and is written there; then it is read in chunks, as a probe delivers
 * them, with the image copied away and taken up again between two of them, and what it drove is printed. A fresh
 * MRAM of 32 Mbit, whose area is lent too, is written past the end of that area. */
#include "tondravik.h"

#include <stdio.h>
#include <string.h>

enum { N = 10, ROOM = 128, CHUNK = 7 };

static uint8_t image[TONDRAVIK_IMAGE];
static uint8_t memory[1u << N];
static uint8_t area[TONDRAVIK_AREA_M32];
static size_t area_length = TONDRAVIK_AREA_P;

static uint8_t samples[ROOM];
static uint8_t output[ROOM];
static size_t clocks[1];
static size_t counts[TONDRAVIK_COUNTS];

/* Bytes in hex, to the end of the line. */
static void print_bytes(const uint8_t *bytes, size_t number)
{
    for (size_t i = 0; i < number; i++) {
        printf(" %02X", (unsigned)bytes[i]);
    }
    printf("\n");
}

/* A number of four bytes in the image. */
static unsigned long number_at(size_t at)
{
    unsigned long number = 0;
    for (size_t i = 4; i-- > 0;) {
        number = number * 256 + image[at + i];
    }
    return number;
}

static void print_counts(const char *name, unsigned answer)
{
    printf("%s: answer %u, command %zu address %zu wait %zu data %zu rest %zu\n", name, answer,
           counts[TONDRAVIK_COUNT_COMMAND], counts[TONDRAVIK_COUNT_ADDRESS], counts[TONDRAVIK_COUNT_WAIT],
           counts[TONDRAVIK_COUNT_DATA], counts[TONDRAVIK_COUNT_REST]);
}

/* Builds a command for the part that the chip is and the bus mode that it is in. */
static int build(const char *name, uint8_t opcode, uint32_t address, size_t wanted, const uint8_t *written,
                 size_t written_length)
{
    unsigned answer = tondravik_build(image[TONDRAVIK_AT_PART], opcode, image[TONDRAVIK_AT_BUS_MODE], address, 0,
                                      wanted, written, written_length, samples, sizeof samples, clocks, 1);
    if (answer != TONDRAVIK_DONE) {
        printf("%s: not built, %u\n", name, answer);
    }
    return answer == TONDRAVIK_DONE;
}

/* Builds it, sends it in one, and prints its answer and counts. */
static void command(const char *name, uint8_t opcode, uint32_t address, size_t wanted, const uint8_t *written,
                    size_t written_length)
{
    if (build(name, opcode, address, wanted, written, written_length)) {
        print_counts(name, tondravik_transact(image, sizeof image, memory, sizeof memory, area, area_length, samples,
                                              clocks[0], output, sizeof output, counts, TONDRAVIK_COUNTS));
    }
}

/* Sends what is built in chunks, and prints what the image tells of the transaction after each of them. */
static void chunks(const char *name)
{
    uint8_t kept[TONDRAVIK_IMAGE];
    unsigned answer = tondravik_open(image, sizeof image, memory, sizeof memory, area, area_length);
    printf("%s, opened: answer %u\n", name, answer);
    for (size_t from = 0; from < clocks[0]; from += CHUNK) {
        size_t length = clocks[0] - from < CHUNK ? clocks[0] - from : CHUNK;
        /* the image is the whole chip: it may go through a file between two chunks */
        memcpy(kept, image, sizeof kept);
        memset(image, 0xFF, sizeof image);
        memcpy(image, kept, sizeof image);
        answer = tondravik_feed(image, sizeof image, memory, sizeof memory, area, area_length, samples + from, length,
                                output + from, sizeof output - from);
        printf("chunk of %zu: answer %u, clocks %lu, opcode %02X, address %lX, driven", length, answer,
               number_at(TONDRAVIK_AT_CLOCKS), (unsigned)image[TONDRAVIK_AT_OPCODE],
               number_at(TONDRAVIK_AT_ADDRESS));
        print_bytes(output + from, length);
    }
    /* a whole transaction cannot begin while one is open */
    answer = tondravik_transact(image, sizeof image, memory, sizeof memory, area, area_length, samples, clocks[0],
                                output, sizeof output, counts, TONDRAVIK_COUNTS);
    printf("a transaction meanwhile: answer %u\n", answer);
    print_counts("closed", tondravik_close(image, sizeof image, memory, sizeof memory, area, area_length, counts,
                                           TONDRAVIK_COUNTS));
}

int main(void)
{
    static const uint8_t identity[8] = {0x0D, 0x5D, 0x52, 0x80, 0x01, 0x02, 0x03, 0x04};
    static const uint8_t data[5] = {0xA5, 0x00, 0x3C, 0xFF, 0x17};
    static const uint8_t address = 0x20;
    uint8_t bytes[ROOM] = {0};
    size_t number[1] = {0};
    unsigned answer;

    answer = tondravik_fresh_p(N, identity, sizeof identity, image, sizeof image);
    printf("fresh PSRAM of %zu bytes: answer %u\n", sizeof memory, answer);
    printf("part %u, n %u, mode register %02Xh, bus mode %u, identity", (unsigned)image[TONDRAVIK_AT_PART],
           (unsigned)image[TONDRAVIK_AT_N], (unsigned)image[TONDRAVIK_AT_MODE_REGISTER],
           (unsigned)image[TONDRAVIK_AT_BUS_MODE]);
    print_bytes(image + TONDRAVIK_AT_DEVICE_IDENTITY, sizeof identity);

    command("35, four wires", 0x35, 0, 0, NULL, 0);
    command("38, write", 0x38, address, 0, data, sizeof data);
    if (build("0B, read", 0x0B, address, sizeof data, NULL, 0)) {
        chunks("0B, read");
    }
    answer = tondravik_gather(4, output, clocks[0], bytes, sizeof bytes, number, 1);
    printf("gathered: answer %u, %zu bytes:", answer, number[0]);
    print_bytes(bytes, number[0]);

    answer = tondravik_power_cycle(image, sizeof image, memory, sizeof memory, area, area_length);
    printf("power cycle: answer %u, bus mode %u, byte %02Xh is %02X\n", answer, (unsigned)image[TONDRAVIK_AT_BUS_MODE],
           (unsigned)address, (unsigned)memory[address]);

    /* The MRAM of 32 Mbit: two bytes from the last of its area on, and its serial number by the register map. */
    answer = tondravik_fresh_m32(N, identity, 4, identity, sizeof identity, image, sizeof image);
    area_length = TONDRAVIK_AREA_M32;
    printf("fresh MRAM of %zu bytes: answer %u, part %u\n", sizeof memory, answer, (unsigned)image[TONDRAVIK_AT_PART]);
    command("42, area", 0x42, TONDRAVIK_AREA_M32 - 1, 0, data + 2, 2);
    printf("area 1FFh is %02X, 000h is %02X\n", (unsigned)area[TONDRAVIK_AREA_M32 - 1], (unsigned)area[0]);
    command("65, serial number", 0x65, 0x80, 8, NULL, 0);
    area_length = TONDRAVIK_AREA_M;
    command("65, area of part M", 0x65, 0x80, 8, NULL, 0);
    return 0;
}
