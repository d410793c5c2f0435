/* Tondravik for C: two serial MRAMs (part M and part M32, of 32 Mbit) and a serial PSRAM (part P), played clock by
 * clock, and the host half that builds samples and gathers bytes. C99 and C++. The archive, libcabi.a, is for x86-64
 * Linux, and wants nothing of the C library but memset.
 *
 * WHAT IS PROVED. Each function here leaves exactly what its definition says, in its answer and in every buffer that is
 * lent to it, for any numbers and any bytes; it ends, reads and writes nothing outside the buffers, and keeps no state
 * between calls. The definitions stand in crates/cabi/specs, crates/image_calls/specs and crates/image/specs. The
 * compiler's back end is tested, not proved.
 *
 * WHAT C MUST ENSURE, since no proof can look beyond the call:
 *   - Each pointer comes with the length behind it, in elements. For the whole call that many elements are there: to
 *     read where the parameter is const, and to read and write where it is not. A length that is larger than the
 *     buffer cannot be noticed.
 *   - A pointer has the alignment of its type. A buffer is at most PTRDIFF_MAX bytes long.
 *   - All elements of a lent buffer are initialized, also where a function only fills it.
 *   - Buffers of one call do not overlap, unless both are const.
 *   - No other thread, signal handler or device writes to a lent buffer during the call, nor reads one that is not
 *     const.
 *   - NULL only with length 0. An empty buffer may be NULL: nothing is read or written through it.
 *   - Calls go through these declarations, so that arguments have these types.
 *
 * WHAT C NEED NOT ENSURE. An image may hold any bytes and have any length, also bytes that were never a chip's: they
 * are looked at before use, and answered 3. Lengths, parts, samples and turns are answered too. An image may be copied,
 * stored and taken up again at any time, also in the middle of a transaction: it is all that there is of a chip, but
 * for its memory and its area.
 */
#ifndef TONDRAVIK_H
#define TONDRAVIK_H

#include <stddef.h>
#include <stdint.h>

#ifdef __cplusplus
extern "C" {
#endif

/* The answers. Of the device, 1, 2, 3 and 13 refuse a call: nothing that was lent has changed, but that the five
 * counts, where there are five words for them, are 0. 4 to 12 decline a transaction: memory and area are as they
 * were, the output has one 00h for each clock, and the chip is no longer armed (with 9 its latch also moves as its
 * write mode says). In chunks it is the close that answers so: memory and area are then as they were at the open,
 * and each chunk's output is 00h. 13 is a call out of turn: a transaction is open, or for feed and close none is. Of
 * the host half, every answer but 0 refuses: the buffer is as it was, and the number, where there is one word for
 * it, is 0. */
enum {
    TONDRAVIK_DONE = 0,
    TONDRAVIK_SIZE = 1,
    TONDRAVIK_SAMPLE = 2,
    TONDRAVIK_STATE = 3,
    TONDRAVIK_SHORT = 4,
    TONDRAVIK_UNKNOWN = 5,
    TONDRAVIK_ASLEEP = 6,
    TONDRAVIK_ADDRESS = 7,
    TONDRAVIK_LATCH = 8,
    TONDRAVIK_PROTECTED = 9,
    TONDRAVIK_RESERVED = 10,
    TONDRAVIK_LONG = 11,
    TONDRAVIK_UNARMED = 12,
    TONDRAVIK_TURN = 13
};

/* The parts. */
enum { TONDRAVIK_PART_M = 1, TONDRAVIK_PART_P = 2, TONDRAVIK_PART_M32 = 3 };

/* A chip is an image of TONDRAVIK_IMAGE bytes: all that it is, an open transaction included, but for its memory, which
 * has 2^n bytes, and its area. docs/IMAGE.md says what stands at each offset. Identities and the value are eight bytes,
 * byte 0 first; clocks, address and number are four, the lowest first; every other field is one. A flag is 0 or 1, and
 * bytes that belong to no field are 0. C may look at an image and change it: one that no chip has is answered 3 by the
 * next call, before all else. The lines of this enum are those that `image_table` prints. */
enum {
    TONDRAVIK_AT_PART = 0,
    TONDRAVIK_AT_N = 1,
    TONDRAVIK_AT_STATUS = 4,
    TONDRAVIK_AT_AREA_PROTECTION = 5,
    TONDRAVIK_AT_CONFIGURATION_1 = 6,
    TONDRAVIK_AT_CONFIGURATION_2 = 7,
    TONDRAVIK_AT_CONFIGURATION_3 = 8,
    TONDRAVIK_AT_CONFIGURATION_4 = 9,
    TONDRAVIK_AT_MODE_REGISTER = 10,
    TONDRAVIK_AT_BUS_MODE = 11,
    TONDRAVIK_AT_LATCH = 12,
    TONDRAVIK_AT_ARMED = 13,
    TONDRAVIK_AT_ASLEEP = 14,
    TONDRAVIK_AT_TOGGLE = 15,
    TONDRAVIK_AT_DEVICE_IDENTITY = 16,
    TONDRAVIK_AT_UNIQUE_NUMBER = 24,
    TONDRAVIK_AT_SERIAL_NUMBER = 32,
    TONDRAVIK_AT_SELECTED = 64,
    TONDRAVIK_AT_OPCODE = 65,
    TONDRAVIK_AT_CLOCKS = 68,
    TONDRAVIK_AT_ADDRESS = 72,
    TONDRAVIK_AT_NUMBER = 76,
    TONDRAVIK_AT_VALUE = 80,
    TONDRAVIK_IMAGE = 128
};

/* The bytes of each part's area; part P has none, and its area is lent with length 0. */
enum { TONDRAVIK_AREA_M = 256, TONDRAVIK_AREA_P = 0, TONDRAVIK_AREA_M32 = 512 };

/* The most clocks of one transaction. */
enum { TONDRAVIK_CLOCKS = 65535 };

/* The five counts of a transaction, in clocks: how many words are lent for them, and where each stands. */
enum {
    TONDRAVIK_COUNT_COMMAND = 0,
    TONDRAVIK_COUNT_ADDRESS = 1,
    TONDRAVIK_COUNT_WAIT = 2,
    TONDRAVIK_COUNT_DATA = 3,
    TONDRAVIK_COUNT_REST = 4,
    TONDRAVIK_COUNTS = 5
};

/* A fresh chip of part M: mode 1, latch down, disarmed, awake, registers and serial number as new, no transaction open.
 * `device` is its four bytes of device identity, `unique` its eight bytes of unique number.
 * First 3: the image is not TONDRAVIK_IMAGE bytes; what they held does not matter. Then 1: n is not 10 to 21, or device
 * or unique has another length. The image is then as it was. Memory and area are C's to clear: a new chip's are 0. */
uint8_t tondravik_fresh_m(uint8_t n, const uint8_t *device, size_t device_length, const uint8_t *unique,
                          size_t unique_length, uint8_t *image, size_t image_length);

/* The same of part M32, whose n is 10 to 22. */
uint8_t tondravik_fresh_m32(uint8_t n, const uint8_t *device, size_t device_length, const uint8_t *unique,
                            size_t unique_length, uint8_t *image, size_t image_length);

/* A fresh chip of part P. `device` is its eight bytes of device identity. Answers as for part M, n from 10 to 21. */
uint8_t tondravik_fresh_p(uint8_t n, const uint8_t *device, size_t device_length, uint8_t *image, size_t image_length);

/* THE CALLS OVER AN IMAGE. Each does what it does over the record that the image stands for, and leaves the image of
 * the next record, which the next call accepts. Before all others, 3: the image is not TONDRAVIK_IMAGE bytes, or no
 * valid record has it, also one with a part or an n that there is not. Then, of the two that have words for counts, 1:
 * there are not TONDRAVIK_COUNTS words, and they are as they were. Then the answers in the order of docs/MODEL.md, of
 * which the first is 1 again: `memory` has not 2^n bytes, `area` not the part's number (TONDRAVIK_AREA_..), `output`
 * not a byte for each sample, or the samples are too many.
 *
 * A transaction: all clocks between select low and select high. Each sample is 0 to 15, bit i the level on wire i.
 * Each clock gives one byte of output: low four bits levels, high four bits which wires the device drives, and 00h
 * where it drives none. Output past the clocks is kept. The counts are those of the answer. */
uint8_t tondravik_transact(uint8_t *image, size_t image_length, uint8_t *memory, size_t memory_length, uint8_t *area,
                           size_t area_length, const uint8_t *samples, size_t samples_length, uint8_t *output,
                           size_t output_length, size_t *counts, size_t counts_length);

/* A power cycle; no clock is counted. */
uint8_t tondravik_power_cycle(uint8_t *image, size_t image_length, uint8_t *memory, size_t memory_length,
                              const uint8_t *area, size_t area_length);

/* The same transaction in chunks, as a probe delivers them: select goes low; */
uint8_t tondravik_open(uint8_t *image, size_t image_length, const uint8_t *memory, size_t memory_length,
                       const uint8_t *area, size_t area_length);

/* the next clocks, none to 65,535 of them with those before; what they drive is in `output` at once, and a byte is
 * stored with its last clock; */
uint8_t tondravik_feed(uint8_t *image, size_t image_length, uint8_t *memory, size_t memory_length, uint8_t *area,
                       size_t area_length, const uint8_t *samples, size_t samples_length, uint8_t *output,
                       size_t output_length);

/* and select goes high: the answer and the counts are those of the whole transaction, and registers change now. */
uint8_t tondravik_close(uint8_t *image, size_t image_length, const uint8_t *memory, size_t memory_length,
                        const uint8_t *area, size_t area_length, size_t *counts, size_t counts_length);

/* The samples of a command. `mode` is the bus mode, 1, 2 or 4. `cr2` is configuration 2, used for opcode 4B only.
 * `wanted` is the number of bytes to read; a write has its bytes in `written`. How many samples there are goes to the
 * one word `clocks`, 0 where the command is refused. Samples past them are kept.
 * Before all others, 1: clocks_length is not 1, and nothing is written. Then in order 5, 7, 10, 4, 11, 1
 * (docs/MODEL.md, "The host half"). */
uint8_t tondravik_build(uint8_t part, uint8_t opcode, uint8_t mode, uint32_t address, uint8_t cr2, size_t wanted,
                        const uint8_t *written, size_t written_length, uint8_t *samples, size_t samples_length,
                        size_t *clocks, size_t clocks_length);

/* The bytes of what the device drove on 1, 2 or 4 wires; 00h is skipped, and an unfinished last byte is dropped. How
 * many bytes there are goes to the one word `number`, 0 where it is refused. Room past them is kept.
 * Before all others, 1: number_length is not 1, and nothing is written. Then in order 5, 2, 1
 * (docs/MODEL.md, "The host half"). */
uint8_t tondravik_gather(uint8_t wires, const uint8_t *driven, size_t driven_length, uint8_t *bytes,
                         size_t bytes_length, size_t *number, size_t number_length);

#ifdef __cplusplus
}
#endif

#endif
