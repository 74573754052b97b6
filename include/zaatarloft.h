/* Zaatarloft's calls for C and C++: compile, read, sample_width, check, run, step, generate, read_matrix_market,
 * write_verilog, registers and clock, as docs/SPECIFICATION.md has them, which is cited as document 01.
 * The library is target/staticlib/libzaatarloft.a, for x86-64 Linux; `scripts/build zaatarloft` proves and builds it.
 *
 * Every call returns its answer as a struct: the refusal's number, 0 where it accepts, its place, then the other numbers, which
 * are 0 where it refuses. An accepted call has place 0. Use these calls and not the raw functions under them: a later version
 * may add numbers to an answer, which changes the raw functions' parameters and leaves the source of callers valid.
 * A call lent anything at all ends, reads only what is lent, and writes only the buffer, outputs or store lent.
 *
 * What the caller owes: each pointer is aligned and valid for its length, which counts bytes, samples, outputs or a store's
 * numbers; what is lent to be written overlaps nothing else that is lent to the same call; and nobody else writes what is lent
 * while the call runs.
 * A call may be lent NULL where the length is 0, as an empty file, an empty std::vector or malloc(0) may give it; a raw function
 * never.
 * A call keeps no pointer and uses no memory but its stack: a stack of 128 KB was enough for compile and write_verilog, 96 KB
 * for clock, and 48 KB for the others.
 *
 * Request A8, samples of 8 to 24 bits: what a host has to change that was written when all had 16.
 * - zaatarloft_compile has a parameter more, the sample width, behind the matrix. Pass 16: the netlist has the bytes of before.
 * - Samples are lent to zaatarloft_run as int32_t and no longer as int16_t. One that doesn't fit the netlist's sample width is
 *   refused, with 21.
 * - ZAATARLOFT_NETLIST_BYTES is 6137 and was 6136: a buffer whose length is written as a number takes a byte more.
 * - A table of refusals has two more, 20 and 21; in 10 the limit of widths is 44 and was 40.
 * - A host that reads netlists itself meets two heads: at 16 bits that of kind 2, 8 bytes long, at other widths one of kind 6,
 *   9 bytes long, whose last byte is the width; all places behind it are one higher. zaatarloft_sample_width, a new call, says the
 *   width of either.
 * The raw functions of compile and run changed in the same way.
 */
#ifndef ZAATARLOFT_H
#define ZAATARLOFT_H

#include <stddef.h>
#include <stdint.h>

/* So many bytes always suffice for a netlist. */
#define ZAATARLOFT_NETLIST_BYTES 6137

/* So many bytes always suffice for a matrix record, of up to 8 by 8. */
#define ZAATARLOFT_MATRIX_BYTES 134

/* So many bytes always suffice for the text of a Verilog module. */
#define ZAATARLOFT_VERILOG_BYTES 37987

#ifdef __cplusplus
extern "C" {
#endif

/* ---- Why a record was declined */

/* When a call returns a refusal's number, in words, and beside them its place; NULL for another number. */
static inline const char *zaatarloft_refusal_words(uint8_t refusal)
{
    switch (refusal) {
    case 1: /* place 0 */
        return "one to five matrix bytes";
    case 2: /* place 0 */
        return "the matrix's length field differs from the number of bytes lent";
    case 3: /* place 0 */
        return "the matrix's kind is not 1";
    case 4: /* place 0, or the size line's start */
        return "the matrix's m or n outside 1 to 8";
    case 5: /* place 0 */
        return "the matrix's length is not 6 + 2 times m times n";
    case 6: /* place 0 */
        return "output buffer shorter than the netlist, the matrix record or the Verilog text, or store than the registers";
    case 7: /* record's start */
        return "under 4 bytes remain, or the length exceeds what remains";
    case 8: /* record's start */
        return "kind or length not the expected one";
    case 9: /* record's start */
        return "a field other than a recorded width or a total out of range, an operand not earlier than its operation, "
               "an output symbol not below n + operations, or a zero output whose symbol is not 0, shift not 0 or "
               "width not 1";
    case 10: /* record's start */
        return "recorded width is not the width, or the width exceeds 44";
    case 11: /* record's start */
        return "totals differ from the head's count or the depth";
    case 12: /* place after totals */
        return "bytes left over";
    case 13: /* place 0 */
        return "m or n of matrix and netlist differ";
    case 14: /* place = row, from 0 */
        return "lowest row whose coefficients differ";
    case 15: /* place 0 */
        return "samples are not n, or for clock not whole vectors";
    case 16: /* place 0 */
        return "outputs lent are not m, or for clock not m for each vector";
    case 17: /* line's start, or the file's end */
        return "the Matrix Market file's first line or size line is missing or has another form";
    case 18: /* first surplus line's start, or the file's end */
        return "the Matrix Market file's entries are too few or too many";
    case 19: /* line's start */
        return "one of the first m times n entry lines of the Matrix Market file is not an integer from -32,768 to 32,767";
    case 20: /* place 0 */
        return "the sample width for compile is not 8 to 24";
    case 21: /* place = index of the sample, from 0 */
        return "lowest index of a sample that doesn't fit the netlist's sample width";
    default:
        return NULL;
    }
}

/* ---- The functions that the library exports
 *
 * Each returns the refusal's number and writes all other numbers of its answer through the pointers, also where it refuses. */

uint8_t zaatarloft_raw_compile(const uint8_t *matrix, size_t matrix_length, uint8_t sample_width, uint8_t *buffer,
                               size_t buffer_length, size_t *place, size_t *written, uint16_t *operations, uint16_t *plain,
                               uint16_t *divisors, uint16_t *replacements, uint16_t *depth, uint16_t *negated);

uint8_t zaatarloft_raw_read(const uint8_t *netlist, size_t netlist_length, size_t *place, uint8_t *m, uint8_t *n,
                            uint16_t *operations, uint16_t *depth);

uint8_t zaatarloft_raw_sample_width(const uint8_t *netlist, size_t netlist_length, size_t *place, uint8_t *width);

uint8_t zaatarloft_raw_check(const uint8_t *matrix, size_t matrix_length, const uint8_t *netlist, size_t netlist_length,
                             size_t *place);

uint8_t zaatarloft_raw_run(const uint8_t *netlist, size_t netlist_length, const int32_t *samples, size_t samples_length,
                           int64_t *outputs, size_t outputs_length, size_t *place);

uint8_t zaatarloft_raw_step(const uint8_t *bytes, size_t bytes_length, size_t at, size_t *place, uint16_t *kind,
                            size_t *next);

uint8_t zaatarloft_raw_generate(uint8_t m, uint8_t n, uint32_t seed, uint8_t *buffer, size_t buffer_length, size_t *place,
                                size_t *written);

uint8_t zaatarloft_raw_read_matrix_market(const uint8_t *text, size_t text_length, uint8_t *buffer, size_t buffer_length,
                                          size_t *place, size_t *written);

uint8_t zaatarloft_raw_write_verilog(const uint8_t *netlist, size_t netlist_length, uint8_t *buffer, size_t buffer_length,
                                     size_t *place, size_t *written);

uint8_t zaatarloft_raw_registers(const uint8_t *netlist, size_t netlist_length, size_t *place, size_t *registers);

uint8_t zaatarloft_raw_clock(const uint8_t *netlist, size_t netlist_length, const int32_t *samples, size_t samples_length,
                             int64_t *store, size_t store_length, int64_t *outputs, size_t outputs_length, size_t *place);

/* ---- The calls
 *
 * Where a length is 0, they lend the raw functions a place of their own, which nobody reads or writes, and not the pointer that
 * they are given. */

/* The pointer to lend for bytes that are only read. */
static inline const uint8_t *zaatarloft_lent(const uint8_t *bytes, size_t length)
{
    static const uint8_t none = 0;
    return length == 0 ? &none : bytes;
}

struct zaatarloft_compiled {
    uint8_t refusal;
    size_t place;
    size_t written; /* bytes of the buffer */
    uint16_t operations;
    uint16_t plain;
    uint16_t divisors;
    uint16_t replacements;
    uint16_t depth;
    uint16_t negated; /* outputs with sign minus */
};

/* From a matrix record and the width of a detector's samples, 8 to 24 bits, to the netlist, in the first `written` bytes of the
 * buffer; the bytes behind them, and all where it refuses, stay as they were. No matrix bytes mean a bank of no rows and no inputs.
 * Refusals 20, then 1 to 6. The width is a number of 8 bits: a larger one that a caller holds has to be tested before it is cut to
 * these. */
static inline struct zaatarloft_compiled zaatarloft_compile(const uint8_t *matrix, size_t matrix_length, uint8_t sample_width,
                                                            uint8_t *buffer, size_t buffer_length)
{
    uint8_t none = 0;
    struct zaatarloft_compiled answer;
    answer.refusal = zaatarloft_raw_compile(zaatarloft_lent(matrix, matrix_length), matrix_length, sample_width,
                                            buffer_length == 0 ? &none : buffer, buffer_length, &answer.place,
                                            &answer.written, &answer.operations, &answer.plain, &answer.divisors,
                                            &answer.replacements, &answer.depth, &answer.negated);
    return answer;
}

struct zaatarloft_netlist {
    uint8_t refusal;
    size_t place;
    uint8_t m;
    uint8_t n;
    uint16_t operations;
    uint16_t depth;
};

/* Reads a netlist, and with it tests every record of it. Refusals 7 to 12. */
static inline struct zaatarloft_netlist zaatarloft_read(const uint8_t *netlist, size_t netlist_length)
{
    struct zaatarloft_netlist answer;
    answer.refusal = zaatarloft_raw_read(zaatarloft_lent(netlist, netlist_length), netlist_length, &answer.place, &answer.m,
                                         &answer.n, &answer.operations, &answer.depth);
    return answer;
}

struct zaatarloft_width {
    uint8_t refusal;
    size_t place;
    uint8_t width;
};

/* The width of the samples that a netlist takes, 8 to 24 bits, by its head. Refusals 7 to 12, as read. */
static inline struct zaatarloft_width zaatarloft_sample_width(const uint8_t *netlist, size_t netlist_length)
{
    struct zaatarloft_width answer;
    answer.refusal = zaatarloft_raw_sample_width(zaatarloft_lent(netlist, netlist_length), netlist_length, &answer.place,
                                                 &answer.width);
    return answer;
}

struct zaatarloft_checked {
    uint8_t refusal;
    size_t place;
};

/* Accepts a netlist that computes the matrix, whoever made it. Refusals 1 to 5 (the matrix), 7 to 12 (the netlist), 13, 14. */
static inline struct zaatarloft_checked zaatarloft_check(const uint8_t *matrix, size_t matrix_length, const uint8_t *netlist,
                                                         size_t netlist_length)
{
    struct zaatarloft_checked answer;
    answer.refusal = zaatarloft_raw_check(zaatarloft_lent(matrix, matrix_length), matrix_length,
                                          zaatarloft_lent(netlist, netlist_length), netlist_length, &answer.place);
    return answer;
}

struct zaatarloft_ran {
    uint8_t refusal;
    size_t place;
};

/* Runs a netlist on n samples, each of which fits the netlist's sample width, and fills m outputs, which stay as they were where it
 * refuses. Refusals 7 to 12, 15, 16, 21. */
static inline struct zaatarloft_ran zaatarloft_run(const uint8_t *netlist, size_t netlist_length, const int32_t *samples,
                                                   size_t samples_length, int64_t *outputs, size_t outputs_length)
{
    int32_t no_sample = 0;
    int64_t no_output = 0;
    struct zaatarloft_ran answer;
    answer.refusal = zaatarloft_raw_run(zaatarloft_lent(netlist, netlist_length), netlist_length,
                                        samples_length == 0 ? &no_sample : samples, samples_length,
                                        outputs_length == 0 ? &no_output : outputs, outputs_length, &answer.place);
    return answer;
}

struct zaatarloft_record {
    uint8_t refusal;
    size_t place;
    const uint8_t *payload; /* the part of the lent bytes behind length and kind */
    size_t payload_length;
    uint16_t kind;
    size_t next; /* the place behind the record */
};

/* The record at a place, for any bytes and any place. Refusals 7, and 8 for a length below 4, at the place given and with an
 * empty payload, which starts where the lent bytes do. */
static inline struct zaatarloft_record zaatarloft_step(const uint8_t *bytes, size_t bytes_length, size_t at)
{
    struct zaatarloft_record answer;
    answer.refusal = zaatarloft_raw_step(zaatarloft_lent(bytes, bytes_length), bytes_length, at, &answer.place, &answer.kind,
                                         &answer.next);
    answer.payload = bytes;
    answer.payload_length = 0;
    if (answer.refusal == 0) {
        answer.payload = bytes + at + 4;
        answer.payload_length = answer.next - at - 4;
    }
    return answer;
}

struct zaatarloft_generated {
    uint8_t refusal;
    size_t place;
    size_t written; /* bytes of the buffer */
};

/* From m, n and a seed to the matrix record that they name, in the buffer as compile leaves a netlist there. Refusals 4, 6.
 * m and n are numbers of 8 bits: a larger one that a caller holds has to be tested before it is cut to these. */
static inline struct zaatarloft_generated zaatarloft_generate(uint8_t m, uint8_t n, uint32_t seed, uint8_t *buffer,
                                                              size_t buffer_length)
{
    uint8_t none = 0;
    struct zaatarloft_generated answer;
    answer.refusal = zaatarloft_raw_generate(m, n, seed, buffer_length == 0 ? &none : buffer, buffer_length, &answer.place,
                                             &answer.written);
    return answer;
}

struct zaatarloft_matrix_market {
    uint8_t refusal;
    size_t place;
    size_t written; /* bytes of the buffer */
};

/* From the bytes of a Matrix Market file, `matrix array integer general`, to the matrix record of its matrix, in the buffer as
 * compile leaves a netlist there. Refusals 4, 6, 17 to 19; their places, but that of 6, are those of lines in the file, or its
 * end. No bytes are no file: 17. */
static inline struct zaatarloft_matrix_market zaatarloft_read_matrix_market(const uint8_t *text, size_t text_length,
                                                                            uint8_t *buffer, size_t buffer_length)
{
    uint8_t none = 0;
    struct zaatarloft_matrix_market answer;
    answer.refusal = zaatarloft_raw_read_matrix_market(zaatarloft_lent(text, text_length), text_length,
                                                       buffer_length == 0 ? &none : buffer, buffer_length, &answer.place,
                                                       &answer.written);
    return answer;
}

struct zaatarloft_verilog {
    uint8_t refusal;
    size_t place;
    size_t written; /* bytes of the buffer */
};

/* From a netlist to the text of its Verilog module `bank` (IEEE 1364-2005), in the buffer as compile leaves a netlist there: no
 * zero byte ends it. Refusals 7 to 12, as read, then 6. */
static inline struct zaatarloft_verilog zaatarloft_write_verilog(const uint8_t *netlist, size_t netlist_length, uint8_t *buffer,
                                                                 size_t buffer_length)
{
    uint8_t none = 0;
    struct zaatarloft_verilog answer;
    answer.refusal = zaatarloft_raw_write_verilog(zaatarloft_lent(netlist, netlist_length), netlist_length,
                                                  buffer_length == 0 ? &none : buffer, buffer_length, &answer.place,
                                                  &answer.written);
    return answer;
}

struct zaatarloft_register_total {
    uint8_t refusal;
    size_t place;
    size_t registers;
};

/* How many registers a netlist's clocked form has: one for each operation, and for each symbol as many as its longest delay. So
 * many numbers zaatarloft_clock needs in the store. Refusals 7 to 12, as read. */
static inline struct zaatarloft_register_total zaatarloft_registers(const uint8_t *netlist, size_t netlist_length)
{
    struct zaatarloft_register_total answer;
    answer.refusal = zaatarloft_raw_registers(zaatarloft_lent(netlist, netlist_length), netlist_length, &answer.place,
                                              &answer.registers);
    return answer;
}

struct zaatarloft_clocked {
    uint8_t refusal;
    size_t place;
};

/* Clocks a whole list of vectors through a netlist, n samples a clock, each of which fits the netlist's sample width, and fills m
 * outputs a clock. The first outputs are zero, for as many clocks as the netlist is deep; from there on a clock has run's outputs
 * for the vector of so many clocks before.
 * The registers are the first numbers of the store. The call clears them, also for an empty list, and leaves them as they are
 * after the last clock: the operations' by symbol, then each symbol's delays by symbol, newest first. The rest of the store stays
 * as it was, and so do store and outputs where it refuses. Refusals 7 to 12, as read, then 6, 15, 16, 21; the place of 21 is the
 * index in the whole list. */
static inline struct zaatarloft_clocked zaatarloft_clock(const uint8_t *netlist, size_t netlist_length, const int32_t *samples,
                                                         size_t samples_length, int64_t *store, size_t store_length,
                                                         int64_t *outputs, size_t outputs_length)
{
    int32_t no_sample = 0;
    int64_t no_register = 0;
    int64_t no_output = 0;
    struct zaatarloft_clocked answer;
    answer.refusal = zaatarloft_raw_clock(zaatarloft_lent(netlist, netlist_length), netlist_length,
                                          samples_length == 0 ? &no_sample : samples, samples_length,
                                          store_length == 0 ? &no_register : store, store_length,
                                          outputs_length == 0 ? &no_output : outputs, outputs_length, &answer.place);
    return answer;
}

#ifdef __cplusplus
}
#endif

#endif
