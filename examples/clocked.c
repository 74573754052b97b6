/* One vector every clock, from C: compiles rows 3 -3, -1 0 and 0 0 for samples of 12 bits and clocks lists through their registers.
 * Prints the outputs of each clock, then the store, whose last two numbers are behind the registers. Then refusals 6, 15, 16 and
 * 21, and 7, which is tested before them.
 *
 *     scripts/build zaatarloft
 *     cc -I include examples/clocked.c -L target/staticlib -lzaatarloft -o clocked
 */
#include "zaatarloft.h"

#include <inttypes.h>
#include <stdio.h>

enum { COLUMNS = 2, ROWS = 3, STORE = 6, CLOCKS = 5 };

static const uint8_t matrix[] = {0x12, 0x00, 0x01, 0x00, 0x03, 0x02, 0x03, 0x00, 0xFD,
                                 0xFF, 0xFF, 0xFF, 0x00, 0x00, 0x00, 0x00, 0x00, 0x00};

static void print_numbers(const char *name, const int64_t *numbers, size_t count)
{
    printf("%s", name);
    for (size_t i = 0; i < count; i++) {
        printf(" %" PRId64, numbers[i]);
    }
    printf("\n");
}

/* Clocks so many of the samples on a store of so many numbers, each 7 before, and so many outputs. */
static void clock_list(const char *name, const uint8_t *netlist, size_t length, const int32_t *samples, size_t count, size_t room,
                       size_t outputs_count)
{
    int64_t store[STORE];
    int64_t outputs[ROWS * CLOCKS];
    for (size_t i = 0; i < STORE; i++) {
        store[i] = 7;
    }
    for (size_t i = 0; i < ROWS * CLOCKS; i++) {
        outputs[i] = 7;
    }
    struct zaatarloft_clocked clocked = zaatarloft_clock(netlist, length, samples, count, store, room, outputs, outputs_count);
    printf("%s: ", name);
    if (clocked.refusal != 0) {
        printf("refusal %u at %zu, %s\n", clocked.refusal, clocked.place, zaatarloft_refusal_words(clocked.refusal));
    } else {
        printf("accepted\n");
    }
    for (size_t t = 0; t < outputs_count / ROWS; t++) {
        print_numbers("outputs", outputs + ROWS * t, ROWS);
    }
    print_numbers("store", store, STORE);
}

int main(void)
{
    static const int32_t samples[COLUMNS * CLOCKS] = {1, 0, 0, 1, 5, 2, 2047, -2048, 9, 8};
    static const int32_t outside[COLUMNS * CLOCKS] = {1, 0, 0, 2048, 5, 2, -2049, -2048, 9, 8};
    uint8_t netlist[ZAATARLOFT_NETLIST_BYTES];
    struct zaatarloft_compiled compiled = zaatarloft_compile(matrix, sizeof matrix, 12, netlist, sizeof netlist);
    size_t length = compiled.written;
    struct zaatarloft_register_total total = zaatarloft_registers(netlist, length);
    printf("operations %u, depth %u, registers %zu\n", compiled.operations, compiled.depth, total.registers);

    clock_list("five vectors", netlist, length, samples, 10, STORE, 15);
    clock_list("four vectors", netlist, length, samples, 8, total.registers, 12);
    clock_list("no vector", netlist, length, samples, 0, STORE, 0);
    clock_list("a store of three", netlist, length, samples, 2, 3, 3);
    clock_list("three samples", netlist, length, samples, 3, STORE, 3);
    clock_list("outputs of two vectors for one", netlist, length, samples, 2, STORE, 6);
    clock_list("samples of thirteen bits", netlist, length, outside, 10, STORE, 15);
    clock_list("a netlist without its last byte", netlist, length - 1, outside, 3, 3, 3);

    total = zaatarloft_registers(netlist, length - 1);
    printf("registers without its last byte: refusal %u at %zu, registers %zu\n", total.refusal, total.place, total.registers);
    return 0;
}
