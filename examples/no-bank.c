/* A channel with no bank: its matrix file has no bytes. Compiles what the file named holds, or no bytes where none is named, then
 * reads, checks and runs the netlist, writes its Verilog module and clocks an empty list. Where a length is 0 it lends NULL.
 *
 *     scripts/build zaatarloft
 *     cc -I include examples/no-bank.c -L target/staticlib -lzaatarloft -o no-bank
 */
#include "zaatarloft.h"

#include <stdio.h>

static void print_refusal(const char *call, uint8_t refusal, size_t place)
{
    const char *words = refusal == 0 ? "accepted" : zaatarloft_refusal_words(refusal);
    printf("%s: refusal %u at %zu, %s\n", call, refusal, place, words);
}

/* Reads a file and returns whether that went well: one that cannot be read is no empty one. */
static int read_file(const char *name, uint8_t *bytes, size_t room, size_t *length)
{
    FILE *file = fopen(name, "rb");
    if (file == NULL) {
        return 0;
    }
    *length = fread(bytes, 1, room, file);
    int failed = ferror(file);
    fclose(file);
    return !failed;
}

static void compile_and_run(const uint8_t *matrix, size_t length)
{
    uint8_t netlist[ZAATARLOFT_NETLIST_BYTES];

    struct zaatarloft_compiled compiled = zaatarloft_compile(matrix, length, 16, netlist, sizeof netlist);
    print_refusal("compile", compiled.refusal, compiled.place);
    printf("%zu bytes, %u operations:", compiled.written, compiled.operations);
    for (size_t i = 0; i < compiled.written; i++) {
        printf(" %02X", netlist[i]);
    }
    printf("\n");

    struct zaatarloft_netlist read = zaatarloft_read(netlist, compiled.written);
    print_refusal("read", read.refusal, read.place);
    printf("m %u, n %u, operations %u, depth %u\n", read.m, read.n, read.operations, read.depth);

    struct zaatarloft_checked checked = zaatarloft_check(matrix, length, netlist, compiled.written);
    print_refusal("check", checked.refusal, checked.place);

    struct zaatarloft_ran ran = zaatarloft_run(netlist, compiled.written, NULL, 0, NULL, 0);
    print_refusal("run", ran.refusal, ran.place);

    uint8_t text[ZAATARLOFT_VERILOG_BYTES];
    struct zaatarloft_verilog verilog = zaatarloft_write_verilog(netlist, compiled.written, text, sizeof text);
    print_refusal("write_verilog", verilog.refusal, verilog.place);
    fwrite(text, 1, verilog.written, stdout);

    struct zaatarloft_register_total total = zaatarloft_registers(netlist, compiled.written);
    print_refusal("registers", total.refusal, total.place);
    printf("%zu registers\n", total.registers);
    struct zaatarloft_clocked clocked = zaatarloft_clock(netlist, compiled.written, NULL, 0, NULL, 0, NULL, 0);
    print_refusal("clock", clocked.refusal, clocked.place);
}

/* Every call, lent nothing at all. */
static void lend_nothing(void)
{
    struct zaatarloft_compiled compiled = zaatarloft_compile(NULL, 0, 16, NULL, 0);
    print_refusal("compile into no bytes", compiled.refusal, compiled.place);
    struct zaatarloft_netlist read = zaatarloft_read(NULL, 0);
    print_refusal("read no bytes", read.refusal, read.place);
    struct zaatarloft_width width = zaatarloft_sample_width(NULL, 0);
    print_refusal("sample_width of no bytes", width.refusal, width.place);
    struct zaatarloft_checked checked = zaatarloft_check(NULL, 0, NULL, 0);
    print_refusal("check no bytes", checked.refusal, checked.place);
    struct zaatarloft_ran ran = zaatarloft_run(NULL, 0, NULL, 0, NULL, 0);
    print_refusal("run no bytes", ran.refusal, ran.place);
    struct zaatarloft_record record = zaatarloft_step(NULL, 0, 0);
    print_refusal("step over no bytes", record.refusal, record.place);
    printf("payload of %zu bytes, NULL: %d\n", record.payload_length, record.payload == NULL);
    struct zaatarloft_generated generated = zaatarloft_generate(1, 1, 0, NULL, 0);
    print_refusal("generate into no bytes", generated.refusal, generated.place);
    struct zaatarloft_matrix_market matrix = zaatarloft_read_matrix_market(NULL, 0, NULL, 0);
    print_refusal("read_matrix_market of no bytes", matrix.refusal, matrix.place);
    struct zaatarloft_verilog verilog = zaatarloft_write_verilog(NULL, 0, NULL, 0);
    print_refusal("write_verilog of no bytes", verilog.refusal, verilog.place);
    struct zaatarloft_register_total total = zaatarloft_registers(NULL, 0);
    print_refusal("registers of no bytes", total.refusal, total.place);
    struct zaatarloft_clocked clocked = zaatarloft_clock(NULL, 0, NULL, 0, NULL, 0, NULL, 0);
    print_refusal("clock no bytes", clocked.refusal, clocked.place);
}

int main(int argc, char **argv)
{
    uint8_t record[ZAATARLOFT_MATRIX_BYTES + 1]; /* a byte more than any has, so that a longer file is refused */
    size_t length = 0;
    if (argc > 1 && !read_file(argv[1], record, sizeof record, &length)) {
        fprintf(stderr, "no-bank: %s cannot be read\n", argv[1]);
        return 2;
    }
    compile_and_run(length == 0 ? NULL : record, length);
    lend_nothing();
    return 0;
}
