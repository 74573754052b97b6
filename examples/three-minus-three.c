/* Document 01's example from C: compiles the row 3, -3 for samples of 16 bits, then steps over, reads, checks and runs the netlist.
 *
 *     scripts/build zaatarloft
 *     cc -I include examples/three-minus-three.c -L target/staticlib -lzaatarloft -o three-minus-three
 */
#include "zaatarloft.h"

#include <inttypes.h>
#include <stdio.h>

static void print_records(const uint8_t *netlist, size_t length)
{
    size_t at = 0;
    while (at < length) {
        struct zaatarloft_record record = zaatarloft_step(netlist, length, at);
        if (record.refusal != 0) {
            printf("refused %u at %zu\n", record.refusal, record.place);
            return;
        }
        printf("record at %zu: kind %u, payload", at, record.kind);
        for (size_t i = 0; i < record.payload_length; i++) {
            printf(" %02X", record.payload[i]);
        }
        printf("\n");
        at = record.next;
    }
}

int main(void)
{
    static const uint8_t matrix[] = {0x0A, 0x00, 0x01, 0x00, 0x01, 0x02, 0x03, 0x00, 0xFD, 0xFF};
    static const int32_t samples[] = {32767, -32768};
    uint8_t buffer[ZAATARLOFT_NETLIST_BYTES];
    int64_t outputs[1];

    struct zaatarloft_compiled compiled = zaatarloft_compile(matrix, sizeof matrix, 16, buffer, 48);
    printf("compile into 48 bytes: refusal %u at %zu, %s, written %zu\n", compiled.refusal, compiled.place,
           zaatarloft_refusal_words(compiled.refusal), compiled.written);

    compiled = zaatarloft_compile(matrix, sizeof matrix, 16, buffer, sizeof buffer);
    printf("compile: refusal %u at %zu, written %zu, operations %u, plain %u, divisors %u, replacements %u, depth %u, "
           "negated %u\n",
           compiled.refusal, compiled.place, compiled.written, compiled.operations, compiled.plain, compiled.divisors,
           compiled.replacements, compiled.depth, compiled.negated);
    print_records(buffer, compiled.written);

    struct zaatarloft_netlist netlist = zaatarloft_read(buffer, compiled.written);
    printf("read: refusal %u at %zu, m %u, n %u, operations %u, depth %u\n", netlist.refusal, netlist.place, netlist.m,
           netlist.n, netlist.operations, netlist.depth);

    struct zaatarloft_checked checked = zaatarloft_check(matrix, sizeof matrix, buffer, compiled.written);
    printf("check: refusal %u at %zu\n", checked.refusal, checked.place);

    struct zaatarloft_ran ran = zaatarloft_run(buffer, compiled.written, samples, 2, outputs, 1);
    printf("run: refusal %u at %zu, output %" PRId64 "\n", ran.refusal, ran.place, outputs[0]);
    return 0;
}
