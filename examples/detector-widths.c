/* Detectors of 8 to 24 bits from C: compiles the row 3, -3 for samples of several widths, and runs each netlist on the steepest samples of
 * its width, then with the second one past its end.
 *
 *     scripts/build zaatarloft
 *     cc -I include examples/detector-widths.c -L target/staticlib -lzaatarloft -o detector-widths
 */
#include "zaatarloft.h"

#include <inttypes.h>
#include <stdio.h>

static const uint8_t matrix[] = {0x0A, 0x00, 0x01, 0x00, 0x01, 0x02, 0x03, 0x00, 0xFD, 0xFF};

static void run(const uint8_t *netlist, size_t length, int32_t x0, int32_t x1)
{
    int32_t samples[2];
    int64_t outputs[1] = {0};
    samples[0] = x0;
    samples[1] = x1;
    struct zaatarloft_ran ran = zaatarloft_run(netlist, length, samples, 2, outputs, 1);
    printf("run on %" PRId32 " and %" PRId32 ": ", x0, x1);
    if (ran.refusal != 0) {
        printf("refusal %u at %zu, %s\n", ran.refusal, ran.place, zaatarloft_refusal_words(ran.refusal));
    } else {
        printf("output %" PRId64 "\n", outputs[0]);
    }
}

static void compile_and_run(uint8_t sample_width)
{
    uint8_t netlist[ZAATARLOFT_NETLIST_BYTES];
    struct zaatarloft_compiled compiled = zaatarloft_compile(matrix, sizeof matrix, sample_width, netlist, sizeof netlist);
    printf("compile for %u bits: ", sample_width);
    if (compiled.refusal != 0) {
        printf("refusal %u at %zu, %s\n", compiled.refusal, compiled.place, zaatarloft_refusal_words(compiled.refusal));
        return;
    }
    struct zaatarloft_record head = zaatarloft_step(netlist, compiled.written, 0);
    struct zaatarloft_width width = zaatarloft_sample_width(netlist, compiled.written);
    printf("written %zu, head of kind %u and %zu bytes, sample width %u, output width %u\n", compiled.written, head.kind, head.next,
           width.width, netlist[compiled.written - 9]); /* totals have 8 bytes, and an output's last byte is its width */
    int32_t highest = (INT32_C(1) << (sample_width - 1)) - 1;
    run(netlist, compiled.written, highest, -highest - 1);
    run(netlist, compiled.written, highest, -highest - 2);
}

int main(void)
{
    compile_and_run(8);
    compile_and_run(12);
    compile_and_run(16);
    compile_and_run(20);
    compile_and_run(24);
    compile_and_run(7);
    compile_and_run(25);
    return 0;
}
