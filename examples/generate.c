/* The generator from C: accepted calls, then refusals 6 and 4, each with the first bytes of the buffer afterwards. */
#include "zaatarloft.h"

#include <inttypes.h>
#include <stdio.h>
#include <string.h>

static void generate(uint8_t m, uint8_t n, uint32_t seed, size_t room)
{
    uint8_t buffer[ZAATARLOFT_MATRIX_BYTES];
    memset(buffer, 0xA5, sizeof buffer);
    struct zaatarloft_generated generated = zaatarloft_generate(m, n, seed, buffer, room);
    printf("generate %u by %u of seed %" PRIu32 " into %zu bytes: ", m, n, seed, room);
    if (generated.refusal != 0) {
        printf("refusal %u at %zu, %s, ", generated.refusal, generated.place, zaatarloft_refusal_words(generated.refusal));
    }
    printf("written %zu, buffer", generated.written);
    for (size_t i = 0; i < 12; i++) {
        printf(" %02X", buffer[i]);
    }
    printf("\n");
}

int main(void)
{
    generate(8, 8, 0, ZAATARLOFT_MATRIX_BYTES);
    generate(1, 2, 3788015174, ZAATARLOFT_MATRIX_BYTES);
    generate(1, 2, 0, 9);
    generate(1, 9, 0, ZAATARLOFT_MATRIX_BYTES);
    generate(0, 2, 0, 0);
    return 0;
}
