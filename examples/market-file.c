/* Matrix Market files from C: accepted ones, then refusals 6, 4, 17, 18 and 19, each with the first bytes of the buffer afterwards. */
#include "zaatarloft.h"

#include <stdio.h>
#include <string.h>

#define FIRST_LINE "%%MatrixMarket matrix array integer general\n"

static void read_matrix_market(const char *name, const char *text, size_t room)
{
    uint8_t buffer[ZAATARLOFT_MATRIX_BYTES];
    memset(buffer, 0xA5, sizeof buffer);
    struct zaatarloft_matrix_market matrix = zaatarloft_read_matrix_market((const uint8_t *)text, strlen(text), buffer, room);
    printf("%s into %zu bytes: ", name, room);
    if (matrix.refusal != 0) {
        printf("refusal %u at %zu, %s, ", matrix.refusal, matrix.place, zaatarloft_refusal_words(matrix.refusal));
    }
    printf("written %zu, buffer", matrix.written);
    for (size_t i = 0; i < 16; i++) {
        printf(" %02X", buffer[i]);
    }
    printf("\n");
}

int main(void)
{
    static const char rows[] = FIRST_LINE "% rows 1 3 and -2 0\n2 2\n1\n-2\n03\n-0\n";
    read_matrix_market("two rows", rows, ZAATARLOFT_MATRIX_BYTES);
    read_matrix_market("two rows", rows, 14);
    read_matrix_market("two rows", rows, 13);
    read_matrix_market("nine rows", FIRST_LINE "9 1\n", ZAATARLOFT_MATRIX_BYTES);
    read_matrix_market("no size", FIRST_LINE "%\n", ZAATARLOFT_MATRIX_BYTES);
    read_matrix_market("an entry too few", FIRST_LINE "2 1\n32767\n", ZAATARLOFT_MATRIX_BYTES);
    read_matrix_market("an entry too high", FIRST_LINE "2 1\n32767\n32768\n", ZAATARLOFT_MATRIX_BYTES);
    read_matrix_market("no file", "", ZAATARLOFT_MATRIX_BYTES);
    return 0;
}
