/* The Verilog module of row 3, -3 for samples of 16 bits, from C; then refusal 6, and 7, which is tested before it. Behind what was written
 * stand the next three bytes of the buffer, which were dots and are still. */
#include "zaatarloft.h"

#include <stdio.h>
#include <string.h>

static void write_verilog(const char *name, const uint8_t *netlist, size_t length, size_t room)
{
    uint8_t buffer[ZAATARLOFT_VERILOG_BYTES];
    memset(buffer, '.', sizeof buffer);
    struct zaatarloft_verilog verilog = zaatarloft_write_verilog(netlist, length, buffer, room);
    printf("%s into %zu bytes: ", name, room);
    if (verilog.refusal != 0) {
        printf("refusal %u at %zu, %s, ", verilog.refusal, verilog.place, zaatarloft_refusal_words(verilog.refusal));
    }
    printf("written %zu\n", verilog.written);
    fwrite(buffer, 1, verilog.written + 3, stdout);
    printf("\n");
}

int main(void)
{
    static const uint8_t row[] = {0x0A, 0x00, 0x01, 0x00, 0x01, 0x02, 0x03, 0x00, 0xFD, 0xFF};
    uint8_t netlist[ZAATARLOFT_NETLIST_BYTES];
    size_t length = zaatarloft_compile(row, sizeof row, 16, netlist, sizeof netlist).written;

    write_verilog("the row", netlist, length, ZAATARLOFT_VERILOG_BYTES);
    write_verilog("the row", netlist, length, 258);
    write_verilog("the row without its last byte", netlist, length - 1, 258);
    return 0;
}
