/* The walk of crates/walk from C: step, call, refusal number, value. */
#include <stdio.h>
#include "dyngrid.h"

static void line(int step, const char *call, uint64_t result)
{
    printf("%d %s %u %u\n", step, call, (unsigned)(result >> 32), (unsigned)result);
}

int main(void)
{
    uint8_t table[GRID_TABLE_BYTES(4, 4, 1)], byte[1], called[1], names[] = {1, 0, 2, 0, 3, 0, 4, 0};
    const uint8_t counties[] = {1, 1, 1, 1};
    uint8_t sheet[GRID_SHEET_BYTES];
    if (!grid_interface_agrees())
        return 1;
    grid_open_sheet(sheet);
    if (grid_found(table, sizeof table, 4, 4, names, sizeof names, GRID_WIDE, 1, counties, sizeof counties) != 4)
        return 1;
    line(1, "write", grid_write(table, sizeof table, 1, 0x7, 0, (const uint8_t *)"a", 1, called, sizeof called, 1, sheet, sizeof sheet, 1));
    line(2, "read", grid_read(table, sizeof table, 4, 0xc, 0, 1, byte, sizeof byte, called, sizeof called, 1));
    line(3, "write", grid_write(table, sizeof table, 2, 0xb, 0, (const uint8_t *)"b", 1, called, sizeof called, 1, sheet, sizeof sheet, 1));
    line(4, "read", grid_read(table, sizeof table, 4, 0xc, 0, 1, byte, sizeof byte, called, sizeof called, 1));
    line(5, "send", grid_send(table, sizeof table, 3, 4, 0xc, 1));
    line(6, "check", grid_check(table, sizeof table, 1, 0xb, sheet, sizeof sheet));
    line(7, "write", grid_write(table, sizeof table, 3, 0x4, 0, (const uint8_t *)"c", 1, called, sizeof called, 1, sheet, sizeof sheet, 1));
    return 0;
}
