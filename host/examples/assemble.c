/* Puts a table together from the rows that answered, refuses rows that are no machine's of it, and looks at the bytes of a row. */
#include <stdio.h>
#include "dyngrid.h"

enum { MACHINES = 4, FILE_BYTES = 16, FILES = 2, ROW_BYTES = GRID_ROW_BYTES(FILE_BYTES, FILES) };
enum { TABLE_BYTES = GRID_TABLE_BYTES(MACHINES, FILE_BYTES, FILES) };

static unsigned failures;

static void expect(int holds, const char *what)
{
    if (!holds) {
        printf("wrong: %s\n", what);
        failures++;
    }
}

static void show(const char *of, const uint8_t *row, unsigned file)
{
    const uint8_t *copy = row + grid_copy(FILE_BYTES, file);
    printf("%s machine %u: epoch %u, list 0x%x, file %u at version %u, %s, \"%.3s\", %u patches\n", of,
           (unsigned)grid_number(row + GRID_AT_NAME, 2), (unsigned)grid_number(row + GRID_AT_EPOCH, 4),
           (unsigned)grid_set(row + GRID_AT_LIST), file, (unsigned)grid_number(copy + GRID_AT_VERSION, 4),
           copy[GRID_AT_STALE] ? "stale" : "not stale", (const char *)copy + GRID_AT_CONTENTS, grid_patches(copy, FILE_BYTES));
}

int main(void)
{
    static uint8_t whole[TABLE_BYTES], frame[TABLE_BYTES], table[TABLE_BYTES], other[TABLE_BYTES];
    const uint8_t names[2 * MACHINES] = {10, 0, 20, 0, 30, 0, 40, 0}, others[2 * MACHINES] = {10, 0, 20, 0, 30, 0, 50, 0};
    const uint8_t one[MACHINES] = {1, 1, 1, 1}, two[MACHINES] = {1, 1, 2, 1};
    const uint64_t three = grid_row(1) | grid_row(2) | grid_row(4);
    const uint8_t *row[MACHINES + 1] = {0};
    uint8_t called[1], got[3], sheet[GRID_SHEET_BYTES];
    unsigned each;

    if (!grid_interface_agrees())
        return 1;
    expect(grid_found(whole, sizeof whole, MACHINES, FILE_BYTES, names, sizeof names, GRID_WIDE, FILES, one, sizeof one) == MACHINES,
           "a founding");
    expect(grid_found(other, sizeof other, MACHINES, FILE_BYTES, others, sizeof others, GRID_WIDE, FILES, two, sizeof two) == MACHINES,
           "another");
    grid_blank(frame, sizeof frame, whole);
    grid_open_sheet(sheet);

    /* A write and a check while row 3 is away. */
    expect(grid_write(whole, sizeof whole, 1, three, 0, (const uint8_t *)"1-0", 3, called, 1, 2, sheet, sizeof sheet, 1) == 1,
           "a write");
    expect(grid_check(whole, sizeof whole, 1, three, sheet, sizeof sheet) == 1, "a check");
    for (each = 1; each <= MACHINES; each++) {
        row[each] = whole + grid_row_begin(whole, sizeof whole, each);
        expect(row[each] == whole + GRID_HEADER + (each - 1) * ROW_BYTES, "where a row begins");
    }
    expect(grid_row_begin(whole, sizeof whole, 0) == 0 && grid_row_begin(whole, sizeof whole, 5) == 0, "rows that are not");
    expect(grid_row_begin(whole, sizeof whole - 1, 1) == 0 && grid_row_begin(whole, 3, 1) == 0, "another length");

    /* What rows 1, 2 and 4 hold is enough to read; the answer is that of the whole table. */
    grid_blank(table, sizeof table, frame);
    for (each = 1; each <= MACHINES; each++)
        if (three & grid_row(each))
            expect(grid_lay(table, sizeof table, each, row[each], ROW_BYTES), "a row that answered");
    expect(grid_read(table, sizeof table, 4, three, 0, 3, got, 3, called, 1, 2) == 1 && memcmp(got, "1-0", 3) == 0, "a read");
    show("row 1 is", table + grid_row_begin(table, sizeof table, 1), 2);
    show("row 3 is", table + grid_row_begin(table, sizeof table, 3), 2);

    /* Refused, and nothing laid: another machine's row, ones of another table, one that is cut off, one that is not in use. */
    memcpy(frame, table, sizeof frame);
    expect(!grid_lay(table, sizeof table, 3, row[4], ROW_BYTES), "the row of another machine");
    expect(!grid_lay(table, sizeof table, 4, other + grid_row_begin(other, sizeof other, 4), ROW_BYTES), "a row of another table");
    expect(!grid_lay(table, sizeof table, 3, other + grid_row_begin(other, sizeof other, 3), ROW_BYTES), "a row of another county");
    expect(!grid_lay(table, sizeof table, 3, row[3], ROW_BYTES - 1), "a row that is cut off");
    expect(!grid_lay(table, sizeof table, 5, row[3], ROW_BYTES), "a row that is not in use");
    expect(memcmp(frame, table, sizeof frame) == 0, "nothing was laid");
    return failures != 0;
}
