/* A table of an older season: one of form 2 is carried up to form 3, and carried down again. Nothing carries it to form 5: a new
   table is founded, and the file written into it. */
#include <stdio.h>
#include <stdlib.h>
#include <string.h>
#include "dyngrid.h"

enum { MACHINES = 4, FILE_BYTES = 16, OLD_ROW = GRID_ROW_HEADER + FILE_BYTES, OLD_BYTES = GRID_HEADER + MACHINES * OLD_ROW };

/* Prints one line for a call; returns whether it was done. */
static int report(const char *call, uint64_t result)
{
    printf("%s: refusal %u, value %u\n", call, (unsigned)grid_refusal(result), (unsigned)grid_value(result));
    return grid_refusal(result) == GRID_DONE;
}

/* What an older program kept: names 1, 2, 3, 4, all of them with the score 1-0 at version 1. */
static void keep(uint8_t *old)
{
    const uint8_t header[] = {GRID_FORM_2, MACHINES, MACHINES, 1, FILE_BYTES};
    memset(old, 0, OLD_BYTES);
    memcpy(old, header, sizeof header);
    for (uint8_t row = 1; row <= MACHINES; row++) {
        uint8_t *bytes = old + GRID_HEADER + (row - 1) * OLD_ROW;
        bytes[0] = row;                                     /* the name */
        bytes[2] = row < MACHINES ? (uint8_t)(row + 1) : 0; /* the next row */
        bytes[4] = 1;                                       /* the version */
        bytes[16] = 0xf;                                    /* the list */
        memcpy(bytes + GRID_ROW_HEADER, "1-0", 3);
    }
}

/* Carries a table over to another form, into new memory; null if it is refused. Its sizes are in its header. */
static uint8_t *carry(const uint8_t *table, size_t table_len, uint64_t form, size_t *carried_len)
{
    if (table_len < GRID_HEADER)
        return NULL;
    const size_t capacity = table[1], file_len = (size_t)(table[4] | table[5] << 8);
    *carried_len = grid_length_in(form, capacity, file_len);
    uint8_t *carried = (uint8_t *)malloc(*carried_len);
    if (carried != NULL && !report("move", grid_move(table, table_len, form, carried, *carried_len))) {
        free(carried);
        carried = NULL;
    }
    return carried;
}

/* Founds a new table and writes the file into it, as the library of its season read it: one write of the whole file. */
static int found_anew(const uint8_t *file)
{
    static uint8_t table[GRID_TABLE_BYTES(MACHINES, FILE_BYTES, 1)];
    const uint8_t names[2 * MACHINES] = {1, 0, 2, 0, 3, 0, 4, 0}, counties[MACHINES] = {1, 1, 1, 1};
    const uint64_t all = grid_row(1) | grid_row(2) | grid_row(3) | grid_row(4);
    uint8_t got[3] = {0}, called[1], sheet[GRID_SHEET_BYTES];
    grid_open_sheet(sheet);
    return report("found", grid_found(table, sizeof table, MACHINES, FILE_BYTES, names, sizeof names, GRID_WIDE, 1, counties,
                                      sizeof counties)) &&
           report("write", grid_write(table, sizeof table, 1, all, 0, file, FILE_BYTES, called, sizeof called, 1, sheet,
                                      sizeof sheet, 1)) &&
           report("read", grid_read(table, sizeof table, 4, all, 0, sizeof got, got, sizeof got, called, sizeof called, 1)) &&
           memcmp(got, "1-0", 3) == 0;
}

int main(void)
{
    uint8_t old[OLD_BYTES], got[3], called[1];
    size_t table_len = 0, down_len = 0;

    if (!grid_interface_agrees()) {
        fprintf(stderr, "libdyngrid.a and dyngrid.h are of two versions: take both from one checkout\n");
        return 1;
    }
    keep(old);

    /* Every call but a move refuses it by 1, in form 3 too. */
    uint8_t *table = carry(old, sizeof old, GRID_FORM_3, &table_len);
    if (table == NULL || report("read of form 3", grid_read(table, table_len, 4, 0xf, 0, 3, got, 3, called, sizeof called, 1)))
        return 1;
    printf("a row takes %zu bytes instead of %d\n", (table_len - GRID_HEADER) / MACHINES, OLD_ROW);

    /* Up and down gives the original bytes. */
    uint8_t *down = carry(table, table_len, GRID_FORM_2, &down_len);
    const int same = down != NULL && down_len == sizeof old && memcmp(down, old, sizeof old) == 0;

    /* The file goes on in a new table, from version 0. Here every row has the newest version, and so row 1. */
    const int anew = found_anew(old + GRID_HEADER + GRID_ROW_HEADER);
    free(down);
    free(table);
    return !(same && anew);
}
