/* Four machines share a file of results: found it, ask whom to call, write, read, meet refusals, one of them for fair use, and ask
   which machines are enough to write. */
#include <stdio.h>
#include <string.h>
#include "dyngrid.h"

enum { MACHINES = 4, FILE_BYTES = 16, FILES = 1, TABLE_BYTES = GRID_TABLE_BYTES(MACHINES, FILE_BYTES, FILES) };
/* Where the first row has the mark of its list's grid. */
enum { GRID_MARK = GRID_HEADER + 24 };

/* Prints one line for a call; returns whether it was done. A refused one is told by its notice, with the coordinator's name. */
static int report(const char *what, enum grid_calls call, uint16_t name, uint64_t result)
{
    uint8_t notice[GRID_NOTICE_BYTES];
    uint32_t refusal = grid_refusal(result);
    if (refusal == GRID_DONE) {
        printf("%s: done, value %u\n", what, (unsigned)grid_value(result));
        return 1;
    }
    uint64_t told = grid_notice(call, name, refusal, notice, sizeof notice);
    printf("%s: %.*s\n", what, (int)grid_value(told), (const char *)notice);
    return 0;
}

/* Prints the sets of a chart, each by the places of its machines in name order. */
static void print_chart(const uint8_t *sets, uint32_t count)
{
    for (uint32_t place = 0; place < count; place++) {
        unsigned set = sets[2 * place] | (unsigned)sets[2 * place + 1] << 8;
        printf("enough to write:");
        for (unsigned machine = 1; machine <= MACHINES; machine++)
            if (set >> (machine - 1) & 1)
                printf(" %u", machine);
        printf("\n");
    }
}

int main(void)
{
    static uint8_t table[TABLE_BYTES];
    uint8_t sets[GRID_CHART_BYTES], called[1], chosen[GRID_SET_BYTES], sheet[GRID_SHEET_BYTES] = {0};
    const uint8_t names[2 * MACHINES] = {1, 0, 2, 0, 3, 0, 4, 0};
    const uint8_t counties[MACHINES] = {1, 1, 1, 1};
    const char score[] = "1-0";
    uint8_t got[sizeof score] = {0};
    const uint64_t three = grid_row(1) | grid_row(2) | grid_row(3);
    const uint64_t two = grid_row(3) | grid_row(4);

    if (!grid_interface_agrees()) {
        fprintf(stderr, "libdyngrid.a and dyngrid.h are of two versions: take both from one checkout\n");
        return 1;
    }
    if (!report("found", GRID_CALL_FOUNDING, 0,
                grid_found(table, sizeof table, MACHINES, FILE_BYTES, names, sizeof names, GRID_WIDE, FILES, counties,
                           sizeof counties)))
        return 1;

    /* Fair use: club 1 may write once until the counts start anew, and no other club may. Who wants no limits takes grid_open_sheet. */
    grid_set_club(sheet, 1, 1, 1);
    grid_set_total(sheet, 1);

    /* Machine 2 imports a score while row 4 is away. The machines that it calls first are up, and it is one of them. */
    uint64_t choice = grid_choice(table, sizeof table, 2, GRID_WRITE, chosen, sizeof chosen);
    if (grid_refusal(choice) != GRID_DONE || grid_set(chosen) != three)
        return 1;
    printf("choice of row 2: %u machines\n", (unsigned)grid_value(choice));
    if (!report("write by row 2", GRID_CALL_WRITE, 2,
                grid_write(table, sizeof table, 2, three, 0, (const uint8_t *)score, sizeof score, called, sizeof called, 1, sheet,
                           sizeof sheet, 1)))
        return 1;
    printf("machines called: %u, writes of club 1: %u\n", (unsigned)called[0], (unsigned)grid_count(sheet, 1));
    report("second write by club 1", GRID_CALL_WRITE, 2,
           grid_write(table, sizeof table, 2, three, 0, (const uint8_t *)score, sizeof score, called, sizeof called, 1, sheet,
                      sizeof sheet, 1));

    /* Row 4 is back and reads with row 3: one machine of each column of the grid. */
    if (!report("read by row 4", GRID_CALL_READ, 4,
                grid_read(table, sizeof table, 4, two, 0, sizeof got, got, sizeof got, called, sizeof called, 1)))
        return 1;
    printf("machines called: %u\n", (unsigned)called[0]);
    printf("score: %s\n", (const char *)got);

    /* Alone it is refused: an old score would look like any other. */
    report("read by row 4 alone", GRID_CALL_READ, 4,
           grid_read(table, sizeof table, 4, grid_row(4), 0, sizeof got, got, sizeof got, called, sizeof called, 1));

    /* The table has one file. */
    report("read of a second file", GRID_CALL_READ, 4,
           grid_read(table, sizeof table, 4, two, 0, sizeof got, got, sizeof got, called, sizeof called, 2));

    /* The smallest sets of machines that are enough for a write. */
    uint64_t chart = grid_chart(MACHINES, table[GRID_MARK], sets, sizeof sets);
    if (!report("chart of four", GRID_CALL_CHART, 0, chart))
        return 1;
    print_chart(sets, grid_value(chart));
    return memcmp(got, score, sizeof score) != 0;
}
