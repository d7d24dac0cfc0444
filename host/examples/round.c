/* A match day entered together: eight results as one round. It stops where a club has made its writes; what was done stays, and the
   rest is entered when the counts start anew. */
#include <stdio.h>
#include <string.h>
#include "dyngrid.h"

enum { MACHINES = 4, BOARDS = 8, RESULT = 4, FILE_BYTES = BOARDS * RESULT, TABLE_BYTES = GRID_TABLE_BYTES(MACHINES, FILE_BYTES, 1) };

/* Prints how far a round came; returns how many of its orders are done. */
static size_t report(const char *what, const uint8_t *orders, size_t count, uint64_t result)
{
    /* Of a round the value counts though it was refused. */
    size_t done = grid_value(result);
    printf("%s: %u of %u orders are done\n", what, (unsigned)done, (unsigned)count);
    if (grid_refusal(result) != GRID_DONE) {
        uint8_t notice[GRID_NOTICE_BYTES];
        /* Row r is the machine of name r here: the coordinator of the order that was refused. */
        uint16_t name = orders[done * GRID_ORDER_BYTES + GRID_AT_ORDER_BY];
        uint64_t told = grid_notice(GRID_CALL_ROUND, name, grid_refusal(result), notice, sizeof notice);
        printf("order %u: %.*s\n", (unsigned)done + 1, (int)grid_value(told), (const char *)notice);
    }
    return done;
}

int main(void)
{
    static uint8_t table[TABLE_BYTES];
    uint8_t sheet[GRID_SHEET_BYTES] = {0}, orders[BOARDS * GRID_ORDER_BYTES], got[FILE_BYTES], called[1];
    const uint8_t names[2 * MACHINES] = {1, 0, 2, 0, 3, 0, 4, 0};
    const uint8_t counties[MACHINES] = {1, 1, 1, 1};
    const char *const results[BOARDS] = {"1-0 ", "0-1 ", "1/2 ", "1-0 ", "1-0 ", "0-1 ", "1/2 ", "0-1 "};
    const uint64_t all = grid_row(1) | grid_row(2) | grid_row(3) | grid_row(4);

    if (!grid_interface_agrees()) {
        fprintf(stderr, "libdyngrid.a and dyngrid.h are of two versions: take both from one checkout\n");
        return 1;
    }
    if (grid_refusal(grid_found(table, sizeof table, MACHINES, FILE_BYTES, names, sizeof names, GRID_WIDE, 1, counties,
                                sizeof counties)) != GRID_DONE)
        return 1;

    /* Odd boards are club 1's, even ones club 2's. Each has two writes of its own, and two are shared. */
    grid_set_club(sheet, 1, 2, BOARDS);
    grid_set_club(sheet, 2, 2, BOARDS);
    grid_set_total(sheet, 6);
    for (size_t board = 0; board < BOARDS; board++)
        if (!grid_set_order(orders + board * GRID_ORDER_BYTES, 1 + board % 2, board * RESULT, (const uint8_t *)results[board], RESULT, 1,
                            1 + board % 2))
            return 1;

    size_t done = report("the match day", orders, BOARDS,
                         grid_round(table, sizeof table, all, orders, sizeof orders, sheet, sizeof sheet));
    printf("club 1 has made %u writes, club 2 %u\n", (unsigned)grid_count(sheet, 1), (unsigned)grid_count(sheet, 2));

    /* Machine 4 goes home: a check of the others changes the list, and the counts start anew. */
    const uint64_t three = all & ~grid_row(4);
    if (grid_refusal(grid_check(table, sizeof table, 1, three, sheet, sizeof sheet)) != GRID_DONE)
        return 1;
    const uint8_t *rest = orders + done * GRID_ORDER_BYTES;
    done += report("the rest", rest, BOARDS - done,
                   grid_round(table, sizeof table, three, rest, (BOARDS - done) * GRID_ORDER_BYTES, sheet, sizeof sheet));

    uint64_t read = grid_read(table, sizeof table, 3, three, 0, sizeof got, got, sizeof got, called, sizeof called, 1);
    if (grid_refusal(read) != GRID_DONE)
        return 1;
    printf("version %u: %.*s\n", (unsigned)grid_value(read), (int)sizeof got, (const char *)got);
    return done != BOARDS || memcmp(got, "1-0 0-1 1/2 1-0 1-0 0-1 1/2 0-1 ", sizeof got) != 0;
}
