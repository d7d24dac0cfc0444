/* Machines that each hold their own row, with a copy of two files: ask whom to call, gather what a call looks at of the rows that
   answer, make the call, ship the bytes that changed. As examples/relay.rs, in C, with the rules that a relay must not miss: names and
   counts are compared, and new rows are stored by all and only then taken. docs/RELAY.md tells the steps. */
#include <stdio.h>
#include <string.h>
#include "dyngrid.h"

enum { MACHINES = 4, FILE_BYTES = 16, FILES = 2, ENTRY = 3 };
enum { RESULTS = 1, CLOCKS = 2, EVERY_FILE = 0 };
enum { ROW_BYTES = GRID_ROW_BYTES(FILE_BYTES, FILES), TABLE_BYTES = GRID_TABLE_BYTES(MACHINES, FILE_BYTES, FILES) };
/* A call that some machine did not store: nothing has changed, and it is made anew. No result of the library. */
#define OVERTAKEN UINT64_MAX
/* A row begins with its name and link, and has its county in byte 26; a copy has its stale mark first, and its version in bytes 4 to 7. */
enum { NAME = 2, NAME_AND_LINK = 3, COUNTY = 26, STALE = 0, VERSION = 4 };

/* Header, names, links and counties, and zeros: what all calls must agree on. */
static uint8_t frame[TABLE_BYTES];
/* What each machine has on its disk, row i at place i - 1: its row, how many rows it has taken, and beside them the row that it has stored
   for a call of which it does not know the end. */
static struct machine {
    uint8_t row[ROW_BYTES], stored[ROW_BYTES];
    uint64_t taken;
    int in_doubt;
} machines[MACHINES];
/* What a call heard: who answered, and how many rows each had taken when it gave its own. */
struct heard {
    uint64_t answering, taken[MACHINES];
};
/* The sheet of the clubs' writes, lent to every write and check; here it has no limits, and all writes are club 1's. A relay with
   limits lends a copy, and keeps it when the call is done. */
static uint8_t sheet[GRID_SHEET_BYTES];

static size_t row_at(unsigned row)
{
    return GRID_HEADER + (row - 1) * (size_t)ROW_BYTES;
}

static int has(uint64_t set, unsigned row)
{
    return (set & grid_row(row)) != 0;
}

static const uint8_t *copy_of(unsigned row, unsigned file)
{
    return machines[row - 1].row + grid_copy(FILE_BYTES, file);
}

/* Puts a table together: the frame, and behind name and link the rows that answered. The others stay zero there. For a read, write
   or send a machine gives its head and its copy of that file; copies of other files stay zero too. For a check it gives all. A row whose
   name or county is not the frame's is another machine's, and one in doubt is given to nobody: neither has answered. */
static struct heard assemble(uint8_t *table, uint64_t asked, unsigned file)
{
    struct heard heard = {0, {0}};
    memcpy(table, frame, TABLE_BYTES);
    for (unsigned row = 1; row <= MACHINES; row++) {
        const struct machine *machine = &machines[row - 1];
        uint8_t *bytes = table + row_at(row);
        if (!has(asked, row) || machine->in_doubt || memcmp(bytes, machine->row, NAME) != 0 || bytes[COUNTY] != machine->row[COUNTY])
            continue;
        heard.answering |= grid_row(row);
        heard.taken[row - 1] = machine->taken;
        memcpy(bytes + NAME_AND_LINK, machine->row + NAME_AND_LINK, GRID_ROW_HEADER - NAME_AND_LINK);
        for (unsigned each = 1; each <= FILES; each++)
            if (file == EVERY_FILE || file == each)
                memcpy(bytes + grid_copy(FILE_BYTES, each), copy_of(row, each), GRID_COPY_BYTES(FILE_BYTES));
    }
    return heard;
}

/* Stores a new row beside the old one: unless it is in doubt, and only if it has taken no row since it gave its own. The bytes that
   changed are laid over the row that the machine has. On a disk before it says so. */
static int store(unsigned row, uint64_t taken, const uint8_t *now, const uint8_t *before)
{
    struct machine *machine = &machines[row - 1];
    if (machine->in_doubt || machine->taken != taken)
        return 0;
    memcpy(machine->stored, machine->row, ROW_BYTES);
    for (size_t at = 0; at < ROW_BYTES; at++)
        if (now[at] != before[at])
            machine->stored[at] = now[at];
    machine->in_doubt = 1;
    return 1;
}

/* The end of a call for a machine in doubt: taken, and counted, or dropped. */
static void end(unsigned row, int take)
{
    struct machine *machine = &machines[row - 1];
    if (take) {
        memcpy(machine->row, machine->stored, ROW_BYTES);
        machine->taken++;
    }
    machine->in_doubt = 0;
}

/* Ships what a call changed: every machine that answered stores its row, an unchanged one too; when all have, the call is done and all
   take theirs; else all drop it. (A relay notes the call on its disk in between; a call that changes nothing asks each machine once more
   whether it has still taken so many.) Tells which rows changed, and in how many bytes. Was it done? */
static int ship(const struct heard *heard, const uint8_t *table, const uint8_t *before)
{
    uint64_t changed = 0, stored = 0;
    unsigned bytes = 0;
    for (unsigned row = 1; row <= MACHINES; row++) {
        for (size_t at = row_at(row); at < row_at(row + 1); at++)
            if (table[at] != before[at]) {
                changed |= grid_row(row);
                bytes++;
            }
        if (has(heard->answering, row) && store(row, heard->taken[row - 1], table + row_at(row), before + row_at(row)))
            stored |= grid_row(row);
    }
    for (unsigned row = 1; row <= MACHINES; row++)
        if (has(stored, row))
            end(row, stored == heard->answering);
    printf(", rows 0x%x change in %u bytes\n", (unsigned)changed, bytes);
    return stored == heard->answering;
}

/* The machines that a coordinator calls first, and itself. Of the rows it needs its own only. */
static uint64_t whom(unsigned coordinator, uint64_t kind)
{
    uint8_t table[TABLE_BYTES], set[GRID_SET_BYTES] = {0};
    (void)assemble(table, grid_row(coordinator), EVERY_FILE);
    if (grid_refusal(grid_choice(table, sizeof table, coordinator, kind, set, sizeof set)) != GRID_DONE)
        return 0;
    return grid_set(set) | grid_row(coordinator);
}

/* Were too few called? Then all are. */
static int wants_more(uint64_t result)
{
    return grid_refusal(result) == GRID_NO_QUORUM || grid_refusal(result) == GRID_NOT_CURRENT;
}

static void print_call(const char *call, unsigned coordinator, unsigned file, uint64_t result)
{
    printf("%s by row %u of file %u: refusal %u, value %u", call, coordinator, file, (unsigned)grid_refusal(result),
           (unsigned)grid_value(result));
}

/* Writes an entry: the machines of the choice are called, and then all. Those that are up answer. */
static uint64_t write_entry(unsigned coordinator, uint64_t up, unsigned file, const char *entry)
{
    uint8_t table[TABLE_BYTES], before[TABLE_BYTES], called[1];
    const uint64_t asked[2] = {whom(coordinator, GRID_WRITE) & up, up};
    struct heard heard;
    uint64_t result = 0;
    for (int round = 0; round < 2; round++) {
        heard = assemble(before, asked[round], file);
        memcpy(table, before, sizeof table);
        result = grid_write(table, sizeof table, coordinator, heard.answering, 0, (const uint8_t *)entry, ENTRY, called,
                            sizeof called, file, sheet, sizeof sheet, 1);
        if (!wants_more(result))
            break;
    }
    print_call("write", coordinator, file, result);
    printf(", %u machines called", (unsigned)called[0]);
    return ship(&heard, table, before) ? result : OVERTAKEN;
}

/* Reads an entry in the same way; a read changes nothing. */
static uint64_t read_entry(unsigned coordinator, uint64_t up, unsigned file, uint8_t *entry)
{
    uint8_t table[TABLE_BYTES], called[1];
    const uint64_t asked[2] = {whom(coordinator, GRID_READ) & up, up};
    uint64_t result = 0;
    for (int round = 0; round < 2; round++) {
        const struct heard heard = assemble(table, asked[round], file);
        result = grid_read(table, sizeof table, coordinator, heard.answering, 0, ENTRY, entry, ENTRY, called, sizeof called, file);
        if (!wants_more(result))
            break;
    }
    print_call("read", coordinator, file, result);
    printf(", %u machines called, %.3s\n", (unsigned)called[0], (const char *)entry);
    return result;
}

/* The version of a machine's copy. */
static uint32_t version_of(unsigned row, unsigned file)
{
    const uint8_t *bytes = copy_of(row, file) + VERSION;
    return bytes[0] | (uint32_t)bytes[1] << 8 | (uint32_t)bytes[2] << 16 | (uint32_t)bytes[3] << 24;
}

/* The receiver makes the send itself. The sender gives head and copy without the contents, unless its window does not reach back. */
static uint64_t send_copy(unsigned from, unsigned to, unsigned file)
{
    uint8_t table[TABLE_BYTES], before[TABLE_BYTES];
    const uint64_t ends = grid_row(from) | grid_row(to);
    const int by_window = version_of(from, file) - version_of(to, file) <= grid_patches(copy_of(from, file), FILE_BYTES);
    const struct heard heard = assemble(before, ends, file);
    if (by_window)
        memset(before + row_at(from) + grid_copy(FILE_BYTES, file) + GRID_COPY_HEADER, 0, FILE_BYTES);
    memcpy(table, before, sizeof table);
    const uint64_t result = grid_send(table, sizeof table, from, to, heard.answering, file);
    print_call(by_window ? "send of patches" : "send of the contents", from, file, result);
    printf(", to row %u", to);
    return ship(&heard, table, before) ? result : OVERTAKEN;
}

/* A check serves all files, and looks at the copies of all. */
static uint64_t check(unsigned coordinator, uint64_t up)
{
    uint8_t table[TABLE_BYTES], before[TABLE_BYTES];
    const struct heard heard = assemble(before, up, EVERY_FILE);
    memcpy(table, before, sizeof table);
    const uint64_t result = grid_check(table, sizeof table, coordinator, heard.answering, sheet, sizeof sheet);
    printf("check by row %u: refusal %u, epoch %u", coordinator, (unsigned)grid_refusal(result), (unsigned)grid_value(result));
    return ship(&heard, table, before) ? result : OVERTAKEN;
}

int main(void)
{
    static uint8_t founded[TABLE_BYTES];
    const uint8_t names[2 * MACHINES] = {1, 0, 2, 0, 3, 0, 4, 0}, counties[MACHINES] = {1, 1, 1, 1};
    const uint64_t all = grid_row(1) | grid_row(2) | grid_row(3) | grid_row(4);
    const uint64_t two = grid_row(3) | grid_row(4), but_two = all & ~grid_row(2), but_three = all & ~grid_row(3);
    uint8_t entry[ENTRY];

    if (!grid_interface_agrees()) {
        fprintf(stderr, "libdyngrid.a and dyngrid.h are of two versions: take both from one checkout\n");
        return 1;
    }
    if (grid_refusal(grid_found(founded, sizeof founded, MACHINES, FILE_BYTES, names, sizeof names, GRID_WIDE, FILES, counties,
                                sizeof counties)) != GRID_DONE)
        return 1;
    grid_open_sheet(sheet);
    /* Each machine gets its row; the relay keeps header, names, links and counties. */
    memcpy(frame, founded, GRID_HEADER);
    for (unsigned row = 1; row <= MACHINES; row++) {
        memcpy(machines[row - 1].row, founded + row_at(row), ROW_BYTES);
        memcpy(frame + row_at(row), founded + row_at(row), NAME_AND_LINK);
        frame[row_at(row) + COUNTY] = founded[row_at(row) + COUNTY];
    }

    /* All are up: the choice of row 4, {1, 2, 3}, is enough, and row 4 itself is not written. */
    if (write_entry(4, all, RESULTS, "1-0") != 1 || version_of(4, RESULTS) != 0)
        return 1;
    if (read_entry(4, two, RESULTS, entry) != 1 || memcmp(entry, "1-0", ENTRY) != 0)
        return 1;
    /* Row 3 is away: all are called, and the results of row 4 are marked as stale. Its clock sheet is not. */
    if (write_entry(4, but_three, RESULTS, "0-1") != 2 || copy_of(4, RESULTS)[STALE] != 1 || copy_of(4, CLOCKS)[STALE] != 0)
        return 1;
    /* Nobody but rows 3 and 4 is up: they are a quorum for a read, but neither has the newest results. */
    if (grid_refusal(read_entry(3, two, RESULTS, entry)) != GRID_NOT_CURRENT)
        return 1;
    /* The clock sheet has versions of its own. Row 4 misses the first write of it, and row 3 the second. */
    if (write_entry(1, grid_row(1) | grid_row(2) | grid_row(3), CLOCKS, "47m") != 1 || write_entry(1, but_three, CLOCKS, "62m") != 2)
        return 1;
    /* Row 2 goes away: one check for both files. What lacks writes is marked, and the results are sent: row 4 lacks two patches. */
    if (check(1, but_two) != 1 || grid_patches(copy_of(1, RESULTS), FILE_BYTES) != 2)
        return 1;
    if (send_copy(1, 3, RESULTS) != 2 || send_copy(1, 4, RESULTS) != 2)
        return 1;
    /* Row 1 goes away too. Rows 3 and 4 have the newest results, but the stale clock sheet blocks the check for both files. */
    if (read_entry(3, two, RESULTS, entry) != 2 || grid_refusal(check(3, two)) != GRID_NOT_CURRENT)
        return 1;
    /* Row 1 is back and sends the clock sheet; then the check is done. */
    if (send_copy(1, 3, CLOCKS) != 2 || check(3, two) != 2)
        return 1;
    if (read_entry(4, two, CLOCKS, entry) != 2 || memcmp(entry, "62m", ENTRY) != 0)
        return 1;
    if (read_entry(4, two, RESULTS, entry) != 2 || memcmp(entry, "0-1", ENTRY) != 0)
        return 1;
    /* The disks of rows 3 and 4 were exchanged: their names are not the frame's, so neither answers, and no quorum is left. */
    const struct machine third = machines[2];
    machines[2] = machines[3];
    machines[3] = third;
    if (grid_refusal(read_entry(1, all, RESULTS, entry)) != GRID_NO_QUORUM)
        return 1;
    machines[3] = machines[2];
    machines[2] = third;
    /* Row 3 has taken another row since it gave its own: the new row is not stored, and nobody takes one. */
    uint8_t before[TABLE_BYTES];
    const struct heard late = assemble(before, two, RESULTS);
    if (write_entry(3, two, RESULTS, "1/2") != 3 || ship(&late, before, before))
        return 1;
    return read_entry(3, two, RESULTS, entry) != 3 || memcmp(entry, "1/2", ENTRY) != 0;
}
