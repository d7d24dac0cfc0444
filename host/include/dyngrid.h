/* The dynamic grid: copies of up to eight files on up to 64 machines, as a C program calls it.
 *
 * It needs C99, or C++11. Link with libdyngrid.a, which needs nothing but memcpy, memmove and memset. Each call is one step over a table that the
 * caller owns (a chart and a notice need none): it takes no memory, and returns for any bytes and any numbers. Who answered is the
 * caller's business. The pages named docs/.. are packed and installed with it, in share/doc/dyngrid.
 *
 * Conventions
 *   A list is a pointer and then its length in bytes. Names, and sets in a chart, are two bytes each, low byte first; the set of
 *   a choice is eight bytes; counties are a byte each, orders of a round 16.
 *   Rows have the numbers 1 upward, and so have files. In an answering set, bit i - 1 stands for row i (see grid_row).
 *   A result is the refusal number (0: done) times 2^32, plus the value (see grid_refusal, grid_value).
 *   A refused call has value 0 and alters no byte of the table, of a buffer, of a sheet or of anything else, but for the byte in
 *   which a read and a write say how many machines were called (see grid_read), and for a round: what it did before the refusal
 *   stays, and the value tells how much that is (see grid_round).
 *   A done call, founding and joining aside, alters only rows that answered, and so does a refused round; a move leaves its table
 *   and fills the second buffer.
 *
 * Files
 *   A table is a group of 1 to 8 files of one length, on the same machines. A read, write, order or send names its file, counted
 *   from 1: it looks at the copies of that file and leaves all others, byte for byte. Epochs and lists are shared: one check serves
 *   all files.
 *   One stale file blocks changing checks for all files: unless the rows that answer are current for every file, a check that
 *   would change the list is refused by 7. Send that file from a row that has its newest version, and check again.
 *
 * Counties
 *   Each machine has a county, 1 to 8, from its founding or joining on. A list whose members are of one county lies in one grid. A
 *   list of several counties lies in grids on two levels: the members of each county in one, and the counties that have members, in
 *   rising order, in one above them. A set is a quorum if the counties in which it holds one are a quorum above.
 *   WARNING: such a list can stop with one machine. One machine of a second county, taken into a list by a check, can be spared no
 *   longer: while it is off the others can neither write nor check it out. Read docs/COUNTIES.md before a second county joins.
 *
 * Fair use
 *   Each write is by a club, 1 to 16, an order of a round too, and each write, round and check is lent a sheet of 196 bytes
 *   (GRID_SHEET_BYTES), which says how many writes a club may make until the counts start anew: for each club an assured number, a
 *   ceiling and a count, and then a total, 4 bytes each, low byte first, at most 1,000,000. Club x has its three numbers from byte
 *   12 * (x - 1) on.
 *   The assured numbers are the clubs' own: no other club can take them. Above its assured number a club takes, up to its ceiling,
 *   from what the total leaves beyond all assured numbers, which the clubs share. A done write or order adds one to its club's
 *   count, and a check that changes the list sets all counts to 0; no other call touches a sheet, nor does a refused one, but for
 *   what a round did before its refusal. It is the caller's: hand the same one to every call, and keep it with the table.
 *   Right is a sheet whose assured numbers and counts are at most their ceilings, whose total is no less than the assured numbers
 *   together, and what the counts have beyond assured numbers no more than the total leaves. Any other, or another length, is
 *   refused by 1.
 *   Who wants no limits makes an open sheet anew before each call (grid_open_sheet), and names club 1.
 *
 * The table in bytes, numbers low byte first (GRID_AT_.. name the offsets)
 *   Header of 16: form (5), capacity, rows used, first row in name order, file length (two bytes), files, zeros.
 *   Then the rows, used and unused ones. A row (GRID_ROW_BYTES) is a head and a copy of each file, a copy (GRID_COPY_BYTES; grid_copy
 *   tells where it begins) its own head, the contents and a window of 16 records. What is not named is zero.
 *
 *       byte      head of a row           byte      copy of a file              byte      record of a window
 *       0 to 1    name                    0         stale mark, 0 or 1          0         next younger record, 0 for none
 *       2         next row in name order  1         oldest record, 0 for none   1         length of the patch, 1 to 32
 *       12 to 15  epoch                   4 to 7    version                     2 to 3    offset of the patch
 *       16 to 23  list, as a set of rows  8 to 11   desired version             4 to 35   the patch, and zeros
 *       24        grid mark               from 12   contents, then the records
 *       26        county
 *
 * Tables of older forms
 *   The first byte of a table is its form: 5 (GRID_FORM). A table of form 1 to 4, as earlier versions left it, is refused by 1 in
 *   every call but grid_move, which carries it from form 1 or 2 to form 3, or back. No call carries a table to form 4 or 5: found a
 *   new one, and write the files into it.
 *
 * Calls at the same time
 *   Reads, choices and moves of one table may run at the same time, also from several threads, each with its own lists: they
 *   alter nothing of the table, and the library keeps no state of its own. Every other call has the table to itself.
 *
 * What a host must not do
 *   - pass slices of one call that overlap: a table and its buffer, patch, orders, names, counties, sheet or lent list, or a move's
 *     two tables;
 *   - let two calls run on one table at once, unless both are reads, choices or moves, or touch a slice of a call while it runs
 *     (other reads, choices and moves of its table aside);
 *   - pass a length above 0 with a null pointer, or above what the pointer leads to. Null with length 0 is an empty list.
 *   These three the library cannot see; everything else it refuses by number.
 */
#ifndef DYNGRID_H
#define DYNGRID_H

#include <stddef.h>
#include <stdint.h>
#include <string.h>

#ifdef __cplusplus
extern "C" {
#endif

/* Rises with every signature in this header that is new or changed, and with nothing else: a new form of the table does not
   raise it, for a table tells its form itself, and one of another form is refused by 1. */
#define DYNGRID_INTERFACE 11

/* The number of the archive. */
uint64_t grid_interface(void);

/* Has the archive the signatures that are declared here? A host asks this once, at its start and before any other call.
   If not, archive and header are of two versions: build the archive from the checkout that the header is from. */
static inline int grid_interface_agrees(void)
{
    return grid_interface() == DYNGRID_INTERFACE;
}

/* Why a call was refused; grid_notice tells it in a sentence. The questions behind the numbers are put in this order (16 after
   3, 18 and 19 before 8, a chart's 17 before its 5, a move's 15 before its 12); the first no counts. */
enum grid_refusals {
    GRID_DONE = 0,                 /* not refused */
    GRID_MALFORMED = 1,            /* the table is not well formed: use a good copy; if it was put together, take the newest frame, then
                                      leave out one machine after the other; older forms: see above; or the sheet is not right: see
                                      fair use */
    GRID_NO_SUCH_ROW = 2,          /* a row is not in use, or a send names one row twice */
    GRID_NOT_ANSWERING = 3,        /* the coordinator, or an end of a send, is not in the answering set */
    GRID_OUT_OF_RANGE = 4,         /* the range is empty or ends beyond the file; an order is not of 1 to 8 bytes, or the 65th, or its
                                      list ends inside it; a choice is neither a read's nor a write's; a notice's call is none of 1
                                      to 10 */
    GRID_WRONG_BUFFER = 5,         /* the buffer is not exactly as long as the range, or the list for the number called not one
                                      byte; a choice's list is not eight bytes; a chart's is shorter than 128 bytes; a notice's
                                      buffer is not 160 bytes */
    GRID_NO_QUORUM = 6,            /* the rows that answered hold no quorum: try again when more answer */
    GRID_NOT_CURRENT = 7,          /* no row that answered has the newest version: try again when one answers (to a check: of every
                                      file; send the one that is stale) */
    GRID_AT_LIMIT = 8,             /* the version, or the epoch, is at 1,000,000: found a new table */
    GRID_SENDER_STALE = 9,         /* the sending row is stale itself: send from another one */
    GRID_RECEIVER_NOT_BEHIND = 10, /* the receiving row is not stale, or desires more than the sender has */
    GRID_BAD_NAMES = 11,           /* names must be 1 to 64, rise strictly, and none be 0; the choice must be wide or tall */
    GRID_BAD_SIZE = 12,            /* capacity (1 to 64, no fewer than the names), file length (1 to 4,096), files (1 to 8) and
                                      table length must fit; a move goes from form 1 or 2 to 3 or back, into a buffer of the new
                                      length */
    GRID_NAME_NOT_FREE = 13,       /* the name is 0 or in use: join with another one, 1 to 65,535 */
    GRID_NO_ROOM = 14,             /* every row of the table is in use: found a larger table and write the files into it */
    GRID_NOT_FORM_1 = 15,          /* form 1 cannot hold the table: a grid mark is not 0, or a row has no list; move to form 2 */
    GRID_NO_SUCH_FILE = 16,        /* the table has no file of that number: files count from 1 */
    GRID_NO_CHART = 17,            /* a chart is of 1 to 9 members with a grid mark that so many can have (see grid_chart) */
    GRID_NO_MORE_WRITES = 18,      /* the club is at its ceiling, or is none of the clubs 1 to 16 */
    GRID_NONE_LEFT_TO_SHARE = 19,  /* the club has made its assured writes, and of those that the clubs share none is left */
    GRID_BAD_COUNTIES = 20         /* a county is not one of 1 to 8, or there are not as many counties as names */
};

/* The calls that a notice tells of, by their numbers. A choice is none of them. */
enum grid_calls {
    GRID_CALL_FOUNDING = 1, /* grid_found */
    GRID_CALL_READ = 2,     /* grid_read; shows the coordinator's name */
    GRID_CALL_WRITE = 3,    /* grid_write; shows the coordinator's name */
    GRID_CALL_SEND = 4,     /* grid_send */
    GRID_CALL_CHECK = 5,    /* grid_check; shows the coordinator's name */
    GRID_CALL_JOINING = 6,  /* grid_join */
    GRID_CALL_ROUND = 7,    /* grid_round; shows the coordinator's name: that of the order that was refused */
    GRID_CALL_MOVE = 8,     /* grid_move */
    GRID_CALL_CHART = 9,    /* grid_chart */
    GRID_CALL_NOTICE = 10   /* grid_notice */
};

/* The clubs, the bytes of a sheet, no more and no less, and the limit of its numbers. */
enum grid_sheets { GRID_CLUBS = 16, GRID_SHEET_BYTES = 196, GRID_SHEET_LIMIT = 1000000 };

/* The bytes of an order, how many of them a round can have, and how many bytes an order can write. */
enum grid_orders { GRID_ORDER_BYTES = 16, GRID_MAX_ORDERS = 64, GRID_MAX_ORDER = 8 };

/* The bytes of a notice, no more and no less. */
enum grid_notice_bytes { GRID_NOTICE_BYTES = 160 };

/* The forms of a table, in its first byte. All calls but grid_move take the newest alone: GRID_FORM. */
enum grid_forms { GRID_FORM_1 = 1, GRID_FORM_2 = 2, GRID_FORM_3 = 3, GRID_FORM_4 = 4, GRID_FORM = 5 };

/* The choices of a founding. */
enum grid_shapes { GRID_WIDE = 0, GRID_TALL = 1 };

/* The marks of the grid that a list lies in: byte 24 of a row that has a list. */
enum grid_marks { GRID_MARK_PUBLISHED = 0, GRID_MARK_NEW_FIVE = 1, GRID_MARK_TALL = 2, GRID_MARK_COUNTIES = 3 };

/* The kinds of calls that have a choice. */
enum grid_kinds { GRID_READ = 0, GRID_WRITE = 1 };

/* The bytes of a set in a list. */
enum grid_set_bytes { GRID_SET_BYTES = 8 };

/* Limits of a table, and the parts that it is made of: a row is its head and a copy of each file; a copy is its head, the
   contents, and the records of its window. */
enum grid_limits {
    GRID_MAX_ROWS = 64,
    GRID_MAX_FILE = 4096,
    GRID_MAX_FILES = 8,
    GRID_MAX_COUNTY = 8,
    GRID_HEADER = 16,
    GRID_ROW_HEADER = 32,
    GRID_COPY_HEADER = 12,
    GRID_RECORDS = 576
};

/* How many bytes a copy, a row and a table take; constants if their arguments are. */
#define GRID_COPY_BYTES(file_len) (GRID_COPY_HEADER + (file_len) + GRID_RECORDS)
#define GRID_ROW_BYTES(file_len, files) (GRID_ROW_HEADER + (files) * GRID_COPY_BYTES(file_len))
#define GRID_TABLE_BYTES(capacity, file_len, files) (GRID_HEADER + (capacity) * GRID_ROW_BYTES(file_len, files))

/* Offsets in the header, in the head of a row, in a copy and in a record of its window; and in an order of a round. */
enum grid_offsets {
    GRID_AT_FORM = 0,
    GRID_AT_CAPACITY = 1,
    GRID_AT_USED = 2,
    GRID_AT_FIRST = 3,
    GRID_AT_FILE_LEN = 4,
    GRID_AT_FILES = 6,

    GRID_AT_NAME = 0,
    GRID_AT_LINK = 2,
    GRID_AT_EPOCH = 12,
    GRID_AT_LIST = 16,
    GRID_AT_MARK = 24,
    GRID_AT_COUNTY = 26,

    GRID_AT_STALE = 0,
    GRID_AT_OLDEST = 1,
    GRID_AT_VERSION = 4,
    GRID_AT_DESIRED = 8,
    GRID_AT_CONTENTS = 12,

    GRID_AT_YOUNGER = 0,
    GRID_AT_PATCH_LEN = 1,
    GRID_AT_PATCH_OFFSET = 2,
    GRID_AT_PATCH = 4,

    GRID_AT_ORDER_BY = 0,
    GRID_AT_ORDER_LEN = 1,
    GRID_AT_ORDER_OFFSET = 2,
    GRID_AT_ORDER_PATCH = 4,
    GRID_AT_ORDER_FILE = 12,
    GRID_AT_ORDER_CLUB = 13
};

/* The bytes of a record, and the patches that a window has room for. */
enum grid_window { GRID_RECORD = 36, GRID_MAX_PATCHES = 16 };

/* Limits of a chart: the members of a list, and the bytes that it is put into at least. */
enum grid_chart_limits { GRID_MAX_CHART = 9, GRID_CHART_BYTES = 128 };

/* The refusal number of a result; GRID_DONE if the call was done. */
static inline uint32_t grid_refusal(uint64_t result)
{
    return (uint32_t)(result >> 32);
}

/* The value of a result; 0 if the call was refused, but for a round, whose value is always the number of orders that are done. */
static inline uint32_t grid_value(uint64_t result)
{
    return (uint32_t)result;
}

/* How many bytes a table of an older form takes, for a move: a row of form 3 is its head, the contents, and the records; rows of
   forms 1 and 2 have no records. */
static inline size_t grid_length_in(uint64_t form, size_t capacity, size_t file_len)
{
    return GRID_HEADER + capacity * (GRID_ROW_HEADER + file_len + (form == GRID_FORM_3 ? GRID_RECORDS : 0));
}

/* A number of so many bytes, low byte first: a name, a version, an epoch, a file length. */
static inline uint32_t grid_number(const uint8_t *bytes, unsigned count)
{
    uint32_t number = 0;
    while (count-- > 0)
        number = number << 8 | bytes[count];
    return number;
}

/* The set in a list of eight bytes, as a choice leaves it there, and a row its list (GRID_AT_LIST). */
static inline uint64_t grid_set(const uint8_t *set)
{
    uint64_t rows = 0;
    for (int byte = GRID_SET_BYTES - 1; byte >= 0; byte--)
        rows = rows << 8 | set[byte];
    return rows;
}

/* The set of one row from 1 to 64; sets are put together with |. Any other number gives the empty set. */
static inline uint64_t grid_row(unsigned row)
{
    return row >= 1 && row <= GRID_MAX_ROWS ? (uint64_t)1 << (row - 1) : 0;
}

/* Where in a table its row begins, rows counting from 1; 0 if the table has another length than its header tells, or the row is not
   in use. */
static inline size_t grid_row_begin(const uint8_t *table, size_t table_len, unsigned row)
{
    size_t bytes;
    if (table_len < GRID_HEADER || row < 1 || row > table[GRID_AT_USED] || table[GRID_AT_USED] > table[GRID_AT_CAPACITY])
        return 0;
    bytes = GRID_ROW_BYTES((size_t)grid_number(table + GRID_AT_FILE_LEN, 2), (size_t)table[GRID_AT_FILES]);
    return table_len == GRID_HEADER + table[GRID_AT_CAPACITY] * bytes ? GRID_HEADER + (row - 1) * bytes : 0;
}

/* Puts the table of a call together (docs/RELAY.md). grid_blank begins it: the frame's header, names, links and counties, and zeros.
   Of the frame, a table of the same length, nothing else counts. Then grid_lay lays each row that answered, as its machine holds it; the
   link stays the frame's. It gives 1; or 0, and lays nothing, if the row is not in use, is not so long, or has another name or county
   than the frame, and so is another machine's: ask that machine anew, or leave it out. */
static inline void grid_blank(uint8_t *table, size_t table_len, const uint8_t *frame)
{
    unsigned row;
    size_t begin;
    memset(table, 0, table_len);
    memcpy(table, frame, table_len < GRID_HEADER ? table_len : (size_t)GRID_HEADER);
    for (row = 1; (begin = grid_row_begin(frame, table_len, row)) != 0; row++) {
        memcpy(table + begin, frame + begin, GRID_AT_LINK + 1);
        table[begin + GRID_AT_COUNTY] = frame[begin + GRID_AT_COUNTY];
    }
}

static inline int grid_lay(uint8_t *table, size_t table_len, unsigned row, const uint8_t *bytes, size_t bytes_len)
{
    size_t begin = grid_row_begin(table, table_len, row);
    if (begin == 0 || bytes_len != (table_len - GRID_HEADER) / table[GRID_AT_CAPACITY])
        return 0;
    if (memcmp(table + begin, bytes, GRID_AT_LINK) != 0 || table[begin + GRID_AT_COUNTY] != bytes[GRID_AT_COUNTY])
        return 0;
    memcpy(table + begin + GRID_AT_LINK + 1, bytes + GRID_AT_LINK + 1, bytes_len - GRID_AT_LINK - 1);
    return 1;
}

/* Where in a row its copy of a file begins. Files count from 1, and all have so many bytes. */
static inline size_t grid_copy(size_t file_len, size_t file)
{
    return GRID_ROW_HEADER + (file - 1) * GRID_COPY_BYTES(file_len);
}

/* Puts a number of four bytes there. */
static inline void grid_put_number(uint8_t *bytes, uint32_t number)
{
    for (int byte = 0; byte < 4; byte++)
        bytes[byte] = (uint8_t)(number >> 8 * byte);
}

/* Gives a club, 1 to 16, its assured number and its ceiling on a sheet of GRID_SHEET_BYTES, and the count 0. */
static inline void grid_set_club(uint8_t *sheet, size_t club, uint32_t assured, uint32_t ceiling)
{
    uint8_t *line = sheet + 12 * (club - 1);
    grid_put_number(line, assured);
    grid_put_number(line + 4, ceiling);
    grid_put_number(line + 8, 0);
}

/* Gives a sheet its total. */
static inline void grid_set_total(uint8_t *sheet, uint32_t total)
{
    grid_put_number(sheet + 12 * GRID_CLUBS, total);
}

/* How many writes a club, 1 to 16, has made by a sheet since its counts were 0. */
static inline uint32_t grid_count(const uint8_t *sheet, size_t club)
{
    return grid_number(sheet + 12 * (club - 1) + 8, 4);
}

/* A sheet with no limit but its own: 1,000,000 writes of all clubs together. Made anew before each write, it refuses none. */
static inline void grid_open_sheet(uint8_t *sheet)
{
    for (size_t club = 1; club <= GRID_CLUBS; club++)
        grid_set_club(sheet, club, 0, GRID_SHEET_LIMIT);
    grid_set_total(sheet, GRID_SHEET_LIMIT);
}

/* Puts an order of a round into 16 bytes (GRID_ORDER_BYTES): what grid_write takes, each number as an order can hold it. It gives
   1; or 0, and leaves them, if the patch is not of 1 to 8 bytes, or a number too high for an order: coordinator, file or club above
   255, offset above 65,535. No table has such a row, file or club, and no file such an offset. */
static inline int grid_set_order(uint8_t *order, uint64_t coordinator, uint64_t offset, const uint8_t *patch, size_t patch_len,
                                 uint64_t file, uint64_t club)
{
    if (patch_len < 1 || patch_len > GRID_MAX_ORDER || coordinator > 255 || offset > 65535 || file > 255 || club > 255)
        return 0;
    memset(order, 0, GRID_ORDER_BYTES);
    order[GRID_AT_ORDER_BY] = (uint8_t)coordinator;
    order[GRID_AT_ORDER_LEN] = (uint8_t)patch_len;
    order[GRID_AT_ORDER_OFFSET] = (uint8_t)offset;
    order[GRID_AT_ORDER_OFFSET + 1] = (uint8_t)(offset >> 8);
    memcpy(order + GRID_AT_ORDER_PATCH, patch, patch_len);
    order[GRID_AT_ORDER_FILE] = (uint8_t)file;
    order[GRID_AT_ORDER_CLUB] = (uint8_t)club;
    return 1;
}

/* How many patches the window of a copy has; `copy` points to its first byte, and the file has so many bytes. */
static inline unsigned grid_patches(const uint8_t *copy, size_t file_len)
{
    const uint8_t *records = copy + GRID_COPY_HEADER + file_len;
    unsigned patches = 0;
    /* The records in use come first, and each says in its second byte how long its patch is. */
    while (patches < GRID_MAX_PATCHES && records[patches * GRID_RECORD + GRID_AT_PATCH_LEN] != 0)
        patches++;
    return patches;
}

/* Founds a table of so many files, 1 to 8: names fill rows 1 upward, each file is file_len bytes, all zero. What the table held
   before is of no account. The table has exactly GRID_TABLE_BYTES. The counties, a byte each, are as many as the names, in the same
   order. Value: the rows used. Refusals: 11, 12, 20.

   The choice is GRID_WIDE or GRID_TALL, and holds for all lists that are ever laid in the table. A tall list lies in the
   published grid with rows and columns exchanged wherever that has one row less than columns (2, 5, 6, 10 to 12, 17 to 20
   members and so on): there a read calls one machine less than in the published grid, and a write needs a longer column whole.
   Found tall what is read hundreds of times for each write. */
uint64_t grid_found(uint8_t *table, size_t table_len, uint64_t capacity, uint64_t file_len,
                    const uint8_t *names, size_t names_len, uint64_t choice, uint64_t files,
                    const uint8_t *counties, size_t counties_len);

/* Reads length bytes of the file from offset on into the buffer. Value: the version read. Refusals: 1 to 3, 16, 4 to 7.

   How many machines the protocol calls for it, whomever the host asked, goes into `called`, a list of one byte (called_len is 1): as
   many as the coordinator's own choice has, if those of it that answered were enough; otherwise all used rows. A refused call
   writes it too: 0 if it was refused by 1 to 5 or by 16, for then nobody is called. A list of another length is left alone, and
   refused by 5 unless another refusal comes first. A done read that its own choice was enough for called one machine of each column
   of the grid that the coordinator's list lies in, if that is a list within one county. */
uint64_t grid_read(const uint8_t *table, size_t table_len, uint64_t coordinator, uint64_t answering,
                   uint64_t offset, uint64_t length, uint8_t *buffer, size_t buffer_len,
                   uint8_t *called, size_t called_len, uint64_t file);

/* Lays the patch over the file from offset on. Value: the new version of that file. Refusals: 1 to 3, 16, 4 to 7, 18, 19, 8; 5 is
   for `called` alone.

   It is by this club, and counts on the sheet if it is done: 18 if the club is none of 1 to 16 or at its ceiling, then 19 if it is
   at or above its assured number and nothing is left of what the clubs share.

   How many machines were called goes into `called` as in a read. A done write that its own choice was enough for called at most
   as many machines as that grid has rows and columns together, less one, if the list is within one county. Refused by 18, 19 or 8
   it tells what it called before. */
uint64_t grid_write(uint8_t *table, size_t table_len, uint64_t coordinator, uint64_t answering,
                    uint64_t offset, const uint8_t *patch, size_t patch_len,
                    uint8_t *called, size_t called_len, uint64_t file,
                    uint8_t *sheet, size_t sheet_len, uint64_t club);

/* A round: up to 64 writes of 1 to 8 bytes, entered together. They are made singly, in their order, by the same answering set and
   on the same sheet, up to the first that is refused: table and sheet are as those writes leave them. Value: how many are done.
   Refusals: 1 to 3, 16, 4, 6, 7, 18, 19, 8.

   The refusal is that of the first order that is refused, and the value the number of orders before it: WHAT THESE WROTE STAYS.
   Those behind it are not looked at. So read grid_value of a refused round too, keep table and sheet, and enter the rest when the
   reason is mended. How many machines were called a round does not tell.

       byte      order of a round, 16 bytes; grid_set_order puts one together
       0         coordinator
       1         length of the patch, 1 to 8
       2 to 3    its offset in the file
       4 to 11   the patch; what is behind its length is not read
       12        file
       13        club
       14 to 15  not read

   An order of another length is refused by 4, after 1 to 3 and 16 of its own write; a 65th, when 64 are done, by 4 with 64, unread.
   A round of no order is put question 1 (sheet and table) and, for the answering set, 2, and is done with 0. A list that ends
   inside an order is put the same questions, and then refused by 4 with 0: none of it is done. */
uint64_t grid_round(uint8_t *table, size_t table_len, uint64_t answering, const uint8_t *orders, size_t orders_len, uint8_t *sheet,
                    size_t sheet_len);

/* Brings the stale copy of the file in row `to` up to the state of that in row `from`. Value: the version it then has.
   Refusals: 1 to 3, 16, 9, 10.

   Each copy keeps a window on its latest 16 patches of at most 32 bytes; a longer patch empties it. If `to` is no more versions
   behind `from` than the window of `from` has patches (grid_patches), the missing patches are laid, and nothing is looked at of
   `from` but the head of its row, and head and window of its copy; else the whole file is copied. `to` takes over the window. */
uint64_t grid_send(uint8_t *table, size_t table_len, uint64_t from, uint64_t to, uint64_t answering, uint64_t file);

/* Epoch check: makes the answering rows the list in force, for all files. Value: the epoch number in force. Refusals: 1 to 3,
   6 to 8.

   Of each file the copies that lack writes are marked and desire that file's newest version. A check that would change the list
   is refused by 7 unless the rows that answer are current for every file: one stale file blocks it for all (see above).
   It sets all counts of the sheet to 0; one by the list in force leaves them, but is refused by 1 all the same if the sheet is not
   right.

   Byte 24 of a row is the mark of the grid that its list lies in. In a tall table every list has mark 2, the new one too. In a
   wide table a list of several counties lies in grids on two levels (mark 3), where five lie in 3 rows and 2 columns; of the
   lists within one county one of five, founded or laid by a check, lies so too (mark 1), and every other in the published grid
   (mark 0). From four machines on, lists laid now within one county bear the loss of any one machine, wide and tall; those of
   several counties need not (docs/COUNTIES.md). A check by the list in force changes nothing, its grid included. */
uint64_t grid_check(uint8_t *table, size_t table_len, uint64_t coordinator, uint64_t answering, uint8_t *sheet, size_t sheet_len);

/* Joins a machine: the first unused row gets the name, the county and its place in the chain, and is zero otherwise. Nobody need
   answer. Besides that row it alters the header's count, and the one link before the row: another row's, or the header's first
   index. Value: the new row. Refusals: 1, 13, 14, 20.

   The new row may coordinate and answer at once, but it counts in no quorum until a check that it answers takes it into
   the list. Until then its own list is empty: it has no choice of its own, so a read or write that it coordinates works on
   all that answered. Its copies are of version 0, without a mark. Of a file that was never written it is as good as any
   row; else a send of that file to it is refused by 10 until a check that it answers, or a write that works on all that answered,
   has marked its copy. */
uint64_t grid_join(uint8_t *table, size_t table_len, uint16_t name, uint64_t county);

/* The wall chart: lists every smallest write quorum of a list of so many members, 1 to 9, with this grid mark. These are the
   sets of members that are enough for a write or a check, and no longer are if any one of them is taken out.
   A set is a number of two bytes, bit k - 1 for the k-th member in name order. The sets rise from the first place of the list
   on, each once; the other bytes stay. The list has at least 128 bytes (GRID_CHART_BYTES). No table is asked.
   Value: how many sets. Refusals: 17, then 5.

   Mark 0 is for lists of any length (of five only in tables of form 1), mark 1 for lists of five, mark 2 for lists of any length
   in a tall table. Lists of several counties have no chart: mark 3 gives 17, and what a chart says of mark 2 is of lists within one
   county. Four members with mark 0 give 7, 11, 13, 14. */
uint64_t grid_chart(uint64_t length, uint64_t mark, uint8_t *list, size_t list_len);

/* Whom to call: tells the set that the coordinator calls first for a read (kind GRID_READ) or a write (GRID_WRITE). It is the
   coordinator's own choice by its name, over its own list and in that list's grid. The set is a number, bit i - 1 for row i as in
   an answering set, in a list of exactly eight bytes (GRID_SET_BYTES), low byte first; grid_set puts it together.
   Value: how many rows the set has. Refusals: 1, 2, 4, 5. The table stays as it is.

   A row whose own list is empty has no choice: the set is empty and the value 0, and all used rows are called. The coordinator
   need not be in its own choice, but must answer its call; call the choice and the coordinator. If all of them answer, its own
   list is the list in force and some row of the choice has every done write of the file, that is enough (for a write: below
   version 1,000,000); else call all used rows. Question 1 is put to the whole table, as in every call; after it the choice goes by
   header, names, links, counties and the coordinator's own row alone, so that a table with its own row and no other tells it too
   (see docs/RELAY.md). */
uint64_t grid_choice(const uint8_t *table, size_t table_len, uint64_t coordinator, uint64_t kind, uint8_t *set, size_t set_len);

/* Carries a table over to another form: from form 1 or 2 up to form 3, with empty windows, or from form 3 down to form 1 or 2,
   without windows. Nothing is carried to form 4 or 5, or from them. The new table goes into `to`, which has exactly the length that
   grid_length_in tells; the old one stays. Value: the rows used. Refusals: 1, 15, 12. A refused move leaves `to` as it is.

   A table is judged by its own form here. Up and down gives the original bytes; down and up gives the same rows with empty
   windows. Form 1 has no grid mark but 0 and no row without a list: a move to it is refused by 15 if there is one. A table
   of form 1 that a machine has joined is of form 2 but for its first byte, and refused by 1: set that byte to GRID_FORM_2,
   and then move it. */
uint64_t grid_move(const uint8_t *table, size_t table_len, uint64_t form, uint8_t *to, size_t to_len);

/* A notice: tells members in one sentence which call was refused (GRID_CALL_..), by the machine of which name, and why. The
   sentence, in ASCII, goes into a buffer of exactly 160 bytes (GRID_NOTICE_BYTES); behind it are spaces, and no zero ends it.
   No table is asked. Value: the length of the sentence. Refusals: 4, then 5. A refused notice leaves the buffer as it is.

   The name is the coordinator's; calls that show none show 0, whatever name is given. The number is grid_refusal of the call's
   result; one that is none of 1 to 20 is shown too, and said to be no refusal. Call, name and number stand in figures at fixed
   places: two from byte 5 on, five from 19 on, ten from 33 on. With %.*s and the value, printf shows the sentence alone:

       Call 03 by machine 00017, number 0000000006: write refused: too few machines answered, or not the right ones; switch on
       more of them and try again. */
uint64_t grid_notice(uint64_t call, uint16_t name, uint32_t number, uint8_t *buffer, size_t buffer_len);

#ifdef __cplusplus
}
#endif
#endif
