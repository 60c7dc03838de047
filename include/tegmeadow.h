/*
 * tegmeadow.h: a verified reader of MySQL binlog version 4 files (row
 * logging, server 5.6.1 or later).  Link with libtegmeadow.a.
 *
 * A log is lent as bytes: a pointer and how many bytes.  Any bytes may be
 * handed in.  Every call ends, uses no heap, keeps nothing, writes only
 * through the pointers that it is given, and may be made from any thread.
 * No pointer may be null; where a length is 0 the pointer before it is not
 * followed.  What is lent to be written must overlap neither what is lent to
 * be read nor anything else that is lent to be written.
 *
 * Places are counted in bytes from the log's first byte.  A part of the log
 * (a name, a text) comes back as its place and its length; a part that is
 * not there is place 0 and length 0.
 *
 * A listing has five numbers for each row change, in log order:
 *   [0] event type: 30 write, 31 update, 32 delete
 *   [1] place of the rows event
 *   [2] place of its table map
 *   [3] place of the before image, 0 if there is none (a write)
 *   [4] place of the after image, 0 if there is none (a delete)
 * Sides are 0, the before image, and 1, the after image.  Changes and
 * columns are counted from 0.
 *
 * A cell, the value of a column on a side, has eight numbers:
 *   [0] TEGMEADOW_ABSENT (0)   the image has not this column
 *       TEGMEADOW_NULL (256)   null
 *       else the column's type, 1 to 255; then, by the type:
 *   1 TINY, 2 SHORT, 9 INT24, 3 LONG, 8 LONGLONG
 *               [1] the signed number, as 64 bits of two's complement
 *   4 FLOAT     [1] the 32 bits stored
 *   5 DOUBLE    [1] the 64 bits stored
 *   10 DATE     [1] year [2] month [3] day
 *   13 YEAR     [1] year
 *   17 TIMESTAMP2  [1] seconds [2] microseconds
 *   18 DATETIME2   [1] year [2] month [3] day [4] hour [5] minute
 *                  [6] second [7] microseconds
 *   19 TIME2    [1] 1 if negative, else 0 [2] hour [3] minute [4] second
 *               [5] microseconds
 *   15 VARCHAR, 252 BLOB
 *               [1] place [2] length of the text in the log
 * The numbers not named are 0.
 *
 * Answers: 0 (TEGMEADOW_ACCEPTED) or the number of a refusal, below.  A
 * refused call writes the refusal's place through `place`, where it has
 * one, 0 to the counts of check and list, and the part that is not there
 * for a name or a text; nothing else.
 */
#ifndef TEGMEADOW_H
#define TEGMEADOW_H

#include <stddef.h>
#include <stdint.h>

#ifdef __cplusplus
extern "C" {
#endif

#define TEGMEADOW_ACCEPTED 0

/* Refusals: what is at fault, and what their place is. */
#define TEGMEADOW_TOO_LONG 1            /* log longer than 1,073,741,824 bytes; 0 */
#define TEGMEADOW_NOT_A_LOG 2           /* the first four bytes aren't fe 62 69 6e; 0 */
#define TEGMEADOW_NO_DESCRIPTION 3      /* the first event isn't a description; 4 */
#define TEGMEADOW_CUT_SHORT 4           /* an event runs past the end; event */
#define TEGMEADOW_LENGTH_TOO_SMALL 5    /* event length below header plus checksum; event */
#define TEGMEADOW_BAD_DESCRIPTION 6     /* description malformed; 4 */
#define TEGMEADOW_BAD_VERSION 7         /* server version unreadable or below 5.6.1; 4 */
#define TEGMEADOW_BAD_CHECKSUM 8        /* checksum wrong; event */
#define TEGMEADOW_BAD_POSITION 9        /* next position isn't place plus length; event */
#define TEGMEADOW_SECOND_DESCRIPTION 10 /* a second description; event */
#define TEGMEADOW_BAD_EVENT_TYPE 11     /* event type not supported; event */
#define TEGMEADOW_BAD_TABLE_MAP 12      /* table map malformed; event */
#define TEGMEADOW_BAD_COLUMN 13         /* column type or its metadata not supported; event */
#define TEGMEADOW_TOO_MANY_TABLES 14    /* a 17th live table id; event */
#define TEGMEADOW_NO_TABLE_MAP 15       /* rows event without a live map; event */
#define TEGMEADOW_BAD_ROWS 16           /* rows event head malformed; event */
#define TEGMEADOW_ROW_CUT_SHORT 17      /* a row image runs past the rows; event */
#define TEGMEADOW_BAD_VALUE 18          /* stored value not allowed; value's first byte */
#define TEGMEADOW_NOT_THERE 19          /* no such change, side or column; 0 */
#define TEGMEADOW_BUFFER_TOO_SHORT 20   /* listing buffer below five numbers a change; 0 */

/* Kinds of a cell beside the column types. */
#define TEGMEADOW_ABSENT 0
#define TEGMEADOW_NULL 256

/* How many numbers a listing entry and a cell have. */
#define TEGMEADOW_ENTRY 5
#define TEGMEADOW_CELL 8

/*
 * Is the log sound?  0: place 0, `events` counts its events (the description
 * among them) and `changes` its row changes.  Else 1 to 18: `place` is the
 * refusal's, both counts are 0.
 */
uint32_t tegmeadow_check(const uint8_t *log, size_t log_len, size_t *place,
                         size_t *events, size_t *changes);

/*
 * Which rows changed?  Answers as check does and, where accepted, writes the
 * listing into `out`, which has `out_len` numbers; those past the listing
 * stay as they were.  20 where 5 times the changes is more than `out_len`.
 * A buffer of zeros is filled in one walk of the log, any other in two.
 * Where refused, all of it is as it was when the call returns; entries may
 * have stood in place of zeros meanwhile.
 */
uint32_t tegmeadow_list(const uint8_t *log, size_t log_len, uint32_t *out,
                        size_t out_len, size_t *place, size_t *events,
                        size_t *changes);

/*
 * Change `k`: its listing entry (5 numbers), its table's id and how many
 * columns the table has.  0, or 1 to 18 where the log is refused, or 19.
 * Each of the questions about change `k` walks the log anew; who wants more
 * than a few lists the log once and asks the questions `_at` its entries.
 */
uint32_t tegmeadow_change(const uint8_t *log, size_t log_len, size_t k,
                          size_t *place, uint32_t entry[5], uint64_t *table,
                          size_t *columns);

/* Where the name of change `k`'s database stands; 0 and 0 where refused. */
void tegmeadow_database_name(const uint8_t *log, size_t log_len, size_t k,
                             size_t *place, size_t *length);

/* Where the name of change `k`'s table stands; 0 and 0 where refused. */
void tegmeadow_table_name(const uint8_t *log, size_t log_len, size_t k,
                          size_t *place, size_t *length);

/*
 * The cell (8 numbers) of change `k` on a side in a column.  0, or 1 to 18
 * where the log is refused, or 19, also for a side that the change has not.
 */
uint32_t tegmeadow_value(const uint8_t *log, size_t log_len, size_t k,
                         size_t side, size_t column, size_t *place,
                         uint64_t cell[8]);

/*
 * Where the text or blob of that cell stands; nothing where the value is
 * refused, or is neither text nor blob.
 */
void tegmeadow_text(const uint8_t *log, size_t log_len, size_t k, size_t side,
                    size_t column, size_t *place, size_t *length);

/*
 * The linear way.  The questions below ask at a listing entry, with no walk
 * and no checksum.  At an entry of an accepted log's listing they answer as
 * the questions above do; at any other five numbers they answer by what can
 * be read there, or 19 and empty parts.
 */

/* The table's id and how many columns it has.  0 or 19. */
uint32_t tegmeadow_change_at(const uint8_t *log, size_t log_len,
                             const uint32_t entry[5], uint64_t *table,
                             size_t *columns);

/* Where the name of the entry's database stands. */
void tegmeadow_database_name_at(const uint8_t *log, size_t log_len,
                                const uint32_t entry[5], size_t *place,
                                size_t *length);

/* Where the name of the entry's table stands. */
void tegmeadow_table_name_at(const uint8_t *log, size_t log_len,
                             const uint32_t entry[5], size_t *place,
                             size_t *length);

/* The cell (8 numbers) on a side in a column.  0 or 19. */
uint32_t tegmeadow_value_at(const uint8_t *log, size_t log_len,
                            const uint32_t entry[5], size_t side, size_t column,
                            uint64_t cell[8]);

/* Where the text or blob of that cell stands. */
void tegmeadow_text_at(const uint8_t *log, size_t log_len,
                       const uint32_t entry[5], size_t side, size_t column,
                       size_t *place, size_t *length);

/*
 * The cells of the changes of a listing, or of a part of one that starts at
 * an entry, one after another: for each change the columns of its before
 * image in order, then those of its after image; only images that it has.
 * `listing_len` and `cells_len` count numbers.  Writes as many cells as can
 * be read and fit and answers how many; what follows them stays as it was.
 */
size_t tegmeadow_values(const uint8_t *log, size_t log_len,
                        const uint32_t *listing, size_t listing_len,
                        uint64_t *cells, size_t cells_len);

#ifdef __cplusplus
}
#endif

#endif
