/*
 * Fusion of two dispatch tables: outer union, minimum union and complement
 * union of two table images, the reader of a set list, and the table on a page.
 *
 * An image is a list of 32-bit words:
 *   header    0xC0000000 | rows << 18 | columns
 *   columns   0x80000000 | id, one word a column; ids 0 to 65535, distinct
 *             whatever their marks; with | FUSION_MARK the column is marked
 *   cells     row by row: 0 for an empty cell ("not known"), 0x40000000 |
 *             number, numbers 0 to 1073741823, or FUSION_NONE ("there is none")
 * A source table has 1 to 16 columns and 0 to 32 rows. Its image has exactly
 * 1 + columns + rows * columns words. Results are images too, with at most 16
 * columns and, for complement union, at most 1024 rows. A column of a result is
 * marked if either table marks the column with its id. A table that is put on a
 * page may have up to 1024 rows, so that every fused table can be put there.
 *
 * All lengths are counted in words, that of bytes in bytes, and may have any
 * value. Pointers must not be null, also where the length is 0, and must be
 * aligned for uint32_t, except bytes, which may start at any address. Images
 * and lists are only read, and the two images of a union may be the same
 * memory; table, sets, words, bytes and answer must not overlap each other, an
 * image or a list. The calls keep no state and allocate nothing. The archive
 * needs memcpy and memset and nothing else.
 *
 * Each call returns the refusal number, 0 for done, and writes the answer:
 *
 *   word  done                                        refused
 *   0     0                                           refusal number
 *   1     0                                           table
 *   2     rows of the result (unions, otherwise 0)    0
 *   3     words written into table (unions) or words  0
 *         (reader), otherwise 0
 *   4     filled cells of the result (unions,         0
 *         otherwise 0)
 *   5     pairs tried (minimum union, otherwise 0)    0
 *   6     sets (complement union and reader,          0
 *         otherwise 0)
 *   7     words written into sets (complement union,  0
 *         otherwise 0)
 *   8     pages of the table (page, otherwise 0)      0
 *
 * An answer buffer with fewer than FUSION_ANSWER_WORDS words takes the words
 * that fit; words past the ninth stay as they are. The refused table is 0 for
 * the first or only one, 1 for the second and 2 for all numbers from 8.
 *
 * A refusal changes no word of table, sets and words and no byte of bytes.
 * After a done call, the words and bytes of these past the written ones are as
 * they were.
 */
#ifndef FUSION_H
#define FUSION_H

#include <stddef.h>
#include <stdint.h>

#ifdef __cplusplus
extern "C" {
#endif

/* Words of an answer. */
#define FUSION_ANSWER_WORDS 9

/* The mark of a column word, bit 29: the column identifies. */
#define FUSION_MARK 0x20000000u

/* The cell that says: there is none. It is filled, equals only itself, and
 * sorts after every number. */
#define FUSION_NONE 0x80000000u

/* Table words that are enough for every outer and every minimum union. */
#define FUSION_UNION_WORDS (1 + 16 + 64 * 16)

/* Table words and set words that are enough for every complement union. */
#define FUSION_FUSED_WORDS (1 + 16 + 1024 * 16)
#define FUSION_SET_WORDS (1 + 4 * 1024)

/* Words that are enough for every set list that is read. */
#define FUSION_READ_WORDS (1024 * (2 + 64))

/* Rows of the largest table that is put on a page, as many as a fused table may have. */
#define FUSION_STORED_ROWS 1024

/* Bytes of a page, and of each of its lines: 80 characters and a byte 10. */
#define FUSION_PAGE_BYTES 4860
#define FUSION_LINE_BYTES 81

/* Refusal numbers. The first question that is answered with no gives its
 * number. Numbers 1 to 7 are asked of the first table, then of the second. The
 * reader asks 12, 13, 14 and then 10, the page 1 to 7, 15 and then 16. */
enum fusion_number {
    FUSION_DONE = 0,
    FUSION_BAD_HEADER = 1,     /* no first word, or not of header form */
    FUSION_BAD_COLUMNS = 2,    /* not 1 to 16 columns */
    FUSION_BAD_ROWS = 3,       /* more than 32 rows, of the page 1024 */
    FUSION_BAD_LENGTH = 4,     /* not 1 + columns + rows * columns words */
    FUSION_BAD_COLUMN = 5,     /* a column word is not of column form */
    FUSION_SAME_ID = 6,        /* two columns have the same id */
    FUSION_BAD_CELL = 7,       /* a cell is not empty, a number or FUSION_NONE */
    FUSION_UNION_COLUMNS = 8,  /* the union has more than 16 columns */
    FUSION_TOO_MANY_SETS = 9,  /* more than 1024 maximal sets */
    FUSION_TABLE_TOO_SHORT = 10, /* of the reader: words is too short */
    FUSION_SETS_TOO_SHORT = 11,
    FUSION_BAD_LIST = 12,      /* no set list, or more than 64 rows */
    FUSION_BAD_RECORD = 13,    /* a set's words are not of their form */
    FUSION_BAD_ORDER = 14,     /* the sets do not rise in set order */
    FUSION_NO_PAGE = 15,       /* the table has no such page */
    FUSION_BYTES_TOO_SHORT = 16 /* fewer than FUSION_PAGE_BYTES bytes */
};

/*
 * Outer union. Writes T, the distinct rows of both tables in the union's
 * columns, ascending, as an image into table.
 *
 * Refusals: 1 to 8, 10.
 */
uint32_t fusion_outer_union(const uint32_t *first, size_t first_len,
                            const uint32_t *second, size_t second_len,
                            uint32_t *table, size_t table_len,
                            uint32_t *answer, size_t answer_len);

/*
 * Minimum union. Writes T without the rows that another row of T subsumes,
 * ascending, as an image into table. The answer's word 5 is the number of
 * pairs of rows tried. An image that it wrote can be a table of a further call
 * if it has at most 32 rows. Three tables get the same words in either
 * grouping, if all four unions are accepted.
 *
 * Refusals: 1 to 8, 10.
 */
uint32_t fusion_minimum_union(const uint32_t *first, size_t first_len,
                              const uint32_t *second, size_t second_len,
                              uint32_t *table, size_t table_len,
                              uint32_t *answer, size_t answer_len);

/*
 * Complement union. Writes the fused table, the distinct joined rows of the
 * maximal complementing sets of T, ascending, as an image into table, and the
 * set list into sets:
 *   header    0xC0000000 | sets << 18 | 4
 *   then four words a set:
 *     0x80000000 | marks of the positions 0 to 29, lowest bit first
 *     0x80000000 | marks of the positions 30 to 59
 *     0x80000000 | marks of the positions 60 to 63
 *     0x40000000 | position of the joined row in the fused table
 * A position is a row's place in T, from 0. Of two sets the one that holds the
 * smallest position that only one of them holds comes first.
 *
 * If any column of the union is marked, even one that is empty in every row,
 * rows complement each other only if they share a number or FUSION_NONE in a
 * marked column; if no column is marked, one shared in any column will do.
 *
 * Refusals: 1 to 11.
 */
uint32_t fusion_complement_union(const uint32_t *first, size_t first_len,
                                 const uint32_t *second, size_t second_len,
                                 uint32_t *table, size_t table_len,
                                 uint32_t *sets, size_t sets_len,
                                 uint32_t *answer, size_t answer_len);

/*
 * Reads a set list back, for a T of so many rows, 0 to 64. Writes into words,
 * for each set, without kind bits:
 *   the number of its members
 *   their positions in T, ascending
 *   the position of the joined row in the fused table
 * The answer's word 3 is the number of words written, at most 65602; word 6 is
 * the number of sets. Whether the sets are maximal is not judged. The time is
 * linear in the words read and written.
 *
 * Refusals, in this order, all with table 2:
 *   12  rows is over 64; the first word is missing, not of kind 3, has one of
 *       its bits 17 to 5 set, has another width than 4 or counts more than 1024
 *       sets; or list_len is not 1 + 4 * sets
 *   13  in any record: a word of the wrong kind, no marked position, a marked
 *       position that is not below rows, or a joined row's position above 1023
 *   14  a set does not come before the next in set order
 *   10  words is too short
 */
uint32_t fusion_read_set_list(const uint32_t *list, size_t list_len,
                              uint32_t rows,
                              uint32_t *words, size_t words_len,
                              uint32_t *answer, size_t answer_len);

/*
 * Writes one page of a table of up to FUSION_STORED_ROWS rows into bytes:
 * FUSION_PAGE_BYTES bytes, 60 lines of 80 characters and a byte 10.
 *   line 1          the ids of up to six columns
 *   lines 2 to 60   a row each: its position, then its cells in these columns
 * Characters 1 to 4 of a line hold the position and are blank in line 1; then
 * each id or cell has 12 characters. All are decimal and flushed right; an
 * empty cell is shown as `-`, FUSION_NONE as `none`, marks are not shown. The
 * rest of a line and lines without a row are blank. A position is a row's place
 * in the image, from 0.
 *
 * Columns and rows keep the image's order. Columns go in bands of six: the
 * pages of the first six show all rows, 59 a page, then those of the next six
 * show them from the first row again. A table without rows has one page a band.
 * Pages count from 0; the answer's word 8 is how many there are, at most 54.
 *
 * Refusals, in this order, 1 to 7 with table 0 and the others with table 2:
 *   1 to 7  as in the unions, with FUSION_STORED_ROWS in place of 32 rows
 *   15      the table has no such page; any number may be asked for
 *   16      bytes_len is below FUSION_PAGE_BYTES
 */
uint32_t fusion_page(const uint32_t *image, size_t image_len,
                     uint32_t page,
                     uint8_t *bytes, size_t bytes_len,
                     uint32_t *answer, size_t answer_len);

#ifdef __cplusplus
}
#endif

#endif
