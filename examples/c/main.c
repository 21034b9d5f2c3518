/* Fuses the example lists of document 01, prints the fused rows, and the lines
 * in use of the page that shows them. Then makes the minimum union of these
 * lists and a third one, in either grouping, and prints its rows. */

#include "fusion.h"

#include <stdio.h>
#include <string.h>

#define COLUMN(id) (0x80000000u | (id))
#define CELL(number) (0x40000000u | (number))
#define EMPTY 0u
#define WORDS(image) (sizeof image / sizeof image[0])

/* Columns 10, 11, 12: (7,3,-), (7,-,40), (9,5,41). */
static const uint32_t board[] = {
    0xC0000000u | 3u << 18 | 3u,
    COLUMN(10), COLUMN(11), COLUMN(12),
    CELL(7), CELL(3), EMPTY,
    CELL(7), EMPTY, CELL(40),
    CELL(9), CELL(5), CELL(41),
};

/* Columns 10, 13, 11: (7,2,3), (9,1,-). */
static const uint32_t plant[] = {
    0xC0000000u | 2u << 18 | 3u,
    COLUMN(10), COLUMN(13), COLUMN(11),
    CELL(7), CELL(2), CELL(3),
    CELL(9), CELL(1), EMPTY,
};

/* Of an extra cabinet, columns 12, 10, 11: (40,7,3), (-,8,6). */
static const uint32_t cabinet[] = {
    0xC0000000u | 2u << 18 | 3u,
    COLUMN(12), COLUMN(10), COLUMN(11),
    CELL(40), CELL(7), CELL(3),
    EMPTY, CELL(8), CELL(6),
};

static uint32_t table[FUSION_FUSED_WORDS];
static uint32_t sets[FUSION_SET_WORDS];
static uint8_t page[FUSION_PAGE_BYTES];
static uint32_t two[FUSION_UNION_WORDS];
static uint32_t three[FUSION_UNION_WORDS];
static uint32_t other[FUSION_UNION_WORDS];

static int refused(const uint32_t *answer)
{
    printf("refused %u table %u\n", (unsigned)answer[0], (unsigned)answer[1]);
    return 1;
}

static void print_rows(const uint32_t *image)
{
    uint32_t rows = image[0] >> 18 & 0xFFFu;
    uint32_t columns = image[0] & 31u;
    const uint32_t *cell = image + 1 + columns;
    for (uint32_t row = 0; row < rows; row++) {
        for (uint32_t column = 0; column < columns; column++, cell++) {
            if (column > 0)
                putchar(' ');
            if (*cell == EMPTY)
                putchar('-');
            else if (*cell == FUSION_NONE)
                fputs("none", stdout);
            else
                printf("%u", (unsigned)(*cell & 0x3FFFFFFFu));
        }
        putchar('\n');
    }
}

/* Minimum union into a buffer of FUSION_UNION_WORDS words. */
static uint32_t minimum(const uint32_t *first, size_t first_len,
                        const uint32_t *second, size_t second_len,
                        uint32_t *result, uint32_t *answer)
{
    return fusion_minimum_union(first, first_len, second, second_len,
                                result, FUSION_UNION_WORDS,
                                answer, FUSION_ANSWER_WORDS);
}

int main(void)
{
    uint32_t answer[FUSION_ANSWER_WORDS];
    uint32_t number = fusion_complement_union(
        board, WORDS(board), plant, WORDS(plant),
        table, FUSION_FUSED_WORDS,
        sets, FUSION_SET_WORDS,
        answer, FUSION_ANSWER_WORDS);
    if (number != FUSION_DONE)
        return refused(answer);

    uint32_t rows = answer[2];
    uint32_t words = answer[3];
    printf("fused %u %u\n", (unsigned)rows, (unsigned)answer[4]);
    print_rows(table);

    number = fusion_page(table, words, 0, page, FUSION_PAGE_BYTES,
                         answer, FUSION_ANSWER_WORDS);
    if (number != FUSION_DONE)
        return refused(answer);
    printf("page 0 of %u\n", (unsigned)answer[8]);
    fwrite(page, FUSION_LINE_BYTES, 1 + rows, stdout);

    /* Board and plant, then the cabinet: the words written by one call go into
     * the next. A result of more than 32 rows would be refused there. */
    if (minimum(board, WORDS(board), plant, WORDS(plant), two, answer) != FUSION_DONE
        || minimum(two, answer[3], cabinet, WORDS(cabinet), three, answer) != FUSION_DONE)
        return refused(answer);
    words = answer[3];
    printf("three lists %u %u\n", (unsigned)answer[2], (unsigned)answer[4]);
    print_rows(three);

    /* The board, then plant and cabinet. */
    if (minimum(plant, WORDS(plant), cabinet, WORDS(cabinet), two, answer) != FUSION_DONE
        || minimum(board, WORDS(board), two, answer[3], other, answer) != FUSION_DONE)
        return refused(answer);
    int same = answer[3] == words && memcmp(other, three, words * sizeof other[0]) == 0;
    puts(same ? "the same words in the other grouping" : "other words");
    return 0;
}
