/*
 * The C interface in use: date texts, the paper's example C2 from its sheet to the days chosen, then a
 * refusal of each number. certificate.expected holds what it must print, worked out from the paper.
 */
#include "frajqotta.h"

#include <stdio.h>
#include <string.h>

/* What fq_read is lent. */
static uint8_t sizes[FQ_SIZES_LENT];
static uint16_t days[FQ_DAYS_LENT];
static uint32_t table[FQ_WORDS_LENT];
static uint32_t scratch[FQ_WORDS_LENT];

static uint64_t read_sheet(const void *sheet, size_t length)
{
    return fq_read(sheet, length, sizes, FQ_SIZES_LENT, days, FQ_DAYS_LENT, table, FQ_WORDS_LENT);
}

static void print_state(uint64_t answer)
{
    printf("state %u", fq_state(answer));
    for (unsigned k = 0; k < fq_count(answer); k++)
        printf(k == 0 ? " at %u" : " %u", fq_value(answer, k));
    printf("\n");
}

static void print_date(const char *text)
{
    uint64_t answer = fq_date((const uint8_t *)text, strlen(text));
    if (fq_state(answer) != 0) {
        print_state(answer);
        return;
    }
    printf("date %s:", text);
    for (unsigned k = 0; k < fq_count(answer); k++)
        printf(" %u", fq_value(answer, k));
    printf("\n");
}

static void print_settling(uint64_t answer)
{
    if (!fq_finished(answer))
        printf("unfinished\n");
    else
        printf("rounds %lu%s\n", (unsigned long)fq_rounds(answer), fq_empty(answer) ? ", empty" : "");
}

static void print_rows(size_t n)
{
    uint64_t answer = fq_judge(sizes, n, table, FQ_TABLE_LENGTH(n));
    if (fq_whole(answer))
        printf("rows whole\n");
    else
        printf("rows broken %u %u %u\n", fq_value(answer, 0), fq_value(answer, 1), fq_value(answer, 2));
}

static void print_first(size_t n)
{
    static const uint8_t fixed[2] = {FQ_FREE, FQ_FREE};
    uint8_t answer[2] = {0, 0};
    if (fq_state(fq_choose(sizes, n, table, FQ_TABLE_LENGTH(n), fixed, 2, answer, 2)) != 0) {
        printf("first none\n");
        return;
    }
    printf("first");
    for (size_t i = 0; i < n; i++)
        printf(" %u", (unsigned)days[i * FQ_READINGS_MOST + answer[i]]);
    printf("\n");
}

static void print_cell(size_t n, const uint32_t *opening, size_t i, size_t j)
{
    uint64_t answer = fq_show(sizes, n, opening, FQ_TABLE_LENGTH(n), table, FQ_TABLE_LENGTH(n), i, j);
    const uint32_t *from = fq_from_opening(answer) ? opening : table;
    printf("cell %lu %lu from %s at %lu:", (unsigned long)i, (unsigned long)j,
           fq_from_opening(answer) ? "opening" : "settled", (unsigned long)fq_first_word(answer));
    for (size_t a = 0; a < sizes[i]; a++)
        printf(" %lu", (unsigned long)from[fq_first_word(answer) + a]);
    printf("\n");
}

/* The sheet of C2: two dates, 350 to 366 days from the first to the second. */
static void print_example(void)
{
    static const char sheet[] = "DT02/05/2024DT01/05/2025GP\x00\x01\x01\x5E\x01\x6E" "EN";
    static uint32_t opening[FQ_WORDS_LENT];
    uint64_t opened = read_sheet(sheet, sizeof sheet - 1);
    size_t n = fq_number(opened);
    print_state(opened);
    printf("fields %lu\n", (unsigned long)n);
    memcpy(opening, table, sizeof table);
    print_settling(fq_settle(sizes, n, table, FQ_TABLE_LENGTH(n), scratch, FQ_TABLE_LENGTH(n), 0));
    print_settling(fq_settle(sizes, n, table, FQ_TABLE_LENGTH(n), scratch, FQ_TABLE_LENGTH(n), FQ_ROUNDS_MOST));
    for (size_t i = 0; i < n; i++)
        printf("field %lu kept %u\n", (unsigned long)i, fq_number(fq_kept(sizes, n, table, FQ_TABLE_LENGTH(n), i)));
    print_rows(n);
    print_first(n);
    print_cell(n, opening, 0, 1);
    memset(table, 0, sizeof table);
    print_cell(n, opening, 1, 0);
}

/* A table of two fields of two readings each, everything allowed. */
static void open_pair(void)
{
    memset(table, 0, sizeof table);
    for (size_t a = 0; a < 2; a++) {
        table[FQ_CELL(2, 0, 0) + a] = table[FQ_CELL(2, 1, 1) + a] = (uint32_t)1 << a;
        table[FQ_CELL(2, 0, 1) + a] = table[FQ_CELL(2, 1, 0) + a] = 3;
    }
}

static uint64_t judge_pair(const uint8_t *two, size_t length)
{
    return fq_judge(two, 2, table, length);
}

/* 1 to 7 and 24: sizes and a table. */
static void refuse_tables(void)
{
    static const uint8_t two[2] = {2, 2};
    static const uint8_t large[2] = {2, 33};
    print_state(fq_judge(NULL, 0, NULL, 0));
    open_pair();
    print_state(judge_pair(large, 128));
    print_state(judge_pair(two, 127));
    table[FQ_CELL(2, 0, 1) + 2] = 1;
    print_state(judge_pair(two, 128));
    open_pair();
    table[FQ_CELL(2, 1, 1) + 0] = 3;
    print_state(judge_pair(two, 128));
    open_pair();
    table[FQ_CELL(2, 0, 1) + 1] = 1;
    print_state(judge_pair(two, 128));
    open_pair();
    print_state(fq_settle(two, 2, table, 128, scratch, 127, 1));
    print_state(fq_kept(two, 2, table, 128, 2));
}

/* 8 to 12: choosing. */
static void refuse_choices(void)
{
    static const uint8_t two[2] = {2, 2};
    static const uint8_t one_and_three[2] = {1, 3};
    static const uint8_t unfixed[2] = {FQ_FREE, FQ_FREE};
    static const uint8_t no_reading[2] = {FQ_FREE, 2};
    static const uint8_t zero_and_one[2] = {0, 1};
    uint8_t answer[2] = {7, 7};
    /* only reading 1 with reading 1, the diagonals full: C2 before it is settled */
    open_pair();
    table[FQ_CELL(2, 0, 1) + 0] = table[FQ_CELL(2, 1, 0) + 0] = 0;
    table[FQ_CELL(2, 0, 1) + 1] = table[FQ_CELL(2, 1, 0) + 1] = 2;
    print_state(fq_choose(two, 2, table, 128, unfixed, 2, answer, 2));
    memset(table, 0, sizeof table);
    print_state(fq_choose(two, 2, table, 128, unfixed, 2, answer, 2));
    /* C6, settled: readings 0 and 2 of field 1 are left */
    table[FQ_CELL(2, 0, 0)] = 1;
    table[FQ_CELL(2, 0, 1)] = 5;
    table[FQ_CELL(2, 1, 0) + 0] = table[FQ_CELL(2, 1, 0) + 2] = 1;
    table[FQ_CELL(2, 1, 1) + 0] = 1;
    table[FQ_CELL(2, 1, 1) + 2] = 4;
    print_state(fq_choose(one_and_three, 2, table, 128, unfixed, 2, answer, 2));
    open_pair();
    print_state(fq_choose(two, 2, table, 128, no_reading, 2, answer, 2));
    /* C5: 0 goes with 0, 1 with 1 */
    for (size_t a = 0; a < 2; a++)
        table[FQ_CELL(2, 0, 1) + a] = table[FQ_CELL(2, 1, 0) + a] = (uint32_t)1 << a;
    print_state(fq_choose(two, 2, table, 128, zero_and_one, 2, answer, 2));
    printf("answer %u %u\n", (unsigned)answer[0], (unsigned)answer[1]);
}

#define SHEET(text) print_state(read_sheet(text, sizeof(text) - 1))

/* 13 to 23: sheets. */
static void refuse_sheets(void)
{
    static uint8_t long_sheet[FQ_SHEET_MOST + 1];
    static uint8_t fields[17 * 5 + 2];
    static uint8_t empty[2] = {'E', 'N'};
    memset(sizes, 9, sizeof sizes);
    print_state(fq_read(empty, 2, sizes, 15, days, FQ_DAYS_LENT, table, FQ_WORDS_LENT));
    print_state(read_sheet(long_sheet, sizeof long_sheet));
    SHEET("DT02/05/2024");
    SHEET("DT02/05/2024XX");
    SHEET("DT02/05/2024DT01/05/2025PR\x00\x00\x01\x01" "DT02/05/2024EN");
    for (size_t k = 0; k < 17; k++)
        memcpy(fields + 5 * k, "FD\x01\x00\x07", 5);
    memcpy(fields + 85, "EN", 2);
    print_state(read_sheet(fields, sizeof fields));
    SHEET("DT02/05/2024DT02/05/2100EN");
    SHEET("DT02/05/2024DT31/04/2024EN");
    SHEET("DT02/05/2024FD\x02\x00\x07\x00\x07" "EN");
    SHEET("DT02/05/2024GP\x00\x01\x01\x5E\x01\x6E" "EN");
    SHEET("DT02/05/2024EN.");
    SHEET("EN");
    printf("sizes %u %u\n", (unsigned)sizes[0], (unsigned)sizes[15]);
}

int main(void)
{
    print_date("03/07/2024");
    print_date("02/03/04");
    print_date("03/07-2024");
    print_date("29/02/2023");
    print_example();
    refuse_tables();
    refuse_choices();
    refuse_sheets();
    return 0;
}
