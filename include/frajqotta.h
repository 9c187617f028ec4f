/*
 * Frajqotta for C: what the dates on a certificate can mean, settled from the agreed intervals.
 *
 * Every function takes any input and answers with one number of 64 bits.
 *
 *   bits 0-7    the state: 0 for a result, else the number of the refusal (1 to 24)
 *   bits 8-15   of a result: see the function; of a refusal: how many values its place has (0 to 3)
 *   bits 16-63  of a result: see the function; of a refusal: the values, 16 bits each, from bit 16
 *
 * Every bit that has no meaning is 0, and no value is ever cut: both are proved, and so is what each
 * function answers and leaves in its buffers, for all inputs. A refusal writes to no buffer.
 *
 * What the caller owes, since no proof can see it:
 *   - each pointer is that of as many elements as the length beside it says, aligned for its type;
 *     where the length is 0 nothing is read or written through it, and it may be null;
 *   - a buffer that is written (no const) overlaps no other buffer of the same call;
 *   - no other thread writes to a buffer of a call, or reads one that is written, while it runs.
 * Lengths count elements, not bytes. The functions keep nothing from one call to the next, take no
 * memory from the heap and call no function of the C library but memmove and memset.
 *
 * A table of n fields is n * n * 32 words: cell (i, j) starts at word (i * n + j) * 32, its word a is
 * row a, and bit b of that says that reading a of field i goes with reading b of field j.
 *
 * Link with target/staticlib/libcapi.a (tools/build writes it), for x86-64 Linux on
 * processors of level v2 (with SSE4.2 and POPCNT).
 */
#ifndef FRAJQOTTA_H
#define FRAJQOTTA_H

#include <stddef.h>
#include <stdint.h>

#ifdef __cplusplus
extern "C" {
#endif

/* The limits. */
#define FQ_FIELDS_MOST 16
#define FQ_READINGS_MOST 32
#define FQ_SHEET_MOST 4096
#define FQ_LAST_DAY 36524     /* 31 December 2099; day 0 is 1 January 2000 */
#define FQ_ROUNDS_MOST 123392 /* no table takes more rounds: a budget that always settles */
#define FQ_FREE 255           /* a fixed choice that leaves the field free */

/* The words of a table of n fields, and the word at which its cell (i, j) starts. */
#define FQ_TABLE_LENGTH(n) ((size_t)(n) * (size_t)(n) * FQ_READINGS_MOST)
#define FQ_CELL(n, i, j) (((size_t)(i) * (size_t)(n) + (size_t)(j)) * FQ_READINGS_MOST)

/* What fq_read asks to be lent, at the least: sizes, days and words. */
#define FQ_SIZES_LENT FQ_FIELDS_MOST
#define FQ_DAYS_LENT (FQ_FIELDS_MOST * FQ_READINGS_MOST)
#define FQ_WORDS_LENT FQ_TABLE_LENGTH(FQ_FIELDS_MOST)

/*
 * The days that a date text can mean: ten bytes with a year of four digits (03/07/2024: one or two
 * days), or eight with a year of two (02/03/04: one to three).
 * Result: bits 8-15 their count; the days, ascending, 16 bits each from bit 16.
 * Refused by 19 (any other length included) and 20, without a place.
 */
uint64_t fq_date(const uint8_t *text, size_t text_length);

/*
 * A sheet read into sizes, days (32 a field, zeros after its own) and the opening table.
 * Result: bits 16-31 the number n of fields; n sizes, n * 32 days and n * n * 32 words are written,
 * and nothing after them. Refused by 1 and 13 to 23; the place, where there is one, is an offset.
 */
uint64_t fq_read(const uint8_t *sheet, size_t sheet_length,
                 uint8_t *sizes, size_t sizes_length,
                 uint16_t *days, size_t days_length,
                 uint32_t *table, size_t table_length);

/*
 * The table settled within a budget of rounds; scratch is as long as the table and holds anything.
 * Result: bits 8-15 are 0 settled with pairs, 1 settled and empty, 2 unfinished; bits 16-47 the rounds
 * it took, 0 where unfinished. The table holds the settled table, or the state after the budgeted
 * rounds; scratch holds one further round. Refused by 1 to 7.
 */
uint64_t fq_settle(const uint8_t *sizes, size_t sizes_length,
                   uint32_t *table, size_t table_length,
                   uint32_t *scratch, size_t scratch_length,
                   uint64_t budget);

/*
 * Whether the table's rows are whole.
 * Result: bits 8-15 are 0 whole, 1 broken; then i, j and a of the first broken row, 16 bits each from
 * bit 16. Refused by 1 to 6.
 */
uint64_t fq_judge(const uint8_t *sizes, size_t sizes_length,
                  const uint32_t *table, size_t table_length);

/*
 * How many readings a field keeps.
 * Result: bits 16-31 their number. Refused by 1 to 6 and 24.
 */
uint64_t fq_kept(const uint8_t *sizes, size_t sizes_length,
                 const uint32_t *table, size_t table_length,
                 size_t field);

/*
 * The first full reading that keeps the fixed ones, a byte for each field into answer. A fixed choice
 * is a reading's number, or FQ_FREE.
 * Result: no further bit. Refused by 1 to 12.
 */
uint64_t fq_choose(const uint8_t *sizes, size_t sizes_length,
                   const uint32_t *table, size_t table_length,
                   const uint8_t *fixed, size_t fixed_length,
                   uint8_t *answer, size_t answer_length);

/*
 * Where cell (i, j) is shown from: the settled table, or the opening one where the settled one holds no
 * bit at all. Its 32 words stand there from the given word on.
 * Result: bits 8-15 are 0 from the settled table, 1 from the opening one; bits 16-47 the first word.
 * Refused by 1, 2, 3 and 24.
 */
uint64_t fq_show(const uint8_t *sizes, size_t sizes_length,
                 const uint32_t *opening, size_t opening_length,
                 const uint32_t *settled, size_t settled_length,
                 size_t i, size_t j);

/* Any answer: 0 for a result, else the number of the refusal. */
static inline unsigned fq_state(uint64_t answer)
{
    return (unsigned)(answer & 0xff);
}

/* Bits 8-15. */
static inline unsigned fq_second(uint64_t answer)
{
    return (unsigned)(answer >> 8 & 0xff);
}

/* Value k, 0 to 2, of 16 bits: of a refusal's place, of a date's days, of a broken row. */
static inline unsigned fq_value(uint64_t answer, unsigned k)
{
    return (unsigned)(answer >> (16 + 16 * (k % 3)) & 0xffff);
}

/* Bits 16-47. */
static inline uint32_t fq_wide(uint64_t answer)
{
    return (uint32_t)(answer >> 16 & 0xffffffff);
}

/* A refusal, of any function: how many values its place has. Of fq_date's result: how many days. */
static inline unsigned fq_count(uint64_t answer)
{
    return fq_second(answer);
}

/* A result of fq_read or fq_kept: the fields read, the readings kept. */
static inline unsigned fq_number(uint64_t answer)
{
    return fq_value(answer, 0);
}

/* A result of fq_settle: finished or not; empty or not; the rounds. */
static inline int fq_finished(uint64_t answer)
{
    return fq_second(answer) != 2;
}

static inline int fq_empty(uint64_t answer)
{
    return fq_second(answer) == 1;
}

static inline uint32_t fq_rounds(uint64_t answer)
{
    return fq_wide(answer);
}

/* A result of fq_judge: whole, or broken at the row of the three values. */
static inline int fq_whole(uint64_t answer)
{
    return fq_second(answer) == 0;
}

/* A result of fq_show: which table, and the first word's place in it. */
static inline int fq_from_opening(uint64_t answer)
{
    return fq_second(answer) == 1;
}

static inline uint32_t fq_first_word(uint64_t answer)
{
    return fq_wide(answer);
}

#ifdef __cplusplus
}
#endif

#endif
