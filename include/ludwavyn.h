/* The entitlement desk's three calls, for C.
 *
 * Every area is the caller's: the calls allocate nothing, keep no pointer and may be made from any number of threads at
 * once, as long as no two of them are lent the same writable area.
 *
 * Of every call:
 *   - A pointer is followed by the number of bytes that it points to. That many bytes must be there to be read (to be
 *     read and written, where the pointer is not const) until the call returns. A pointer is never null, also where the
 *     number of bytes is 0.
 *   - The table area, the work area, `first` and `second` overlap neither each other nor anything that the call reads.
 *   - `first` and `second` each point to one size_t, aligned as such, which every call writes; what it held does not matter.
 *   - The result is LW_OK, or the number of the first check that failed, in the order that is written at each call. Every
 *     input has an answer: settings, lengths and bytes may be anything.
 */
#ifndef LUDWAVYN_H
#define LUDWAVYN_H

#ifdef LUDWAVYN_NO_HEADERS /* a compiler without the C library's headers */
typedef __SIZE_TYPE__ size_t;
typedef __UINT8_TYPE__ uint8_t;
typedef __UINT32_TYPE__ uint32_t;
#else
#include <stddef.h>
#include <stdint.h>
#endif

#ifdef __cplusplus
extern "C" {
#endif

/* What a call returns. The comment says what *first is then; where nothing is said it is 0. */
enum lw_result {
    LW_OK = 0,       /* an answer, told at each call */
    LW_SETTING = 1,  /* a setting is outside its range: kinds 1 to 32, capacity 1 to 256, rounds 1 to 10,000 */
    LW_AREA = 2,     /* a lent area is too short */
    LW_LENGTH = 3,   /* rules not a multiple of 64 bytes or over 4,096; rows not a multiple of 32 or over 8,192 */
    LW_HEAD = 4,     /* a head breaks its rule: the record's number from 0 */
    LW_BODY = 5,     /* a body breaks its rule: the record's number from 0 */
    LW_BRANCHES = 6, /* over 16 branches: the record's number from 0; 0 for an order */
    LW_COUNT = 7,    /* a count over 255: the growing rounds finished */
    LW_CAPACITY = 8, /* over the capacity: the growing rounds finished */
    LW_ROUNDS = 9,   /* the permitted growing rounds are spent: the growing rounds finished */
    LW_ORDER = 10,   /* an order over 64 bytes, with an unknown code, a kind not below kinds, or an unfinished goal */
    LW_ROWS = 11     /* given rows not well formed, or more than the capacity */
};

/* Closes a rule set into a table. Checks: 1, 2, 3, then record by record 4, 5, 6, then the rounds (7, 8, 9).
 *
 *   rules, rules_len   rule records of 64 bytes, only read
 *   kinds              token kinds, 1 to 32
 *   capacity           the most rows that a table may have, 1 to 256
 *   rounds             the growing rounds that are permitted, 1 to 10,000
 *   table, table_len   the table area: at least capacity * 32 bytes; bytes beyond these are never written
 *   work, work_len     the work area: at least capacity * 96 bytes; bytes beyond these are never written
 *
 * LW_OK: *first is the number of rows, *second the number of growing rounds. The rows stand at the front of the table
 * area, 32 bytes each, ascending; the rest of both needed parts is zero. After 7, 8 or 9 both needed parts are zero
 * throughout; other refusals leave both areas as they were. On a refusal *second is 0. */
uint32_t lw_close(const uint8_t *rules, size_t rules_len, size_t kinds, size_t capacity, size_t rounds,
                  uint8_t *table, size_t table_len, uint8_t *work, size_t work_len,
                  size_t *first, size_t *second);

/* Runs one round on given rows. Checks: 1 (kinds and capacity), 2, 3 for rules and then rows, 4 to 6 by record, 11, then
 * the round; 7 and 8 give *first 0.
 *
 *   rules, rules_len   as for lw_close
 *   rows, rows_len     saved rows of 32 bytes, only read; not a part of the table area
 *   kinds, capacity, table, table_len, work, work_len   as for lw_close
 *
 * LW_OK: *first is the number of rows, *second 1 if the round grew and 0 if not. The areas afterwards are as for
 * lw_close. On a refusal *second is 0. */
uint32_t lw_round(const uint8_t *rules, size_t rules_len, const uint8_t *rows, size_t rows_len,
                  size_t kinds, size_t capacity,
                  uint8_t *table, size_t table_len, uint8_t *work, size_t work_len,
                  size_t *first, size_t *second);

/* Asks a table about an order. Checks: 1 (kinds alone), 3 for rows, 11 (form alone), 10, 6. Writes nothing but *first.
 *
 *   rows, rows_len     saved rows of 32 bytes, only read: what lw_close left at the front of its table area
 *   kinds              token kinds, 1 to 32
 *   order, order_len   zero or more whole goals end to end, at most 64 bytes, only read
 *
 * LW_OK: *first is 1 for yes and 0 for no. */
uint32_t lw_ask(const uint8_t *rows, size_t rows_len, size_t kinds, const uint8_t *order, size_t order_len, size_t *first);

#ifdef __cplusplus
}
#endif

#endif
