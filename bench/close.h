/* Closing of a rule set in plain C, to measure the library against. */
#ifndef LW_C_CLOSE_H
#define LW_C_CLOSE_H

#include <stddef.h>

/*
 * Closes the rule records into the table area, which holds capacity rows of 32 bytes; the work area
 * holds three times as many. Returns 0 if the set is closed: *rows_or_number is then the number of
 * rows and *rounds_or_returned the number of growing rounds. Returns 1 if it is refused: they are
 * then the refusal's number and what is returned beside it.
 */
int lw_c_close(const unsigned char *rules, size_t rules_len, size_t kinds, size_t capacity,
               size_t rounds, unsigned char *table, size_t table_len, unsigned char *work,
               size_t work_len, size_t *rows_or_number, size_t *rounds_or_returned);

#endif
