/* Closes the example rules P and asks the table about two orders. */
#include "ludwavyn.h"

int printf(const char *format, ...);

enum { RULES = 5, RECORD = 64, KINDS = 6, CAPACITY = 256, ROUNDS = 100 };

static uint8_t rules[RULES * RECORD];
static uint8_t table[CAPACITY * 32];
static uint8_t work[3 * CAPACITY * 32];

/* Writes one rule record: the head's kinds, the body's codes, and 255 to the end of each. */
static void put_rule(size_t number, const uint8_t *head, size_t head_len, const uint8_t *body, size_t body_len)
{
    uint8_t *record = rules + number * RECORD;
    for (size_t i = 0; i < RECORD; i++)
        record[i] = 255;
    for (size_t i = 0; i < head_len; i++)
        record[i] = head[i];
    for (size_t i = 0; i < body_len; i++)
        record[16 + i] = body[i];
}

/* Asks about one order and prints the answer. */
static void ask(const char *words, size_t rows, const uint8_t *order, size_t order_len)
{
    size_t first;
    uint32_t result = lw_ask(table, rows * 32, KINDS, order, order_len, &first);
    if (result == LW_OK)
        printf("%s: %s\n", words, first == 1 ? "yes" : "no");
    else
        printf("%s: refused %u %zu\n", words, (unsigned)result, first);
}

int main(void)
{
    enum { a, b, c, d, e, f, DONE = 64, TOGETHER = 65, BOTH = 66 };
    put_rule(0, (const uint8_t[]){a}, 1, (const uint8_t[]){TOGETHER, b, c}, 3);
    put_rule(1, (const uint8_t[]){b}, 1, (const uint8_t[]){BOTH, TOGETHER, d, e, f}, 5);
    put_rule(2, (const uint8_t[]){c, d}, 2, (const uint8_t[]){DONE}, 1);
    put_rule(3, (const uint8_t[]){c, e}, 2, (const uint8_t[]){TOGETHER, c, b}, 3);
    put_rule(4, (const uint8_t[]){c, f}, 2, (const uint8_t[]){DONE}, 1);

    size_t rows, rounds;
    uint32_t result = lw_close(rules, sizeof rules, KINDS, CAPACITY, ROUNDS, table, sizeof table, work, sizeof work,
                               &rows, &rounds);
    if (result != LW_OK) {
        printf("refused %u %zu\n", (unsigned)result, rows);
        return 1;
    }
    printf("closed %zu %zu\n", rows, rounds);
    ask("b, c", rows, (const uint8_t[]){b, c}, 2);
    ask("b", rows, (const uint8_t[]){b}, 1);
    return 0;
}
