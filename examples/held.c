/* A held table in C: beacons are dropped and die, and after each change the plan of all rows is there again. Prints how
 * each change ends and the labels that are held then, and at last the bytes of the plan tape.
 *
 *   tools/build library
 *   gcc -std=c99 -Wall -Wextra -Werror -Iinclude examples/held.c target/staticlib/libhub_c.a -o target/held
 *   target/held
 */
#include "hubplan.h"

#include <stdio.h>

static struct hub_held_table table;
static uint8_t space[HUB_SPACE_BYTES];

static void print_change(struct hub_answer answer)
{
    if (answer.refusal == HUB_ACCEPTED)
        printf("heard %u", (unsigned)answer.count);
    else
        printf("refused %u", (unsigned)answer.refusal);
    printf(", labels");
    for (size_t i = 0; i < table.numbers.rows; i++)
        printf(" %u", (unsigned)table.labels[i]);
    printf("\n");
}

static void add(uint16_t start, uint16_t end, uint8_t mark)
{
    printf("add %u to %u with mark %u: ", (unsigned)start, (unsigned)end, (unsigned)mark);
    print_change(hub_table_add(&table, start, end, mark, space, sizeof space));
}

static void withdraw(size_t row)
{
    printf("withdraw row %u: ", (unsigned)row);
    print_change(hub_table_withdraw(&table, row, space, sizeof space));
}

/* The first `rows` places of each list are the table and the labels that the writer takes. */
static int print_tape(void)
{
    uint8_t tape[HUB_PLAN_TAPE_BYTES];
    size_t rows = table.numbers.rows;
    struct hub_answer written = hub_write_plan_round(table.numbers.ticks, table.numbers.gap, table.starts, rows,
                                                     table.ends, rows, table.marks, rows, table.labels, rows,
                                                     tape, sizeof tape);
    if (written.refusal != HUB_ACCEPTED)
        return 1;
    printf("plan tape of %u bytes", (unsigned)written.count);
    for (size_t i = 0; i < written.count; i++)
        printf(" %02X", (unsigned)tape[i]);
    printf("\n");
    return 0;
}

int main(void)
{
    if (hub_table_begin(&table, 100, 0) != HUB_ACCEPTED)
        return 1;
    add(10, 30, HUB_MUST);
    add(20, 40, HUB_MUST);
    add(25, 50, HUB_MUST); /* three at once are too many for two receivers: the table stays as it was */
    add(25, 50, HUB_MAY);
    add(90, 10, HUB_MAY);
    withdraw(1); /* which leaves a receiver to the row after it, now row 1 */
    withdraw(3); /* there are three rows left, 0 to 2 */
    return print_tape();
}
