/* One bit per row in C: the labels of a plan as two words and back, and for each row a word of those that no receiver
 * can hear beside it. Prints the words of the plan that examples/session.c makes with a gap of 0, and whether it holds
 * with a gap of 0 and of 1.
 *
 *   tools/build library
 *   gcc -std=c99 -Wall -Wextra -Werror -Iinclude examples/words.c target/staticlib/libhub_c.a -o target/words
 *   target/words
 */
#include "hubplan.h"

#include <stdio.h>

#define ROWS 4

/* a round of 100 ticks */
static const uint16_t starts[ROWS] = {10, 20, 25, 90};
static const uint16_t ends[ROWS] = {30, 40, 50, 10};
static const uint8_t marks[ROWS] = {HUB_MAY, HUB_MAY, HUB_MAY, HUB_MAY};

static uint8_t labels[ROWS], labels_back[ROWS];
static uint8_t space[HUB_SPACE_BYTES];
static uint64_t clashes[ROWS];

/* The rows whose bits are 1. */
static void print_rows(const char *what, uint64_t word)
{
    printf("%s: word %llx, rows", what, (unsigned long long)word);
    for (unsigned i = 0; i < ROWS; i++)
        if (word >> i & 1)
            printf(" %u", i);
    printf("\n");
}

/* Whether no row that is heard clashes with another one of the same receiver. */
static bool holds(const struct hub_label_words *words)
{
    for (unsigned i = 0; i < ROWS; i++) {
        uint64_t same_receiver = words->heard & (words->receiver >> i & 1 ? words->receiver : ~words->receiver);
        if (words->heard >> i & 1 && clashes[i] & same_receiver)
            return false;
    }
    return true;
}

static int print_clashes(uint16_t gap, const struct hub_label_words *words)
{
    if (hub_clash_words_round(100, gap, starts, ROWS, ends, ROWS, clashes, ROWS) != HUB_ACCEPTED)
        return 1;
    printf("gap %u\n", (unsigned)gap);
    for (unsigned i = 0; i < ROWS; i++) {
        printf("row %u ", i);
        print_rows("clashes", clashes[i]);
    }
    printf("the plan %s\n", holds(words) ? "holds" : "does not hold");
    return 0;
}

int main(void)
{
    struct hub_answer plan = hub_plan_round(100, 0, starts, ROWS, ends, ROWS, marks, ROWS, labels, ROWS,
                                            space, sizeof space);
    if (plan.refusal != HUB_ACCEPTED)
        return 1;
    struct hub_label_words words = hub_words_of_labels(labels, ROWS);
    if (words.refusal != HUB_ACCEPTED)
        return 1;
    printf("heard %u\n", (unsigned)words.count);
    print_rows("heard", words.heard);
    print_rows("receiver 2", words.receiver);
    if (print_clashes(0, &words) || print_clashes(1, &words))
        return 1;
    struct hub_answer back = hub_labels_of_words(words.heard, words.receiver, labels_back, ROWS);
    printf("heard %u, labels", (unsigned)back.count);
    for (unsigned i = 0; i < ROWS; i++)
        printf(" %u", (unsigned)labels_back[i]);
    printf("\n");
    back = hub_labels_of_words(words.heard, words.receiver | 1 << 2, labels_back, ROWS); /* row 2 is not heard */
    printf("refused %u\n", (unsigned)back.refusal);
    return 0;
}
