/* Candidates in C: windows are tried against a table before any of them is added. Each is tried alone, as one that must
 * be heard. Prints each answer, and then how the call ends for a table that has no plan itself.
 *
 *   tools/build library
 *   gcc -std=c99 -Wall -Wextra -Werror -Iinclude examples/candidates.c target/staticlib/libhub_c.a -o target/candidates
 *   target/candidates
 */
#include "hubplan.h"

#include <stdio.h>

#define ROWS 4
#define CANDIDATES 6

/* a round of 100 ticks, of which four rows are heard */
static const uint16_t starts[ROWS] = {10, 20, 60, 70};
static const uint16_t ends[ROWS] = {30, 40, 80, 90};
static uint8_t marks[ROWS] = {HUB_MUST, HUB_MUST, HUB_MAY, HUB_MAY};

static const uint16_t candidate_starts[CANDIDATES] = {40, 72, 35, 25, 60, 60};
static const uint16_t candidate_ends[CANDIDATES] = {60, 75, 45, 30, 100, 70};
static const uint8_t candidate_marks[CANDIDATES] = {HUB_MAY, HUB_MAY, HUB_MAY_2, HUB_MAY, HUB_MAY, 6};

static uint8_t numbers[CANDIDATES], counts[CANDIDATES];
static uint8_t space[HUB_SPACE_BYTES];

static struct hub_tried try_candidates(void)
{
    return hub_try_candidates_round(100, 0, starts, ROWS, ends, ROWS, marks, ROWS, candidate_starts, CANDIDATES,
                                    candidate_ends, CANDIDATES, candidate_marks, CANDIDATES, numbers, CANDIDATES,
                                    counts, CANDIDATES, space, sizeof space);
}

static void print_answer(size_t i)
{
    printf("%u to %u with mark %u: ", (unsigned)candidate_starts[i], (unsigned)candidate_ends[i],
           (unsigned)candidate_marks[i]);
    if (numbers[i] == HUB_ACCEPTED)
        printf("heard %u with it\n", (unsigned)counts[i]);
    else
        printf("refused %u\n", (unsigned)numbers[i]);
}

int main(void)
{
    struct hub_tried tried = try_candidates();
    if (tried.refusal != HUB_ACCEPTED)
        return 1;
    for (size_t i = 0; i < CANDIDATES; i++)
        print_answer(i);
    printf("looked at %u rows\n", (unsigned)tried.rows);
    marks[0] = marks[1] = HUB_MUST_1; /* two at once are too many for one receiver, with or without a candidate */
    tried = try_candidates();
    printf("refused %u, looked at %u rows\n", (unsigned)tried.refusal, (unsigned)tried.rows);
    return 0;
}
