/* A whole session in C: plans a round of four rows with a gap and without one and prints the labels, then the bytes of
 * the plan tape, then what hubplan prints for the fleet tape, then what a player of the plan tape tells at some ticks.
 *
 *   tools/build library
 *   gcc -std=c99 -Wall -Wextra -Werror -Iinclude examples/session.c target/staticlib/libhub_c.a -o target/session
 *   target/session
 */
#include "hubplan.h"

#include <stdio.h>

#define ROWS 4

static const uint16_t starts[ROWS] = {10, 20, 25, 90};
static const uint16_t ends[ROWS] = {30, 40, 50, 10};
static const uint8_t marks[ROWS] = {0, 0, 0, 0};
static const uint16_t ticks = 100;

static const uint8_t fleet[] = {0x10, 0x00, 0x64, 0x40, 0x00, 0x0A, 0x00, 0x1E, 0x40, 0x00, 0x14, 0x00,
                                0x28, 0x40, 0x00, 0x19, 0x00, 0x32, 0x40, 0x00, 0x5A, 0x00, 0x0A, 0x7F};

static uint8_t space[HUB_SPACE_BYTES];

static int refused(const char *what, unsigned number)
{
    fprintf(stderr, "%s: refused %u\n", what, number);
    return 1;
}

/* Plans the round with a gap and prints the labels; 1 where it is refused. */
static int print_plan(uint16_t gap, uint8_t labels[ROWS])
{
    struct hub_answer plan = hub_plan_round(ticks, gap, starts, ROWS, ends, ROWS, marks, ROWS, labels, ROWS,
                                            space, sizeof space);
    if (plan.refusal != HUB_ACCEPTED)
        return refused("plan", plan.refusal);
    printf("gap %u: heard %u, labels", (unsigned)gap, (unsigned)plan.count);
    for (size_t i = 0; i < ROWS; i++)
        printf(" %u", (unsigned)labels[i]);
    printf("\n");
    return 0;
}

static void print_receiver(unsigned number, struct hub_receiver receiver)
{
    if (receiver.listening)
        printf("receiver %u listens to row %u until %u", number, (unsigned)receiver.row, (unsigned)receiver.until);
    else
        printf("receiver %u is idle", number);
}

/* Prints what the player tells at so many ticks from the first on. The player is all that is kept between two steps. */
static int play(const uint8_t *tape, size_t length, uint16_t first, unsigned steps)
{
    struct hub_started started = hub_player_start(tape, length, first);
    if (started.refusal != HUB_ACCEPTED)
        return refused("player", started.refusal);
    struct hub_player player = started.player;
    for (; steps > 0; steps--) {
        struct hub_stepped stepped = hub_player_step(tape, length, player);
        printf("tick %u: ", (unsigned)player.tick);
        print_receiver(1, stepped.receiver1);
        printf(", ");
        print_receiver(2, stepped.receiver2);
        printf("\n");
        player = stepped.player;
    }
    return 0;
}

int main(void)
{
    uint8_t labels[ROWS] = {0};
    /* a receiver that needs a tick between two windows cannot hear row 3, to 10, and row 0, from 10 */
    if (print_plan(1, labels) || print_plan(0, labels))
        return 1;

    uint8_t tape[HUB_PLAN_TAPE_BYTES];
    struct hub_answer written = hub_write_plan_round(ticks, 0, starts, ROWS, ends, ROWS, marks, ROWS, labels, ROWS,
                                                     tape, sizeof tape);
    if (written.refusal != HUB_ACCEPTED)
        return refused("plan tape", written.refusal);
    printf("plan tape of %u bytes", (unsigned)written.count);
    for (size_t i = 0; i < written.count; i++)
        printf(" %02X", (unsigned)tape[i]);

    /* a buffer of one byte less is refused */
    struct hub_answer too_short = hub_write_plan_round(ticks, 0, starts, ROWS, ends, ROWS, marks, ROWS, labels, ROWS,
                                                       tape, written.count - 1);
    printf("\nbuffer of %u bytes: refused %u\n", (unsigned)written.count - 1, (unsigned)too_short.refusal);

    uint8_t text[HUB_REPLY_BYTES];
    size_t length = hub_reply(fleet, sizeof fleet, text, sizeof text, space, sizeof space);
    fwrite(text, 1, length, stdout);

    /* from one window to the next, both receivers at once, and from the last tick of the round to the first */
    return play(tape, written.count, 8, 5) || play(tape, written.count, 25, 1) || play(tape, written.count, 98, 4);
}
