/* Makes the call of a record and compares what comes back with what the proved library gave on the host. It needs no C library. */
#include <stdbool.h>
#include "calls.h"
#include "hubplan.h"

enum number { TICKS, GAP, P1, Q1, P2, Q2, ROWS, COUNT, ROW, START, END, MARK, TICK, HEARD, RECEIVER, NUMBERS };
enum list { STARTS, ENDS, MARKS, LABELS, CANDIDATE_STARTS, CANDIDATE_ENDS, CANDIDATE_MARKS, ANSWER_NUMBERS, ANSWER_COUNTS, TAPE, OUT, SPACE, WORDS, LISTS };
enum { MOST_ANSWERS = 8 };

/* bytes of a place */
static const uint8_t width[LISTS] = {2, 2, 1, 1, 2, 2, 1, 1, 1, 1, 1, 1, 8};

static uint64_t number[NUMBERS];
static struct {
    void *first;
    size_t length;
} list[LISTS];
static uint64_t answer[MOST_ANSWERS];
static size_t answers;

static void answer_is(uint64_t field) { answer[answers++] = field; }

static void answer_of(struct hub_answer a)
{
    answer_is(a.refusal);
    answer_is(a.count);
}

static void numbers_are(struct hub_held_numbers n)
{
    answer_is(n.ticks);
    answer_is(n.gap);
    answer_is(n.rows);
    answer_is(n.count);
}

static void change_is(struct hub_held_change c)
{
    answer_is(c.refusal);
    answer_is(c.count);
    numbers_are(c.numbers);
}

static void tried_is(struct hub_tried t)
{
    answer_is(t.refusal);
    answer_is(t.rows);
}

#define N16(n) ((uint16_t)number[n])
#define SIZE(n) ((size_t)number[n])
#define LIST(l) list[l].first, list[l].length
#define SETTING N16(TICKS), N16(GAP)
#define HOURS N16(P1), N16(Q1), N16(P2), N16(Q2)
#define TABLE LIST(STARTS), LIST(ENDS), LIST(MARKS)
#define PLACES TABLE, LIST(LABELS)
#define CANDIDATES LIST(CANDIDATE_STARTS), LIST(CANDIDATE_ENDS), LIST(CANDIDATE_MARKS), LIST(ANSWER_NUMBERS), LIST(ANSWER_COUNTS)
#define HELD ((struct hub_held_numbers){N16(TICKS), N16(GAP), SIZE(ROWS), SIZE(COUNT)})

static void plan_round(void) { answer_of(hub_plan_round(SETTING, TABLE, LIST(LABELS), LIST(SPACE))); }
static void plan_run(void) { answer_of(hub_plan_run(SETTING, HOURS, TABLE, LIST(LABELS), LIST(SPACE))); }
static void write_plan_round(void) { answer_of(hub_write_plan_round(SETTING, TABLE, LIST(LABELS), LIST(OUT))); }
static void write_plan_run(void) { answer_of(hub_write_plan_run(SETTING, HOURS, TABLE, LIST(LABELS), LIST(OUT))); }

static void read_fleet(void)
{
    struct hub_report r = hub_read_fleet(LIST(TAPE), TABLE);
    answer_is(r.refusal);
    answer_is(r.run);
    answer_is(r.ticks);
    answer_is(r.p1);
    answer_is(r.q1);
    answer_is(r.p2);
    answer_is(r.q2);
    answer_is(r.rows);
}

static void reply(void) { answer_is(hub_reply(LIST(TAPE), LIST(OUT), LIST(SPACE))); }

static void player_start(void)
{
    struct hub_started s = hub_player_start(LIST(TAPE), N16(TICK));
    answer_is(s.refusal);
    answer_is(s.player.tick);
}

static void receiver_is(struct hub_receiver r)
{
    answer_is(r.listening);
    answer_is(r.row);
    answer_is(r.until);
}

static void step_is(struct hub_stepped s)
{
    answer_is(s.finished);
    receiver_is(s.receiver1);
    receiver_is(s.receiver2);
    answer_is(s.player.tick);
}

static void player_step(void) { step_is(hub_player_step(LIST(TAPE), (struct hub_player){N16(TICK)})); }

static void held_begin(void)
{
    struct hub_held_begun b = hub_held_begin(SETTING);
    answer_is(b.refusal);
    numbers_are(b.numbers);
}

static void held_add(void) { change_is(hub_held_add(HELD, PLACES, N16(START), N16(END), (uint8_t)number[MARK], LIST(SPACE))); }
static void held_withdraw(void) { change_is(hub_held_withdraw(HELD, PLACES, SIZE(ROW), LIST(SPACE))); }
static void try_candidates_round(void) { tried_is(hub_try_candidates_round(SETTING, TABLE, CANDIDATES, LIST(SPACE))); }
static void try_candidates_run(void) { tried_is(hub_try_candidates_run(SETTING, HOURS, TABLE, CANDIDATES, LIST(SPACE))); }

static void words_of_labels(void)
{
    struct hub_label_words w = hub_words_of_labels(LIST(LABELS));
    answer_is(w.refusal);
    answer_is(w.count);
    answer_is(w.heard);
    answer_is(w.receiver);
}

static void labels_of_words(void) { answer_of(hub_labels_of_words(number[HEARD], number[RECEIVER], LIST(LABELS))); }

static void must_of_marks(void)
{
    struct hub_must_word m = hub_must_of_marks(LIST(MARKS));
    answer_is(m.refusal);
    answer_is(m.word);
}

static void clash_words_round(void) { answer_is(hub_clash_words_round(SETTING, LIST(STARTS), LIST(ENDS), LIST(WORDS))); }
static void clash_words_run(void) { answer_is(hub_clash_words_run(SETTING, LIST(STARTS), LIST(ENDS), LIST(WORDS))); }

/* Many steps of a player: a sum of what they tell (FNV-1a, in words), and the last player. */
static void steps(void)
{
    uint64_t sum = 0xCBF29CE484222325u;
    for (size_t i = 0; i < SIZE(ROWS); i++) {
        answers = 0;
        player_step();
        for (size_t field = 0; field < answers; field++)
            sum = (sum ^ answer[field]) * 0x00000100000001B3u;
        number[TICK] = answer[answers - 1];
    }
    answers = 0;
    answer_is(sum);
    answer_is(number[TICK]);
}

static void (*const functions[FUNCTIONS])(void) = {
    plan_round, plan_run, write_plan_round, write_plan_run, read_fleet, reply, player_start, player_step, held_begin, held_add, held_withdraw, try_candidates_round,
    try_candidates_run, words_of_labels, labels_of_words, must_of_marks, clash_words_round, clash_words_run, steps};

const char *const function_names[FUNCTIONS] = {
    "hub_plan_round", "hub_plan_run", "hub_write_plan_round", "hub_write_plan_run", "hub_read_fleet", "hub_reply", "hub_player_start", "hub_player_step", "hub_held_begin",
    "hub_held_add", "hub_held_withdraw", "hub_try_candidates_round", "hub_try_candidates_run", "hub_words_of_labels", "hub_labels_of_words", "hub_must_of_marks",
    "hub_clash_words_round", "hub_clash_words_run", "steps of a player"};

/* What is left of the record, and whether it was too short, or its lists too long for the memory. */
static const uint8_t *rest;
static size_t left;
static bool failed;

/* A number of so many bytes, the least first. */
static uint64_t take(size_t bytes)
{
    uint64_t n = 0;
    if (left < bytes) {
        failed = true;
        return 0;
    }
    for (size_t i = 0; i < bytes; i++)
        n |= (uint64_t)rest[i] << (8 * i);
    rest += bytes;
    left -= bytes;
    return n;
}

static uint64_t place(enum list l, size_t i)
{
    switch (width[l]) {
    case 1:
        return ((uint8_t *)list[l].first)[i];
    case 2:
        return ((uint16_t *)list[l].first)[i];
    default:
        return ((uint64_t *)list[l].first)[i];
    }
}

static void set_place(enum list l, size_t i, uint64_t value)
{
    switch (width[l]) {
    case 1:
        ((uint8_t *)list[l].first)[i] = (uint8_t)value;
        break;
    case 2:
        ((uint16_t *)list[l].first)[i] = (uint16_t)value;
        break;
    default:
        ((uint64_t *)list[l].first)[i] = value;
    }
}

/* Reads the lists that a call is given, one after another in the memory. */
static void read_lists(void)
{
    size_t used = 0;
    for (enum list l = 0; l < LISTS; l++) {
        size_t length = take(4), listed = take(4), words = (length * width[l] + 7) / 8;
        uint64_t fill = take(8);
        if (words >= arena_words - used) {
            failed = true;
            return;
        }
        list[l].first = &arena[used];
        list[l].length = length;
        used += words + 1;
        for (size_t i = 0; i < length; i++)
            set_place(l, i, i < listed ? take(width[l]) : fill);
    }
}

static bool same_answer(void)
{
    bool same = take(1) == answers;
    for (size_t i = 0; i < answers; i++)
        same = take(8) == answer[i] && same;
    return same;
}

static bool same_lists(void)
{
    for (enum list l = 0; l < LISTS; l++) {
        size_t length = take(4), listed = take(4);
        uint64_t fill = take(8);
        if (length != list[l].length)
            return false;
        for (size_t i = 0; i < length; i++)
            if (place(l, i) != (i < listed ? take(width[l]) : fill))
                return false;
    }
    return true;
}

enum outcome run_record(const uint8_t *record, size_t length)
{
    rest = record;
    left = length;
    failed = false;
    size_t function = take(1), name_length = take(1);
    for (size_t i = 0; i < name_length; i++)
        take(1);
    for (enum number n = 0; n < NUMBERS; n++)
        number[n] = take(8);
    read_lists();
    if (failed || function >= FUNCTIONS)
        return NOT_READ;
    answers = 0;
    make(functions[function]);
    if (!same_answer())
        return ANSWER_DIFFERS;
    if (!same_lists())
        return LIST_DIFFERS;
    return failed || left > 0 ? NOT_READ : SAME;
}
