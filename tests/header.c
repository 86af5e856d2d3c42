/* Tests include/hubplan.h by itself: every function is called as the header declares it, on the session's round, on
 * runs with unequal hours, with each mark, with windows that cover every tick, with gaps, on held tables, with
 * candidates, with words of one bit per row, with working space of several lengths, at each limit and for each
 * refusal, and every constant, field and parameter is compared. The numbers here are those of docs/RULES.md, since the
 * header's constants are what is tested. P1 to P10 are tables of crates/conformance/src/bench.rt; P2 is the session's.
 *
 *   gcc -std=c99 -Wall -Wextra -Wpedantic -Werror -Iinclude tests/header.c target/staticlib/libhub_c.a -o target/header && target/header
 */
#include <stdio.h>
#include <string.h>

/* C ignores the names of parameters, so an exchange of hours is seen only in the text: each declaration is also kept
 * as a string. */
#define hub_plan_round(...) hub_plan_round(__VA_ARGS__); static const char plan_round_takes[] = #__VA_ARGS__
#define hub_plan_run(...) hub_plan_run(__VA_ARGS__); static const char plan_run_takes[] = #__VA_ARGS__
#define hub_write_plan_round(...) hub_write_plan_round(__VA_ARGS__); static const char write_round_takes[] = #__VA_ARGS__
#define hub_write_plan_run(...) hub_write_plan_run(__VA_ARGS__); static const char write_run_takes[] = #__VA_ARGS__
#define hub_read_fleet(...) hub_read_fleet(__VA_ARGS__); static const char read_fleet_takes[] = #__VA_ARGS__
#define hub_reply(...) hub_reply(__VA_ARGS__); static const char reply_takes[] = #__VA_ARGS__
#define hub_player_start(...) hub_player_start(__VA_ARGS__); static const char player_start_takes[] = #__VA_ARGS__
#define hub_player_step(...) hub_player_step(__VA_ARGS__); static const char player_step_takes[] = #__VA_ARGS__
/* The header's functions hub_table_.. call these three, and have such a string of their own, unused. */
#define hub_held_begin(...) hub_held_begin(__VA_ARGS__); static const char held_begin_takes[] __attribute__((unused)) = #__VA_ARGS__
#define hub_held_add(...) hub_held_add(__VA_ARGS__); static const char held_add_takes[] __attribute__((unused)) = #__VA_ARGS__
#define hub_held_withdraw(...) hub_held_withdraw(__VA_ARGS__); static const char held_withdraw_takes[] __attribute__((unused)) = #__VA_ARGS__
#define hub_try_candidates_round(...) hub_try_candidates_round(__VA_ARGS__); static const char try_round_takes[] = #__VA_ARGS__
#define hub_try_candidates_run(...) hub_try_candidates_run(__VA_ARGS__); static const char try_run_takes[] = #__VA_ARGS__
#define hub_words_of_labels(...) hub_words_of_labels(__VA_ARGS__); static const char words_of_labels_takes[] = #__VA_ARGS__
#define hub_labels_of_words(...) hub_labels_of_words(__VA_ARGS__); static const char labels_of_words_takes[] = #__VA_ARGS__
#define hub_must_of_marks(...) hub_must_of_marks(__VA_ARGS__); static const char must_of_marks_takes[] = #__VA_ARGS__
#define hub_clash_words_round(...) hub_clash_words_round(__VA_ARGS__); static const char clash_round_takes[] = #__VA_ARGS__
#define hub_clash_words_run(...) hub_clash_words_run(__VA_ARGS__); static const char clash_run_takes[] = #__VA_ARGS__
#include "hubplan.h"
#undef hub_plan_round
#undef hub_plan_run
#undef hub_write_plan_round
#undef hub_write_plan_run
#undef hub_read_fleet
#undef hub_reply
#undef hub_player_start
#undef hub_player_step
#undef hub_held_begin
#undef hub_held_add
#undef hub_held_withdraw
#undef hub_try_candidates_round
#undef hub_try_candidates_run
#undef hub_words_of_labels
#undef hub_labels_of_words
#undef hub_must_of_marks
#undef hub_clash_words_round
#undef hub_clash_words_run

#define ROWS 64
#define SPACE 4608
#define AMPLE 16384 /* far more working space than a call needs and clears */
#define TAPE 392
#define REPLY 400
#define BEYOND 16   /* room after each output, which no call may touch */
#define BEFORE 0xA5 /* what every output holds before a call */

/* A table as it is lent, with each length apart, so that one alone can be wrong. The hours count in a run only. */
struct lent {
    bool run;
    uint16_t ticks, gap, p1, q1, p2, q2;
    uint16_t starts[ROWS + 1], ends[ROWS + 1];
    uint8_t marks[ROWS + 1], labels[ROWS + 1 + BEYOND];
    size_t starts_length, ends_length, marks_length, labels_length, space_length, tape_length;
};

/* The lists that the reader fills. */
struct places {
    uint16_t starts[ROWS + 1], ends[ROWS + 1];
    uint8_t marks[ROWS + 1];
    size_t starts_length, ends_length, marks_length;
};

/* A held table as it is lent: a place more in each list, and each length apart. */
struct held {
    struct hub_held_numbers numbers;
    uint16_t starts[ROWS + 1], ends[ROWS + 1];
    uint8_t marks[ROWS + 1], labels[ROWS + 1];
    size_t starts_length, ends_length, marks_length, labels_length, space_length;
};

/* A table with candidates as they are lent; the answers have room beyond. */
struct tries {
    struct lent table;
    uint16_t starts[ROWS + 1], ends[ROWS + 1];
    uint8_t marks[ROWS + 1], numbers[ROWS + 1 + BEYOND], counts[ROWS + 1 + BEYOND];
    size_t starts_length, ends_length, marks_length, numbers_length, counts_length;
};

struct fleet {
    uint8_t bytes[500];
    size_t length;
};

static uint8_t space[AMPLE + BEYOND];
static uint8_t tape[TAPE + BEYOND];
static uint8_t out[REPLY + BEYOND];

/* What words go to and labels of words, with room on both sides, which no call may touch either. */
static uint64_t word_room[BEYOND + ROWS + 1 + BEYOND];
static uint8_t label_room[BEYOND + ROWS + 1 + BEYOND];

/* The header's refusals at their numbers. */
static const unsigned refusals[17] = {HUB_ACCEPTED, HUB_LISTS,   HUB_ROWS,     HUB_SPACE,  HUB_TICKS, HUB_HOURS, HUB_WINDOW, HUB_MARK,
                                      HUB_NO_PLAN,  HUB_NOT_PLAN, HUB_BUFFER,  HUB_FORM,   HUB_TAPE,  HUB_FIRST_TICK, HUB_GAP, HUB_NO_ROW,
                                      HUB_CANDIDATES};

/* Plan tapes of the session and of P9. */
static const uint8_t session_tape[26] = {0x10, 0x00, 0x64, 0x20, 0x01, 0x30, 0x00, 0x00, 0x0A, 0x00, 0x1E, 0x30, 0x03,
                                         0x00, 0x5A, 0x00, 0x0A, 0x20, 0x02, 0x30, 0x01, 0x00, 0x14, 0x00, 0x28, 0x7F};
static const uint8_t p9_tape[20] = {0x11, 0x00, 0x64, 0x20, 0x01, 0x30, 0x02, 0x00, 0x00, 0x00, 0x32, 0x20, 0x02, 0x30, 0x00, 0x00, 0x2D, 0x00, 0x3C, 0x7F};

/* ---- counting ---- */

static unsigned checks, failures, all_failures;

static void check(const char *what, const char *of, bool good)
{
    checks++;
    if (good)
        return;
    failures++;
    printf("header: FAILED: %s: %s\n", what, of);
}

static void end_group(const char *name)
{
    printf("header: %s: %u checks, %u failed\n", name, checks, failures);
    all_failures += failures;
    checks = failures = 0;
}

static bool all_are(const void *bytes, size_t length, uint8_t value)
{
    const uint8_t *b = bytes;
    for (size_t i = 0; i < length; i++)
        if (b[i] != value)
            return false;
    return true;
}

static void check_refusal(const char *what, unsigned got, unsigned number)
{
    check(what, "the refusal by its number", got == number);
    check(what, "the refusal by the header's constant", got == refusals[number]);
}

/* The first 4,608 bytes are cleared or as they were; those beyond, lent or not, are as they were. */
static void check_space(const char *what, bool cleared)
{
    check(what, "the working space", all_are(space, SPACE, cleared ? 0 : BEFORE));
    check(what, "the bytes beyond the working space", all_are(space + SPACE, sizeof space - SPACE, BEFORE));
}

/* ---- tables ---- */

static void set_rows(struct lent *t, size_t rows)
{
    t->starts_length = t->ends_length = t->marks_length = t->labels_length = rows;
}

/* A table of 100 ticks with P9's hours, and no mark or gap. */
static struct lent lend(bool run, size_t rows, uint16_t windows[][2])
{
    struct lent t;
    memset(&t, 0, sizeof t);
    t.run = run;
    t.ticks = 100;
    t.p1 = 0, t.q1 = 50, t.p2 = 40, t.q2 = 100;
    for (size_t i = 0; i < rows; i++) {
        t.starts[i] = windows[i][0];
        t.ends[i] = windows[i][1];
    }
    set_rows(&t, rows);
    t.space_length = SPACE;
    t.tape_length = TAPE;
    return t;
}

static struct lent session(void)
{
    uint16_t windows[4][2] = {{10, 30}, {20, 40}, {25, 50}, {90, 10}};
    return lend(false, 4, windows);
}

static struct lent p9(void)
{
    uint16_t windows[3][2] = {{45, 60}, {50, 60}, {0, 50}};
    return lend(true, 3, windows);
}

/* Row i is i to i + 1, so that all are heard; in a run those from 50 on by receiver 2, as receiver 1 closes. */
static struct lent many(bool run, size_t rows)
{
    uint16_t windows[ROWS + 1][2];
    for (size_t i = 0; i < rows; i++) {
        windows[i][0] = (uint16_t)i;
        windows[i][1] = (uint16_t)(i + 1);
    }
    return lend(run, rows, windows);
}

/* The labels of `many`, as text. */
static const char *labels_of_many(bool run, char text[ROWS + 1])
{
    for (size_t i = 0; i < ROWS; i++)
        text[i] = run && i >= 50 ? '2' : '1';
    text[ROWS] = 0;
    return text;
}

static void set_labels(struct lent *t, const char *text)
{
    for (size_t i = 0; text[i]; i++)
        t->labels[i] = (uint8_t)(text[i] - '0');
}

/* ---- the planner ---- */

static struct hub_answer plan(struct lent *t)
{
    memset(space, BEFORE, sizeof space);
    memset(t->labels, BEFORE, sizeof t->labels);
    if (t->run)
        return hub_plan_run(t->ticks, t->gap, t->p1, t->q1, t->p2, t->q2, t->starts, t->starts_length, t->ends, t->ends_length, t->marks, t->marks_length,
                            t->labels, t->labels_length, space, t->space_length);
    return hub_plan_round(t->ticks, t->gap, t->starts, t->starts_length, t->ends, t->ends_length, t->marks, t->marks_length, t->labels, t->labels_length, space,
                          t->space_length);
}

static void planned(const char *what, struct lent *t, const char *labels)
{
    size_t rows = strlen(labels), heard = 0;
    bool same = true;
    struct hub_answer answer = plan(t);
    for (size_t i = 0; i < rows; i++) {
        heard += labels[i] != '0';
        same = same && t->labels[i] == labels[i] - '0';
    }
    check_refusal(what, answer.refusal, 0);
    check(what, "the count", answer.count == heard);
    check(what, "the labels", same);
    check(what, "the bytes beyond the labels", all_are(t->labels + rows, sizeof t->labels - rows, BEFORE));
    check_space(what, true);
}

static void plan_refused(const char *what, struct lent *t, unsigned number)
{
    struct hub_answer answer = plan(t);
    check_refusal(what, answer.refusal, number);
    check(what, "the count is 0", answer.count == 0);
    check(what, "the labels are untouched", all_are(t->labels, sizeof t->labels, BEFORE));
    check_space(what, number == 8);
}

/* ---- the writer ---- */

static struct hub_answer write_plan(const struct lent *t)
{
    memset(tape, BEFORE, sizeof tape);
    if (t->run)
        return hub_write_plan_run(t->ticks, t->gap, t->p1, t->q1, t->p2, t->q2, t->starts, t->starts_length, t->ends, t->ends_length, t->marks, t->marks_length,
                                  t->labels, t->labels_length, tape, t->tape_length);
    return hub_write_plan_round(t->ticks, t->gap, t->starts, t->starts_length, t->ends, t->ends_length, t->marks, t->marks_length, t->labels, t->labels_length,
                                tape, t->tape_length);
}

static void written(const char *what, const struct lent *t, const uint8_t *bytes, size_t length)
{
    struct hub_answer answer = write_plan(t);
    check_refusal(what, answer.refusal, 0);
    check(what, "the count is the tape's length", answer.count == length);
    check(what, "the plan tape", memcmp(tape, bytes, length) == 0);
    check(what, "the bytes after the plan tape", all_are(tape + length, sizeof tape - length, BEFORE));
}

static void write_refused(const char *what, const struct lent *t, unsigned number)
{
    struct hub_answer answer = write_plan(t);
    check_refusal(what, answer.refusal, number);
    check(what, "the count is 0", answer.count == 0);
    check(what, "the buffer is untouched", all_are(tape, sizeof tape, BEFORE));
}

/* The plan tape of `many`: its rows are by rising start already. */
static size_t tape_of_many(bool run, uint8_t bytes[TAPE])
{
    size_t at = 0, first = run ? 50 : ROWS;
    bytes[at++] = run ? 0x11 : 0x10, bytes[at++] = 0, bytes[at++] = 100;
    bytes[at++] = 0x20, bytes[at++] = 1;
    for (size_t i = 0; i <= ROWS; i++) {
        if (i == first)
            bytes[at++] = 0x20, bytes[at++] = 2;
        if (i == ROWS)
            break;
        bytes[at++] = 0x30, bytes[at++] = (uint8_t)i;
        bytes[at++] = 0, bytes[at++] = (uint8_t)i;
        bytes[at++] = 0, bytes[at++] = (uint8_t)(i + 1);
    }
    bytes[at++] = 0x7F;
    return at;
}

/* ---- the reader ---- */

static void put_word(struct fleet *f, unsigned word)
{
    f->bytes[f->length++] = (uint8_t)(word >> 8);
    f->bytes[f->length++] = (uint8_t)(word & 255);
}

/* 40 to 45 are the commands of rows with marks 0 to 5. */
static void put_row(struct fleet *f, unsigned mark, unsigned start, unsigned end)
{
    f->bytes[f->length++] = (uint8_t)(0x40 + mark);
    put_word(f, start);
    put_word(f, end);
}

/* The fleet tape of a table. */
static struct fleet fleet_of(const struct lent *t)
{
    struct fleet f;
    f.length = 0;
    f.bytes[f.length++] = t->run ? 0x11 : 0x10;
    put_word(&f, t->ticks);
    if (t->run) {
        f.bytes[f.length++] = 0x50;
        put_word(&f, t->p1);
        put_word(&f, t->q1);
        put_word(&f, t->p2);
        put_word(&f, t->q2);
    }
    for (size_t i = 0; i < t->starts_length; i++)
        put_row(&f, t->marks[i], t->starts[i], t->ends[i]);
    f.bytes[f.length++] = 0x7F;
    return f;
}

/* A round of so many rows, more than any table has. */
static struct fleet long_fleet(size_t rows)
{
    struct fleet f = {{0x10, 0, 100}, 3};
    for (size_t i = 0; i < rows; i++)
        put_row(&f, 0, 0, 1);
    f.bytes[f.length++] = 0x7F;
    return f;
}

static struct places fresh_places(void)
{
    struct places p;
    memset(&p, BEFORE, sizeof p);
    p.starts_length = p.ends_length = p.marks_length = ROWS;
    return p;
}

static struct hub_report read_fleet(const struct fleet *f, struct places *p)
{
    return hub_read_fleet(f->bytes, f->length, p->starts, p->starts_length, p->ends, p->ends_length, p->marks, p->marks_length);
}

static void check_places(const char *what, const struct places *p, const struct lent *t)
{
    size_t rows = t->starts_length;
    check(what, "starts", memcmp(p->starts, t->starts, rows * sizeof t->starts[0]) == 0);
    check(what, "ends", memcmp(p->ends, t->ends, rows * sizeof t->ends[0]) == 0);
    check(what, "marks", memcmp(p->marks, t->marks, rows) == 0);
    check(what, "starts after the rows", all_are(p->starts + rows, sizeof p->starts - rows * sizeof p->starts[0], BEFORE));
    check(what, "ends after the rows", all_are(p->ends + rows, sizeof p->ends - rows * sizeof p->ends[0], BEFORE));
    check(what, "marks after the rows", all_are(p->marks + rows, sizeof p->marks - rows, BEFORE));
}

static void check_report(const char *what, const struct hub_report *r, const struct lent *t)
{
    check(what, "run", r->run == t->run);
    check(what, "ticks", r->ticks == t->ticks);
    check(what, "p1", r->p1 == (t->run ? t->p1 : 0));
    check(what, "q1", r->q1 == (t->run ? t->q1 : 0));
    check(what, "p2", r->p2 == (t->run ? t->p2 : 0));
    check(what, "q2", r->q2 == (t->run ? t->q2 : 0));
    check(what, "rows", r->rows == t->starts_length);
}

/* The reader gives back the table whose tape it reads. */
static void read_back(const char *what, const struct lent *t)
{
    struct fleet f = fleet_of(t);
    struct places p = fresh_places();
    struct hub_report r = read_fleet(&f, &p);
    check_refusal(what, r.refusal, 0);
    check_report(what, &r, t);
    check_places(what, &p, t);
}

static void read_refused(const char *what, const struct fleet *f, struct places p, unsigned number)
{
    struct lent nothing;
    memset(&nothing, 0, sizeof nothing);
    struct hub_report r = read_fleet(f, &p);
    check_refusal(what, r.refusal, number);
    check_report(what, &r, &nothing);
    check_places(what, &p, &nothing);
}

/* ---- the reply ---- */

/* In so many bytes of working space. */
static void replied_in(const char *what, const struct fleet *f, size_t space_length, const char *text, bool cleared)
{
    memset(space, BEFORE, sizeof space);
    memset(out, BEFORE, sizeof out);
    size_t length = hub_reply(f->bytes, f->length, out, REPLY, space, space_length);
    check(what, "the reply's length", length == strlen(text));
    check(what, "the reply", memcmp(out, text, strlen(text)) == 0);
    check(what, "the bytes after the reply", all_are(out + strlen(text), sizeof out - strlen(text), BEFORE));
    check_space(what, cleared);
}

static void replied(const char *what, const struct fleet *f, const char *text, bool cleared)
{
    replied_in(what, f, SPACE, text, cleared);
}

/* A tape that is refused as it is read, which comes before 3. */
static void tape_refused(const char *what, const struct fleet *f, const char *text)
{
    replied(what, f, text, false);
    replied_in(what, f, SPACE - 1, text, false);
}

static void replied_to(const char *what, const struct lent *t, const char *text, bool cleared)
{
    struct fleet f = fleet_of(t);
    replied_in(what, &f, t->space_length, text, cleared);
}

/* ---- the player ---- */

/* What is told from one tick to the tick before another: a row and until when, for each receiver; IDLE is no row. */
#define IDLE {-1, 0}
struct told {
    unsigned from, to;
    int receiver1[2], receiver2[2];
};

static const struct told told_of_session[6] = {{0, 10, {3, 10}, IDLE},  {10, 20, {0, 30}, IDLE}, {20, 30, {0, 30}, {1, 40}},
                                               {30, 40, IDLE, {1, 40}}, {40, 90, IDLE, IDLE},    {90, 100, {3, 10}, IDLE}};
static const struct told told_of_p9[4] = {{0, 45, {2, 50}, IDLE}, {45, 50, {2, 50}, {0, 60}}, {50, 60, IDLE, {0, 60}}, {60, 100, IDLE, IDLE}};

static struct hub_stepped step(const uint8_t *bytes, size_t length, uint16_t tick)
{
    struct hub_player player = {tick};
    return hub_player_step(bytes, length, player);
}

/* Row and until are 0 where the receiver is idle. */
static bool tells(struct hub_receiver r, const int row_until[2])
{
    if (row_until[0] < 0)
        return !r.listening && r.row == 0 && r.until == 0;
    return r.listening && r.row == row_until[0] && r.until == row_until[1];
}

static void stepped(const char *what, const struct told *told, struct hub_stepped s, uint16_t next)
{
    check(what, "not finished", !s.finished);
    check(what, "what receiver 1 does", tells(s.receiver1, told->receiver1));
    check(what, "what receiver 2 does", tells(s.receiver2, told->receiver2));
    check(what, "the next tick", s.player.tick == next);
}

static void stays_finished(const char *what, const uint8_t *bytes, size_t length, uint16_t tick)
{
    static const int idle[2] = IDLE;
    struct hub_stepped s = step(bytes, length, tick);
    check(what, "finished", s.finished);
    check(what, "both receivers are idle", tells(s.receiver1, idle) && tells(s.receiver2, idle));
    check(what, "the player is as it was", s.player.tick == tick);
}

/* Starts a player on a tape of 100 ticks and follows it for so many steps, none of them after a run's last tick;
 * gives the player after them. */
static struct hub_player played(const char *what, const uint8_t *bytes, size_t length, uint16_t first, unsigned steps, const struct told *told)
{
    struct hub_started s = hub_player_start(bytes, length, first);
    check_refusal(what, s.refusal, 0);
    check(what, "the first tick", s.player.tick == first);
    for (unsigned n = 0; n < steps; n++) {
        unsigned tick = (first + n) % 100, next = bytes[0] == 0x10 ? (tick + 1) % 100 : tick + 1;
        const struct told *now = told;
        while (tick >= now->to)
            now++;
        struct hub_stepped after = hub_player_step(bytes, length, s.player);
        stepped(what, now, after, (uint16_t)next);
        s.player = after.player;
    }
    return s.player;
}

static void start_refused(const char *what, const uint8_t *bytes, size_t length, uint16_t first, unsigned number)
{
    struct hub_started s = hub_player_start(bytes, length, first);
    check_refusal(what, s.refusal, number);
    check(what, "the player's tick", s.player.tick == 65535);
    stays_finished(what, bytes, length, s.player.tick);
    stays_finished(what, session_tape, sizeof session_tape, s.player.tick);
}

/* ---- held tables ---- */

static bool same_numbers(struct hub_held_numbers a, struct hub_held_numbers b)
{
    return a.ticks == b.ticks && a.gap == b.gap && a.rows == b.rows && a.count == b.count;
}

/* The same table for the functions over a whole one. */
static struct hub_held_table whole(const struct held *h)
{
    struct hub_held_table t;
    t.numbers = h->numbers;
    memcpy(t.starts, h->starts, sizeof t.starts);
    memcpy(t.ends, h->ends, sizeof t.ends);
    memcpy(t.marks, h->marks, sizeof t.marks);
    memcpy(t.labels, h->labels, sizeof t.labels);
    return t;
}

static void check_whole(const char *what, const struct hub_held_table *t, const struct held *h)
{
    check(what, "numbers of the whole table", same_numbers(t->numbers, h->numbers));
    check(what, "starts of the whole table", memcmp(t->starts, h->starts, sizeof t->starts) == 0);
    check(what, "ends of the whole table", memcmp(t->ends, h->ends, sizeof t->ends) == 0);
    check(what, "marks of the whole table", memcmp(t->marks, h->marks, sizeof t->marks) == 0);
    check(what, "labels of the whole table", memcmp(t->labels, h->labels, sizeof t->labels) == 0);
}

/* A refused begin gives an empty table of 2 ticks and gap 0. */
static struct held begun(const char *what, uint16_t ticks, uint16_t gap, unsigned number)
{
    struct held h;
    struct hub_held_numbers right = {number ? 2 : ticks, number ? 0 : gap, 0, 0};
    memset(&h, BEFORE, sizeof h);
    h.starts_length = h.ends_length = h.marks_length = h.labels_length = ROWS;
    h.space_length = SPACE;
    struct hub_held_table t = whole(&h);
    struct hub_held_begun b = hub_held_begin(ticks, gap);
    h.numbers = b.numbers;
    check_refusal(what, b.refusal, number);
    check(what, "the numbers", same_numbers(h.numbers, right));
    check_refusal(what, hub_table_begin(&t, ticks, gap), number);
    check_whole(what, &t, &h);
    return h;
}

/* What a change gave, and every place of the lists, the one beyond them too. */
static void changed(const char *what, const struct held *h, struct hub_held_change c, const struct held *right, unsigned number)
{
    check_refusal(what, c.refusal, number);
    check(what, "the count", c.count == (number ? 0 : right->numbers.count));
    check(what, "the numbers", same_numbers(h->numbers, right->numbers));
    check(what, "starts", memcmp(h->starts, right->starts, sizeof h->starts) == 0);
    check(what, "ends", memcmp(h->ends, right->ends, sizeof h->ends) == 0);
    check(what, "marks", memcmp(h->marks, right->marks, sizeof h->marks) == 0);
    check(what, "labels", memcmp(h->labels, right->labels, sizeof h->labels) == 0);
    check_space(what, number == 0 || number == 8);
}

/* The same change of the whole table, whose lists have 64 places each. */
static void changed_whole(const char *what, const struct hub_held_table *t, struct hub_answer a, const struct held *right, unsigned number)
{
    check_refusal(what, a.refusal, number);
    check(what, "the count of the whole table", a.count == (number ? 0 : right->numbers.count));
    check_whole(what, t, right);
    check_space(what, number == 0 || number == 8);
}

static void add(const char *what, struct held *h, uint16_t start, uint16_t end, uint8_t mark, const struct held *right, unsigned number)
{
    struct hub_held_table t = whole(h);
    memset(space, BEFORE, sizeof space);
    struct hub_held_change c = hub_held_add(h->numbers, h->starts, h->starts_length, h->ends, h->ends_length, h->marks, h->marks_length, h->labels,
                                            h->labels_length, start, end, mark, space, h->space_length);
    h->numbers = c.numbers;
    changed(what, h, c, right, number);
    *h = *right; /* so that the next call is judged by itself */
    if (number == 1)
        return;
    memset(space, BEFORE, sizeof space);
    struct hub_answer a = hub_table_add(&t, start, end, mark, space, h->space_length);
    changed_whole(what, &t, a, right, number);
}

static void withdraw(const char *what, struct held *h, size_t row, const struct held *right, unsigned number)
{
    struct hub_held_table t = whole(h);
    memset(space, BEFORE, sizeof space);
    struct hub_held_change c = hub_held_withdraw(h->numbers, h->starts, h->starts_length, h->ends, h->ends_length, h->marks, h->marks_length, h->labels,
                                                 h->labels_length, row, space, h->space_length);
    h->numbers = c.numbers;
    changed(what, h, c, right, number);
    *h = *right; /* so that the next call is judged by itself */
    if (number == 1)
        return;
    memset(space, BEFORE, sizeof space);
    struct hub_answer a = hub_table_withdraw(&t, row, space, h->space_length);
    changed_whole(what, &t, a, right, number);
}

/* A plan, as text, with its number of rows and its count. */
static void set_plan(struct held *h, const char *labels)
{
    h->numbers.rows = strlen(labels);
    h->numbers.count = 0;
    for (size_t i = 0; labels[i]; i++) {
        h->labels[i] = (uint8_t)(labels[i] - '0');
        h->numbers.count += labels[i] != '0';
    }
}

static void added(const char *what, struct held *h, uint16_t start, uint16_t end, uint8_t mark, const char *labels)
{
    struct held right = *h;
    size_t last = h->numbers.rows;
    right.starts[last] = start;
    right.ends[last] = end;
    right.marks[last] = mark;
    set_plan(&right, labels);
    add(what, h, start, end, mark, &right, 0);
}

static void add_refused(const char *what, struct held *h, uint16_t start, uint16_t end, uint8_t mark, unsigned number)
{
    struct held right = *h;
    add(what, h, start, end, mark, &right, number);
}

/* The later rows move up one; the place that falls free keeps what it held. */
static void withdrew(const char *what, struct held *h, size_t row, const char *labels)
{
    struct held right = *h;
    size_t later = h->numbers.rows - 1 - row;
    memmove(right.starts + row, right.starts + row + 1, later * sizeof right.starts[0]);
    memmove(right.ends + row, right.ends + row + 1, later * sizeof right.ends[0]);
    memmove(right.marks + row, right.marks + row + 1, later);
    set_plan(&right, labels);
    withdraw(what, h, row, &right, 0);
}

static void withdraw_refused(const char *what, struct held *h, size_t row, unsigned number)
{
    struct held right = *h;
    withdraw(what, h, row, &right, number);
}

/* ---- candidates ---- */

static void set_candidates(struct tries *c, size_t candidates)
{
    c->starts_length = c->ends_length = c->marks_length = c->numbers_length = c->counts_length = candidates;
}

/* Candidates as start, end and mark. */
static struct tries with_candidates(struct lent t, size_t candidates, uint16_t rows[][3])
{
    struct tries c;
    memset(&c, 0, sizeof c);
    c.table = t;
    for (size_t i = 0; i < candidates; i++)
        c.starts[i] = rows[i][0], c.ends[i] = rows[i][1], c.marks[i] = (uint8_t)rows[i][2];
    set_candidates(&c, candidates);
    return c;
}

static struct hub_tried try_candidates(struct tries *c)
{
    const struct lent *t = &c->table;
    memset(space, BEFORE, sizeof space);
    memset(c->numbers, BEFORE, sizeof c->numbers);
    memset(c->counts, BEFORE, sizeof c->counts);
    if (t->run)
        return hub_try_candidates_run(t->ticks, t->gap, t->p1, t->q1, t->p2, t->q2, t->starts, t->starts_length, t->ends, t->ends_length, t->marks, t->marks_length,
                                      c->starts, c->starts_length, c->ends, c->ends_length, c->marks, c->marks_length, c->numbers, c->numbers_length, c->counts,
                                      c->counts_length, space, t->space_length);
    return hub_try_candidates_round(t->ticks, t->gap, t->starts, t->starts_length, t->ends, t->ends_length, t->marks, t->marks_length, c->starts, c->starts_length,
                                    c->ends, c->ends_length, c->marks, c->marks_length, c->numbers, c->numbers_length, c->counts, c->counts_length, space,
                                    t->space_length);
}

/* Number and count of each candidate. */
static void tried(const char *what, struct tries *c, uint8_t answers[][2], size_t rows)
{
    size_t candidates = c->starts_length;
    bool same = true;
    struct hub_tried r = try_candidates(c);
    for (size_t i = 0; i < candidates; i++)
        same = same && c->numbers[i] == answers[i][0] && c->counts[i] == answers[i][1];
    check_refusal(what, r.refusal, 0);
    check(what, "the rows looked at", r.rows == rows);
    check(what, "the answers", same);
    check(what, "the bytes beyond the numbers", all_are(c->numbers + candidates, sizeof c->numbers - candidates, BEFORE));
    check(what, "the bytes beyond the counts", all_are(c->counts + candidates, sizeof c->counts - candidates, BEFORE));
    check_space(what, true);
}

static void try_refused(const char *what, struct tries *c, unsigned number, size_t rows)
{
    struct hub_tried r = try_candidates(c);
    check_refusal(what, r.refusal, number);
    check(what, "the rows looked at", r.rows == rows);
    check(what, "the numbers are untouched", all_are(c->numbers, sizeof c->numbers, BEFORE));
    check(what, "the counts are untouched", all_are(c->counts, sizeof c->counts, BEFORE));
    check_space(what, number == 8);
}

/* ---- words ---- */

static void words_given(const char *what, const uint8_t *labels, size_t rows, uint64_t heard, uint64_t receiver, size_t count)
{
    struct hub_label_words w = hub_words_of_labels(labels, rows);
    check_refusal(what, w.refusal, 0);
    check(what, "the heard word", w.heard == heard);
    check(what, "the receiver word", w.receiver == receiver);
    check(what, "the number heard", w.count == count);
}

static void words_refused(const char *what, const uint8_t *labels, size_t rows, unsigned number)
{
    struct hub_label_words w = hub_words_of_labels(labels, rows);
    check_refusal(what, w.refusal, number);
    check(what, "words of 0", w.heard == 0 && w.receiver == 0);
    check(what, "the count is 0", w.count == 0);
}

static struct hub_answer labels_of(uint64_t heard, uint64_t receiver, size_t rows)
{
    memset(label_room, BEFORE, sizeof label_room);
    return hub_labels_of_words(heard, receiver, label_room + BEYOND, rows);
}

static void labels_given(const char *what, uint64_t heard, uint64_t receiver, const uint8_t *labels, size_t rows, size_t count)
{
    struct hub_answer answer = labels_of(heard, receiver, rows);
    check_refusal(what, answer.refusal, 0);
    check(what, "the number heard", answer.count == count);
    check(what, "the labels", memcmp(label_room + BEYOND, labels, rows) == 0);
    check(what, "the bytes before the labels", all_are(label_room, BEYOND, BEFORE));
    check(what, "the bytes beyond the labels", all_are(label_room + BEYOND + rows, sizeof label_room - BEYOND - rows, BEFORE));
}

static void labels_refused(const char *what, uint64_t heard, uint64_t receiver, size_t rows, unsigned number)
{
    struct hub_answer answer = labels_of(heard, receiver, rows);
    check_refusal(what, answer.refusal, number);
    check(what, "the count is 0", answer.count == 0);
    check(what, "the labels are untouched", all_are(label_room, sizeof label_room, BEFORE));
}

/* Labels and words that carry them, either way. */
static void carried(const char *what, const uint8_t *labels, size_t rows, uint64_t heard, uint64_t receiver, size_t count)
{
    words_given(what, labels, rows, heard, receiver, count);
    labels_given(what, heard, receiver, labels, rows, count);
}

/* The same for labels as text. */
static void carried_text(const char *text, uint64_t heard, uint64_t receiver, size_t count)
{
    uint8_t labels[ROWS + 1];
    size_t rows = strlen(text);
    for (size_t i = 0; i < rows; i++)
        labels[i] = (uint8_t)(text[i] - '0');
    carried(text, labels, rows, heard, receiver, count);
}

static void must_given(const char *what, const uint8_t *marks, size_t rows, uint64_t word)
{
    struct hub_must_word m = hub_must_of_marks(marks, rows);
    check_refusal(what, m.refusal, 0);
    check(what, "the must word", m.word == word);
}

/* Clash words go to so many places. */
static uint8_t clash_words(const struct lent *t, size_t places)
{
    memset(word_room, BEFORE, sizeof word_room);
    if (t->run)
        return hub_clash_words_run(t->ticks, t->gap, t->starts, t->starts_length, t->ends, t->ends_length, word_room + BEYOND, places);
    return hub_clash_words_round(t->ticks, t->gap, t->starts, t->starts_length, t->ends, t->ends_length, word_room + BEYOND, places);
}

static void clashed(const char *what, const struct lent *t, const uint64_t *words)
{
    size_t rows = t->starts_length;
    check_refusal(what, clash_words(t, rows), 0);
    check(what, "the clash words", memcmp(word_room + BEYOND, words, rows * sizeof *words) == 0);
    check(what, "the words before", all_are(word_room, BEYOND * sizeof *words, BEFORE));
    check(what, "the words beyond", all_are(word_room + BEYOND + rows, sizeof word_room - (BEYOND + rows) * sizeof *words, BEFORE));
}

static void clash_refused(const char *what, const struct lent *t, size_t places, unsigned number)
{
    check_refusal(what, clash_words(t, places), number);
    check(what, "the words are untouched", all_are(word_room, sizeof word_room, BEFORE));
}

/* ---- the groups ---- */

static void constants(void)
{
    for (unsigned i = 0; i < 17; i++)
        check("a refusal", "its constant is its number", refusals[i] == i);
    check("marks", "for either receiver", HUB_MAY == 0 && HUB_MUST == 1);
    check("marks", "for receiver 1 only", HUB_MAY_1 == 2 && HUB_MUST_1 == 3);
    check("marks", "for receiver 2 only", HUB_MAY_2 == 4 && HUB_MUST_2 == 5);
    check("constants", "HUB_MOST_ROWS", HUB_MOST_ROWS == ROWS);
    check("constants", "HUB_MOST_CANDIDATES", HUB_MOST_CANDIDATES == 64);
    check("constants", "HUB_MOST_GAP", HUB_MOST_GAP == 600);
    check("constants", "HUB_SPACE_BYTES", HUB_SPACE_BYTES == SPACE);
    check("constants", "HUB_PLAN_TAPE_BYTES", HUB_PLAN_TAPE_BYTES == TAPE);
    check("constants", "HUB_FLEET_TAPE_BYTES", HUB_FLEET_TAPE_BYTES == 400);
    check("constants", "HUB_REPLY_BYTES", HUB_REPLY_BYTES == REPLY);
    end_group("constants");
}

/* Where the library puts each field; a field that is too narrow would still give small values. */
static void structs(void)
{
    struct hub_answer a;
    struct hub_report r;
    check("hub_answer", "sizes", sizeof a == 16 && sizeof a.refusal == 1 && sizeof a.count == 8);
    check("hub_answer", "refusal", offsetof(struct hub_answer, refusal) == 0);
    check("hub_answer", "count", offsetof(struct hub_answer, count) == 8);
    check("hub_report", "sizes", sizeof r == 24 && sizeof r.refusal == 1 && sizeof r.run == 1 && sizeof r.ticks == 2 && sizeof r.rows == 8);
    check("hub_report", "sizes of the hours", sizeof r.p1 == 2 && sizeof r.q1 == 2 && sizeof r.p2 == 2 && sizeof r.q2 == 2);
    check("hub_report", "refusal", offsetof(struct hub_report, refusal) == 0);
    check("hub_report", "run", offsetof(struct hub_report, run) == 1);
    check("hub_report", "ticks", offsetof(struct hub_report, ticks) == 2);
    check("hub_report", "p1", offsetof(struct hub_report, p1) == 4);
    check("hub_report", "q1", offsetof(struct hub_report, q1) == 6);
    check("hub_report", "p2", offsetof(struct hub_report, p2) == 8);
    check("hub_report", "q2", offsetof(struct hub_report, q2) == 10);
    check("hub_report", "rows", offsetof(struct hub_report, rows) == 16);
    struct hub_receiver l;
    struct hub_started b;
    struct hub_stepped n;
    check("hub_player", "sizes", sizeof b.player == 2 && sizeof b.player.tick == 2);
    check("hub_receiver", "sizes", sizeof l == 4 && sizeof l.listening == 1 && sizeof l.row == 1 && sizeof l.until == 2);
    check("hub_receiver", "listening", offsetof(struct hub_receiver, listening) == 0);
    check("hub_receiver", "row", offsetof(struct hub_receiver, row) == 1);
    check("hub_receiver", "until", offsetof(struct hub_receiver, until) == 2);
    check("hub_started", "sizes", sizeof b == 4 && sizeof b.refusal == 1);
    check("hub_started", "refusal", offsetof(struct hub_started, refusal) == 0);
    check("hub_started", "player", offsetof(struct hub_started, player) == 2);
    check("hub_stepped", "sizes", sizeof n == 12 && sizeof n.finished == 1 && sizeof n.receiver1 == 4 && sizeof n.receiver2 == 4 && sizeof n.player == 2);
    check("hub_stepped", "finished", offsetof(struct hub_stepped, finished) == 0);
    check("hub_stepped", "receiver1", offsetof(struct hub_stepped, receiver1) == 2);
    check("hub_stepped", "receiver2", offsetof(struct hub_stepped, receiver2) == 6);
    check("hub_stepped", "player", offsetof(struct hub_stepped, player) == 10);
    struct hub_held_table h;
    check("hub_held_numbers", "sizes", sizeof h.numbers == 24 && sizeof h.numbers.ticks == 2 && sizeof h.numbers.gap == 2);
    check("hub_held_numbers", "sizes of rows and count", sizeof h.numbers.rows == 8 && sizeof h.numbers.count == 8);
    check("hub_held_numbers", "ticks", offsetof(struct hub_held_numbers, ticks) == 0);
    check("hub_held_numbers", "gap", offsetof(struct hub_held_numbers, gap) == 2);
    check("hub_held_numbers", "rows", offsetof(struct hub_held_numbers, rows) == 8);
    check("hub_held_numbers", "count", offsetof(struct hub_held_numbers, count) == 16);
    check("hub_held_begun", "sizes", sizeof(struct hub_held_begun) == 32);
    check("hub_held_begun", "refusal", offsetof(struct hub_held_begun, refusal) == 0);
    check("hub_held_begun", "numbers", offsetof(struct hub_held_begun, numbers) == 8);
    check("hub_held_change", "sizes", sizeof(struct hub_held_change) == 40);
    check("hub_held_change", "refusal", offsetof(struct hub_held_change, refusal) == 0);
    check("hub_held_change", "count", offsetof(struct hub_held_change, count) == 8);
    check("hub_held_change", "numbers", offsetof(struct hub_held_change, numbers) == 16);
    check("hub_tried", "sizes", sizeof(struct hub_tried) == 16 && sizeof((struct hub_tried){0, 0}).refusal == 1 && sizeof((struct hub_tried){0, 0}).rows == 8);
    check("hub_tried", "refusal", offsetof(struct hub_tried, refusal) == 0);
    check("hub_tried", "rows", offsetof(struct hub_tried, rows) == 8);
    struct hub_label_words w;
    struct hub_must_word m;
    check("hub_label_words", "sizes", sizeof w == 32 && sizeof w.refusal == 1 && sizeof w.count == 8 && sizeof w.heard == 8 && sizeof w.receiver == 8);
    check("hub_label_words", "refusal", offsetof(struct hub_label_words, refusal) == 0);
    check("hub_label_words", "count", offsetof(struct hub_label_words, count) == 8);
    check("hub_label_words", "heard", offsetof(struct hub_label_words, heard) == 16);
    check("hub_label_words", "receiver", offsetof(struct hub_label_words, receiver) == 24);
    check("hub_must_word", "sizes", sizeof m == 16 && sizeof m.refusal == 1 && sizeof m.word == 8);
    check("hub_must_word", "refusal", offsetof(struct hub_must_word, refusal) == 0);
    check("hub_must_word", "word", offsetof(struct hub_must_word, word) == 8);
    check("hub_held_table", "places", sizeof h.starts == 2 * ROWS && sizeof h.ends == 2 * ROWS && sizeof h.marks == ROWS && sizeof h.labels == ROWS);
    end_group("structs");
}

#define TICKS "uint16_t ticks, uint16_t gap"
#define HOURS ", uint16_t p1, uint16_t q1, uint16_t p2, uint16_t q2"
#define TABLE ", const uint16_t *starts, size_t starts_length, const uint16_t *ends, size_t ends_length, const uint8_t *marks, size_t marks_length"
#define PLANS ", uint8_t *labels, size_t labels_length, uint8_t *space, size_t space_length"
#define WRITES ", const uint8_t *labels, size_t labels_length, uint8_t *tape, size_t tape_length"
#define TRIES ", const uint16_t *candidate_starts, size_t candidate_starts_length, const uint16_t *candidate_ends, size_t candidate_ends_length, " \
              "const uint8_t *candidate_marks, size_t candidate_marks_length, uint8_t *numbers, size_t numbers_length, uint8_t *counts, size_t counts_length, " \
              "uint8_t *space, size_t space_length"
#define CLASHES ", const uint16_t *starts, size_t starts_length, const uint16_t *ends, size_t ends_length, uint64_t *words, size_t words_length"
#define HELD "struct hub_held_numbers numbers, uint16_t *starts, size_t starts_length, uint16_t *ends, size_t ends_length, uint8_t *marks, size_t marks_length"

static void parameters(void)
{
    check("hub_plan_round", "parameters", strcmp(plan_round_takes, TICKS TABLE PLANS) == 0);
    check("hub_plan_run", "parameters", strcmp(plan_run_takes, TICKS HOURS TABLE PLANS) == 0);
    check("hub_write_plan_round", "parameters", strcmp(write_round_takes, TICKS TABLE WRITES) == 0);
    check("hub_write_plan_run", "parameters", strcmp(write_run_takes, TICKS HOURS TABLE WRITES) == 0);
    check("hub_read_fleet", "parameters", strcmp(read_fleet_takes, "const uint8_t *tape, size_t tape_length, uint16_t *starts, size_t starts_length, "
                                                                   "uint16_t *ends, size_t ends_length, uint8_t *marks, size_t marks_length") == 0);
    check("hub_reply", "parameters", strcmp(reply_takes, "const uint8_t *tape, size_t tape_length, uint8_t *out, size_t out_length, "
                                                         "uint8_t *space, size_t space_length") == 0);
    check("hub_player_start", "parameters", strcmp(player_start_takes, "const uint8_t *tape, size_t tape_length, uint16_t first") == 0);
    check("hub_player_step", "parameters", strcmp(player_step_takes, "const uint8_t *tape, size_t tape_length, struct hub_player player") == 0);
    check("hub_held_begin", "parameters", strcmp(held_begin_takes, TICKS) == 0);
    check("hub_held_add", "parameters", strcmp(held_add_takes, HELD ", uint8_t *labels, size_t labels_length, uint16_t start, uint16_t end, uint8_t mark, "
                                                               "uint8_t *space, size_t space_length") == 0);
    check("hub_held_withdraw", "parameters", strcmp(held_withdraw_takes, HELD ", uint8_t *labels, size_t labels_length, size_t row, "
                                                                         "uint8_t *space, size_t space_length") == 0);
    check("hub_try_candidates_round", "parameters", strcmp(try_round_takes, TICKS TABLE TRIES) == 0);
    check("hub_try_candidates_run", "parameters", strcmp(try_run_takes, TICKS HOURS TABLE TRIES) == 0);
    check("hub_words_of_labels", "parameters", strcmp(words_of_labels_takes, "const uint8_t *labels, size_t labels_length") == 0);
    check("hub_labels_of_words", "parameters",
          strcmp(labels_of_words_takes, "uint64_t heard, uint64_t receiver, uint8_t *labels, size_t labels_length") == 0);
    check("hub_must_of_marks", "parameters", strcmp(must_of_marks_takes, "const uint8_t *marks, size_t marks_length") == 0);
    check("hub_clash_words_round", "parameters", strcmp(clash_round_takes, TICKS CLASHES) == 0);
    check("hub_clash_words_run", "parameters", strcmp(clash_run_takes, TICKS CLASHES) == 0);
    end_group("parameters");
}

/* P1 to P4, and the session's plan tape and reply. */
static void rounds(void)
{
    struct lent t = session();
    planned("P2", &t, "1201");
    written("P2", &t, session_tape, sizeof session_tape);
    t.tape_length = 26;
    written("P2 in 26 bytes", &t, session_tape, sizeof session_tape);
    t.tape_length = 25;
    write_refused("P2 in 25 bytes", &t, 10);
    t.labels[2] = 3;
    write_refused("P2 with a label 3", &t, 9);
    read_back("P2", &t);
    replied_to("P2", &t, "heard 3\n0 1\n1 2\n2 0\n3 1\n", true);
    t.marks[2] = 1;
    planned("P3", &t, "1021");
    read_back("P3", &t);
    t.marks[0] = t.marks[1] = 1;
    plan_refused("P4", &t, 8);
    replied_to("P4", &t, "refused 8\n", true);
    set_rows(&t, 0);
    planned("P1", &t, "");
    read_back("P1", &t);
    end_group("rounds");
}

/* P9 and P10: each exchange of two of the hours gives another plan or a refusal. In 200 ticks R is none of the
 * hours. */
static void runs(void)
{
    struct lent t = p9();
    planned("P9", &t, "201");
    written("P9", &t, p9_tape, sizeof p9_tape);
    read_back("P9", &t);
    replied_to("P9", &t, "heard 2\n0 2\n1 0\n2 1\n", true);
    t.marks[1] = 1;
    planned("P10", &t, "021");
    t.marks[1] = 0;
    t.ticks = 200;
    planned("P9 in 200 ticks", &t, "201");
    t.p1 = 40, t.q1 = 100, t.p2 = 0, t.q2 = 50;
    write_refused("P9's plan with the receivers exchanged", &t, 9);
    planned("P9 with the receivers exchanged", &t, "102");
    t.ticks = 0x0102, t.p1 = 0x0304, t.q1 = 0x0506, t.p2 = 0x0708, t.q2 = 0x090A;
    read_back("a run whose numbers are all different", &t);
    end_group("runs");
}

/* A table of 10 ticks with the given marks, as text; in a run both receivers are open all the time. */
static struct lent marked(bool run, uint16_t windows[][2], const char *marks)
{
    struct lent t = lend(run, strlen(marks), windows);
    t.ticks = t.q1 = t.q2 = 10;
    t.p1 = t.p2 = 0;
    for (size_t i = 0; marks[i]; i++)
        t.marks[i] = (uint8_t)(marks[i] - '0');
    return t;
}

/* The reply that has these labels, given as text. */
static const char *reply_with(const char *labels, char text[REPLY])
{
    size_t heard = 0;
    for (size_t i = 0; labels[i]; i++)
        heard += labels[i] != '0';
    size_t length = (size_t)sprintf(text, "heard %zu\n", heard);
    for (size_t i = 0; labels[i]; i++)
        length += (size_t)sprintf(text + length, "%zu %c\n", i, labels[i]);
    return text;
}

/* The planner gives these labels, and the writer takes them; no labels for refusal 8. */
static void planned_or_8(const char *what, struct lent *t, const char *labels)
{
    if (!labels) {
        plan_refused(what, t, 8);
        return;
    }
    planned(what, t, labels);
    check(what, "the writer takes the plan", write_plan(t).refusal == 0);
}

/* The same of a table with no gap, and the reply. */
static void planned_and_replied(const char *what, struct lent *t, const char *labels)
{
    char text[REPLY];
    planned_or_8(what, t, labels);
    replied_to(what, t, labels ? reply_with(labels, text) : "refused 8\n", true);
}

/* Worked examples: windows, marks and labels; no labels for refusal 8. */
static void marks_planned(bool run)
{
    static uint16_t apart[3][2] = {{0, 2}, {4, 6}, {1, 5}}, chain[3][2] = {{0, 2}, {1, 4}, {3, 6}}, equal[2][2] = {{0, 2}, {0, 2}}, one[1][2] = {{1, 2}};
    static const struct { uint16_t (*windows)[2]; const char *marks, *labels; } examples[] = {
        {apart, "111", "112"}, {apart, "351", NULL},  {apart, "350", "120"}, {apart, "551", "221"}, {apart, "224", "112"}, {apart, "242", "120"},
        {chain, "005", "212"}, {chain, "045", "102"}, {equal, "40", "21"},   {equal, "22", "10"},   {equal, "45", "02"},   {equal, "33", NULL},
        {equal, "55", NULL},   {equal, "53", "21"},   {one, "0", "1"},       {one, "1", "1"},       {one, "2", "1"},       {one, "3", "1"},
        {one, "4", "2"},       {one, "5", "2"}};
    for (size_t e = 0; e < sizeof examples / sizeof *examples; e++) {
        char what[60];
        struct lent t = marked(run, examples[e].windows, examples[e].marks);
        snprintf(what, sizeof what, "%s with marks %s", run ? "a run" : "a round", examples[e].marks);
        planned_and_replied(what, &t, examples[e].labels);
    }
}

/* One row with every mark: the planner refuses those from 6 on, and the writer takes exactly the labels that the
 * mark allows. */
static void every_mark(bool run)
{
    static const char *const allowed[6] = {"012", "12", "01", "1", "02", "2"};
    static const uint8_t listen[6] = {0x30, 0, 0, 1, 0, 2};
    uint16_t window[1][2] = {{1, 2}};
    struct lent t = marked(run, window, "0");
    for (unsigned mark = 0; mark < 256; mark++) {
        char what[60];
        t.marks[0] = (uint8_t)mark;
        snprintf(what, sizeof what, "mark %u", mark);
        if (mark > 5)
            plan_refused(what, &t, 7);
        for (unsigned label = 0; label < 4; label++) {
            uint8_t bytes[14] = {run ? 0x11 : 0x10, 0, 10, 0x20, 1};
            size_t length = 5;
            t.labels[0] = (uint8_t)label;
            snprintf(what, sizeof what, "mark %u and label %u", mark, label);
            if (mark > 5 || !strchr(allowed[mark], (int)('0' + label))) {
                write_refused(what, &t, mark > 5 ? 7 : 9);
                continue;
            }
            if (label == 1)
                memcpy(bytes + length, listen, 6), length += 6;
            bytes[length++] = 0x20, bytes[length++] = 2;
            if (label == 2)
                memcpy(bytes + length, listen, 6), length += 6;
            bytes[length++] = 0x7F;
            written(what, &t, bytes, length);
        }
    }
}

/* A row with each mark, and the bytes on both sides of the commands of rows in the place of the first row and of the
 * last. */
static void marks_read(bool run)
{
    uint16_t windows[6][2] = {{0, 1}, {2, 3}, {4, 5}, {6, 7}, {8, 9}, {1, 0x0A09}};
    struct lent t = marked(run, windows, "012345");
    read_back("a row with each mark", &t);
    for (size_t i = 0; i < 6; i += 5)
        for (unsigned above = 0; above < 2; above++) {
            struct fleet f = fleet_of(&t);
            const char *what = above ? "46 in the place of a row" : "3F in the place of a row";
            f.bytes[(run ? 12 : 3) + 5 * i] = above ? 0x46 : 0x3F;
            read_refused(what, &f, fresh_places(), 11);
            replied(what, &f, "refused 11\n", false);
        }
}

/* A row for one receiver only, which is closed or the only one that is open. */
static void marks_and_hours(void)
{
    uint16_t window[1][2] = {{1, 2}};
    struct lent t = marked(true, window, "3");
    t.q1 = 0;
    plan_refused("mark 3, receiver 1 closed", &t, 8);
    replied_to("mark 3, receiver 1 closed", &t, "refused 8\n", true);
    t.marks[0] = 2;
    planned("mark 2, receiver 1 closed", &t, "0");
    t.marks[0] = 5;
    planned("mark 5, receiver 1 closed", &t, "2");
    t.q1 = 10, t.q2 = 0;
    plan_refused("mark 5, receiver 2 closed", &t, 8);
    replied_to("mark 5, receiver 2 closed", &t, "refused 8\n", true);
    t.marks[0] = 4;
    planned("mark 4, receiver 2 closed", &t, "0");
    t.marks[0] = 3;
    planned("mark 3, receiver 2 closed", &t, "1");
}

static void marks(void)
{
    for (int run = 0; run < 2; run++) {
        marks_planned(run);
        every_mark(run);
        marks_read(run);
    }
    marks_and_hours();
    end_group("marks");
}

/* Worked examples of windows that cover every tick: R, windows, marks and labels; no labels for refusal 8. */
static void all_day_planned(void)
{
    static uint16_t three[3][2] = {{3, 3}, {7, 7}, {0, 0}}, same[3][2] = {{9, 9}, {9, 9}, {9, 9}}, one[3][2] = {{3, 3}, {0, 2}, {5, 8}},
                    late[4][2] = {{0, 4}, {3, 3}, {2, 6}, {5, 9}}, two[3][2] = {{3, 3}, {8, 8}, {5, 6}}, two_of_2[3][2] = {{0, 0}, {1, 1}, {0, 1}},
                    one_of_2[3][2] = {{1, 1}, {0, 1}, {1, 0}};
    static const struct { uint16_t ticks, (*windows)[2]; const char *marks, *labels; } examples[] = {
        {10, three, "000", "120"}, {10, same, "000", "120"},   {10, three, "001", "102"},  {10, three, "111", NULL},    {10, one, "100", "122"},
        {10, one, "000", "122"},   {10, one, "503", "211"},    {10, one, "303", NULL},     {10, late, "0000", "1201"},  {10, late, "1010", "1021"},
        {10, two, "110", "120"},   {10, two, "111", NULL},     {10, two, "353", NULL},     {43200, three, "000", "120"}, {43200, two, "111", NULL},
        {2, two_of_2, "000", "120"}, {2, two_of_2, "111", NULL}, {2, one_of_2, "000", "122"}, {2, one_of_2, "111", "122"}};
    for (size_t e = 0; e < sizeof examples / sizeof *examples; e++) {
        char what[60];
        struct lent t = marked(false, examples[e].windows, examples[e].marks);
        t.ticks = examples[e].ticks;
        snprintf(what, sizeof what, "all day of %u with marks %s", t.ticks, examples[e].marks);
        planned_and_replied(what, &t, examples[e].labels);
    }
}

/* Start equal to end on both sides of R in a round, and in a run: planner, writer and reply. */
static void all_day_taken(bool run, uint16_t ticks)
{
    const uint16_t starts[4] = {0, (uint16_t)(ticks - 1), ticks, 65535};
    for (size_t i = 0; i < 4; i++) {
        uint16_t window[1][2] = {{starts[i], starts[i]}};
        char what[60];
        struct lent t = marked(run, window, "0");
        t.ticks = t.q1 = t.q2 = ticks;
        snprintf(what, sizeof what, "%u to %u in a %s of %u", starts[i], starts[i], run ? "run" : "round", ticks);
        if (!run && starts[i] < ticks) {
            planned_and_replied(what, &t, "1");
            continue;
        }
        plan_refused(what, &t, 6);
        t.labels[0] = 1;
        write_refused(what, &t, 6);
        replied_to(what, &t, "refused 6\n", false);
    }
}

/* LISTEN s s of row 1 on receiver 1 beside two LISTENs on receiver 2: written, read back and played for two days
 * from every tick, which tells the end at every tick. */
static void all_day_played(uint8_t s)
{
    const uint8_t bytes[26] = {0x10, 0, 100, 0x20, 1, 0x30, 1, 0, s, 0, s, 0x20, 2, 0x30, 2, 0, 20, 0, 40, 0x30, 0, 0, 90, 0, 10, 0x7F};
    const struct told told[5] = {{0, 10, {1, s}, {0, 10}}, {10, 20, {1, s}, IDLE}, {20, 40, {1, s}, {2, 40}}, {40, 90, {1, s}, IDLE}, {90, 100, {1, s}, {0, 10}}};
    uint16_t windows[3][2] = {{90, 10}, {s, s}, {20, 40}};
    struct lent t = lend(false, 3, windows);
    t.marks[0] = HUB_MUST_2;
    planned("all day beside two", &t, "212");
    written("all day beside two", &t, bytes, sizeof bytes);
    for (uint16_t first = 0; first < 100; first++)
        played("all day beside two", bytes, sizeof bytes, first, 200, told);
}

/* LISTEN s s alone: 12 in a round from R on, and in a run always, where a step passes over it. */
static void all_day_alone(void)
{
    static const uint8_t starts[4] = {0, 99, 100, 255};
    for (size_t i = 0; i < 4; i++) {
        uint8_t s = starts[i];
        struct told told = {0, 0, {7, s}, IDLE}, none = {0, 0, IDLE, IDLE};
        uint8_t bytes[14] = {0x10, 0, 100, 0x20, 1, 0x30, 7, 0, s, 0, s, 0x20, 2, 0x7F};
        if (s < 100)
            check_refusal("LISTEN s s in a round", hub_player_start(bytes, 14, 0).refusal, 0);
        else
            start_refused("LISTEN s s in a round, s not below R", bytes, 14, 0, 12);
        stepped("LISTEN s s in a round", s < 100 ? &told : &none, step(bytes, 14, 98), 99);
        bytes[0] = 0x11;
        start_refused("LISTEN s s in a run", bytes, 14, 0, 12);
        stepped("LISTEN s s in a run", &none, step(bytes, 14, 98), 99);
    }
}

/* Two LISTENs of one receiver, from 30 and from 60: 12 where one covers every tick. */
static void all_day_beside(void)
{
    static const uint8_t ends[4][2] = {{30, 61}, {31, 60}, {30, 60}, {31, 61}};
    for (size_t i = 0; i < 4; i++) {
        const uint8_t bytes[20] = {0x10, 0, 100, 0x20, 1, 0x30, 7, 0, 30, 0, ends[i][0], 0x30, 8, 0, 60, 0, ends[i][1], 0x20, 2, 0x7F};
        if (i < 3)
            start_refused("LISTEN s s beside another", bytes, 20, 0, 12);
        else
            check_refusal("two LISTENs of one tick", hub_player_start(bytes, 20, 0).refusal, 0);
    }
}

static void all_day(void)
{
    all_day_planned();
    for (int run = 0; run < 2; run++) {
        all_day_taken(run, 2);
        all_day_taken(run, 10);
        all_day_taken(run, 43200);
    }
    all_day_played(0);
    all_day_played(50);
    all_day_played(99);
    all_day_alone();
    all_day_beside();
    end_group("all day");
}

/* Worked examples of gaps: kind, gap, windows, marks and labels, in 10 ticks; no labels for refusal 8. */
static void gaps_planned(void)
{
    static uint16_t touch[2][2] = {{8, 2}, {2, 8}}, run_touch[2][2] = {{5, 10}, {0, 5}}, two_and_one[2][2] = {{0, 3}, {5, 9}}, two_and_two[2][2] = {{0, 3}, {5, 8}},
                    far[3][2] = {{0, 1}, {5, 6}, {8, 9}}, ends[2][2] = {{8, 10}, {0, 2}}, all_but_2[2][2] = {{3, 1}, {3, 1}}, all[1][2] = {{3, 3}}, run_all[1][2] = {{0, 10}};
    static const struct { bool run; uint16_t gap, (*windows)[2]; const char *marks, *labels; } examples[] = {
        {false, 0, touch, "00", "11"},       {false, 1, touch, "00", "12"},       {false, 1, touch, "33", NULL},
        {true, 0, run_touch, "00", "11"},    {true, 1, run_touch, "00", "12"},    {true, 1, run_touch, "55", NULL},
        {false, 1, two_and_one, "00", "11"}, {false, 2, two_and_one, "00", "12"}, {false, 2, two_and_one, "33", NULL},
        {false, 2, two_and_two, "00", "11"}, {false, 3, two_and_two, "00", "12"}, {true, 2, two_and_one, "00", "11"},
        {true, 3, two_and_one, "00", "12"},  {true, 6, ends, "33", "11"},         {true, 7, ends, "33", NULL},
        {false, 10, far, "000", "120"},      {false, 600, far, "000", "120"},     {false, 10, far, "111", NULL},
        {true, 10, far, "000", "120"},       {true, 600, far, "111", NULL},       {false, 3, all_but_2, "1", "1"},
        {false, 600, all_but_2, "11", "12"}, {false, 600, all, "5", "2"},         {true, 600, run_all, "3", "1"}};
    for (size_t e = 0; e < sizeof examples / sizeof *examples; e++) {
        char what[60];
        struct lent t = marked(examples[e].run, examples[e].windows, examples[e].marks);
        t.gap = examples[e].gap;
        snprintf(what, sizeof what, "example %zu of gaps, gap %u", e, t.gap);
        planned_or_8(what, &t, examples[e].labels);
    }
}

/* The session with every gap: row 3 has no tick before row 0, 10 before row 1 and 15 before row 2. The writer takes P2's plan with no gap alone, and the plan of gap 10 up to
 * there; the player takes its tape. */
static void gaps_of_session(void)
{
    static const uint8_t bytes[26] = {0x10, 0, 100, 0x20, 1, 0x30, 0, 0, 10, 0, 30, 0x20, 2, 0x30, 1, 0, 20, 0, 40, 0x30, 3, 0, 90, 0, 10, 0x7F};
    struct lent t = session();
    for (t.gap = 0; t.gap <= 600; t.gap++) {
        char what[60];
        snprintf(what, sizeof what, "P2 with gap %u", t.gap);
        planned(what, &t, t.gap == 0 ? "1201" : t.gap <= 10 ? "1202" : t.gap <= 15 ? "1022" : "1200");
        set_labels(&t, "1201");
        if (t.gap == 0)
            written(what, &t, session_tape, sizeof session_tape);
        else
            write_refused(what, &t, 9);
        set_labels(&t, "1202");
        if (t.gap <= 10)
            written(what, &t, bytes, sizeof bytes);
        else
            write_refused(what, &t, 9);
    }
    check_refusal("a tape written with a gap", hub_player_start(bytes, sizeof bytes, 0).refusal, 0);
}

/* The longest gap and those above it: planner and writer. */
static void gaps_refused(bool run)
{
    static const uint16_t above[3] = {601, 43200, 65535};
    uint16_t windows[2][2] = {{10, 20}, {45, 50}};
    struct lent t = lend(run, 2, windows);
    t.gap = 600;
    planned_or_8("gap 600", &t, "12");
    for (size_t i = 0; i < 3; i++) {
        char what[60];
        t.gap = above[i];
        snprintf(what, sizeof what, "gap %u", t.gap);
        plan_refused(what, &t, 14);
        set_labels(&t, "12");
        write_refused(what, &t, 14);
    }
}

static void gaps(void)
{
    gaps_planned();
    gaps_of_session();
    gaps_refused(false);
    gaps_refused(true);
    end_group("gaps");
}

/* Wrong in every way: mended one by one, the refusals come in the order that the header gives. */
static struct lent all_wrong(bool run)
{
    struct lent t = many(run, ROWS + 1);
    t.ticks = 1;
    t.p1 = 51;
    t.gap = 601;
    t.ends[0] = run ? 0 : 100; /* the start in a run, R in a round */
    t.marks[0] = 6;
    for (size_t i = 1; i < 4; i++) /* three rows that must be heard at once, in the hours of both receivers */
        t.starts[i] = 45, t.ends[i] = 46, t.marks[i] = 1;
    return t;
}

/* The labels of `all_wrong` when it is mended: rows 1 to 3 and row 45 are equal windows. */
static const char *labels_of_mended(bool run, char text[ROWS + 1])
{
    labels_of_many(run, text);
    text[2] = '2';
    text[3] = text[45] = '0';
    return text;
}

static void plan_refusals(const char *what, bool run)
{
    char labels[ROWS + 1];
    struct lent t = all_wrong(run);
    size_t *lengths[4] = {&t.starts_length, &t.ends_length, &t.marks_length, &t.labels_length};
    t.space_length = SPACE - 1;
    for (size_t i = 0; i < 4; i++) {
        *lengths[i] = ROWS;
        plan_refused(what, &t, 1);
        set_rows(&t, ROWS + 1);
    }
    plan_refused(what, &t, 2);
    set_rows(&t, ROWS);
    plan_refused(what, &t, 3);
    t.space_length = SPACE;
    plan_refused(what, &t, 4);
    t.ticks = 100;
    if (run)
        plan_refused(what, &t, 5);
    t.p1 = 0;
    plan_refused(what, &t, 14);
    t.gap = 0;
    plan_refused(what, &t, 6);
    t.ends[0] = 1;
    plan_refused(what, &t, 7);
    t.marks[0] = 0;
    plan_refused(what, &t, 8);
    t.marks[3] = 0;
    planned(what, &t, labels_of_mended(run, labels));
}

static void write_refusals(const char *what, bool run)
{
    char labels[ROWS + 1];
    struct lent t = all_wrong(run);
    size_t *lengths[4] = {&t.starts_length, &t.ends_length, &t.marks_length, &t.labels_length};
    set_labels(&t, labels_of_mended(run, labels));
    t.tape_length = 8 + 6 * 62 - 1;
    for (size_t i = 0; i < 4; i++) {
        *lengths[i] = ROWS;
        write_refused(what, &t, 1);
        set_rows(&t, ROWS + 1);
    }
    write_refused(what, &t, 2);
    set_rows(&t, ROWS);
    write_refused(what, &t, 4);
    t.ticks = 100;
    if (run)
        write_refused(what, &t, 5);
    t.p1 = 0;
    write_refused(what, &t, 14);
    t.gap = 0;
    write_refused(what, &t, 6);
    t.ends[0] = 1;
    write_refused(what, &t, 7);
    t.marks[0] = 0;
    write_refused(what, &t, 9);
    t.marks[3] = 0;
    write_refused(what, &t, 10);
    t.tape_length++;
    check(what, "accepted when all is mended", write_plan(&t).refusal == 0);
}

static void read_refusals(void)
{
    struct lent t = many(true, ROWS + 1);
    struct fleet f = fleet_of(&t);
    struct places p = fresh_places();
    size_t *lengths[3] = {&p.starts_length, &p.ends_length, &p.marks_length};
    f.bytes[f.length - 1] = 0x7E;
    for (size_t i = 0; i < 3; i++) {
        *lengths[i] = ROWS - 1;
        read_refused("a list of 63 places", &f, p, 1);
        *lengths[i] = ROWS + 1;
        read_refused("a list of 65 places", &f, p, 1);
        *lengths[i] = ROWS;
    }
    read_refused("no STOP", &f, p, 11);
    f.bytes[f.length - 1] = 0x7F;
    read_refused("65 rows", &f, p, 2);
    set_rows(&t, ROWS);
    read_back("64 rows", &t);
}

static void all_refusals(void)
{
    plan_refusals("hub_plan_round", false);
    plan_refusals("hub_plan_run", true);
    write_refusals("hub_write_plan_round", false);
    write_refusals("hub_write_plan_run", true);
    read_refusals();
    uint16_t p12[2][2] = {{1, 2}, {3, 3}};
    struct lent t = lend(false, 2, p12);
    t.ticks = 10;
    t.marks[0] = 9;
    plan_refused("P12", &t, 7);
    end_group("refusals");
}

/* Planner and writer at so many ticks, with a window that ends with the last tick. */
static void at_ticks(const char *what, bool run, uint16_t ticks, bool taken)
{
    uint16_t window[1][2] = {{0, 1}};
    struct lent t = lend(run, 1, window);
    t.ticks = t.q1 = t.q2 = ticks;
    t.p1 = t.p2 = 0;
    if (ticks > 1) {
        t.starts[0] = (uint16_t)(ticks - 1);
        t.ends[0] = run ? ticks : 0;
    }
    if (taken)
        planned(what, &t, "1");
    else
        plan_refused(what, &t, 4);
    t.labels[0] = 1;
    if (taken)
        check(what, "the writer takes it", write_plan(&t).refusal == 0);
    else
        write_refused(what, &t, 4);
    if (run || !taken)
        return;
    t.ends[0] = ticks;
    plan_refused("end R in a round", &t, 6);
}

static void at_bytes(const char *what, bool run)
{
    uint8_t bytes[TAPE];
    char labels[ROWS + 1];
    struct lent t = many(run, ROWS);
    t.space_length = HUB_SPACE_BYTES - 1;
    plan_refused(what, &t, 3);
    t.space_length = HUB_SPACE_BYTES;
    planned(what, &t, labels_of_many(run, labels));
    t.space_length = SPACE + BEYOND;
    planned(what, &t, labels);
    t.tape_length = HUB_PLAN_TAPE_BYTES - 1;
    write_refused(what, &t, 10);
    t.tape_length = HUB_PLAN_TAPE_BYTES;
    check(what, "64 heard rows fill HUB_PLAN_TAPE_BYTES", tape_of_many(run, bytes) == HUB_PLAN_TAPE_BYTES);
    written(what, &t, bytes, TAPE);
    t.tape_length = TAPE + BEYOND;
    written(what, &t, bytes, TAPE);
}

static void limits(void)
{
    for (int run = 0; run < 2; run++) {
        at_ticks("1 tick", run, 1, false);
        at_ticks("2 ticks", run, 2, true);
        at_ticks("43,200 ticks", run, 43200, true);
        at_ticks("43,201 ticks", run, 43201, false);
        at_bytes(run ? "64 rows in a run" : "64 rows in a round", run);
        struct lent t = many(run, ROWS + 1);
        plan_refused("65 rows", &t, 2);
        write_refused("65 rows", &t, 2);
    }
    end_group("limits");
}

/* Output and working space that are too short, and the longest tapes. */
static void replies(void)
{
    struct lent t = session();
    struct fleet f = fleet_of(&t);
    memset(space, BEFORE, sizeof space);
    memset(out, BEFORE, sizeof out);
    check("output of 399 bytes", "the result is 0", hub_reply(f.bytes, f.length, out, HUB_REPLY_BYTES - 1, space, SPACE) == 0);
    check("output of 399 bytes", "the output is untouched", all_are(out, sizeof out, BEFORE));
    check_space("output of 399 bytes", false);
    check("space of 4,607 bytes", "the length", hub_reply(f.bytes, f.length, out, sizeof out, space, HUB_SPACE_BYTES - 1) == 10);
    check("space of 4,607 bytes", "the reply", memcmp(out, "refused 3\n", 10) == 0);
    check("space of 4,607 bytes", "the bytes after the reply", all_are(out + 10, sizeof out - 10, BEFORE));
    check_space("space of 4,607 bytes", false);
    f.length--;
    tape_refused("no STOP", &f, "refused 11\n");
    f = long_fleet(79);
    check("79 rows", "the longest round that hub_reply reads", f.length == 399 && f.length <= HUB_FLEET_TAPE_BYTES);
    tape_refused("79 rows", &f, "refused 2\n");
    f = long_fleet(80);
    check("80 rows", "longer than hub_reply takes", f.length > HUB_FLEET_TAPE_BYTES);
    tape_refused("80 rows", &f, "refused 11\n");
    end_group("replies");
}

/* The session for two days from every tick, and P9's run from every tick to its end. */
static void players(void)
{
    for (uint16_t first = 0; first < 100; first++) {
        played("P2's tape", session_tape, sizeof session_tape, first, 200, told_of_session);
        struct hub_player last = played("P9's tape", p9_tape, sizeof p9_tape, first, 100u - first, told_of_p9);
        check("P9's tape", "R after the last tick", last.tick == 100);
        stays_finished("P9's tape", p9_tape, sizeof p9_tape, last.tick);
    }
    end_group("players");
}

/* Each change of the session's tape gives one that the writer cannot write. */
static void tape_refusals(void)
{
    static const struct { const char *what; size_t at; uint8_t byte; } changes[] = {
        {"neither ROUND nor RUN", 0, 0x40}, {"a run, in which no window goes over tick 0", 0, 0x11},
        {"RECEIVER 2 first", 4, 2}, {"RECEIVER 1 twice", 18, 1},
        {"row 64", 6, 64}, {"a row on both receivers", 6, 1}, {"a row twice on one receiver", 12, 0},
        {"a window that covers every tick beside another", 10, 10}, {"end R in a round", 10, 100}, {"starts that do not rise", 14, 5},
        {"windows that overlap", 10, 91}, {"windows that overlap after tick 0", 16, 11},
        {"a LISTEN's byte wrong", 11, 0x40}, {"no STOP", 25, 0x7E}};
    uint8_t bytes[27];
    for (size_t i = 0; i < sizeof changes / sizeof *changes; i++) {
        memcpy(bytes, session_tape, 26);
        bytes[changes[i].at] = changes[i].byte;
        start_refused(changes[i].what, bytes, 26, 0, 12);
        start_refused(changes[i].what, bytes, 26, 65535, 12); /* 12 comes before 13 */
    }
    memcpy(bytes, session_tape, 26);
    bytes[26] = 0x7F;
    start_refused("a byte after STOP", bytes, 27, 0, 12);
    for (size_t length = 0; length < 26; length++)
        start_refused("a tape cut short", bytes, length, 0, 12);
    bytes[6] = 63;
    check("row 63", "accepted", hub_player_start(bytes, 26, 0).refusal == 0);
    end_group("plan tapes");
}

static void tick_refusals(void)
{
    static const struct { uint16_t ticks; bool taken; } edges[] = {{0, false}, {1, false}, {2, true}, {43200, true}, {43201, false}, {65535, false}};
    for (size_t i = 0; i < 2 * sizeof edges / sizeof *edges; i++) {
        uint16_t ticks = edges[i / 2].ticks;
        const uint8_t bytes[8] = {i % 2 ? 0x11 : 0x10, (uint8_t)(ticks >> 8), (uint8_t)(ticks & 255), 0x20, 1, 0x20, 2, 0x7F};
        struct hub_started s = hub_player_start(bytes, 8, (uint16_t)(ticks - 1));
        check_refusal("first tick R - 1", s.refusal, edges[i / 2].taken ? 0 : 12);
        check("first tick R - 1", "the player's tick", s.player.tick == (edges[i / 2].taken ? ticks - 1 : 65535));
        start_refused("first tick R", bytes, 8, ticks, edges[i / 2].taken ? 13 : 12);
        start_refused("first tick 65,535", bytes, 8, 65535, edges[i / 2].taken ? 13 : 12);
    }
    end_group("first ticks");
}

/* A window of the last tick alone, which ends at R in a run and at 0 in a round. */
static void play_last_tick(const char *what, bool run, uint16_t ticks)
{
    uint8_t high = (uint8_t)(ticks >> 8), low = (uint8_t)(ticks & 255);
    struct told told = {0, 0, {7, run ? ticks : 0}, IDLE};
    const uint8_t bytes[14] = {run ? 0x11 : 0x10, high, low, 0x20, 1, 0x30, 7, (uint8_t)((ticks - 1) >> 8), (uint8_t)((ticks - 1) & 255),
                               run ? high : 0, run ? low : 0, 0x20, 2, 0x7F};
    struct hub_started s = hub_player_start(bytes, sizeof bytes, (uint16_t)(ticks - 1));
    check_refusal(what, s.refusal, 0);
    stepped(what, &told, hub_player_step(bytes, sizeof bytes, s.player), run ? ticks : 0);
}

/* The longest tape, 64 LISTENs. */
static void play_many(const char *what, bool run)
{
    uint8_t bytes[TAPE];
    size_t length = tape_of_many(run, bytes);
    check_refusal(what, hub_player_start(bytes, length, 0).refusal, 0);
    for (int i = 0; i < ROWS; i++) {
        bool second = run && i >= 50;
        struct told told = {0, 0, {second ? -1 : i, i + 1}, {second ? i : -1, i + 1}};
        stepped(what, &told, step(bytes, length, (uint16_t)i), (uint16_t)(i + 1));
    }
}

static void player_limits(void)
{
    for (int run = 0; run < 2; run++) {
        play_last_tick("the last of 2 ticks", run, 2);
        play_last_tick("the last of 43,200 ticks", run, 43200);
        play_many(run ? "64 LISTENs in a run" : "64 LISTENs in a round", run);
    }
    end_group("limits of plan tapes");
}

/* What the header says of bytes that are no plan tape. */
static void other_bytes(void)
{
    static const struct told first = {0, 0, {0, 30}, IDLE}, both = {0, 0, {0, 30}, {1, 40}}, later = {0, 0, {3, 60}, {1, 40}}, none = {0, 0, IDLE, IDLE};
    uint8_t bytes[26];
    memcpy(bytes, session_tape, 26);
    stays_finished("no bytes", bytes, 0, 0);
    stays_finished("ROUND cut short", bytes, 2, 0);
    stepped("ROUND alone", &none, step(bytes, 3, 25), 26);
    stepped("a LISTEN cut short", &none, step(bytes, 10, 25), 26);
    stepped("RECEIVER 2 cut short", &first, step(bytes, 18, 25), 26);
    stepped("no STOP", &both, step(bytes, 25, 25), 26);
    bytes[4] = 9, bytes[18] = 9;
    stepped("other receivers", &both, step(bytes, 26, 25), 26);
    bytes[14] = 20, bytes[16] = 60;
    stepped("two windows over the tick", &later, step(bytes, 26, 25), 26);
    bytes[16] = 100;
    stepped("the last window ends at R", &both, step(bytes, 26, 25), 26);
    bytes[3] = 0x21;
    stepped("no RECEIVER", &none, step(bytes, 26, 99), 0);
    stays_finished("tick R", bytes, 26, 100);
    end_group("other bytes");
}

/* Both sides of each limit of R and of the gap. */
static void held_begins(void)
{
    static const uint16_t ticks[6] = {0, 1, 2, 43200, 43201, 65535}, gaps[4] = {0, 600, 601, 65535};
    for (size_t i = 0; i < 24; i++) {
        uint16_t r = ticks[i / 4], g = gaps[i % 4];
        bool ticks_wrong = r < 2 || r > 43200, gap_wrong = g > 600;
        char what[60];
        snprintf(what, sizeof what, "begun with %u ticks, gap %u", r, g);
        struct held h = begun(what, r, g, ticks_wrong ? 4 : gap_wrong ? 14 : 0);
        if (!ticks_wrong && !gap_wrong) {
            added(what, &h, (uint16_t)(r - 1), 0, 1, "1");
            add_refused(what, &h, r, 0, 1, 6);
            continue;
        }
        added(what, &h, 0, 1, 3, "1"); /* in 2 ticks with gap 0 */
        added(what, &h, 1, 0, 3, "11");
        add_refused(what, &h, 2, 0, 0, 6);
    }
    end_group("held tables begun");
}

/* Worked examples, call by call: begun with ticks and gap, a row added, by start, end and mark, or withdrawn, by its
 * number; and the labels then, none for refusal 8. */
static void held_examples(void)
{
    enum { BEGIN, ADD, WITHDRAW };
    static const struct { int call; uint16_t numbers[3]; const char *labels; } calls[] = {
        /* P2, and its rows again in another order */
        {BEGIN, {100, 0}, ""},       {ADD, {10, 30, 0}, "1"},    {ADD, {20, 40, 0}, "12"},    {ADD, {25, 50, 0}, "120"},   {ADD, {90, 10, 0}, "1201"},
        {WITHDRAW, {0}, "121"},      {ADD, {10, 30, 0}, "1210"}, {WITHDRAW, {1}, "112"},      {WITHDRAW, {2}, "11"},       {ADD, {25, 50, 1}, "112"},
        {WITHDRAW, {0}, "11"},       {WITHDRAW, {0}, "1"},       {WITHDRAW, {0}, ""},
        /* P4: the third row that must be heard is refused, and is taken when another one is gone */
        {BEGIN, {100, 0}, ""},       {ADD, {10, 30, 1}, "1"},    {ADD, {20, 40, 1}, "12"},    {ADD, {25, 50, 1}, NULL},    {ADD, {25, 50, 0}, "120"},
        {ADD, {90, 10, 4}, "1202"},  {ADD, {26, 27, 5}, NULL},   {WITHDRAW, {1}, "122"},      {ADD, {26, 27, 5}, "1022"},  {ADD, {20, 40, 1}, NULL},
        {WITHDRAW, {0}, "122"},      {ADD, {20, 40, 1}, "0221"},
        /* one receiver only: the row that is withdrawn leaves its receiver to others, and marks move with their rows */
        {BEGIN, {10, 0}, ""},        {ADD, {0, 2, 3}, "1"},      {ADD, {0, 2, 2}, "10"},      {ADD, {0, 2, 0}, "102"},     {ADD, {0, 2, 4}, "1020"},
        {WITHDRAW, {0}, "120"},      {WITHDRAW, {1}, "12"},      {ADD, {0, 2, 5}, "102"},     {WITHDRAW, {1}, "12"},       {WITHDRAW, {0}, "2"},
        /* the session with gaps: its rows 1 and 0 withdrawn */
        {BEGIN, {100, 16}, ""},      {ADD, {10, 30, 0}, "1"},    {ADD, {20, 40, 0}, "12"},    {ADD, {25, 50, 0}, "120"},   {ADD, {90, 10, 0}, "1200"},
        {WITHDRAW, {1}, "120"},      {WITHDRAW, {0}, "12"},      {WITHDRAW, {1}, "1"},
        /* three that send all day */
        {BEGIN, {10, 600}, ""},      {ADD, {3, 3, 0}, "1"},      {ADD, {7, 7, 0}, "12"},      {ADD, {0, 0, 0}, "120"},     {WITHDRAW, {1}, "12"},
        {ADD, {5, 6, 3}, "201"},     {WITHDRAW, {1}, "21"},      {WITHDRAW, {1}, "1"}};
    struct held h = begun("held table", 2, 0, 0);
    for (size_t i = 0; i < sizeof calls / sizeof *calls; i++) {
        const uint16_t *n = calls[i].numbers;
        char what[60];
        snprintf(what, sizeof what, "call %zu of held tables", i);
        if (calls[i].call == BEGIN)
            h = begun(what, n[0], n[1], 0);
        else if (calls[i].call == WITHDRAW)
            withdrew(what, &h, n[0], calls[i].labels);
        else if (calls[i].labels)
            added(what, &h, n[0], n[1], (uint8_t)n[2], calls[i].labels);
        else
            add_refused(what, &h, n[0], n[1], (uint8_t)n[2], 8);
    }
    end_group("held tables by example");
}

/* 64 rows of one tick each, with marks 0 to 3 in turn, that receiver 1 hears. */
static struct held held_64(const char *ones)
{
    struct held h = begun("64 rows", 100, 0, 0);
    for (uint16_t i = 0; i < ROWS; i++)
        added("up to 64 rows", &h, i, (uint16_t)(i + 1), i % 4, ones + ROWS - 1 - i);
    return h;
}

static void held_limits(void)
{
    char ones[ROWS + 1];
    struct held h = held_64(labels_of_many(false, ones));
    add_refused("the 65th row", &h, 70, 71, 0, 2);
    withdraw_refused("row 64 of 64", &h, 64, 15);
    withdraw_refused("the last number", &h, SIZE_MAX, 15);
    withdrew("row 63 of 64", &h, 63, ones + 1);
    withdraw_refused("row 63 of 63", &h, 63, 15);
    added("the 64th row again", &h, 70, 71, 2, ones);
    add_refused("the 65th row again", &h, 80, 81, 0, 2);
    withdrew("row 0 of 64", &h, 0, ones + 1);
    h.space_length = SPACE - 1;
    add_refused("4,607 bytes", &h, 80, 81, 0, 3);
    withdraw_refused("4,607 bytes", &h, 0, 3);
    h.space_length = SPACE + BEYOND;
    added("more than 4,608 bytes", &h, 80, 81, 0, ones);
    withdrew("more than 4,608 bytes", &h, 1, ones + 1);
    for (size_t rows = ROWS - 1; rows > 0; rows--)
        withdrew("down to no rows", &h, 29 % rows, ones + ROWS + 1 - rows);
    withdraw_refused("row 0 of none", &h, 0, 15);
    end_group("limits of held tables");
}

/* Wrong in every way: mended one by one, the refusals come in the order that the header gives. */
static void held_refusals(void)
{
    char labels[ROWS + 1];
    struct held h = held_64(labels_of_many(false, labels));
    size_t *lengths[4] = {&h.starts_length, &h.ends_length, &h.marks_length, &h.labels_length};
    h.space_length = SPACE - 1;
    for (size_t i = 0; i < 8; i++) {
        *lengths[i / 2] = i % 2 ? ROWS + 1 : ROWS - 1;
        add_refused(i % 2 ? "a list of 65 places" : "a list of 63 places", &h, 47, 100, 6, 1);
        withdraw_refused(i % 2 ? "a list of 65 places" : "a list of 63 places", &h, ROWS, 1);
        *lengths[i / 2] = ROWS;
    }
    add_refused("hub_held_add", &h, 47, 100, 6, 2);
    withdraw_refused("hub_held_withdraw", &h, ROWS, 3);
    h.space_length = SPACE;
    add_refused("hub_held_add", &h, 47, 100, 6, 2);
    withdraw_refused("hub_held_withdraw", &h, ROWS, 15);
    withdrew("hub_held_withdraw", &h, 63, labels + 1);
    h.space_length = SPACE - 1;
    add_refused("hub_held_add", &h, 47, 100, 6, 3);
    h.space_length = SPACE;
    add_refused("hub_held_add", &h, 47, 100, 6, 6);
    add_refused("hub_held_add", &h, 100, 48, 6, 6);
    add_refused("hub_held_add", &h, 47, 48, 6, 7);
    add_refused("hub_held_add", &h, 47, 48, 255, 7);
    add_refused("hub_held_add", &h, 47, 48, 3, 8); /* row 47 has the same window and mark */
    labels[ROWS - 1] = '2';
    added("hub_held_add", &h, 47, 48, 5, labels);
    end_group("refusals of held tables");
}

/* P4 with faults that no call leaves: mended one by one, a call looks at its own 2 or 15 first and then at all that
 * the planner looks at. */
static void held_faults(void)
{
    struct held h = begun("faults", 100, 0, 0);
    added("faults", &h, 90, 10, 0, "1");
    added("faults", &h, 10, 30, 0, "11");
    added("faults", &h, 20, 40, 0, "112");
    added("faults", &h, 25, 50, 0, "1120");
    h.numbers.ticks = 1, h.numbers.gap = 601, h.starts[1] = 100, h.marks[2] = 6, h.marks[1] = h.marks[3] = 1;
    h.labels[0] = 9, h.numbers.count = 1000; /* a refusal gives them back, and they make no difference */
    for (unsigned step = 0; step < 6; step++) {
        static const unsigned numbers[6] = {3, 4, 14, 6, 7, 8};
        char what[60];
        snprintf(what, sizeof what, "faults from %u on", numbers[step]);
        h.space_length = step == 0 ? SPACE - 1 : SPACE;
        if (step == 2)
            h.numbers.ticks = 100;
        if (step == 3)
            h.numbers.gap = 0;
        if (step == 4)
            h.starts[1] = 10;
        if (step == 5)
            h.marks[2] = 1;
        add_refused(what, &h, step < 5 ? 100 : 60, 70, 0, numbers[step]); /* the row's own 6 comes after the faults of the rows before it */
        withdraw_refused(what, &h, 0, numbers[step]);
        withdraw_refused(what, &h, 4, step == 0 ? 3 : 15);
    }
    h.marks[2] = 255;
    withdrew("the row with the fault", &h, 2, "112");
    h.numbers.rows = 1;
    added("in the place of a row that is not counted", &h, 20, 40, 0, "11");
    end_group("held tables with faults");
}

/* More rows than places. */
static void held_too_many(void)
{
    static const size_t rows[3] = {65, 128, SIZE_MAX};
    char ones[ROWS + 1];
    struct held h = held_64(labels_of_many(false, ones));
    for (size_t i = 0; i < 3; i++) {
        h.numbers.rows = rows[i];
        h.space_length = SPACE - 1;
        add_refused("more than 64 rows", &h, 70, 71, 0, 2);
        withdraw_refused("more than 64 rows", &h, 0, 3);
        h.space_length = SPACE;
        add_refused("more than 64 rows", &h, 70, 71, 0, 2);
        withdraw_refused("more than 64 rows", &h, 0, 2);
        withdraw_refused("more than 64 rows", &h, rows[i] - 1, 2);
        withdraw_refused("more than 64 rows", &h, rows[i], 15);
    }
    h.numbers.rows = ROWS;
    withdrew("64 rows", &h, 0, ones + 1);
    end_group("held tables of too many rows");
}

/* P2 and P9 with candidates, worked out by hand: beside all rows, over some, all day, for one receiver, outside the
 * hours, and with faults. */
static void candidate_examples(void)
{
    static uint16_t of_p2[8][3] = {{50, 90, 0}, {25, 30, 0}, {30, 50, 1}, {7, 7, 2}, {50, 100, 0}, {50, 60, 6}, {100, 60, 6}, {50, 90, 5}};
    static uint8_t answers_of_p2[8][2] = {{0, 4}, {0, 3}, {0, 4}, {0, 3}, {6, 0}, {7, 0}, {6, 0}, {0, 4}};
    static uint16_t of_musts[4][3] = {{28, 29, 0}, {30, 35, 0}, {30, 35, 4}, {8, 8, 0}};
    static uint8_t answers_of_musts[4][2] = {{8, 0}, {0, 4}, {0, 4}, {8, 0}};
    static uint16_t of_p9[8][3] = {{0, 10, 0}, {30, 60, 0}, {60, 100, 0}, {60, 101, 0}, {7, 7, 0}, {60, 100, 2}, {0, 10, 4}, {42, 45, 0}};
    static uint8_t answers_of_p9[8][2] = {{0, 2}, {8, 0}, {0, 3}, {6, 0}, {6, 0}, {8, 0}, {8, 0}, {0, 3}};
    struct tries c = with_candidates(session(), 8, of_p2);
    tried("P2 with candidates", &c, answers_of_p2, 12);
    set_candidates(&c, 0);
    tried("P2 with no candidates", &c, answers_of_p2, 4);
    c = with_candidates(session(), 4, of_musts);
    c.table.marks[0] = c.table.marks[1] = 1;
    tried("P2 with two musts", &c, answers_of_musts, 8);
    c.table.marks[2] = 1;
    try_refused("P4 with candidates", &c, 8, 4);
    c = with_candidates(p9(), 8, of_p9);
    tried("P9 with candidates", &c, answers_of_p9, 11);
    set_rows(&c.table, 0);
    c.table.p1 = 40, c.table.q1 = 100, c.table.p2 = 0, c.table.q2 = 50; /* mark 2 in receiver 1's hours, mark 4 in receiver 2's */
    static uint8_t answers_turned[8][2] = {{0, 1}, {8, 0}, {0, 1}, {6, 0}, {6, 0}, {0, 1}, {0, 1}, {0, 1}};
    tried("P9's hours exchanged", &c, answers_turned, 8);
    end_group("candidates");
}

/* Each mark beside a row that must be heard by receiver 1, and by receiver 2. */
static void candidate_marks(void)
{
    for (int run = 0; run < 2; run++)
        for (unsigned only = 1; only <= 2; only++)
            for (unsigned mark = 0; mark < 256; mark++) {
                uint16_t window[1][2] = {{2, 6}}, candidate[1][3] = {{4, 5, (uint16_t)mark}};
                struct tries c = with_candidates(marked(run, window, only == 1 ? "3" : "5"), 1, candidate);
                bool meets = mark / 2 == only;
                uint8_t answer[1][2] = {{mark > 5 ? 7 : meets ? 8 : 0, mark > 5 || meets ? 0 : 2}};
                tried("a mark beside a must", &c, answer, 2);
            }
    end_group("marks of candidates");
}

/* 63 to 65 rows and 64 and 65 candidates; both sides of R, gap and working space. */
static void candidate_limits(bool run)
{
    uint16_t rows[ROWS + 1][3];
    uint8_t answers[ROWS][2];
    for (size_t i = 0; i <= ROWS; i++)
        rows[i][0] = 80, rows[i][1] = 81, rows[i][2] = 0;
    for (size_t i = 0; i < ROWS; i++)
        answers[i][0] = 0, answers[i][1] = ROWS;
    struct tries c = with_candidates(many(run, ROWS - 1), ROWS, rows);
    tried("63 rows and 64 candidates", &c, answers, 127);
    c.table.space_length = SPACE - 1;
    try_refused("4,607 bytes", &c, 3, 0);
    c.table.space_length = SPACE + 1;
    tried("4,609 bytes", &c, answers, 127);
    static const uint16_t ticks[4] = {0, 1, 43201, 65535};
    for (size_t i = 0; i < 4; i++) {
        c.table.ticks = ticks[i];
        try_refused("R outside its limits", &c, 4, 0);
    }
    c.table.ticks = 43200;
    tried("R 43,200", &c, answers, 127);
    c.table.gap = 601;
    try_refused("gap 601", &c, 14, 0);
    c = with_candidates(many(run, ROWS), ROWS, rows);
    for (size_t i = 0; i < ROWS; i++)
        answers[i][0] = 2, answers[i][1] = 0;
    c.marks[0] = 6, c.ends[1] = 200; /* unread */
    tried("64 rows and 64 candidates", &c, answers, 64);
    set_candidates(&c, ROWS + 1);
    try_refused("65 candidates", &c, 16, 0);
}

/* Each of the five lists alone with a place less, of 64, and more, of 63. */
static void candidate_lists(bool run)
{
    uint16_t rows[ROWS][3];
    for (size_t i = 0; i < ROWS; i++)
        rows[i][0] = 80, rows[i][1] = 81, rows[i][2] = 0;
    struct tries c = with_candidates(many(run, 3), ROWS, rows);
    size_t *lengths[5] = {&c.starts_length, &c.ends_length, &c.marks_length, &c.numbers_length, &c.counts_length};
    for (size_t i = 0; i < 5; i++) {
        set_candidates(&c, ROWS);
        *lengths[i] = ROWS - 1;
        try_refused("a list of 63 places beside 64", &c, 16, 0);
        set_candidates(&c, ROWS - 1);
        *lengths[i] = ROWS;
        try_refused("a list of 64 places beside 63", &c, 16, 0);
        set_candidates(&c, 0);
        *lengths[i] = 1;
        try_refused("a list of 1 place beside none", &c, 16, 0);
    }
}

/* Wrong in every way: mended one by one, the refusals come in the order that the header gives, each with the rows
 * looked at. */
static void candidate_refusals(const char *what, bool run)
{
    uint16_t rows[1][3] = {{200, 200, 9}};
    uint8_t full[1][2] = {{2, 0}}, fault[1][2] = {{6, 0}};
    struct tries c = with_candidates(all_wrong(run), 1, rows);
    c.table.space_length = SPACE - 1;
    c.counts_length = 0;
    size_t *lengths[3] = {&c.table.starts_length, &c.table.ends_length, &c.table.marks_length};
    for (size_t i = 0; i < 3; i++) {
        *lengths[i] = ROWS;
        try_refused(what, &c, 1, 0);
        set_rows(&c.table, ROWS + 1);
    }
    try_refused(what, &c, 2, 0);
    set_rows(&c.table, ROWS);
    try_refused(what, &c, 3, 0);
    c.table.space_length = SPACE;
    try_refused(what, &c, 16, 0);
    c.counts_length = 1;
    try_refused(what, &c, 4, 0);
    c.table.ticks = 100;
    if (run)
        try_refused(what, &c, 5, 0);
    c.table.p1 = 0;
    try_refused(what, &c, 14, 0);
    c.table.gap = 0;
    try_refused(what, &c, 6, 1);
    c.table.ends[0] = 1;
    try_refused(what, &c, 7, 1);
    c.table.marks[0] = 0, c.table.marks[9] = 6;
    try_refused(what, &c, 7, 10);
    c.table.marks[9] = 0;
    try_refused(what, &c, 8, 64);
    c.table.marks[3] = 0;
    tried(what, &c, full, 64);
    set_rows(&c.table, ROWS - 1);
    tried(what, &c, fault, 64);
}

static void all_candidate_refusals(void)
{
    for (int run = 0; run < 2; run++) {
        candidate_limits(run);
        candidate_lists(run);
        candidate_refusals(run ? "hub_try_candidates_run" : "hub_try_candidates_round", run);
    }
    end_group("refusals of candidates");
}

/* P2, or P9 in a run, in so many bytes: planned, from its fleet tape and beside a candidate; then with three rows
 * that must be heard and cannot all be. */
static void plans_in(const char *what, bool run, size_t space_length)
{
    uint16_t rows[1][3] = {{60, 90, 0}}; /* beside all rows */
    uint8_t answers[1][2] = {{0, run ? 3 : 4}};
    struct tries c = with_candidates(run ? p9() : session(), 1, rows);
    struct lent *t = &c.table;
    t->space_length = space_length;
    planned_and_replied(what, t, run ? "201" : "1201");
    tried(what, &c, answers, t->starts_length + 1);
    t->marks[0] = t->marks[1] = t->marks[2] = 1;
    planned_and_replied(what, t, NULL);
    try_refused(what, &c, 8, t->starts_length);
}

/* Rows added and withdrawn in so many bytes; then, of four rows that no call leaves, three that must be heard at
 * once. */
static void changes_in(const char *what, size_t space_length)
{
    struct held h = begun(what, 100, 0, 0);
    h.space_length = space_length;
    added(what, &h, 10, 30, 1, "1");
    added(what, &h, 20, 40, 1, "12");
    add_refused(what, &h, 25, 50, 1, 8);
    withdrew(what, &h, 0, "1");
    for (size_t i = 0; i < 4; i++)
        h.starts[i] = 25, h.ends[i] = 50, h.marks[i] = 1;
    h.numbers.rows = 4;
    withdraw_refused(what, &h, 0, 8);
}

/* Too few bytes: 3 and nothing cleared, whether there is a plan or not. */
static void too_few(const char *what, bool run, size_t space_length)
{
    uint16_t rows[1][3] = {{60, 90, 0}};
    struct tries c = with_candidates(run ? p9() : session(), 1, rows);
    struct held h = begun(what, 100, 0, 0);
    added(what, &h, 10, 30, 1, "1");
    c.table.space_length = h.space_length = space_length;
    for (uint8_t mark = 0; mark < 2; mark++) {
        c.table.marks[0] = c.table.marks[1] = c.table.marks[2] = mark;
        plan_refused(what, &c.table, 3);
        replied_to(what, &c.table, "refused 3\n", false);
        try_refused(what, &c, 3, 0);
        add_refused(what, &h, 25, 50, mark, 3);
        withdraw_refused(what, &h, 0, 3);
    }
}

/* Both sides of 4,608 and of 16,384, up to all that is there. */
static void space_lengths(void)
{
    static const size_t lengths[8] = {0, 1, SPACE - 1, SPACE, SPACE + 1, AMPLE - 1, AMPLE, AMPLE + BEYOND};
    for (size_t i = 0; i < 16; i++) {
        size_t length = lengths[i / 2];
        bool run = i % 2;
        char what[60];
        snprintf(what, sizeof what, "%zu bytes of working space", length);
        if (length < SPACE) {
            too_few(what, run, length);
            continue;
        }
        plans_in(what, run, length);
        if (!run)
            changes_in(what, length);
    }
    end_group("working space");
}

/* Ones for the rows below. */
static uint64_t ones_below(size_t rows)
{
    return rows < 64 ? ((uint64_t)1 << rows) - 1 : UINT64_MAX;
}

static uint64_t one_at(size_t row)
{
    return (uint64_t)1 << row;
}

/* Labels worked out by hand, either way; each row alone and each row apart from the others, for each row count. */
static void words_of_labels(void)
{
    uint8_t labels[ROWS];
    carried_text("", 0, 0, 0);
    carried_text("0", 0, 0, 0);
    carried_text("1", 1, 0, 1);
    carried_text("2", 1, 1, 1);
    carried_text("1201", 0xB, 0x2, 3); /* P2 */
    carried_text("021", 0x6, 0x2, 2);
    carried_text("220000001", 0x103, 0x3, 3);
    for (size_t rows = 1; rows <= ROWS; rows++)
        for (size_t row = 0; row < rows; row++) {
            memset(labels, 0, sizeof labels);
            labels[row] = 1;
            carried("receiver 1 hears one row", labels, rows, one_at(row), 0, 1);
            labels[row] = 2;
            carried("receiver 2 hears one row", labels, rows, one_at(row), one_at(row), 1);
            memset(labels, 1, sizeof labels);
            labels[row] = 0;
            carried("one row is not heard", labels, rows, ones_below(rows) - one_at(row), 0, rows - 1);
            labels[row] = 2;
            carried("one row is receiver 2's", labels, rows, ones_below(rows), one_at(row), rows);
            memset(labels, 2, sizeof labels);
            carried("all rows are receiver 2's", labels, rows, ones_below(rows), ones_below(rows), rows);
        }
    end_group("labels as words");
}

/* Every label above 2, first, last and between; 65 labels, with one above 2 too. */
static void words_of_labels_refused(void)
{
    uint8_t labels[ROWS + 1];
    for (unsigned label = 3; label < 256; label++)
        for (size_t row = 0; row < ROWS; row += 21) {
            memset(labels, 2, sizeof labels);
            labels[row] = (uint8_t)label;
            words_refused("a label above 2 of 64", labels, ROWS, 9);
            words_refused("a label above 2 at the end", labels, row + 1, 9);
            words_given("a label above 2 beyond the list", labels, row, ones_below(row), ones_below(row), row);
            words_refused("65 labels, one above 2", labels, ROWS + 1, 2);
        }
    memset(labels, 1, sizeof labels);
    words_refused("65 labels", labels, ROWS + 1, 2);
    end_group("labels that cannot be carried");
}

/* A one at each place of each word, for each row count: below it and from it up; and a receiver bit of a row not
 * heard, below it. */
static void labels_of_words_refused(void)
{
    for (size_t rows = 0; rows <= ROWS; rows++) {
        uint64_t all = ones_below(rows);
        for (size_t row = 0; row < rows; row++) {
            labels_refused("a receiver bit alone", 0, one_at(row), rows, 9);
            labels_refused("a receiver bit of the row not heard", all - one_at(row), one_at(row), rows, 9);
            labels_refused("all receiver bits, a row not heard", all - one_at(row), all, rows, 9);
        }
        for (size_t place = rows; place < 64; place++) {
            labels_refused("a one from the row count up, heard", one_at(place), 0, rows, 9);
            labels_refused("a one from the row count up, receiver", 0, one_at(place), rows, 9);
            labels_refused("a one from the row count up, both", all + one_at(place), all + one_at(place), rows, 9);
            labels_refused("a one from the row count up beside all rows", all + one_at(place), all, rows, 9);
            labels_refused("a receiver bit from the row count up beside all rows", all, all + one_at(place), rows, 9);
        }
    }
    labels_refused("65 places", 0, 0, ROWS + 1, 2);
    labels_refused("65 places, all heard", UINT64_MAX, UINT64_MAX, ROWS + 1, 2);
    labels_refused("65 places, a receiver bit of a row not heard", 0, 1, ROWS + 1, 2);
    end_group("words that cannot be carried");
}

/* Every mark at each place, beside marks 0 and beside marks 1; 64 and 65 marks. */
static void must_words(void)
{
    uint8_t marks[ROWS + 1] = {0, 1, 2, 3, 4, 5, 6, 7};
    must_given("no marks", marks, 0, 0);
    must_given("marks 0 to 7", marks, 8, 0x2A);
    for (unsigned mark = 0; mark < 256; mark++) {
        bool must = mark == 1 || mark == 3 || mark == 5;
        for (size_t row = 0; row < ROWS; row++) {
            memset(marks, 0, sizeof marks);
            marks[row] = (uint8_t)mark;
            must_given("a mark beside marks 0", marks, ROWS, must ? one_at(row) : 0);
            must_given("a mark at the end", marks, row + 1, must ? one_at(row) : 0);
            must_given("a mark beyond the list", marks, row, 0);
            memset(marks, 1, sizeof marks);
            marks[row] = (uint8_t)mark;
            must_given("a mark beside marks 1", marks, ROWS, must ? UINT64_MAX : UINT64_MAX - one_at(row));
        }
    }
    memset(marks, 1, sizeof marks);
    struct hub_must_word m = hub_must_of_marks(marks, ROWS + 1);
    check_refusal("65 marks", m.refusal, 2);
    check("65 marks", "a word of 0", m.word == 0);
    end_group("must words");
}

/* P2 and P9 with gaps, windows that touch, at R and all day, worked out by hand. */
static void clash_examples(void)
{
    static const struct { uint16_t gap; uint64_t words[4]; } of_p2[5] = {
        {0, {0x6, 0x5, 0x3, 0x0}}, {1, {0xE, 0x5, 0x3, 0x1}}, {10, {0xE, 0x5, 0x3, 0x1}}, {11, {0xE, 0xD, 0x3, 0x3}}, {16, {0xE, 0xD, 0xB, 0x7}}};
    static const struct { uint16_t gap; uint64_t words[3]; } of_p9[2] = {{0, {0x6, 0x1, 0x1}}, {1, {0x6, 0x5, 0x3}}};
    struct lent t = session();
    for (size_t i = 0; i < 5; i++) {
        t.gap = of_p2[i].gap;
        clashed("P2", &t, of_p2[i].words);
    }
    t = p9();
    for (size_t i = 0; i < 2; i++) {
        t.gap = of_p9[i].gap;
        clashed("P9", &t, of_p9[i].words);
    }
    static const uint64_t none[4] = {0}, each_other[2] = {0x2, 0x1}, all_day[4] = {0xE, 0xD, 0x3, 0x3};
    uint16_t ends_of_day[2][2] = {{0, 10}, {90, 99}}; /* a tick from 99 on to 0 in a round, 80 from 10 to 90 */
    for (int run = 0; run < 2; run++) {
        t = lend(run, 2, ends_of_day);
        t.gap = 1;
        clashed("a gap of 1 over the end", &t, none);
        t.gap = 2;
        clashed("a gap of 2 over the end", &t, run ? none : each_other);
        t.gap = 80;
        clashed("a gap of 80 between", &t, run ? none : each_other);
        t.gap = 81;
        clashed("a gap of 81 between", &t, each_other);
        t.starts_length = t.ends_length = 1, t.gap = 600;
        clashed("a row alone", &t, none);
        t.starts_length = t.ends_length = 0;
        clashed("no rows", &t, none);
    }
    uint16_t windows[4][2] = {{3, 3}, {70, 70}, {0, 10}, {50, 60}};
    t = lend(false, 4, windows);
    clashed("windows that cover every tick", &t, all_day);
    t.run = true;
    clash_refused("start equal to end in a run", &t, 4, 6);
    end_group("clash words");
}

/* 64 rows; both sides of R, of the gap and of what a window may be. */
static void clash_limits(bool run)
{
    uint64_t all[ROWS], touching[ROWS];
    static const uint64_t none[ROWS];
    for (size_t i = 0; i < ROWS; i++) {
        all[i] = UINT64_MAX - one_at(i);
        touching[i] = (i > 0 ? one_at(i - 1) : 0) | (i + 1 < ROWS ? one_at(i + 1) : 0);
    }
    struct lent t = many(run, ROWS);
    clashed("64 rows apart", &t, none);
    t.gap = 1;
    clashed("64 rows that touch", &t, touching);
    t.gap = 600;
    clashed("64 rows beside each other", &t, all);
    t.gap = 601;
    clash_refused("gap 601", &t, ROWS, 14);
    t.gap = 65535;
    clash_refused("gap 65,535", &t, ROWS, 14);
    t.gap = 0, t.ticks = 43200;
    clashed("R 43,200", &t, none);
    static const uint16_t ticks[4] = {0, 1, 43201, 65535};
    for (size_t i = 0; i < 4; i++) {
        t.ticks = ticks[i];
        clash_refused("R outside its limits", &t, ROWS, 4);
    }
    t.ticks = 64; /* the last row ends at R */
    if (run)
        clashed("an end at R", &t, none);
    else
        clash_refused("an end at R", &t, ROWS, 6);
    t.ticks = 63;
    clash_refused("a row beyond R", &t, ROWS, 6);
    t.starts_length = t.ends_length = 62;
    clashed("62 rows of them", &t, none);
    static const uint64_t two[2] = {0x2, 0x1};
    uint16_t apart[2][2] = {{0, 1}, {601, 42600}}; /* 600 ticks between, and 600 from the second on to the end */
    t = lend(run, 2, apart);
    t.ticks = 43200, t.gap = 600;
    clashed("600 ticks between", &t, none);
    t.starts[1] = 600;
    clashed("599 ticks between", &t, two);
    t.starts[1] = 601, t.ends[1] = 42601;
    clashed("599 ticks on to the first", &t, run ? none : two);
}

/* Wrong in every way: mended one by one, the refusals come in the order that the header gives. Marks and hours stay
 * wrong, as none are lent. */
static void clash_refusals(const char *what, bool run)
{
    uint64_t words[ROWS];
    struct lent t = all_wrong(run);
    size_t *lengths[2] = {&t.starts_length, &t.ends_length};
    for (size_t i = 0; i < 2; i++) {
        *lengths[i] = ROWS;
        clash_refused(what, &t, ROWS + 1, 1);
        clash_refused(what, &t, ROWS, 1);
        set_rows(&t, ROWS + 1);
    }
    clash_refused(what, &t, ROWS, 1);
    clash_refused(what, &t, ROWS + 1, 2);
    set_rows(&t, ROWS);
    clash_refused(what, &t, ROWS + 1, 1);
    clash_refused(what, &t, ROWS, 4);
    t.ticks = 100;
    clash_refused(what, &t, ROWS, 14);
    t.gap = 0;
    clash_refused(what, &t, ROWS, 6);
    t.ends[0] = 1, t.ends[63] = 101;
    clash_refused(what, &t, ROWS, 6);
    t.ends[63] = 64;
    memset(words, 0, sizeof words);
    for (size_t i = 1; i < 4; i++)
        words[i] = 0xE - one_at(i) + one_at(45);
    words[45] = 0xE;
    clashed(what, &t, words);
    for (size_t rows = 0; rows < 3; rows++) { /* a place less and a place more */
        set_rows(&t, rows + 1);
        clash_refused(what, &t, rows, 1);
        clash_refused(what, &t, rows + 2, 1);
    }
}

static void all_clash_refusals(void)
{
    for (int run = 0; run < 2; run++) {
        clash_limits(run);
        clash_refusals(run ? "hub_clash_words_run" : "hub_clash_words_round", run);
    }
    end_group("refusals of clash words");
}

int main(void)
{
    constants();
    structs();
    parameters();
    rounds();
    runs();
    marks();
    all_day();
    gaps();
    all_refusals();
    limits();
    replies();
    players();
    tape_refusals();
    tick_refusals();
    player_limits();
    other_bytes();
    held_begins();
    held_examples();
    held_limits();
    held_refusals();
    held_faults();
    held_too_many();
    candidate_examples();
    candidate_marks();
    all_candidate_refusals();
    space_lengths();
    words_of_labels();
    words_of_labels_refused();
    labels_of_words_refused();
    must_words();
    clash_examples();
    all_clash_refusals();
    return all_failures != 0;
}
