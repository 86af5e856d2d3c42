/* Measures how many bytes of stack a call of each function of the library takes: the most over the tables, tapes and words below, which are the same each time, those that it takes and
 * those that it refuses. Each call is made on a stack of its own that was filled with a pattern. What is counted goes from the lowest byte that was written up to the caller's frame, the
 * return address and the arguments that lie on the stack included: the depth of the call, less that of the same call of a function that does nothing, more these two. So the frame of
 * the caller, which the C compiler makes, makes no difference. It fails where a function was not called so that it gives each of its refusals. tests/stack builds and runs it.
 */
#define _XOPEN_SOURCE 700
#include <stdio.h>
#include <stdlib.h>
#include <string.h>
#include <ucontext.h>
#include "hubplan.h"

enum { WORDS = 4096, PLACES = HUB_MOST_ROWS + 1, TAPE = HUB_FLEET_TAPE_BYTES + 1, RETURN_ADDRESS = 8 };

/* All that a call is given, but for the working space. */
struct given {
    uint16_t ticks, gap, hours[4];
    uint16_t starts[PLACES], ends[PLACES];
    uint8_t marks[PLACES], labels[PLACES], numbers[PLACES], counts[PLACES];
    uint64_t words[PLACES];
    size_t rows, labels_length, places; /* of a table, of its labels, and of lists of 64 places */
    size_t table, table_marks;          /* rows of the table that candidates are tried against, and its marks */
    size_t candidates, answers;         /* candidates, and places for their answers */
    size_t held, row;                   /* rows held, and the row withdrawn */
    uint8_t fleet[TAPE], plan[TAPE], out[TAPE];
    size_t fleet_length, plan_length, out_length, space_length;
    uint16_t tick;
    struct hub_label_words label_words;
};

static struct given now;
static uint8_t space[HUB_SPACE_BYTES];

static uint64_t stack[WORDS];
static ucontext_t here, there;
static void (*caller)(void), (*callee)(void);
static unsigned given_back; /* the refusal that the call gave, or the length of a reply */

/* A function that does nothing, and so takes no byte below its return address with any options of the compiler. */
void nothing(void);
__asm__(".text\nnothing: ret\n");

/* Where a context begins. What changing contexts writes lies above the bytes that it keeps free, and so above every
 * call that is measured. */
static void enter(void)
{
    volatile uint8_t free_bytes[512];
    free_bytes[0] = 0;
    caller();
    (void)free_bytes[0];
}

/* The callers: each calls what `callee` is, the function of the library or `nothing`, as the function of the
 * library. */
#define CALLED(function) ((__typeof__(&function))callee)
#define LIST(name) now.name, now.rows
#define PLACED(name) now.name, now.places
#define TABLE LIST(starts), LIST(ends), LIST(marks)
#define HOURS now.hours[0], now.hours[1], now.hours[2], now.hours[3]
#define LABELS now.labels, now.labels_length
#define SPACE space, now.space_length
#define TRIED \
    now.starts, now.table, now.ends, now.table, now.marks, now.table_marks, now.starts, now.candidates, now.ends, now.candidates, now.marks, now.candidates, now.numbers, now.answers, \
        now.counts, now.answers

static void plan_round(void) { given_back = CALLED(hub_plan_round)(now.ticks, now.gap, TABLE, LABELS, SPACE).refusal; }
static void plan_run(void) { given_back = CALLED(hub_plan_run)(now.ticks, now.gap, HOURS, TABLE, LABELS, SPACE).refusal; }
static void write_round(void) { given_back = CALLED(hub_write_plan_round)(now.ticks, now.gap, TABLE, LABELS, now.out, now.out_length).refusal; }
static void write_run(void) { given_back = CALLED(hub_write_plan_run)(now.ticks, now.gap, HOURS, TABLE, LABELS, now.out, now.out_length).refusal; }
static void read_fleet(void) { given_back = CALLED(hub_read_fleet)(now.fleet, now.fleet_length, PLACED(starts), PLACED(ends), PLACED(marks)).refusal; }
static void reply(void) { given_back = (unsigned)CALLED(hub_reply)(now.fleet, now.fleet_length, now.out, now.out_length, SPACE); }
static void player_start(void) { given_back = CALLED(hub_player_start)(now.plan, now.plan_length, now.tick).refusal; }

/* A step refuses nothing: it is finished, listens or is idle. */
enum { FINISHED = 1, LISTENS = 2, IDLE = 3 };

static void player_step(void)
{
    struct hub_stepped step = CALLED(hub_player_step)(now.plan, now.plan_length, (struct hub_player){now.tick});
    given_back = step.finished ? FINISHED : step.receiver1.listening || step.receiver2.listening ? LISTENS : IDLE;
}

static void held_begin(void) { given_back = CALLED(hub_held_begin)(now.ticks, now.gap).refusal; }

static void held_add(void)
{
    struct hub_held_numbers numbers = {now.ticks, now.gap, now.held, 0};
    size_t i = now.held < PLACES ? now.held : 0;
    given_back = CALLED(hub_held_add)
        (numbers, PLACED(starts), PLACED(ends), PLACED(marks), PLACED(labels), now.starts[i], now.ends[i], now.marks[i], SPACE).refusal;
}

static void held_withdraw(void)
{
    struct hub_held_numbers numbers = {now.ticks, now.gap, now.rows, 0};
    given_back = CALLED(hub_held_withdraw)(numbers, PLACED(starts), PLACED(ends), PLACED(marks), PLACED(labels), now.row, SPACE).refusal;
}

static void try_round(void) { given_back = CALLED(hub_try_candidates_round)(now.ticks, now.gap, TRIED, SPACE).refusal; }
static void try_run(void) { given_back = CALLED(hub_try_candidates_run)(now.ticks, now.gap, HOURS, TRIED, SPACE).refusal; }
static void words_of_labels(void) { given_back = CALLED(hub_words_of_labels)(LABELS).refusal; }
static void labels_of_words(void) { given_back = CALLED(hub_labels_of_words)(now.label_words.heard, now.label_words.receiver, LABELS).refusal; }
static void must_of_marks(void) { given_back = CALLED(hub_must_of_marks)(LIST(marks)).refusal; }
static void clash_round(void) { given_back = CALLED(hub_clash_words_round)(now.ticks, now.gap, LIST(starts), LIST(ends), now.words, now.labels_length); }
static void clash_run(void) { given_back = CALLED(hub_clash_words_run)(now.ticks, now.gap, LIST(starts), LIST(ends), now.words, now.labels_length); }

enum function {
    PLAN_ROUND, PLAN_RUN, WRITE_ROUND, WRITE_RUN, READ_FLEET, REPLY, PLAYER_START, PLAYER_STEP, HELD_BEGIN, HELD_ADD, HELD_WITHDRAW, TRY_ROUND, TRY_RUN, WORDS_OF_LABELS,
    LABELS_OF_WORDS, MUST_OF_MARKS, CLASH_ROUND, CLASH_RUN, FUNCTIONS
};

/* Refusals, a bit for each number. */
#define BIT(number) ((uint32_t)1 << (number))
#define OF_SETTING (BIT(HUB_ACCEPTED) | BIT(HUB_TICKS) | BIT(HUB_GAP))
#define OF_WINDOWS (OF_SETTING | BIT(HUB_LISTS) | BIT(HUB_ROWS) | BIT(HUB_WINDOW))
#define OF_TABLE (OF_WINDOWS | BIT(HUB_MARK))
#define OF_PLAN (OF_TABLE | BIT(HUB_SPACE) | BIT(HUB_NO_PLAN))
#define OF_WRITER (OF_TABLE | BIT(HUB_NOT_PLAN) | BIT(HUB_BUFFER))
#define OF_FLEET (BIT(HUB_ACCEPTED) | BIT(HUB_FORM) | BIT(HUB_ROWS))
#define OF_LABELS (BIT(HUB_ACCEPTED) | BIT(HUB_ROWS) | BIT(HUB_NOT_PLAN))

/* `on_stack` is the bytes of arguments on the stack, by the calling convention of x86-64 Linux: of words, the first six are in registers, where the address of a result longer than 16
 * bytes is the first; a struct longer than 16 bytes, as struct hub_held_numbers is, lies there whole. */
static struct measured {
    const char *name;
    void (*call)(void);
    void (*function)(void);
    size_t on_stack;
    uint32_t gives, gave; /* all refusals that the function has, and those of the calls so far */
    size_t empty, most, calls;
} measured[FUNCTIONS] = {
#define FUNCTION(name, call, words_on_stack, gives) {#name, call, (void (*)(void))name, 8 * (words_on_stack), gives, 0, 0, 0, 0}
    FUNCTION(hub_plan_round, plan_round, 12 - 6, OF_PLAN),
    FUNCTION(hub_plan_run, plan_run, 16 - 6, OF_PLAN | BIT(HUB_HOURS)),
    FUNCTION(hub_write_plan_round, write_round, 12 - 6, OF_WRITER),
    FUNCTION(hub_write_plan_run, write_run, 16 - 6, OF_WRITER | BIT(HUB_HOURS)),
    FUNCTION(hub_read_fleet, read_fleet, 1 + 8 - 6, OF_FLEET | BIT(HUB_LISTS)),
    FUNCTION(hub_reply, reply, 0, OF_FLEET | BIT(HUB_SPACE) | BIT(HUB_TICKS) | BIT(HUB_HOURS) | BIT(HUB_WINDOW) | BIT(HUB_NO_PLAN) | BIT(HUB_BUFFER)),
    FUNCTION(hub_player_start, player_start, 0, BIT(HUB_ACCEPTED) | BIT(HUB_TAPE) | BIT(HUB_FIRST_TICK)),
    FUNCTION(hub_player_step, player_step, 0, BIT(FINISHED) | BIT(LISTENS) | BIT(IDLE)),
    FUNCTION(hub_held_begin, held_begin, 0, OF_SETTING),
    FUNCTION(hub_held_add, held_add, 1 + 13 - 6 + 3, OF_PLAN),
    FUNCTION(hub_held_withdraw, held_withdraw, 1 + 11 - 6 + 3, OF_PLAN | BIT(HUB_NO_ROW)),
    FUNCTION(hub_try_candidates_round, try_round, 20 - 6, OF_PLAN | BIT(HUB_CANDIDATES)),
    FUNCTION(hub_try_candidates_run, try_run, 24 - 6, OF_PLAN | BIT(HUB_CANDIDATES) | BIT(HUB_HOURS)),
    FUNCTION(hub_words_of_labels, words_of_labels, 0, OF_LABELS),
    FUNCTION(hub_labels_of_words, labels_of_words, 0, OF_LABELS),
    FUNCTION(hub_must_of_marks, must_of_marks, 0, BIT(HUB_ACCEPTED) | BIT(HUB_ROWS)),
    FUNCTION(hub_clash_words_round, clash_round, 8 - 6, OF_WINDOWS),
    FUNCTION(hub_clash_words_run, clash_run, 8 - 6, OF_WINDOWS)};

/* A small sequence of pseudo-random numbers (xorshift). */
static uint64_t drawn = 88172645463325252u;

static unsigned below(unsigned n)
{
    drawn ^= drawn << 13;
    drawn ^= drawn >> 7;
    drawn ^= drawn << 17;
    return (unsigned)(drawn >> 32) % n;
}

/* How many bytes of the stack are written from its end on, in whole words. A word that a call writes can be the
 * pattern by chance, so the pattern differs from call to call. */
static size_t depth_of(void (*call)(void), void (*function)(void))
{
    static uint64_t pattern;
    pattern += 0x9E3779B97F4A7C15u;
    for (size_t i = 0; i < WORDS; i++)
        stack[i] = pattern;
    caller = call;
    callee = function;
    getcontext(&there);
    there.uc_stack.ss_sp = stack;
    there.uc_stack.ss_size = sizeof stack;
    there.uc_link = &here;
    makecontext(&there, enter, 0);
    swapcontext(&here, &there);
    size_t untouched = 0;
    while (untouched < WORDS && stack[untouched] == pattern)
        untouched++;
    if (untouched == 0) {
        printf("stack: FAILED: a call needs more than is there\n");
        exit(1);
    }
    return 8 * (WORDS - untouched);
}

/* The refusal that a reply of this length tells; HUB_BUFFER where there was no room for one. */
static unsigned refusal_told(unsigned length)
{
    if (length == 0)
        return HUB_BUFFER;
    return now.out[0] == 'h' ? HUB_ACCEPTED : (unsigned)atoi((char *)now.out + strlen("refused "));
}

/* Measures a call, and leaves what it was given as it was. */
static void measure(enum function f)
{
    struct measured *m = &measured[f];
    struct given before = now;
    size_t depth = depth_of(m->call, m->function) - m->empty + m->on_stack + RETURN_ADDRESS;
    m->gave |= BIT(f == REPLY ? refusal_told(given_back) : given_back);
    now = before;
    m->most = depth > m->most ? depth : m->most;
    m->calls++;
}

static void put_word(uint8_t *tape, size_t *length, unsigned n)
{
    tape[(*length)++] = (uint8_t)(n >> 8);
    tape[(*length)++] = (uint8_t)n;
}

/* The fleet tape of the table. */
static void make_fleet(bool run)
{
    size_t n = 0;
    now.fleet[n++] = run ? 0x11 : 0x10;
    put_word(now.fleet, &n, now.ticks);
    if (run) {
        now.fleet[n++] = 0x50;
        for (size_t i = 0; i < 4; i++)
            put_word(now.fleet, &n, now.hours[i]);
    }
    for (size_t i = 0; i < now.rows; i++) {
        now.fleet[n++] = (uint8_t)(0x40 + now.marks[i]);
        put_word(now.fleet, &n, now.starts[i]);
        put_word(now.fleet, &n, now.ends[i]);
    }
    now.fleet[n++] = 0x7F;
    now.fleet_length = n;
}

/* The labels of the plan, their words and the plan tape; where the table is refused the labels stay as they are, and
 * there is no tape. */
static void make_plan(bool run)
{
    struct hub_answer answer;
    if (run) {
        hub_plan_run(now.ticks, now.gap, HOURS, TABLE, LABELS, SPACE);
        answer = hub_write_plan_run(now.ticks, now.gap, HOURS, TABLE, LABELS, now.plan, TAPE);
    } else {
        hub_plan_round(now.ticks, now.gap, TABLE, LABELS, SPACE);
        answer = hub_write_plan_round(now.ticks, now.gap, TABLE, LABELS, now.plan, TAPE);
    }
    now.plan_length = answer.count;
    now.label_words = hub_words_of_labels(LABELS);
}

static void measure_player(void)
{
    uint16_t ticks[] = {0, now.starts[0], now.ends[0], (uint16_t)(now.ticks / 2), (uint16_t)(now.ticks - 1), now.ticks, 65535};
    for (size_t i = 0; i < sizeof ticks / sizeof *ticks; i++) {
        now.tick = ticks[i];
        measure(PLAYER_START);
        measure(PLAYER_STEP);
    }
    now.tick = 0;
}

/* Both tapes with a byte changed, and cut short. */
static void measure_damaged(void)
{
    struct given whole = now;
    for (int i = 0; i < 6; i++) {
        now.fleet[below((unsigned)now.fleet_length)] = (uint8_t)below(256);
        if (now.plan_length > 0)
            now.plan[below((unsigned)now.plan_length)] = (uint8_t)below(i < 3 ? 3 : 256);
        if (i % 2 == 1) {
            now.fleet_length = below((unsigned)now.fleet_length + 1);
            now.plan_length = below((unsigned)now.plan_length + 1);
        }
        now.tick = (uint16_t)below(now.ticks + 1u);
        measure(READ_FLEET);
        measure(REPLY);
        measure(PLAYER_START);
        measure(PLAYER_STEP);
        now = whole;
    }
}

static void measure_words(void)
{
    struct given whole = now;
    measure(WORDS_OF_LABELS);
    measure(LABELS_OF_WORDS);
    measure(MUST_OF_MARKS);
    now.labels[now.rows / 2] = 3;
    measure(WORDS_OF_LABELS);
    now.label_words.heard = (uint64_t)1 << 63;
    measure(LABELS_OF_WORDS);
    now.label_words.receiver = 1;
    measure(LABELS_OF_WORDS);
    now = whole;
}

/* Rows added and withdrawn. The last row is added to those before it, and the first, the middle and the last withdrawn; a row that is not held, and rows that were changed beside the held
 * table, so that a withdrawal is refused and moves them back. */
static void measure_held(void)
{
    struct given whole = now;
    size_t rows[] = {0, now.rows / 2, now.rows - (now.rows > 0), now.rows};
    measure(HELD_BEGIN);
    measure(HELD_ADD);
    for (size_t i = 0; i < 4; i++) {
        now.row = rows[i];
        measure(HELD_WITHDRAW);
    }
    now.row = 0;
    now.marks[now.rows - (now.rows > 0)] = 6;
    measure(HELD_WITHDRAW);
    now.held = now.rows;
    measure(HELD_ADD);
    now = whole;
}

/* Every function on what is given, a table of a round and as one of a run. */
static void measure_all(void)
{
    static const enum function of_round[] = {PLAN_ROUND, WRITE_ROUND, TRY_ROUND, CLASH_ROUND}, of_run[] = {PLAN_RUN, WRITE_RUN, TRY_RUN, CLASH_RUN};
    struct given whole = now;
    for (int run = 0; run < 2; run++) {
        make_fleet(run);
        make_plan(run);
        for (size_t i = 0; i < 4; i++)
            measure((run ? of_run : of_round)[i]);
        now.table = now.table_marks = now.rows;
        measure(run ? TRY_RUN : TRY_ROUND);
        measure(READ_FLEET);
        measure(REPLY);
        measure_player();
        measure_damaged();
        measure_words();
        if (!run)
            measure_held();
        now = whole;
    }
}

static void set_numbers(unsigned ticks, unsigned gap, size_t rows, bool uneven)
{
    memset(&now, 0, sizeof now);
    now.ticks = (uint16_t)ticks;
    now.gap = (uint16_t)gap;
    now.hours[0] = uneven ? (uint16_t)(ticks / 4) : 0;
    now.hours[1] = (uint16_t)ticks;
    now.hours[3] = uneven ? (uint16_t)(ticks / 2) : (uint16_t)ticks;
    now.rows = now.labels_length = now.candidates = now.answers = rows;
    now.table = now.table_marks = now.held = rows - (rows > 0);
    now.places = HUB_MOST_ROWS;
    now.out_length = TAPE;
    now.space_length = HUB_SPACE_BYTES;
}

enum marking { MAY, IN_TURN, HALF_MUST, ALL_MUST, MARKINGS };

static uint8_t mark_at(enum marking marking, size_t i)
{
    return (uint8_t)(marking == IN_TURN ? i % 6 : marking == HALF_MUST ? i % 2 : marking == ALL_MUST);
}

/* Rows of one length, each so many ticks after the one before; a length of 0 is all day, and so is that of every
 * other row where `mixed`. */
static void set_table(unsigned gap, size_t rows, unsigned step, unsigned length, bool mixed, enum marking marking)
{
    set_numbers(43200, gap, rows, marking == IN_TURN);
    for (size_t i = 0; i < PLACES; i++) {
        now.starts[i] = (uint16_t)(i * step % 43200);
        now.ends[i] = mixed && i % 2 ? now.starts[i] : (uint16_t)((now.starts[i] + length) % 43200);
        now.marks[i] = mark_at(marking, i);
    }
}

/* Few or many rows heard, windows that cross every cut, all day, nested; with each gap, marking and number of rows. */
static void measure_tables(void)
{
    static const struct { unsigned step, length; bool mixed; } shapes[] = {{600, 900, false}, {600, 900, true}, {300, 6000, false}, {675, 40000, false}, {10, 40000, false}, {675, 0, false}};
    static const unsigned gaps[] = {0, 60, 600};
    static const size_t sizes[] = {0, 1, 8, 63, 64};
    for (size_t s = 0; s < sizeof shapes / sizeof *shapes; s++)
        for (size_t g = 0; g < 3; g++)
            for (size_t n = 0; n < 5; n++)
                for (int m = 0; m < MARKINGS; m++) {
                    set_table(gaps[g], sizes[n], shapes[s].step, shapes[s].length, shapes[s].mixed, (enum marking)m);
                    measure_all();
                }
}

/* Windows at random places, every other time none of them over tick 0, so that a run takes them. */
static void measure_drawn(void)
{
    static const unsigned gaps[] = {0, 60, 600};
    for (int t = 0; t < 300; t++) {
        unsigned ticks = t % 3 ? 43200 : 2 + below(2000), longest = 1 + ticks / (1 + below(40));
        set_numbers(ticks, gaps[below(3)], t % 4 ? 64 : below(65), t % 5 == 0);
        for (size_t i = 0; i < PLACES; i++) {
            unsigned length = 1 + below(longest < ticks ? longest : ticks - 1), start = below(t % 2 ? ticks - length + 1 : ticks);
            now.starts[i] = (uint16_t)start;
            now.ends[i] = (uint16_t)(t % 2 ? start + length : (start + length) % ticks);
            now.marks[i] = (uint8_t)(below(4) ? 0 : below(6));
        }
        measure_all();
    }
}

/* A table with one thing wrong, for each refusal. */
static void measure_refused(void)
{
    struct given whole;
    set_table(60, 64, 600, 900, false, MAY);
    whole = now;
#define WRONG(change) change; measure_all(); now = whole
    WRONG(now.labels_length = 63);                  /* 1 */
    WRONG(now.table_marks = 62);                    /* 1 of a table with candidates */
    WRONG(now.places = 63);                         /* 1 of a reader and of a held table */
    WRONG(now.rows = now.labels_length = 65);       /* 2 */
    WRONG(now.rows = now.held = now.labels_length = 65);
    WRONG(now.space_length = HUB_SPACE_BYTES - 1);  /* 3 */
    WRONG(now.ticks = 1);                           /* 4 */
    WRONG(now.ticks = 43201);                       /* 4 */
    WRONG(now.hours[0] = 43200; now.hours[1] = 0);  /* 5 */
    WRONG(now.hours[3] = 43201);                    /* 5 */
    WRONG(now.gap = 601);                           /* 14 */
    WRONG(now.ends[0] = 43201);                     /* 6 of the first row */
    WRONG(now.starts[63] = 43200);                  /* 6 of the last */
    WRONG(now.marks[0] = 6);                        /* 7 */
    WRONG(now.marks[63] = 255);                     /* 7 */
    WRONG(now.out_length = 391);                    /* 10 */
    WRONG(now.answers = 63);                        /* 16 */
    WRONG(now.candidates = now.answers = 65);       /* 16 */
    /* 9: labels that are no plan */
    memset(now.labels, 1, sizeof now.labels);
    measure(WRITE_ROUND);
    measure(WRITE_RUN);
    /* 8: rows that must be heard all day, of which two can be; the third is added and taken out again, and of four
     * one withdrawn and put back */
    set_table(0, 3, 600, 0, false, ALL_MUST);
    measure_all();
    set_table(0, 4, 600, 0, false, ALL_MUST);
    measure_all();
    /* 8 in a run: three rows of the same window */
    set_table(0, 4, 0, 900, false, ALL_MUST);
    measure_all();
}

int main(void)
{
    size_t calls = 0, deepest = 0;
    int failures = 0;
    set_numbers(43200, 0, 0, false);
    for (size_t f = 0; f < FUNCTIONS; f++)
        measured[f].empty = depth_of(measured[f].call, nothing);
    measure_tables();
    measure_drawn();
    measure_refused();
    for (size_t f = 0; f < FUNCTIONS; f++) {
        printf("measured %zu %s\n", measured[f].most, measured[f].name);
        deepest = measured[f].most > deepest ? measured[f].most : deepest;
        calls += measured[f].calls;
        if (measured[f].gave != measured[f].gives) {
            printf("stack: FAILED: %s gave the refusals %#x, a bit for each, for %#x\n", measured[f].name, (unsigned)measured[f].gave, (unsigned)measured[f].gives);
            failures++;
        }
    }
    printf("measured %zu the deepest and the working space\ncalls %zu\n", deepest + HUB_SPACE_BYTES, calls);
    return failures != 0;
}
