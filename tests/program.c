/* Makes the fleet tapes that tests/program runs `hubplan` on: KIND-NUMBER.tape and, with the reply of the proved
 * function hub_reply, KIND-NUMBER.expected. Where the reply is worked out by hand, the function's is compared with that
 * first.
 *
 *   program make FOLDER     makes the tapes
 *   program drip TAPE       writes a tape to a pipe byte by byte, each when the one before has been read
 */
#define _DEFAULT_SOURCE
#include "hubplan.h"

#include <poll.h>
#include <stdio.h>
#include <stdlib.h>
#include <string.h>
#include <sys/ioctl.h>
#include <unistd.h>

#define WINDOW 0x40
#define MUST 0x41
#define WINDOW1 0x42 /* for receiver 1 only */
#define MUST1 0x43
#define WINDOW2 0x44 /* for receiver 2 only */
#define MUST2 0x45
#define STOP 0x7F

struct tape {
    uint8_t bytes[5000];
    size_t length;
};

static const char *folder;
static const char *kind;
static unsigned number;
static unsigned failures;

/* ---- making and keeping tapes ---- */

static void put(struct tape *t, unsigned byte)
{
    t->bytes[t->length++] = (uint8_t)byte;
}

static void put_word(struct tape *t, unsigned word)
{
    put(t, word >> 8);
    put(t, word & 255);
}

static void put_row(struct tape *t, unsigned command, unsigned start, unsigned end)
{
    put(t, command);
    put_word(t, start);
    put_word(t, end);
}

static struct tape round_of(unsigned ticks)
{
    struct tape t = {{0x10}, 1};
    put_word(&t, ticks);
    return t;
}

static struct tape run_of(unsigned ticks, unsigned p1, unsigned q1, unsigned p2, unsigned q2)
{
    struct tape t = {{0x11}, 1};
    put_word(&t, ticks);
    put(&t, 0x50);
    put_word(&t, p1);
    put_word(&t, q1);
    put_word(&t, p2);
    put_word(&t, q2);
    return t;
}

static void keep(const char *suffix, const uint8_t *bytes, size_t length)
{
    char path[1000];
    snprintf(path, sizeof path, "%s/%s-%03u.%s", folder, kind, number, suffix);
    FILE *file = fopen(path, "wb");
    if (!file || fwrite(bytes, 1, length, file) != length || fclose(file) != 0) {
        fprintf(stderr, "program: cannot write %s\n", path);
        exit(2);
    }
}

static void begin_kind(const char *name)
{
    kind = name;
    number = 0;
}

/* Keeps a tape and its reply. `wanted` is the reply or how it begins, where it is known; an empty reply is none of
 * hubplan's. */
static void make(const struct tape *t, const char *wanted)
{
    static uint8_t space[HUB_SPACE_BYTES];
    uint8_t out[HUB_REPLY_BYTES];
    size_t length = hub_reply(t->bytes, t->length, out, sizeof out, space, sizeof space);
    if (length == 0 || length < strlen(wanted) || memcmp(out, wanted, strlen(wanted)) != 0) {
        fprintf(stderr, "program: %s-%03u: hub_reply does not give: %s\n", kind, number, wanted);
        failures++;
    }
    keep("tape", t->bytes, t->length);
    keep("expected", out, length);
    number++;
}

/* The same with STOP. */
static void make_stopped(struct tape t, const char *wanted)
{
    put(&t, STOP);
    make(&t, wanted);
}

/* ---- known tapes ---- */

static struct tape session_rows(void)
{
    struct tape t = round_of(100);
    put_row(&t, WINDOW, 10, 30);
    put_row(&t, WINDOW, 20, 40);
    put_row(&t, WINDOW, 25, 50);
    put_row(&t, WINDOW, 90, 10);
    return t;
}

static void session(void)
{
    begin_kind("session");
    make_stopped(session_rows(), "heard 3\n0 1\n1 2\n2 0\n3 1\n");
    struct tape t = run_of(100, 0, 50, 40, 100);
    put_row(&t, WINDOW, 45, 60);
    put_row(&t, WINDOW, 50, 60);
    put_row(&t, WINDOW, 0, 50);
    make_stopped(t, "heard 2\n0 2\n1 0\n2 1\n");
    t.bytes[t.length - 10] = MUST;
    make_stopped(t, "heard 2\n0 0\n1 2\n2 1\n");
}

/* The session's tape cut before each of its bytes; the first is the empty input. */
static void cuts(void)
{
    struct tape t = session_rows();
    put(&t, STOP);
    begin_kind("cut");
    for (size_t length = t.length, i = 0; i < length; i++) {
        t.length = i;
        make(&t, "refused 11\n");
    }
}

/* Of each three equal windows two can be heard, or, in a run, those that the receivers' hours take. */
static void put_threes(struct tape *t, unsigned rows)
{
    for (unsigned i = 0; i < rows; i++)
        put_row(t, i % 7 ? WINDOW : MUST, i / 3 * 3, i / 3 * 3 + 2);
}

/* 64 rows: some heard, and all, which is the longest reply. */
static void full(void)
{
    begin_kind("full");
    struct tape t = round_of(200);
    put_threes(&t, 64);
    make_stopped(t, "heard 43\n0 1\n1 2\n2 0\n");
    t = run_of(200, 0, 50, 40, 200);
    put_threes(&t, 64);
    make_stopped(t, "heard ");
    t = round_of(43200);
    for (unsigned i = 0; i < 64; i++)
        put_row(&t, WINDOW, 600 * i, 600 * i + 600);
    make_stopped(t, "heard 64\n0 1\n");
    t = run_of(43200, 0, 20000, 10000, 43200);
    for (unsigned i = 0; i < 64; i++)
        put_row(&t, i % 2 ? WINDOW : MUST, 600 * i, 600 * i + 600);
    make_stopped(t, "heard 64\n0 1\n");
}

/* Every length that a tape of the form has up to 404 bytes, each with no byte more and with one: a program that reads less than all of a tape, however much, would
 * take the cut tape for a whole one or the whole for a cut one. Up to 64 rows are planned; beyond, 2, and 11 above 400 bytes. */
static void lengths(void)
{
    begin_kind("length");
    for (unsigned run = 0; run < 2; run++)
        for (unsigned rows = 0; rows <= (run ? 78 : 80); rows++) {
            struct tape t = run ? run_of(300, 0, 300, 0, 300) : round_of(300);
            for (unsigned i = 0; i < rows; i++)
                put_row(&t, WINDOW, i / 3 * 3, i / 3 * 3 + 2);
            make_stopped(t, rows <= 64 ? "heard " : t.length + 1 <= 400 ? "refused 2\n" : "refused 11\n");
            put(&t, STOP);
            make_stopped(t, "refused 11\n");
        }
}

/* So many bytes after the rows of a whole tape of 399 or 398 bytes, and one with rows only. */
static void longer(void)
{
    static const size_t sizes[] = {400, 401, 402, 403, 404, 405, 799, 800, 4096, 5000};
    begin_kind("longer");
    for (size_t i = 0; i < sizeof sizes / sizeof sizes[0]; i++)
        for (unsigned run = 0; run < 2; run++) {
            struct tape t = run ? run_of(300, 0, 300, 0, 300) : round_of(300);
            while (t.length + 5 < 400)
                put_row(&t, WINDOW, 0, 1);
            put(&t, STOP);
            while (t.length < sizes[i])
                put(&t, STOP);
            make(&t, "refused 11\n");
        }
    struct tape t = round_of(300);
    while (t.length + 6 < 5000)
        put_row(&t, WINDOW, 0, 1);
    make_stopped(t, "refused 11\n");
}

/* A round of so many ticks with one window. */
static struct tape one_window(unsigned ticks, unsigned start, unsigned end)
{
    struct tape t = round_of(ticks);
    put_row(&t, WINDOW, start, end);
    return t;
}

/* A round of 10 ticks with up to three rows: a command and a window each. */
static struct tape few_rows(size_t rows, const unsigned commands[], const unsigned windows[][2])
{
    struct tape t = round_of(10);
    for (size_t i = 0; i < rows; i++)
        put_row(&t, commands[i], windows[i][0], windows[i][1]);
    return t;
}

/* Rows that one receiver alone can hear, and the bytes on both sides of the commands of rows. */
static void marks(void)
{
    static const unsigned apart[3][2] = {{0, 2}, {4, 6}, {1, 5}}, chain[3][2] = {{0, 2}, {1, 4}, {3, 6}}, equal[2][2] = {{0, 2}, {0, 2}};
    static const struct {
        size_t rows;
        unsigned commands[3];
        const unsigned (*windows)[2];
        const char *reply;
    } examples[] = {
        {3, {MUST, MUST, MUST}, apart, "heard 3\n0 1\n1 1\n2 2\n"},
        {3, {MUST1, MUST2, MUST}, apart, "refused 8\n"},
        {3, {MUST1, MUST2, WINDOW}, apart, "heard 2\n0 1\n1 2\n2 0\n"},
        {3, {MUST2, MUST2, MUST1}, apart, "heard 3\n0 2\n1 2\n2 1\n"},
        {3, {WINDOW, WINDOW, MUST2}, chain, "heard 3\n0 2\n1 1\n2 2\n"},
        {3, {WINDOW, WINDOW2, MUST2}, chain, "heard 2\n0 1\n1 0\n2 2\n"},
        {2, {WINDOW2, WINDOW}, equal, "heard 2\n0 2\n1 1\n"},
        {2, {WINDOW1, WINDOW1}, equal, "heard 1\n0 1\n1 0\n"},
        {2, {WINDOW2, MUST2}, equal, "heard 1\n0 0\n1 2\n"},
        {2, {MUST1, MUST1}, equal, "refused 8\n"},
        {2, {MUST2, MUST2}, equal, "refused 8\n"},
    };
    /* one row alone, by its command: with both receivers open, and with receiver 1 or 2 closed */
    static const char *const replies[6][3] = {
        {"heard 1\n0 1\n", "heard 1\n0 2\n", "heard 1\n0 1\n"}, {"heard 1\n0 1\n", "heard 1\n0 2\n", "heard 1\n0 1\n"},
        {"heard 1\n0 1\n", "heard 0\n0 0\n", "heard 1\n0 1\n"}, {"heard 1\n0 1\n", "refused 8\n", "heard 1\n0 1\n"},
        {"heard 1\n0 2\n", "heard 1\n0 2\n", "heard 0\n0 0\n"}, {"heard 1\n0 2\n", "heard 1\n0 2\n", "refused 8\n"},
    };
    begin_kind("marks");
    for (size_t i = 0; i < sizeof examples / sizeof examples[0]; i++)
        make_stopped(few_rows(examples[i].rows, examples[i].commands, examples[i].windows), examples[i].reply);
    for (unsigned command = WINDOW - 1; command <= MUST2 + 1; command++)
        for (unsigned closed = 0; closed < 3; closed++) {
            struct tape t = run_of(10, 0, closed == 1 ? 0 : 10, 0, closed == 2 ? 0 : 10);
            put_row(&t, command, 1, 2);
            make_stopped(t, command < WINDOW || command > MUST2 ? "refused 11\n" : replies[command - WINDOW][closed]);
        }
}

/* Rows that send all day: in a round, start equal to end covers every tick. */
static void all_day_examples(void)
{
    static const unsigned three[3][2] = {{3, 3}, {7, 7}, {0, 0}}, one[3][2] = {{3, 3}, {0, 2}, {5, 8}}, two[3][2] = {{3, 3}, {8, 8}, {5, 6}};
    static const struct {
        unsigned commands[3];
        const unsigned (*windows)[2];
        const char *reply;
    } examples[] = {
        {{WINDOW, WINDOW, WINDOW}, three, "heard 2\n0 1\n1 2\n2 0\n"},
        {{WINDOW, WINDOW, MUST}, three, "heard 2\n0 1\n1 0\n2 2\n"},
        {{MUST, WINDOW, WINDOW}, one, "heard 3\n0 1\n1 2\n2 2\n"},
        {{MUST2, WINDOW, WINDOW}, one, "heard 3\n0 2\n1 1\n2 1\n"},
        {{MUST1, WINDOW, MUST1}, one, "refused 8\n"},
        {{MUST, MUST, WINDOW}, two, "heard 2\n0 1\n1 2\n2 0\n"},
        {{MUST, MUST, MUST}, two, "refused 8\n"},
    };
    for (size_t i = 0; i < sizeof examples / sizeof examples[0]; i++)
        make_stopped(few_rows(3, examples[i].commands, examples[i].windows), examples[i].reply);
}

/* R, a start that is the end too, and the replies in a round and in a run. */
static void all_day_edges(void)
{
    static const struct {
        unsigned ticks, start;
        const char *replies[2];
    } edges[] = {
        {2, 0, {"heard 1\n0 1\n", "refused 6\n"}},         {2, 1, {"heard 1\n0 1\n", "refused 6\n"}},
        {2, 2, {"refused 6\n", "refused 6\n"}},             {100, 50, {"heard 1\n0 1\n", "refused 6\n"}},
        {43200, 43199, {"heard 1\n0 1\n", "refused 6\n"}}, {43200, 43200, {"refused 6\n", "refused 6\n"}},
    };
    for (size_t i = 0; i < 2 * sizeof edges / sizeof edges[0]; i++) {
        unsigned ticks = edges[i / 2].ticks, start = edges[i / 2].start;
        struct tape t = i % 2 ? run_of(ticks, 0, ticks, 0, ticks) : round_of(ticks);
        put_row(&t, WINDOW, start, start);
        make_stopped(t, edges[i / 2].replies[i % 2]);
    }
}

static void all_day(void)
{
    begin_kind("all-day");
    all_day_examples();
    all_day_edges();
}

/* Windows that touch, P7, P11 and a run: "`hubplan` uses 0" as the gap, and with 1 the second row would be on
 * receiver 2. */
static void gaps(void)
{
    static const unsigned commands[2] = {WINDOW, WINDOW}, p7[2][2] = {{8, 2}, {2, 8}};
    begin_kind("gap");
    make_stopped(few_rows(2, commands, p7), "heard 2\n0 1\n1 1\n");
    struct tape t = one_window(2, 0, 1);
    put_row(&t, WINDOW, 1, 0);
    make_stopped(t, "heard 2\n0 1\n1 1\n");
    t = run_of(10, 0, 10, 0, 10);
    put_row(&t, WINDOW, 0, 5);
    put_row(&t, WINDOW, 5, 10);
    make_stopped(t, "heard 2\n0 1\n1 1\n");
}

/* The replies of the planner's refusals, with the nearest tapes that are taken. A tape has no mark above 5, so 7
 * cannot come. */
static void refused(void)
{
    begin_kind("refusal");
    make_stopped(one_window(1, 0, 1), "refused 4\n");
    make_stopped(one_window(2, 0, 1), "heard 1\n0 1\n");
    make_stopped(one_window(43200, 0, 43199), "heard 1\n0 1\n");
    make_stopped(one_window(43201, 0, 1), "refused 4\n");
    make_stopped(run_of(100, 51, 50, 0, 100), "refused 5\n");
    make_stopped(run_of(100, 50, 50, 0, 100), "heard 0\n");
    make_stopped(run_of(100, 0, 100, 0, 101), "refused 5\n");
    make_stopped(one_window(100, 0, 100), "refused 6\n");
    struct tape t = run_of(100, 0, 100, 0, 100);
    put_row(&t, WINDOW, 0, 100);
    make_stopped(t, "heard 1\n0 1\n");
    t.bytes[0] = 0x10;
    make_stopped(t, "refused 11\n");
    t = session_rows();
    for (size_t i = 3; i < 18; i += 5)
        t.bytes[i] = MUST;
    make_stopped(t, "refused 8\n");
    t.bytes[3] = WINDOW;
    make_stopped(t, "heard 3\n");
}

/* ---- pseudo-random tapes, the same ones at each run ---- */

static uint64_t state = 20260101;

static unsigned below(unsigned limit)
{
    state = state * 6364136223846793005u + 1442695040888963407u;
    return (unsigned)(state >> 33) % limit;
}

/* A tape of the form. Most are of tables that are taken: an end at R in a round, or at the start in a run, is rare.
 * In a round some rows send all day. */
static struct tape random_tape(void)
{
    unsigned ticks = 2 + below(below(2) ? 40 : 2000), run = below(2), rows = below(65), musts = below(3), all_day = 2 + below(30);
    unsigned q1 = below(ticks + 1), p2 = below(ticks);
    struct tape t = run ? run_of(ticks, below(q1 + 1), q1, p2, p2 + below(ticks - p2 + 1)) : round_of(ticks);
    for (unsigned i = 0; i < rows; i++) {
        unsigned start = below(ticks), length = below(all_day) ? 1 + below(ticks - 1) : ticks, end = start + length;
        if (run)
            end = end > ticks ? ticks : end;
        else
            end = end % ticks;
        if (below(2000) == 0)
            end = run ? start : ticks;
        unsigned must = below(40) < musts, receiver = below(4) ? 0 : 1 + below(2); /* 0 for either */
        put_row(&t, (must ? MUST : WINDOW) + 2 * receiver, start, end);
    }
    put(&t, STOP);
    return t;
}

static void random_tapes(void)
{
    begin_kind("random");
    while (number < 200) {
        struct tape t = random_tape();
        make(&t, "");
    }
}

/* One byte changed, left out or put in, or the end cut off. */
static void damage(struct tape *t)
{
    size_t at = below((unsigned)t->length);
    switch (below(4)) {
    case 0:
        t->bytes[at] ^= (uint8_t)(1u << below(8));
        break;
    case 1:
        memmove(t->bytes + at, t->bytes + at + 1, --t->length - at);
        break;
    case 2:
        memmove(t->bytes + at + 1, t->bytes + at, t->length++ - at);
        break;
    default:
        t->length = at;
    }
}

static void damaged_tapes(void)
{
    begin_kind("damaged");
    while (number < 200) {
        struct tape t = random_tape();
        damage(&t);
        make(&t, "");
    }
}

/* ---- the pipe ---- */

/* Waits until the pipe is empty; false where nobody reads it any more. */
static bool is_taken(void)
{
    struct pollfd pipe_end = {1, 0, 0};
    for (int unread = 1; ioctl(1, FIONREAD, &unread) == 0;) {
        if (unread == 0)
            return true;
        if (poll(&pipe_end, 1, 0) != 0)
            return false;
        usleep(20);
    }
    return false;
}

static int drip(const char *path)
{
    FILE *file = fopen(path, "rb");
    if (!file)
        return 2;
    for (int byte; (byte = getc(file)) != EOF;) {
        char one = (char)byte;
        if (write(1, &one, 1) != 1 || !is_taken())
            return 1;
    }
    return 0;
}

int main(int count, char **words)
{
    if (count != 3)
        return 2;
    if (strcmp(words[1], "drip") == 0)
        return drip(words[2]);
    folder = words[2];
    session();
    cuts();
    full();
    lengths();
    longer();
    marks();
    all_day();
    gaps();
    refused();
    random_tapes();
    damaged_tapes();
    return failures != 0;
}
