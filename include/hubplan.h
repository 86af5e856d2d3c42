/* The hub planner for C. `tools/build library` proves the library and writes it, target/staticlib/libhub_c.a (x86-64
 * Linux). For other processors `tools/portable` writes the proved sources as plain Rust, with these functions;
 * docs/PORTABLE.md says what is proved of that.
 *
 * Proved is, of each function of the library, that on every input it ends and gives what a definition says: its
 * result, and what then stands in each list that it writes. The contracts are in crates/hub_c/src, the definitions
 * in the specs/ of each crate, and docs/PROOFS.md names the theorems about them. The comments here say the same in
 * words. Not proved are these comments, the declarations, and the functions hub_table_begin, hub_table_changed,
 * hub_table_add and hub_table_withdraw, which are no part of the library: their code is below. tests/header.c tests
 * the declarations and all functions as they stand here.
 *
 * What a caller owes, since C cannot say it:
 * - each list is the address of its first element and its length in elements; the address is not NULL, also where
 *   the length is 0, and is aligned for its type;
 * - a list that is written overlaps no other list of the same call.
 *
 * Nothing is allocated, kept or shared between calls. */
#ifndef HUBPLAN_H
#define HUBPLAN_H

#include <stdbool.h>
#include <stddef.h>
#include <stdint.h>

#ifdef __cplusplus
extern "C" {
#endif

/* Refusals, by their numbers (docs/RULES.md, Refusals). Each function has an order of refusals, and gives the first of
 * them that applies. */
enum hub_refusal {
    HUB_ACCEPTED = 0,
    HUB_LISTS = 1,       /* lists differ in length; in hub_read_fleet and of a held table, one has not 64 places */
    HUB_ROWS = 2,        /* more than 64 rows, with the one that is added or tried */
    HUB_SPACE = 3,       /* working space shorter than HUB_SPACE_BYTES */
    HUB_TICKS = 4,       /* ticks outside 2 to 43,200 */
    HUB_HOURS = 5,       /* open hours wrong: p above q, or q above ticks (run only) */
    HUB_WINDOW = 6,      /* a window that breaks the rules of a round or a run (hub_plan_round, hub_plan_run) */
    HUB_MARK = 7,        /* a mark above 5 */
    HUB_NO_PLAN = 8,     /* no plan exists */
    HUB_NOT_PLAN = 9,    /* labels offered to the writer are no plan; labels or words of bits that cannot be carried */
    HUB_BUFFER = 10,     /* plan tape buffer shorter than the tape */
    HUB_FORM = 11,       /* not of the form of a fleet tape; in hub_reply, longer than HUB_FLEET_TAPE_BYTES, too */
    HUB_TAPE = 12,       /* not a plan tape that the writer can write, for any table and labels */
    HUB_FIRST_TICK = 13, /* first tick of a player not below the tape's ticks */
    HUB_GAP = 14,        /* gap above 600 */
    HUB_NO_ROW = 15,     /* row to be withdrawn not in the held table */
    HUB_CANDIDATES = 16  /* lists of candidates and answers differ in length, or have more than 64 places */
};

enum {
    HUB_MOST_ROWS = 64,
    HUB_MOST_CANDIDATES = 64,
    HUB_MOST_GAP = 600,
    HUB_SPACE_BYTES = 4608,     /* the shortest working space, and how many of its bytes are cleared where any are */
    HUB_PLAN_TAPE_BYTES = 392,  /* the longest plan tape: 8 + 6 * 64 */
    HUB_FLEET_TAPE_BYTES = 400, /* the longest tape that hub_reply reads */
    HUB_REPLY_BYTES = 400       /* the room for its output that hub_reply asks for */
};

/* The mark of a row: whether it may or must be heard, and by which receivers; so, which labels it allows. */
enum hub_mark {
    HUB_MAY = 0,    /* may be heard, by either receiver: label 0, 1 or 2 */
    HUB_MUST = 1,   /* must be heard, by either receiver: label 1 or 2 */
    HUB_MAY_1 = 2,  /* may be heard, by receiver 1 only: label 0 or 1 */
    HUB_MUST_1 = 3, /* must be heard, by receiver 1 only: label 1 */
    HUB_MAY_2 = 4,  /* may be heard, by receiver 2 only: label 0 or 2 */
    HUB_MUST_2 = 5  /* must be heard, by receiver 2 only: label 2 */
};

/* What a call reports: the refusal, 0 for accepted, and the count, which is 0 on a refusal. */
struct hub_answer {
    uint8_t refusal;
    size_t count;
};

/* Plans a round of `ticks` ticks. A table is starts, ends and marks, a row at each place; labels are one a row.
 *
 * A window's start and end are below ticks, else it is refused 6. It covers start and the ticks after it, 0 after
 * ticks - 1, and stops before end. Start equal to end covers every tick: a beacon that sends all day, whose window
 * overlaps every other. Two windows overlap exactly if some tick lies in both.
 *
 * A receiver needs `gap` ticks between two different windows. Two windows are too close exactly if they overlap or
 * have fewer than `gap` ticks between them, on either side of the round; windows that touch have 0 between them.
 *
 * Labels say of each row who hears it: 1 and 2 are the receivers, 0 is not heard. They are a plan of the table
 * exactly if each is one that the row's mark allows (enum hub_mark), and no two rows of one receiver are too close.
 * One row alone needs no gap.
 *
 * Order: 1, 2, 3, 4, 14, then 6 and 7 row by row, at last 8. Where none before 8 applies, the call is accepted if
 * the table has a plan, and refused 8 if it has none.
 * Accepted: the labels are a plan. No plan hears more rows, and of those that hear as many this one comes first: of
 * two label lists the first row with different labels decides, and there 1 is the earlier, then 2, then 0. The count
 * is how many rows it hears. The first HUB_SPACE_BYTES of the working space are cleared to zero, bytes beyond are
 * untouched.
 * 8: labels are untouched, the same part of the working space is cleared.
 * Any other refusal: labels and working space are untouched.
 * What labels and working space held before, and how many bytes are lent beyond HUB_SPACE_BYTES, makes no difference
 * to refusal and count, nor to the labels of an accepted call. */
struct hub_answer hub_plan_round(uint16_t ticks, uint16_t gap,
                                 const uint16_t *starts, size_t starts_length,
                                 const uint16_t *ends, size_t ends_length,
                                 const uint8_t *marks, size_t marks_length,
                                 uint8_t *labels, size_t labels_length,
                                 uint8_t *space, size_t space_length);

/* Plans a run of `ticks` ticks in which receiver 1 is open from p1 to q1 and receiver 2 from p2 to q2.
 *
 * A window's start is below its end, and its end at most ticks, else it is refused 6. It covers start to end - 1. No
 * gap is counted from the last window on to the first, nor between a window and the hours. A receiver hears a window
 * only if it lies within p to q, p <= start and end <= q: a plan keeps to this, too. All else is as in
 * hub_plan_round. Order: 1, 2, 3, 4, 5, 14, then 6 and 7 row by row, at last 8. */
struct hub_answer hub_plan_run(uint16_t ticks, uint16_t gap, uint16_t p1, uint16_t q1, uint16_t p2, uint16_t q2,
                               const uint16_t *starts, size_t starts_length,
                               const uint16_t *ends, size_t ends_length,
                               const uint8_t *marks, size_t marks_length,
                               uint8_t *labels, size_t labels_length,
                               uint8_t *space, size_t space_length);

/* Writes the plan tape of a round and labels (docs/RULES.md, Plan tapes).
 *
 * Order: 1, 2, 4, 14, then 6 and 7 row by row, at last 9, 10. Where none before 9 applies, it is 9 exactly if
 * the labels are no plan of the table with this gap; and 10 exactly if they are one and the buffer `tape` has fewer
 * than 8 + 6 * heard rows bytes.
 * Accepted: the tape stands at the front of the buffer, 8 + 6 * heard rows bytes, the bytes after it are untouched, and
 * the count is the tape's length. On a refusal the buffer is untouched. */
struct hub_answer hub_write_plan_round(uint16_t ticks, uint16_t gap,
                                       const uint16_t *starts, size_t starts_length,
                                       const uint16_t *ends, size_t ends_length,
                                       const uint8_t *marks, size_t marks_length,
                                       const uint8_t *labels, size_t labels_length,
                                       uint8_t *tape, size_t tape_length);

/* The same for a run, whose plans keep to the hours. Order: 1, 2, 4, 5, 14, then 6 and 7 row by row, at last 9, 10. */
struct hub_answer hub_write_plan_run(uint16_t ticks, uint16_t gap, uint16_t p1, uint16_t q1, uint16_t p2, uint16_t q2,
                                     const uint16_t *starts, size_t starts_length,
                                     const uint16_t *ends, size_t ends_length,
                                     const uint8_t *marks, size_t marks_length,
                                     const uint8_t *labels, size_t labels_length,
                                     uint8_t *tape, size_t tape_length);

/* What the fleet tape reader reports: the refusal, whether the tape is of a run, ticks, the open hours (all 0 in a
 * round) and the number of rows. On a refusal all else is 0 and false. */
struct hub_report {
    uint8_t refusal;
    bool run;
    uint16_t ticks;
    uint16_t p1;
    uint16_t q1;
    uint16_t p2;
    uint16_t q2;
    size_t rows;
};

/* Reads a fleet tape into lists of 64 places each. It looks at the form alone; what the numbers mean the planner
 * checks.
 *
 * A fleet tape is, in hexadecimal: 10 and ticks for a round, or 11 and ticks, 50, p1, q1, p2 and q2 for a run; then
 * for each row, in order, 40 to 45 for marks 0 to 5, start and end; then 7F as the last byte. Each number is two
 * bytes, the high one first.
 *
 * Order: 1 for a list that has other than 64 places; 11 for bytes that are no fleet tape; 2 for a tape of more than
 * 64 rows. Accepted: starts, ends and marks hold the rows of the tape at the first places, the other places are
 * untouched. On a refusal all places are untouched. */
struct hub_report hub_read_fleet(const uint8_t *tape, size_t tape_length,
                                 uint16_t *starts, size_t starts_length,
                                 uint16_t *ends, size_t ends_length,
                                 uint8_t *marks, size_t marks_length);

/* Reads a fleet tape, plans it with a gap of 0, and writes lines to the front of `out`: "heard" and the count, and for
 * each row a line with number and label; or the line "refused" with the number. Returns how many bytes it wrote.
 * With a working space of HUB_SPACE_BYTES or more they are what the program `hubplan` prints for the tape.
 *
 * Where `out` is shorter than HUB_REPLY_BYTES the result is 0, and `out` and working space are untouched. Else the
 * refusals, in order: 11 for a tape longer than HUB_FLEET_TAPE_BYTES, then 11 and 2 of the tape as in
 * hub_read_fleet, then those of the planner from 3 on; of these 3 is for a working space shorter than
 * HUB_SPACE_BYTES here, too. The rest of `out` is untouched. The working space is left as the planner leaves it, and
 * untouched where a refusal of the tape comes first. */
size_t hub_reply(const uint8_t *tape, size_t tape_length,
                 uint8_t *out, size_t out_length,
                 uint8_t *space, size_t space_length);

/* A player of a plan tape: the tick of its next step. On a tape whose ticks are not above it the player is finished. It
 * is all that there is to keep between two steps, and the caller keeps it; the tape is lent at each step. */
struct hub_player {
    uint16_t tick;
};

/* What a receiver does at a tick: it listens to a row until a tick, which is the window's end as taped, or it is idle.
 * Row and until are 0 where it is idle. Of a window that covers every tick the end is told at every tick, at the end
 * itself too. */
struct hub_receiver {
    bool listening;
    uint8_t row;
    uint16_t until;
};

/* What a start gives: the refusal and the player. */
struct hub_started {
    uint8_t refusal;
    struct hub_player player;
};

/* What a step gives: whether the player is finished, what each receiver does at the step's tick (idle where the player
 * is finished), and the player of the next step. */
struct hub_stepped {
    bool finished;
    struct hub_receiver receiver1;
    struct hub_receiver receiver2;
    struct hub_player player;
};

/* Starts a player on a plan tape, at the tick `first`.
 *
 * Order: 12, 13. Accepted exactly if the writer can write these bytes, all of them, for some table and labels with a
 * gap of 0 (of a run, with hours 0 to ticks), and `first` is below the ticks of the tape. So a tape that the writer
 * wrote with any gap and hours is taken. Accepted: the player's tick is `first`, and its steps follow the tape, as
 * hub_player_step says. On a refusal the player's tick is 65,535, so it is finished on every tape. */
struct hub_started hub_player_start(const uint8_t *tape, size_t tape_length, uint16_t first);

/* A step of a player: tells what each receiver does at the player's tick, and moves on by one tick.
 *
 * From an accepted start, on the same bytes, with the player that the start or the step before gave: step n, counted
 * from 0, is at tick first + n, in a round modulo ticks, as long as the player is not finished. A receiver listens to a
 * row until a tick exactly if one of its LISTENs has this row and this end and its window covers the tick of the step,
 * and is idle if none does. In a round the player is never finished. In a run it is finished after tick ticks - 1. A
 * step of a finished player says finished and gives the player as it was.
 *
 * The form of the tape, the order and the rows are not judged again. On any bytes and with any player a step does this:
 * the player is finished, unless ROUND or RUN stands first and the player's tick is below its ticks. If a RECEIVER
 * comes next, whatever its number, the LISTENs after it are those of receiver 1; if another comes then, the LISTENs
 * after it are those of receiver 2. A command that is cut short is none, and what stands after these is not looked at.
 * Of a receiver's LISTENs whose window breaks no rule (refusal 6) and covers the tick the last is told. The next tick
 * is one more, and in a round 0 after ticks - 1. */
struct hub_stepped hub_player_step(const uint8_t *tape, size_t tape_length, struct hub_player player);

/* The numbers of a held table: ticks and gap of its round, how many rows it has, and how many of them its plan hears.
 * Rows and plan lie in four lists of HUB_MOST_ROWS places, starts, ends, marks and labels, of which the first `rows`
 * places count. The caller keeps numbers and lists, and hands them to each call. */
struct hub_held_numbers {
    uint16_t ticks;
    uint16_t gap;
    size_t rows;
    size_t count;
};

/* What a begin gives: the refusal and the numbers. */
struct hub_held_begun {
    uint8_t refusal;
    struct hub_held_numbers numbers;
};

/* What a change gives: the refusal, the count of the plan that is then held, 0 on a refusal, and the numbers; on a
 * refusal these are the numbers that were handed over. */
struct hub_held_change {
    uint8_t refusal;
    size_t count;
    struct hub_held_numbers numbers;
};

/* Begins a held table of a round: no rows, count 0, in any lists, as no place of an empty table counts. A refusal gives
 * the numbers of an empty table of 2 ticks and gap 0. Order: 4, 14. */
struct hub_held_begun hub_held_begin(uint16_t ticks, uint16_t gap);

/* Adds a row after the last one and plans the whole table.
 *
 * Of held tables that came from these calls, so of numbers that the call before gave, an accepted or a refused one,
 * with the lists as it left them:
 * Order: 1 where a list has other than HUB_MOST_ROWS places, 2 where 64 rows are held, 3, 6 and then 7 of the row,
 * then 8 where the table with it has no plan.
 * Accepted: the row stands at the place `rows` of starts, ends and marks, the labels of all rows are those that
 * hub_plan_round gives for the table with it, so labels of other rows can change, and the numbers have one row more
 * and the new count. The other places are untouched.
 * A refusal changes neither table nor plan: after it all places of all lists hold what they held before. The first
 * HUB_SPACE_BYTES of the working space are cleared where the call is accepted and on 8, else it is untouched; bytes
 * beyond are always untouched.
 *
 * With any other numbers and lists: 1; 2 where `rows` is above 63; then refusal and count are what hub_plan_round
 * gives for the table with the row, with all of its checks from 3 on, so 4, 14 and other rows' 6 and 7 too. What is
 * then in numbers, lists and working space is as above. */
struct hub_held_change hub_held_add(struct hub_held_numbers numbers,
                                    uint16_t *starts, size_t starts_length,
                                    uint16_t *ends, size_t ends_length,
                                    uint8_t *marks, size_t marks_length,
                                    uint8_t *labels, size_t labels_length,
                                    uint16_t start, uint16_t end, uint8_t mark,
                                    uint8_t *space, size_t space_length);

/* Withdraws a row by its number, counted from 0, and plans the whole table.
 *
 * Of held tables that came from these calls, as hub_held_add says:
 * Order: 1 where a list has other than HUB_MOST_ROWS places, 3, 15. It is never 8.
 * Accepted: the later rows have moved up one, the labels of all rows are those that hub_plan_round gives for the table
 * without the row, so labels of other rows can change, and the numbers have one row less and the new count. The place
 * that falls free is untouched in all four lists: it holds the row that was the last, and the label that this row had.
 * So is every place after it.
 * Refusals and working space are as in hub_held_add.
 *
 * With any other numbers and lists: 1, 3, 15; 2 where `rows` is above 64; then refusal and count are what
 * hub_plan_round gives for the table without the row, with all of its checks, so 4, 14, other rows' 6 and 7, and 8 too.
 * What is then in numbers, lists and working space is as above. */
struct hub_held_change hub_held_withdraw(struct hub_held_numbers numbers,
                                         uint16_t *starts, size_t starts_length,
                                         uint16_t *ends, size_t ends_length,
                                         uint8_t *marks, size_t marks_length,
                                         uint8_t *labels, size_t labels_length,
                                         size_t row,
                                         uint8_t *space, size_t space_length);

/* A held table whole, for a caller in C: numbers and lists. hub_table_begin comes first; what the lists hold before it
 * makes no difference to the table and its plan. */
struct hub_held_table {
    struct hub_held_numbers numbers;
    uint16_t starts[HUB_MOST_ROWS];
    uint16_t ends[HUB_MOST_ROWS];
    uint8_t marks[HUB_MOST_ROWS];
    uint8_t labels[HUB_MOST_ROWS];
};

/* hub_held_begin for a whole table, whose lists it leaves alone. Gives the refusal. */
static inline uint8_t hub_table_begin(struct hub_held_table *table, uint16_t ticks, uint16_t gap)
{
    struct hub_held_begun begun = hub_held_begin(ticks, gap);
    table->numbers = begun.numbers;
    return begun.refusal;
}

/* For the two functions below: a change's numbers go to the table, its refusal and count to the caller. */
static inline struct hub_answer hub_table_changed(struct hub_held_table *table, struct hub_held_change change)
{
    struct hub_answer answer = {change.refusal, change.count};
    table->numbers = change.numbers;
    return answer;
}

/* hub_held_add for a whole table. */
static inline struct hub_answer hub_table_add(struct hub_held_table *table, uint16_t start, uint16_t end, uint8_t mark,
                                              uint8_t *space, size_t space_length)
{
    struct hub_held_change change = hub_held_add(table->numbers, table->starts, HUB_MOST_ROWS,
                                                 table->ends, HUB_MOST_ROWS, table->marks, HUB_MOST_ROWS,
                                                 table->labels, HUB_MOST_ROWS, start, end, mark, space, space_length);
    return hub_table_changed(table, change);
}

/* hub_held_withdraw for a whole table. */
static inline struct hub_answer hub_table_withdraw(struct hub_held_table *table, size_t row,
                                                   uint8_t *space, size_t space_length)
{
    struct hub_held_change change = hub_held_withdraw(table->numbers, table->starts, HUB_MOST_ROWS,
                                                      table->ends, HUB_MOST_ROWS, table->marks, HUB_MOST_ROWS,
                                                      table->labels, HUB_MOST_ROWS, row, space, space_length);
    return hub_table_changed(table, change);
}

/* What trying candidates reports: the refusal, and how many rows were looked at, of the table and of the candidates. A
 * refusal can have looked at some, too. */
struct hub_tried {
    uint8_t refusal;
    size_t rows;
};

/* Tries candidate windows against the table of a round, up to HUB_MOST_CANDIDATES of them: a window and a mark at each
 * place of the three candidate lists.
 *
 * Order: 1 (starts, ends and marks), 2, 3, 16, 4, 14, then 6 and 7 of the table row by row, at last 8. Where none
 * before 8 applies, the call is accepted if the table alone has a plan, and refused 8 if it has none.
 *
 * Accepted: every place of numbers and counts is filled with a candidate's answer. Each candidate is tried alone,
 * and its answer is what hub_plan_round would give for the table with the candidate as one more row, the last, that
 * must be heard: the refusal's number, 0 for accepted, and the count. The candidate's mark is checked as it is lent,
 * and 0, 2 and 4 then stand for 1, 3 and 5 (HUB_MUST, HUB_MUST_1, HUB_MUST_2). So beside fewer than 64 rows the
 * number is 6 or 7 where the candidate's window or mark is refused so, 8 where the table with it has no plan, all
 * with count 0, and else 0 with the count of the plan, the candidate included; the rows looked at are those of the
 * table and the candidates. A table of 64 rows has no place for another: it is checked and planned like any other,
 * but no candidate is looked at, each is answered 2 with count 0, and the rows looked at are 64.
 * A refusal leaves numbers and counts untouched; the rows looked at are k + 1 where row k of the table is refused 6
 * or 7, all rows of the table on 8, and 0 on any other.
 * The first HUB_SPACE_BYTES of the working space are cleared where the call is accepted and on 8, untouched
 * otherwise; bytes beyond are always untouched. What numbers, counts and working space held before makes no
 * difference to what is reported, nor to the answers of an accepted call. */
struct hub_tried hub_try_candidates_round(uint16_t ticks, uint16_t gap,
                                          const uint16_t *starts, size_t starts_length,
                                          const uint16_t *ends, size_t ends_length,
                                          const uint8_t *marks, size_t marks_length,
                                          const uint16_t *candidate_starts, size_t candidate_starts_length,
                                          const uint16_t *candidate_ends, size_t candidate_ends_length,
                                          const uint8_t *candidate_marks, size_t candidate_marks_length,
                                          uint8_t *numbers, size_t numbers_length,
                                          uint8_t *counts, size_t counts_length,
                                          uint8_t *space, size_t space_length);

/* The same for a run, in which receiver 1 is open from p1 to q1 and receiver 2 from p2 to q2: each answer is what
 * hub_plan_run would give. Order: 1, 2, 3, 16, 4, 5, 14, then 6 and 7 of the table row by row, at last 8. */
struct hub_tried hub_try_candidates_run(uint16_t ticks, uint16_t gap,
                                        uint16_t p1, uint16_t q1, uint16_t p2, uint16_t q2,
                                        const uint16_t *starts, size_t starts_length,
                                        const uint16_t *ends, size_t ends_length,
                                        const uint8_t *marks, size_t marks_length,
                                        const uint16_t *candidate_starts, size_t candidate_starts_length,
                                        const uint16_t *candidate_ends, size_t candidate_ends_length,
                                        const uint8_t *candidate_marks, size_t candidate_marks_length,
                                        uint8_t *numbers, size_t numbers_length,
                                        uint8_t *counts, size_t counts_length,
                                        uint8_t *space, size_t space_length);

/* One bit per row: bit i of a 64-bit word, which is worth 2 to the i, is row i's. In every word that is given, bits
 * beyond the rows are 0. */

/* What labels are as words: the refusal, and the number heard and the two words, which are 0 on a refusal. */
struct hub_label_words {
    uint8_t refusal;
    size_t count;
    uint64_t heard;
    uint64_t receiver;
};

/* What marks are as a word: the refusal and the word, which is 0 on a refusal. */
struct hub_must_word {
    uint8_t refusal;
    uint64_t word;
};

/* The words of labels, of which there is one a row.
 *
 * Order: 2, then 9 for a label above 2. So it is accepted exactly if there are up to HUB_MOST_ROWS labels, each 0, 1 or
 * 2: no table is asked, and they need be no plan.
 * Accepted: a heard bit is 1 exactly if the label is 1 or 2, a receiver bit exactly if it is 2, so this is 0 for
 * receiver 1 and for a row not heard. The count is the number heard, which is the number of ones of the heard word.
 * hub_labels_of_words gives the same labels back. */
struct hub_label_words hub_words_of_labels(const uint8_t *labels, size_t labels_length);

/* The labels of words. The row count is the length of the lent list.
 *
 * Order: 2, then 9 where a receiver bit lacks its heard bit, or either word has a bit beyond the list's rows. So it is
 * accepted exactly if the list has up to HUB_MOST_ROWS places and the words are those of some labels of so many rows.
 * Accepted: each place of the list is written, 0 where the heard bit is 0, else 1 or 2 by the receiver bit. The count
 * is the number heard. hub_words_of_labels gives the same words back. On a refusal the list is untouched. */
struct hub_answer hub_labels_of_words(uint64_t heard, uint64_t receiver, uint8_t *labels, size_t labels_length);

/* The must word of marks, of which there is one a row. Refusal 2 exactly if there are more than HUB_MOST_ROWS marks.
 * Accepted: a bit is 1 exactly for marks 1, 3 and 5. No mark is refused, and one above 5 has bit 0. Marks are not
 * converted back. */
struct hub_must_word hub_must_of_marks(const uint8_t *marks, size_t marks_length);

/* The clash words of a round, one for each row. Gives the refusal.
 *
 * Order: 1 (starts, ends and words), 2, 4, 14, then the rows from 0, each for 6. On a refusal words are untouched.
 * Accepted: each place of words is written, and what it held before makes no difference. Bit j of row i's word is 1
 * exactly if i and j are different rows whose windows overlap or have fewer than `gap` ticks between them, on either
 * side of the round, so that no receiver can hear both. A row's own bit is 0, and bit j of row i's word is bit i of row
 * j's. Marks and hours make no difference, and none are lent. */
uint8_t hub_clash_words_round(uint16_t ticks, uint16_t gap,
                              const uint16_t *starts, size_t starts_length,
                              const uint16_t *ends, size_t ends_length,
                              uint64_t *words, size_t words_length);

/* The same for a run: with the windows of a run, and no gap counted from the last window on to the first. */
uint8_t hub_clash_words_run(uint16_t ticks, uint16_t gap,
                            const uint16_t *starts, size_t starts_length,
                            const uint16_t *ends, size_t ends_length,
                            uint64_t *words, size_t words_length);

#ifdef __cplusplus
}
#endif

#endif
