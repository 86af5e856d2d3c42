/* Calls of the library from records (tests/portable/src/written.rs), on any processor. */
#ifndef CALLS_H
#define CALLS_H

#include <stddef.h>
#include <stdint.h>

/* Where the lists of a call lie; each program has it in its own memory. */
extern uint64_t arena[];
extern const size_t arena_words;

/* Each program makes the call, and may measure it. */
void make(void (*call)(void));

/* A record's function is below it. */
enum { FUNCTIONS = 19 };
extern const char *const function_names[FUNCTIONS];

enum outcome { SAME, ANSWER_DIFFERS, LIST_DIFFERS, NOT_READ };

/* Makes the call of a record, without the four bytes of its length, and compares the answer and every list with what the record says. */
enum outcome run_record(const uint8_t *record, size_t length);

/* The function of a record, and the length of its name, which follows these two bytes. */
enum { RECORD_FUNCTION = 0, RECORD_NAME_LENGTH = 1, RECORD_NAME = 2 };

#endif
