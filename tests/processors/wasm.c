/* Runs a record in WebAssembly; wasm.mjs reads the files, and says what came out. */
#include "calls.h"

enum { ARENA_BYTES = 16777216, RECORD_BYTES = 65536 };

uint64_t arena[ARENA_BYTES / 8];
const size_t arena_words = ARENA_BYTES / 8;
static uint8_t record[RECORD_BYTES];

void make(void (*call)(void)) { call(); }

uint8_t *record_at(void) { return record; }
size_t record_bytes(void) { return RECORD_BYTES; }
int run(size_t length) { return (int)run_record(record, length); }
