/* Runs files of records on a Cortex-M3, over semihosting; the words of its command line name them. Prints how many calls differ, how deep the
 * stack went in each function, and how many instructions each call with a name took. Ends with status 1 where a call differs. */
#include <stdio.h>
#include <stdlib.h>
#include <string.h>
#include "calls.h"

#ifndef ARENA_BYTES
#define ARENA_BYTES 20480
#endif
enum { RECORD_BYTES = 12288, STACK_BYTES = 8192, PATTERN = 0x5A5AA5A5, LOOP = 100000 };

uint64_t arena[ARENA_BYTES / 8];
const size_t arena_words = ARENA_BYTES / 8;
static uint8_t record[RECORD_BYTES];

/* The processor's timer, which counts down 24 bits. */
static volatile uint32_t *const timer_control = (uint32_t *)0xE000E010;
static volatile uint32_t *const timer_reload = (uint32_t *)0xE000E014;
static volatile uint32_t *const timer = (uint32_t *)0xE000E018;
enum { TIMER_BITS = 0xFFFFFF };

static uint32_t took;      /* of the timer, in the last call */
static size_t stack_bytes; /* the deepest of the last call, with the arguments of the call */
static size_t deepest[FUNCTIONS];

/* Measures the stack below this function's frame, which is filled with a pattern: that of the library's function, and the frame of the
 * function here that calls it, with its arguments. */
__attribute__((noinline)) void make(void (*call)(void))
{
    uintptr_t top;
    __asm__ volatile("mov %0, sp" : "=r"(top));
    for (volatile uint32_t *word = (uint32_t *)(top - STACK_BYTES); word < (uint32_t *)top; word++)
        *word = PATTERN;
    *timer = 0;
    uint32_t before = *timer;
    call();
    took = (before - *timer) & TIMER_BITS;
    volatile uint32_t *word = (uint32_t *)(top - STACK_BYTES);
    while (word < (uint32_t *)top && *word == PATTERN)
        word++;
    stack_bytes = top - (uintptr_t)word;
}

/* Two instructions at each turn, by which the timer's ticks are known as instructions. */
static void loop(void)
{
    __asm__ volatile("ldr r0, =%0\n1: subs r0, r0, #1\nbne 1b" : : "i"(LOOP) : "r0", "cc");
}

static void print_name(void) { printf("%.*s", record[RECORD_NAME_LENGTH], (const char *)record + RECORD_NAME); }

/* Runs a file's records, and prints the mean and the most of their instructions. Gives how many differ, or are not read. */
static unsigned run_file(const char *name, double instructions_per_tick)
{
    static const char *const said[] = {"", "the answer differs", "a list differs", "the record is not read"};
    unsigned calls = 0, differ = 0;
    uint32_t most = 0;
    double sum = 0;
    uint8_t head[4];
    FILE *file = fopen(name, "rb");
    while (file && fread(head, 1, sizeof head, file) == sizeof head) {
        size_t length = head[0] | (size_t)head[1] << 8 | (size_t)head[2] << 16 | (size_t)head[3] << 24;
        enum outcome outcome = length <= sizeof record && fread(record, 1, length, file) == length ? run_record(record, length) : NOT_READ;
        unsigned function = record[RECORD_FUNCTION] < FUNCTIONS ? record[RECORD_FUNCTION] : 0;
        if (outcome != SAME) {
            printf("%s: FAILED: call %u, %s: %s\n", name, calls, function_names[function], said[outcome]);
            if (++differ == 10 || outcome == NOT_READ)
                break;
        }
        deepest[function] = stack_bytes > deepest[function] ? stack_bytes : deepest[function];
        if (record[RECORD_NAME_LENGTH] > 0) {
            printf("instructions %.0f ", took * instructions_per_tick);
            print_name();
            printf("\n");
        }
        sum += took;
        most = took > most ? took : most;
        calls++;
    }
    printf("instructions %.0f %s: mean\ninstructions %.0f %s: most\n", sum / calls * instructions_per_tick, name, most * instructions_per_tick, name);
    printf("%s: %u calls, %u differ\n", name, calls, differ);
    return differ + (calls == 0);
}

/* The command line: the words after the first name files. */
static char *command_line(void)
{
    static char text[256];
    struct {
        char *text;
        int length;
    } block = {text, sizeof text};
    register int operation __asm__("r0") = 0x15;
    register void *argument __asm__("r1") = &block;
    __asm__ volatile("bkpt 0xAB" : "+r"(operation) : "r"(argument) : "memory");
    return operation == 0 ? text : "";
}

int main(void)
{
    unsigned failures = 0;
    *timer_reload = TIMER_BITS;
    *timer_control = 5;
    make(loop);
    double instructions_per_tick = took > 0 ? 2.0 * LOOP / took : 0;
    strtok(command_line(), " ");
    for (char *name = strtok(NULL, " "); name; name = strtok(NULL, " "))
        failures += run_file(name, instructions_per_tick);
    for (size_t f = 0; f < FUNCTIONS; f++)
        printf("stack %u %s\n", (unsigned)deepest[f], function_names[f]);
    return failures > 0;
}
