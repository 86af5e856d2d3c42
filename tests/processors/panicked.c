/* What a panic of the library does in a test: the program says where, and fails. There are none. */
#include <stdint.h>
#include <stdio.h>
#include <stdlib.h>

void panicked(const char *file, size_t length, uint32_t line)
{
    printf("FAILED: panicked at %.*s:%u\n", (int)length, file, (unsigned)line);
    exit(1);
}
