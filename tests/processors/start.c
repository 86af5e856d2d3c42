/* Where a Cortex-M3 starts: the memory is cleared, then main is called, and its status is that of qemu. */
#include <stdint.h>

extern uint8_t bss_start[], bss_end[], data_start[], data_end[], data_from[], stack_top[];
extern int main(void);
extern void exit(int);
extern void initialise_monitor_handles(void);

void reset(void)
{
    for (uint8_t *from = data_from, *to = data_start; to < data_end; from++, to++)
        *to = *from;
    for (uint8_t *place = bss_start; place < bss_end; place++)
        *place = 0;
    initialise_monitor_handles();
    exit(main());
}

__attribute__((section(".vectors"), used)) void *const vectors[2] = {stack_top, (void *)reset};
