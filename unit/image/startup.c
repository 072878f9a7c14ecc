/* Starts an image on the emulated unit: vector table, reset, and the end by a fault. Input and output are the host's, by
   newlib's semihosting. */
#include <stdint.h>
#include <stdlib.h>
#include <unistd.h>

extern uint32_t __data_start[], __data_end[], __data_load[], __bss_start[], __bss_end[], __ram_end[];
int main(int, char **);
void initialise_monitor_handles(void);
void reset(void);

static void fault(void)
{
    static const char text[] = "FAULT\n";
    write(STDERR_FILENO, text, sizeof text - 1);
    _exit(1);
}

__attribute__((section(".vectors"), used)) static void (*const vectors[16])(void) = {
    (void (*)(void))__ram_end, reset, fault, fault, fault, fault, fault, fault,
    fault, fault, fault, fault, fault, fault, fault, fault,
};

/* The machine with the Cortex-M0 has just the unit's memory. The one with the Cortex-M4 has more, which the memory
   protection unit takes away. */
static void limit_memory(void)
{
#if __ARM_ARCH == 7
    volatile uint32_t *const mpu = (volatile uint32_t *)0xE000ED90;
    enum { CONTROL = 1, BASE = 3, ATTRIBUTES = 4 }; /* registers */
    enum { ENABLE = 1, VALID = 1 << 4, CACHED = 1 << 17, READ = 6 << 24, READ_WRITE = 3 << 24, NO_EXECUTE = 1 << 28 };

    mpu[BASE] = 0 | VALID | 0; /* region 0: 2^(17 + 1) bytes of flash */
    mpu[ATTRIBUTES] = READ | CACHED | 17 << 1 | ENABLE;
    mpu[BASE] = 0x20000000 | VALID | 1; /* region 1: 2^(14 + 1) bytes of RAM */
    mpu[ATTRIBUTES] = READ_WRITE | NO_EXECUTE | CACHED | 14 << 1 | ENABLE;
    mpu[CONTROL] = ENABLE; /* and nothing else */
#endif
}

void reset(void)
{
    const uint32_t *from = __data_load;

    for (uint32_t *to = __data_start; to < __data_end; to++) {
        *to = *from++;
    }
    for (uint32_t *to = __bss_start; to < __bss_end; to++) {
        *to = 0;
    }
    limit_memory();
    initialise_monitor_handles();
    exit(main(0, 0)); /* no arguments */
}
