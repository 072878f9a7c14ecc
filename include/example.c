/* Asks how much to lend for a sample table (T of document 01), plans it with just that, and prints the answer as the program `plan` does. */
#include "planner.h"
#include <stdio.h>

static const uint8_t table[] = {
    3, 1, 2, 2,         /* modes, timers, moves, goal */
    2,                  /* ceiling */
    1, 3, 1, 1, 0,      /* modes 0, 1 and 2: rates 3, 1 and none */
    1, 0, 1, 5,         /* move 0: from 0 to 1, price 5 */
    3, 1, 2, 1, 0x51,   /* move 1: from 1 to 2, price 1, timer 0 above 1 */
};

static uint32_t words[54];
static uint8_t route[26];

int main(void)
{
    uint32_t charge = 0;
    size_t steps = 0, words_needed = 0, route_needed = 0;
    uint8_t answer = planner_lend(table, sizeof table, &words_needed, &route_needed);

    if (answer != PLANNER_OK) {
        printf("refused %u\n", (unsigned)answer);
        return 0;
    }
    printf("lend %lu words and %lu route bytes\n", (unsigned long)words_needed, (unsigned long)route_needed);
    if (words_needed > sizeof words / sizeof *words || route_needed > sizeof route) {
        puts("there is not as much");
        return 0;
    }

    answer = planner_plan(table, sizeof table, words, words_needed, route, route_needed, &charge, &steps);
    if (answer == PLANNER_NO_ROUTE) {
        puts("no route");
    } else if (answer != PLANNER_ROUTE) {
        printf("refused %u\n", (unsigned)answer);
    } else {
        printf("charge %lu\nroute", (unsigned long)charge);
        for (size_t i = 0; i < steps; i++) {
            printf(" %u", (unsigned)route[i]);
        }
        putchar('\n');
    }
    return 0;
}
