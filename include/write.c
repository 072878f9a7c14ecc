/* Makes a sample table (T of document 01) from its fields and plans it; reads it back, raises a price, and plans what it is then. At the
   end, two refusals. Answers are printed as the program `plan` prints them. */
#include "planner.h"
#include <stdio.h>

static struct planner_form form; /* all zeros: what is not set below is absent or 0 */
static uint8_t table[PLANNER_LONGEST_TABLE];
static uint32_t words[54];
static uint8_t route[26];

static void set_fields(void)
{
    form.modes = 3;
    form.timers = 1;
    form.moves = 2;
    form.goal = 2;
    form.ceiling[0] = 2;

    form.mode[0].rate = 3;
    form.mode[1].rate = 1; /* and mode 2 has none */

    form.move[0].from = 0;
    form.move[0].to = 1;
    form.move[0].price = 5;

    form.move[1].from = 1;
    form.move[1].to = 2;
    form.move[1].price = 1;
    form.move[1].first[0].code = PLANNER_GREATER; /* timer 0 above 1 */
    form.move[1].first[0].value = 1;
}

/* Writes the table of the form into so many bytes of memory, and returns how many it has; 0 if it is refused. */
static size_t write_table(size_t room)
{
    size_t written = 0;
    uint8_t answer = planner_write(&form, table, room, &written);

    if (answer != PLANNER_OK) {
        printf("refused %u\n", (unsigned)answer);
        return 0;
    }
    printf("%lu bytes:", (unsigned long)written);
    for (size_t i = 0; i < written; i++) {
        printf(" %02x", (unsigned)table[i]);
    }
    putchar('\n');
    return written;
}

static void plan_table(size_t length)
{
    uint32_t charge = 0;
    size_t steps = 0;
    uint8_t answer = planner_plan(table, length, words, sizeof words / sizeof *words, route, sizeof route, &charge, &steps);

    if (answer == PLANNER_NO_ROUTE) {
        puts("no route");
    } else if (answer != PLANNER_ROUTE) {
        printf("refused %u\n", (unsigned)answer);
    } else {
        printf("charge %lu\nroute", (unsigned long)charge);
        for (size_t i = 0; i < steps; i++) {
            printf(" %u", (unsigned)route[i]);
        }
        putchar('\n');
    }
}

int main(void)
{
    size_t length;
    uint8_t answer;

    set_fields();
    length = write_table(sizeof table);
    plan_table(length);

    answer = planner_read(table, length, &form);
    if (answer != PLANNER_OK) {
        printf("refused %u\n", (unsigned)answer);
        return 0;
    }
    form.move[0].price = 260; /* 1 x 256 + 4: with a high byte, which a reset byte announces */
    length = write_table(sizeof table);
    plan_table(length);

    write_table(length - 1); /* a byte too short: 11 */
    form.goal = 3;           /* there are modes 0 to 2: 2 */
    write_table(sizeof table);
    return 0;
}
