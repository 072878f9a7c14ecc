/* Prints a table's timetable for a person: a line for each pair, with the minute since the start in which its move is made, the move, the
   mode that it leads to and the charge up to then. Other answers are printed as the program `plan` prints them, and the same memory is lent.

   timetable FILE   reads the table's bytes from the file, or from standard input if it is called -
   timetable        takes two samples: T of document 01 with its last condition made >=, and T itself, which has > there */
#include "planner.h"
#include <errno.h>
#include <stdio.h>
#include <string.h>

static const uint8_t sample[] = {
    3, 1, 2, 2,         /* modes, timers, moves, goal */
    2,                  /* ceiling */
    1, 3, 1, 1, 0,      /* modes 0, 1 and 2: rates 3, 1 and none */
    1, 0, 1, 5,         /* move 0: from 0 to 1, price 5 */
    3, 1, 2, 1, 0x41,   /* move 1: from 1 to 2, price 1, timer 0 at least 1 */
};

static uint8_t table[PLANNER_LONGEST_TABLE + 1]; /* one byte more than any table has: longer input is refused by its front alone */
static struct planner_form form;
static uint32_t words[6000];
static uint8_t route[256];

static void print_pairs(size_t pairs)
{
    uint32_t minute = 0, charge = 0;
    uint8_t mode = 0;

    puts("minute  move  mode      charge");
    for (size_t i = 0; i < pairs; i++) {
        const uint8_t waited = route[2 * i], number = route[2 * i + 1];
        const struct planner_move *move = &form.move[number];

        minute += waited;
        charge += (uint32_t)waited * form.mode[mode].rate + move->price;
        mode = move->to;
        printf("%6lu  %4u  %4u  %10lu\n", (unsigned long)minute, (unsigned)number, (unsigned)mode, (unsigned long)charge);
    }
}

static void print_timetable(size_t length)
{
    uint32_t charge = 0;
    size_t pairs = 0;
    uint8_t answer = planner_timetable(table, length, words, sizeof words / sizeof *words, route, sizeof route, &charge, &pairs);

    if (answer == PLANNER_NO_ROUTE) {
        puts("no route");
    } else if (answer != PLANNER_TIMETABLE) {
        printf("refused %u\n", (unsigned)answer);
    } else if (planner_read(table, length, &form) == PLANNER_OK) { /* a table with a timetable is not refused */
        print_pairs(pairs);
        printf("charge %lu in %lu pair%s\n", (unsigned long)charge, (unsigned long)pairs, pairs == 1 ? "" : "s");
    }
}

static void print_samples(void)
{
    memcpy(table, sample, sizeof sample);
    print_timetable(sizeof sample);
    table[sizeof sample - 1] = 0x51; /* timer 0 above 1 */
    print_timetable(sizeof sample);
}

/* Whether the table could be read; then its length. */
static int read_table(const char *name, size_t *length)
{
    FILE *file = strcmp(name, "-") == 0 ? stdin : fopen(name, "rb");

    if (file) {
        *length = fread(table, 1, sizeof table, file);
    }
    return file && !ferror(file);
}

int main(int argc, char **argv)
{
    size_t length;

    if (argc > 2) {
        fputs("timetable: usage: timetable [FILE]\n", stderr);
        return 2;
    }
    if (argc < 2) {
        print_samples();
    } else if (read_table(argv[1], &length)) {
        print_timetable(length);
    } else {
        fprintf(stderr, "timetable: %s: %s\n", argv[1], strerror(errno));
        return 1;
    }
    if (fflush(stdout) != 0) {
        fprintf(stderr, "timetable: %s\n", strerror(errno));
        return 1;
    }
    return 0;
}
