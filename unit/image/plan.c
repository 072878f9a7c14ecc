/*
 * Plans every table on standard input (16 bits of length, the lower byte first, then the bytes) with what the unit lends,
 * and prints what `plan` prints. Before that it asks how much to lend, and holds the two to each other. Afterwards it
 * reads the table into a form, writes that, and holds what is written to the table. Then it makes every < and > of the
 * table <= and >=, asks for the timetable, and holds that to planning and to the form. Around every call it checks each
 * rule of planner.h on the memory. At the end standard error has what the latest timetable was, and the most stack that a
 * call used.
 */
#include "planner.h"
#include <stdlib.h>
#include <string.h>
#include <unistd.h>

enum { WORDS = 6000, ROUTE = 256, INPUT = PLANNER_LONGEST_TABLE + 1, GUARD = 8 };

/* What is lent, between guards. Before a call every element has a value of its own. A form, and the destination when
   it is written, lie where the words do, since no call takes both. */
static union {
    uint32_t words[GUARD + WORDS + GUARD];
    struct {
        uint8_t before[GUARD];
        struct planner_form form;
        uint8_t between[GUARD], destination[PLANNER_LONGEST_TABLE], behind[GUARD];
    };
} memory;
static uint8_t *const bytes = (uint8_t *)&memory;
enum { FORM = GUARD, BETWEEN = FORM + sizeof memory.form, DESTINATION = BETWEEN + GUARD };
enum { ALL_WORDS = GUARD + WORDS + GUARD, ALL_BYTES = DESTINATION + PLANNER_LONGEST_TABLE + GUARD };
static uint8_t route[GUARD + ROUTE + GUARD];
static uint8_t table[GUARD + INPUT + GUARD];
static uint8_t open_table[PLANNER_LONGEST_TABLE]; /* a table with < or >, while the one without is in its place */
static uint32_t charge[3];
static size_t steps[3], words_needed[3], route_needed[3], written[3]; /* for a timetable, steps are pairs */

static size_t most_stack;

/* The address that the linker gives this symbol says which fault is put in after each call, to see that it is found; at 0
   none is. */
extern char put_in[];
extern uint32_t __ram_end[], __flash_end[];

static uint32_t word_before(size_t i) { return 0x5EED0000u + (uint32_t)i; }
static uint8_t byte_before(size_t i) { return (uint8_t)(0xC3u ^ i); }

static void require(int holds, const char *rule)
{
    if (!holds) {
        write(STDERR_FILENO, rule, strlen(rule));
        write(STDERR_FILENO, "\n", 1);
        exit(1);
    }
}

static uint32_t checksum(const uint8_t *bytes, size_t n)
{
    uint32_t sum = 2166136261u;
    while (n--) {
        sum = (sum ^ *bytes++) * 16777619u;
    }
    return sum;
}

/* 2E of an accepted table */
static size_t words_of_table(void)
{
    static const uint8_t corners[] = { 1, 3, 13, 75 };
    const uint8_t *bytes = table + GUARD;
    size_t e = (size_t)bytes[0] * corners[bytes[1]];
    for (size_t i = 0; i < bytes[1]; i++) {
        e *= bytes[4 + i] + 1u;
    }
    return 2 * e;
}

enum which { PLAN, TIMETABLE, LEND, WRITE, READ };

/* The answer is read as the whole register, since a caller may rely on bits 8 to 31 being 0. The length of a destination
   comes as table_len. This is inlined, since a frame of its own would count as the call's. */
static inline __attribute__((always_inline)) uint32_t
answer_of(enum which which, size_t table_len, size_t words_len, size_t route_len)
{
    typedef uint32_t plan_register(const uint8_t *, size_t, uint32_t *, size_t, uint8_t *, size_t, uint32_t *, size_t *);
    typedef uint32_t lend_register(const uint8_t *, size_t, size_t *, size_t *);
    typedef uint32_t write_register(const struct planner_form *, uint8_t *, size_t, size_t *);
    typedef uint32_t read_register(const uint8_t *, size_t, struct planner_form *);
    plan_register *volatile plan = (plan_register *)(void (*)(void))planner_plan;
    plan_register *volatile timetable = (plan_register *)(void (*)(void))planner_timetable;
    lend_register *volatile lend = (lend_register *)(void (*)(void))planner_lend;
    write_register *volatile to_table = (write_register *)(void (*)(void))planner_write;
    read_register *volatile to_form = (read_register *)(void (*)(void))planner_read;

    switch (which) {
    case PLAN:
        return plan(table + GUARD, table_len, memory.words + GUARD, words_len,
                    route + GUARD, route_len, charge + 1, steps + 1);
    case TIMETABLE:
        return timetable(table + GUARD, table_len, memory.words + GUARD, words_len,
                         route + GUARD, route_len, charge + 1, steps + 1);
    case LEND: return lend(table + GUARD, table_len, words_needed + 1, route_needed + 1);
    case WRITE: return to_table(&memory.form, memory.destination, table_len, written + 1);
    case READ: return to_form(table + GUARD, table_len, &memory.form);
    }
    return 0;
}

/* Makes a call with the stack below filled, to see how much is used. */
static __attribute__((noinline)) uint32_t call(enum which which, size_t table_len, size_t words_len, size_t route_len)
{
    const uint32_t unused = 0xA5A5A5A5u;
    volatile uint32_t *const limit = sbrk(0), *sp, *p; /* below the limit newlib keeps what its input and output need */
    uint32_t answer;

    __asm__ volatile ("mov %0, sp" : "=r" (sp));
    for (p = limit; p < sp; p++) {
        *p = unused;
    }
    answer = answer_of(which, table_len, words_len, route_len);
    for (p = limit; p < sp && *p == unused; p++) {
    }
    require(p > limit, "stack: all of it was used");
    if (most_stack < (size_t)(sp - p) * sizeof *p) {
        most_stack = (size_t)(sp - p) * sizeof *p;
    }
    return answer;
}

static void spoil(uint32_t *answer)
{
    switch ((uintptr_t)put_in) {
    case 1: memory.words[GUARD - 1]++; break;
    case 2: memory.words[GUARD]++; break;
    case 3: memory.words[GUARD + WORDS - 1]++; break;
    case 4: memory.words[GUARD + WORDS]++; break;
    case 5: route[GUARD - 1]++; break;
    case 6: route[GUARD + ROUTE - 1]++; break;
    case 7: route[GUARD + ROUTE]++; break;
    case 8: table[GUARD]++; break;
    case 9: charge[0]++; break;
    case 10: steps[2]++; break;
    case 11: *answer |= 256; break;
    case 12: *(volatile uint32_t *)__ram_end = 0; break;
    case 13: *(volatile uint32_t *)__flash_end; break;
    case 14: words_needed[1]++; break;
    case 15: route_needed[1]--; break;
    case 16: words_needed[2]++; break;
    case 17: route_needed[0]++; break;
    }
}

static void spoil_writing(uint32_t *answer)
{
    int good = *answer == PLANNER_OK;

    switch ((uintptr_t)put_in) {
    case 18: bytes[DESTINATION - 1]++; break;
    case 19: bytes[DESTINATION] += !good; break;
    case 20: bytes[DESTINATION + written[1] * good] += good; break;
    case 21: bytes[DESTINATION + written[1] * good - 1] ^= good; break;
    case 22: written[0]++; break;
    case 23: written[1] += !good; break;
    case 24: written[1] -= good; break;
    case 25: memory.form.goal ^= 1; break;
    case 26: *answer |= 256; break;
    }
}

static void spoil_reading(uint32_t *answer)
{
    int good = *answer == PLANNER_OK;

    switch ((uintptr_t)put_in) {
    case 27: bytes[FORM - 1]++; break;
    case 28: bytes[BETWEEN]++; break;
    case 29: memory.form.modes += !good; break;
    case 30: memory.form.unused += good; break;
    case 31: memory.form.move[PLANNER_MOST_MOVES - 1].resets += good; break;
    case 32: memory.form.mode[0].rate += good; break;
    case 33: memory.form.goal *= !good; break;
    case 34: table[GUARD]++; break;
    case 35: *answer |= 256; break;
    }
}

static void spoil_timetable(uint32_t *answer)
{
    int good = *answer == PLANNER_TIMETABLE;
    size_t length = good ? 2 * steps[1] : 0;

    switch ((uintptr_t)put_in) {
    case 36: memory.words[GUARD - 1]++; break;
    case 37: memory.words[GUARD]++; break;
    case 38: memory.words[GUARD + WORDS]++; break;
    case 39: memory.words[GUARD] *= *answer != PLANNER_NOT_CLOSED; break;
    case 40: route[GUARD - 1]++; break;
    case 41: route[GUARD + length]++; break;
    case 42: route[GUARD] += length > 0; break;
    case 43: route[GUARD + length - 1] ^= length > 0; break;
    case 44: table[GUARD]++; break;
    case 45: charge[0]++; break;
    case 46: charge[1] += good; break;
    case 47: charge[1] += *answer == PLANNER_NO_ROUTE; break;
    case 48: steps[1] -= good; break;
    case 49: steps[1] += *answer == PLANNER_ROUTE_TOO_LONG; break;
    case 50: *answer |= 256; break;
    case 51: *answer -= *answer == PLANNER_NOT_CLOSED; break;
    case 52: *answer = *answer == PLANNER_NO_ROUTE ? PLANNER_ROUTE_TOO_LONG : *answer; break;
    }
}

/* How much to lend; and that it is 2E and E - 1 if the table is accepted. */
static uint8_t lend(size_t table_len)
{
    size_t i, need = word_before(1), room = word_before(1);
    uint32_t answer, sum = checksum(table, sizeof table);

    for (i = 0; i < 3; i++) {
        words_needed[i] = route_needed[i] = word_before(i);
    }
    answer = call(LEND, table_len, 0, 0);
    spoil(&answer);

    require(answer <= PLANNER_TOO_MANY_NODES, "lend: an answer that is none of those that there are");
    require(checksum(table, sizeof table) == sum, "lend: the table is altered");
    if (answer == PLANNER_OK) {
        need = words_of_table();
        room = need / 2 - 1;
    }
    for (i = 0; i < 3; i++) {
        require(words_needed[i] == (i == 1 ? need : word_before(i)), "lend: other words than 2E, or touched");
        require(route_needed[i] == (i == 1 ? room : word_before(i)), "lend: other route bytes than E - 1, or touched");
    }
    return (uint8_t)answer;
}

/* Plans the table, or asks for its timetable. */
static uint8_t search(enum which which, size_t table_len, size_t words_len, size_t route_len)
{
    size_t i, zeros = 0, length = 0;
    uint32_t answer, sum = checksum(table, sizeof table);

    for (i = 0; i < ALL_WORDS; i++) {
        memory.words[i] = word_before(i);
    }
    for (i = 0; i < sizeof route; i++) {
        route[i] = byte_before(i);
    }
    for (i = 0; i < 3; i++) {
        charge[i] = steps[i] = word_before(i);
    }
    answer = call(which, table_len, words_len, route_len);
    if (which == PLAN) {
        spoil(&answer);
    } else {
        spoil_timetable(&answer);
    }

    require(answer <= 10 || answer == PLANNER_NO_ROUTE || (which == TIMETABLE && answer == PLANNER_NOT_CLOSED),
            "answer: none of those that there are");
    require(checksum(table, sizeof table) == sum, "table: altered");
    if (answer == PLANNER_ROUTE) {
        length = which == PLAN ? steps[1] : 2 * steps[1];
        require(length <= route_len, "steps or pairs: more than route bytes");
    }
    if (answer == PLANNER_ROUTE || answer == PLANNER_NO_ROUTE || answer == PLANNER_ROUTE_TOO_LONG) {
        zeros = words_of_table();
        require(zeros <= words_len, "words: fewer than 2E were lent");
    }
    for (i = 0; i < ALL_WORDS; i++) {
        int cleared = i >= GUARD && i < GUARD + zeros;
        require(memory.words[i] == (cleared ? 0 : word_before(i)), "words: not cleared, or not untouched");
    }
    for (i = 0; i < sizeof route; i++) {
        int step = i >= GUARD && i < GUARD + length;
        require(step || route[i] == byte_before(i), "route: touched beyond the steps or pairs");
    }
    for (i = 0; i < 3; i++) {
        int given = i == 1 && answer == PLANNER_ROUTE;
        require(given || (charge[i] == word_before(i) && steps[i] == word_before(i)), "charge, steps or pairs: touched");
    }
    return (uint8_t)answer;
}

static uint8_t plan(size_t table_len, size_t words_len, size_t route_len)
{
    return search(PLAN, table_len, words_len, route_len);
}

static uint8_t timetable(size_t table_len, size_t words_len, size_t route_len)
{
    return search(TIMETABLE, table_len, words_len, route_len);
}

/* Writes the table of the form into so many bytes. */
static uint8_t write_form(size_t room)
{
    size_t i, length = 0;
    uint32_t answer, sum = checksum(bytes + FORM, sizeof memory.form);

    for (i = BETWEEN; i < ALL_BYTES; i++) {
        bytes[i] = byte_before(i);
    }
    for (i = 0; i < 3; i++) {
        written[i] = word_before(i);
    }
    answer = call(WRITE, room, 0, 0);
    spoil_writing(&answer);

    require(answer == PLANNER_OK || (answer >= PLANNER_OUT_OF_RANGE && answer <= PLANNER_NO_SUCH_MODE) ||
            answer == PLANNER_DESTINATION_TOO_SHORT, "write: an answer that is none of those that there are");
    require(checksum(bytes + FORM, sizeof memory.form) == sum, "write: the form is altered");
    if (answer == PLANNER_OK) {
        length = written[1];
        require(length <= room, "write: more bytes than room");
    }
    for (i = BETWEEN; i < ALL_BYTES; i++) {
        int given = i >= DESTINATION && i < DESTINATION + length;
        require(given || bytes[i] == byte_before(i), "write: touched beyond the table");
    }
    for (i = 0; i < 3; i++) {
        int given = i == 1 && answer == PLANNER_OK;
        require(given || written[i] == word_before(i), "write: the number of bytes is touched");
    }
    return (uint8_t)answer;
}

/* Reads the table into the form. */
static uint8_t read_form(size_t table_len)
{
    size_t i;
    uint32_t answer, sum = checksum(table, sizeof table);

    for (i = 0; i < ALL_BYTES; i++) {
        bytes[i] = byte_before(i);
    }
    answer = call(READ, table_len, 0, 0);
    spoil_reading(&answer);

    require(answer <= PLANNER_START_FAILS, "read: an answer that is none of those that there are");
    require(checksum(table, sizeof table) == sum, "read: the table is altered");
    for (i = 0; i < ALL_BYTES; i++) {
        int given = answer == PLANNER_OK && i >= FORM && i < BETWEEN;
        require(given || bytes[i] == byte_before(i), "read: touched beyond the form, or by a refusal");
    }
    return (uint8_t)answer;
}

static int all_zero(const void *from, const void *to)
{
    for (const uint8_t *byte = from; byte < (const uint8_t *)to; byte++) {
        if (*byte) {
            return 0;
        }
    }
    return 1;
}

/* The conditions of a record that was read: a place without one is all 0. An only one goes to the first place, as it does
   in writing. */
static void settle(struct planner_condition *first, struct planner_condition *further)
{
    for (size_t i = 0; i < PLANNER_MOST_TIMERS; i++) {
        require(first[i].code || !first[i].value, "read: a value without a condition");
        require(further[i].code || !further[i].value, "read: a value without a further condition");
        if (!first[i].code) {
            first[i] = further[i];
            further[i].code = further[i].value = 0;
        }
    }
}

/* The form that was read: what is no field is 0. The conditions go where they are when what is written is read. */
static void settle_form(void)
{
    struct planner_form *form = &memory.form;

    require(all_zero(form->ceiling + form->timers, form->mode), "read: not 0 behind the last ceiling");
    require(all_zero(form->mode + form->modes, form->move), "read: not 0 behind the last mode");
    require(all_zero(form->move + form->moves, form + 1), "read: not 0 behind the last move");
    for (size_t i = 0; i < form->modes; i++) {
        settle(form->mode[i].first, form->mode[i].further);
    }
    for (size_t i = 0; i < form->moves; i++) {
        require(form->move[i].unused == 0, "read: not 0 at the end of a move");
        settle(form->move[i].first, form->move[i].further);
    }
}

/* The table is in the form. Puts what is written from there in the table's place, and returns its length: it has the same
   fields, from which the same bytes are written again where there is just room for them, and none with a byte less. */
static size_t write_again(size_t table_len)
{
    uint32_t sum;
    size_t length;

    require(write_form(PLANNER_LONGEST_TABLE) == PLANNER_OK, "write: what was read is refused");
    length = written[1];
    require(length <= table_len, "write: longer than the table");
    memcpy(table + GUARD, memory.destination, length);
    settle_form();
    sum = checksum(bytes + FORM, sizeof memory.form);

    require(read_form(length) == PLANNER_OK, "write: refused when it is read");
    require(checksum(bytes + FORM, sizeof memory.form) == sum, "write: other fields");
    require(write_form(length) == PLANNER_OK && written[1] == length &&
            memcmp(table + GUARD, memory.destination, length) == 0, "write: not the same bytes again");
    require(write_form(length - 1) == PLANNER_DESTINATION_TOO_SHORT, "write: a byte too few");
    memory.form.goal = memory.form.modes;
    require(write_form(0) == PLANNER_OUT_OF_RANGE, "write: the goal is no mode");
    return length;
}

/* What the latest planning gave. */
static uint32_t outcome(void)
{
    return checksum(route, sizeof route) ^ checksum((const uint8_t *)charge, sizeof charge) ^
           checksum((const uint8_t *)steps, sizeof steps);
}

/* Reading refuses what planning refuses by 1 to 7. What is written from any other table is planned as that is. */
static void plan_what_is_written(size_t table_len, uint8_t planned, uint32_t given)
{
    uint8_t answer = read_form(table_len);

    require(answer == (planned <= PLANNER_START_FAILS ? planned : PLANNER_OK),
            "read: another refusal than that of planning");
    if (answer == PLANNER_OK) {
        answer = plan(write_again(table_len), WORDS, ROUTE);
        require(answer == planned && outcome() == given, "write: what is written is planned otherwise");
    }
}

/* Makes < and > of three conditions <= and >=, and says whether there was one. */
static int close_conditions(struct planner_condition *condition)
{
    int open = 0;

    for (size_t i = 0; i < PLANNER_MOST_TIMERS; i++) {
        if (condition[i].code == PLANNER_LESS || condition[i].code == PLANNER_GREATER) {
            condition[i].code = condition[i].code == PLANNER_LESS ? PLANNER_AT_MOST : PLANNER_AT_LEAST;
            open = 1;
        }
    }
    return open;
}

static int close_form(void)
{
    struct planner_form *form = &memory.form;
    int open = 0;

    for (size_t i = 0; i < form->modes; i++) {
        open |= close_conditions(form->mode[i].first) | close_conditions(form->mode[i].further);
    }
    for (size_t i = 0; i < form->moves; i++) {
        open |= close_conditions(form->move[i].first) | close_conditions(form->move[i].further);
    }
    return open;
}

/* Three conditions that are <=, = or >=. */
static int hold(const struct planner_condition *condition, const uint32_t *value)
{
    for (size_t i = 0; i < PLANNER_MOST_TIMERS; i++) {
        uint8_t code = condition[i].code;
        if (((code == PLANNER_AT_MOST || code == PLANNER_EQUAL) && value[i] > condition[i].value) ||
            ((code == PLANNER_AT_LEAST || code == PLANNER_EQUAL) && value[i] < condition[i].value)) {
            return 0;
        }
    }
    return 1;
}

static int may_be_in(const struct planner_mode *mode, const uint32_t *value)
{
    for (size_t i = 0; i < memory.form.timers; i++) {
        if (value[i] > memory.form.ceiling[i]) {
            return 0;
        }
    }
    return hold(mode->first, value) && hold(mode->further, value);
}

/* Whether the pairs are a run of the form into its goal, with that charge. */
static int is_run(void)
{
    const struct planner_form *form = &memory.form;
    const uint8_t *pair = route + GUARD;
    uint32_t value[PLANNER_MOST_TIMERS] = { 0 }, sum = 0;
    uint8_t mode = 0;

    for (size_t left = steps[1]; left > 0; left--, pair += 2) {
        const struct planner_move *move = &form->move[pair[1]];
        if (pair[1] >= form->moves || move->from != mode) {
            return 0;
        }
        for (size_t i = 0; i < PLANNER_MOST_TIMERS; i++) {
            value[i] += pair[0];
        }
        if (!may_be_in(&form->mode[mode], value) || !hold(move->first, value) || !hold(move->further, value)) {
            return 0;
        }
        sum += (uint32_t)pair[0] * form->mode[mode].rate + move->price;
        mode = move->to;
        for (size_t i = 0; i < PLANNER_MOST_TIMERS; i++) {
            value[i] *= !(move->resets >> i & 1);
        }
        if (!may_be_in(&form->mode[mode], value)) {
            return 0;
        }
    }
    return mode == form->goal && sum == charge[1];
}

/* A table with a timetable: just enough memory is enough, a byte more is left alone, and a word or a byte less is not
   enough. */
static void timetable_at_the_limits(size_t table_len)
{
    size_t need = words_of_table(), number = steps[1], length = 2 * number;
    uint32_t least = charge[1];

    for (size_t room = length; room <= length + 1 && room <= ROUTE; room++) {
        require(timetable(table_len, need, room) == PLANNER_TIMETABLE && charge[1] == least && steps[1] == number,
                "timetable: the same answer with just enough");
    }
    require(timetable(table_len, need - 1, length) == PLANNER_TOO_FEW_WORDS, "timetable: a word too few");
    require(length == 0 || timetable(table_len, need, length - 1) == PLANNER_ROUTE_TOO_LONG, "timetable: a byte too few");
}

static struct {
    uint8_t answer;
    uint32_t charge;
    size_t pairs;
} latest;

/* The timetable of a table without < and >, held to what planning gives. */
static void timetable_as_planned(size_t table_len)
{
    uint8_t planned = plan(table_len, WORDS, ROUTE), answer;
    uint32_t least = charge[1];

    answer = timetable(table_len, WORDS, ROUTE);
    latest.answer = answer;
    latest.charge = charge[1];
    latest.pairs = steps[1];
    if (answer == PLANNER_TIMETABLE) {
        require(planned == PLANNER_ROUTE_TOO_LONG || (planned == PLANNER_ROUTE && charge[1] == least),
                "timetable: another charge than that of planning");
        require(read_form(table_len) == PLANNER_OK && is_run(), "timetable: no run into the goal with that charge");
        timetable_at_the_limits(table_len);
    } else if (answer == PLANNER_ROUTE_TOO_LONG) {
        require(planned == PLANNER_ROUTE || planned == PLANNER_ROUTE_TOO_LONG, "timetable: too long, and no route");
    } else {
        require(answer == planned, "timetable: another answer than that of planning");
    }
}

/* That of the table. If it has < or > it is refused for that, before 8 and 9; and before that, the timetable of the table
   which has <= and >= there. */
static void timetable_of(size_t table_len)
{
    if (read_form(table_len) != PLANNER_OK || !close_form()) {
        timetable_as_planned(table_len);
        return;
    }
    memcpy(open_table, table + GUARD, table_len);
    require(write_form(PLANNER_LONGEST_TABLE) == PLANNER_OK, "timetable: what was closed is refused");
    memcpy(table + GUARD, memory.destination, written[1]);
    timetable_as_planned(written[1]);
    memcpy(table + GUARD, open_table, table_len);
    require(timetable(table_len, 0, 0) == PLANNER_NOT_CLOSED && timetable(table_len, WORDS, ROUTE) == PLANNER_NOT_CLOSED,
            "timetable: a condition < or > is not refused");
}

static char line[32 + 4 * ROUTE];
static size_t line_len;

static void text(const char *s)
{
    while (*s) {
        line[line_len++] = *s++;
    }
}

static void number(uint32_t x)
{
    if (x >= 10) {
        number(x / 10);
    }
    line[line_len++] = (char)('0' + x % 10);
}

static void flush(int file)
{
    write(file, line, line_len);
    line_len = 0;
}

static void tell(uint8_t answer)
{
    if (answer == PLANNER_NO_ROUTE) {
        text("no route");
    } else if (answer != PLANNER_ROUTE) {
        text("refused ");
        number(answer);
    } else {
        text("charge ");
        number(charge[1]);
        text("\nroute");
        for (size_t i = 0; i < steps[1]; i++) {
            text(" ");
            number(route[GUARD + i]);
        }
    }
    text("\n");
    flush(STDOUT_FILENO);
}

static void tell_latest_timetable(void)
{
    text("timetable ");
    if (latest.answer == PLANNER_NO_ROUTE) {
        text("no route");
    } else if (latest.answer != PLANNER_TIMETABLE) {
        text("refused ");
        number(latest.answer);
    } else {
        text("charge ");
        number(latest.charge);
        text(", ");
        number((uint32_t)latest.pairs);
        text(latest.pairs == 1 ? " pair" : " pairs");
    }
    text("\n");
    flush(STDERR_FILENO);
}

/* The unit's memory is refused for the reason that `lend` gives, or if it is less than `lend` says. */
static void hold_to_each_other(uint8_t lent, uint8_t planned)
{
    if (lent != PLANNER_OK) {
        require(planned == lent, "lend: another refusal than that of planning");
    } else {
        require(planned > PLANNER_TOO_MANY_NODES || planned == PLANNER_ROUTE, "lend: a refusal of planning is not told");
        require((planned == PLANNER_TOO_FEW_WORDS) == (words_needed[1] > WORDS), "lend: words that are not those needed");
        require(planned != PLANNER_ROUTE_TOO_LONG || route_needed[1] > ROUTE, "lend: too few route bytes");
    }
}

/* A table with a route: just enough memory is enough, and a word or a byte less is not. */
static void plan_at_the_limits(size_t table_len)
{
    size_t need = words_of_table(), length = steps[1];
    uint32_t least = charge[1];

    require(plan(table_len, need, length) == PLANNER_ROUTE && charge[1] == least && steps[1] == length,
            "limits: the same answer with just enough");
    require(plan(table_len, need - 1, length) == PLANNER_TOO_FEW_WORDS, "limits: a word too few");
    require(length == 0 || plan(table_len, need, length - 1) == PLANNER_ROUTE_TOO_LONG, "limits: a route byte too few");
}

static int get(uint8_t *to, size_t n)
{
    for (size_t had = 0; had < n;) {
        int more = read(STDIN_FILENO, to + had, n - had);
        if (more <= 0) {
            return 0;
        }
        had += (size_t)more;
    }
    return 1;
}

int main(void)
{
    uint8_t length[2], lent, answer;
    uint32_t given;

    while (get(length, 2)) {
        size_t n = length[0] + 256u * length[1];
        require(n <= INPUT, "input: a byte more than any table has is the most");
        memset(table, 0xEE, sizeof table);
        require(get(table + GUARD, n), "input: a table is cut off");
        lent = lend(n);
        answer = plan(n, WORDS, ROUTE);
        given = outcome();
        hold_to_each_other(lent, answer);
        tell(answer);
        if (answer == PLANNER_ROUTE) {
            plan_at_the_limits(n);
        }
        timetable_of(n);
        plan_what_is_written(n, answer, given);
    }
    tell_latest_timetable();
    text("stack ");
    number((uint32_t)most_stack);
    text("\n");
    flush(STDERR_FILENO);
    return 0;
}
