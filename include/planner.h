/*
 * The changeover planner: makes a unit's table from its fields (planner_write) and fields from a table (planner_read); says how much
 * memory to lend for planning a table (planner_lend); finds the least total charge with which the unit reaches its goal mode, and a route
 * that comes to it (planner_plan); and, for a table that has neither < nor >, when to make which move by the wall clock to be charged
 * exactly that (planner_timetable).
 *
 * Link libplanner.a. For x86-64 `unit/bitcode` writes it to target/staticlib/; for Cortex-M0+ and M4 `unit/build` writes it to
 * target/unit/m0plus/ and target/unit/m4/. It needs memcpy and memset, on Cortex-M also libgcc, no heap and no operating system: it works
 * in the memory that the caller lends, and on the stack (docs/BENCH.md and docs/UNIT.md say how much).
 *
 * The code of the calls is proved to do what is written here for every table, form and length. What makes it into a library is not proved
 * but tested: the compiler, the structs below, which are bytes to the proved code, and, for Cortex-M, the lines of C by which a size_t of
 * 32 bits stands for the 64 bits of a length there (docs/UNIT.md). A caller in C is checked by nobody: it must pass what the types say.
 */
#ifndef PLANNER_H
#define PLANNER_H

#include <stddef.h>
#include <stdint.h>

#ifdef __cplusplus
extern "C" {
#endif

/* What the calls return. */
enum {
    PLANNER_ROUTE = 0,     /* planner_plan: a route was found; its bytes, charge and number of steps are written */
    PLANNER_TIMETABLE = 0, /* planner_timetable: there is one; its bytes, charge and number of pairs are written */
    PLANNER_OK = 0,        /* planner_lend, planner_write, planner_read: what was asked for is written */

    /* Refusals 1 to 7: the bytes are no table. They are judged from the left, and the first fault decides among 1 to 5. Fields that are no
       table's get 2 to 5 from planner_write, judged as the bytes that they would be. */
    PLANNER_BYTE_MISSING = 1,    /* a byte is needed and none is left */
    PLANNER_OUT_OF_RANGE = 2,    /* a count, goal or ceiling outside its range */
    PLANNER_BIT_NOT_ALLOWED = 3, /* a map or reset bit for an absent timer, or reset bits 3 to 6 (in a form 3 to 7) */
    PLANNER_BAD_CONDITION = 4,   /* a condition code that is not 1 to 5 (in a form also a value above 15) */
    PLANNER_NO_SUCH_MODE = 5,    /* a move's from or to mode is not below the number of modes */
    PLANNER_BYTES_LEFT_OVER = 6, /* bytes behind the last record */
    PLANNER_START_FAILS = 7,     /* mode 0's conditions fail with every timer at 0 */

    /* Refusals 8 and 9: the table needs more work memory than there may be, or than was lent. */
    PLANNER_TOO_MANY_NODES = 8,  /* E is above 65,536 */
    PLANNER_TOO_FEW_WORDS = 9,   /* fewer than 2E words were lent */

    /* Refusal 10: there is a route or a timetable, and it does not fit. */
    PLANNER_ROUTE_TOO_LONG = 10, /* the route has more steps, or the pairs more bytes, than route bytes were lent */

    /* Refusal 11: the fields are in order, and their table does not fit. */
    PLANNER_DESTINATION_TOO_SHORT = 11, /* the table has more bytes than there is memory for it */

    /* Refusal 12, by planner_timetable alone: the bytes are a table, but not one in whole minutes. It is judged directly after 7, so before
       8, 9 and 10. */
    PLANNER_NOT_CLOSED = 12,     /* a condition < or >, in whatever mode or move, reached or not */

    PLANNER_NO_ROUTE = 255       /* no run comes into the goal mode, whatever its moves and its delays */
};

/* The most bytes that a table has. */
enum { PLANNER_LONGEST_TABLE = 919 };

/* The bytes of a route. A byte below 64 is the move with that number in the table. */
enum {
    PLANNER_DELAY = 64,  /* wait until the timers' region is left */
    PLANNER_LINGER = 65  /* wait within it */
};

/* How many of each a table has at most. */
enum {
    PLANNER_MOST_MODES = 16,
    PLANNER_MOST_TIMERS = 3,
    PLANNER_MOST_MOVES = 64
};

/* The codes of a condition: how the timer has to compare with the value. */
enum {
    PLANNER_NO_CONDITION = 0, /* there is none in this place */
    PLANNER_LESS = 1,
    PLANNER_AT_MOST = 2,
    PLANNER_EQUAL = 3,
    PLANNER_AT_LEAST = 4,
    PLANNER_GREATER = 5
};

/* The timers that a move sets to 0; several are joined by |. */
enum {
    PLANNER_RESET_0 = 1,
    PLANNER_RESET_1 = 2,
    PLANNER_RESET_2 = 4
};

/*
 * A form: the fields of a table, for planner_write and planner_read. In one that is all 0 at first only what the table has need be set, and
 * not what is 0 in it. What is called ignored here is so by planner_write, and planner_read makes it 0.
 *
 * A mode and a move, the two kinds of record, have room for two conditions on each timer: those on timer t are first[t] and further[t]. An
 * only one may be in either, and all of them have to hold.
 */
struct planner_condition {
    uint8_t code;  /* PLANNER_NO_CONDITION to PLANNER_GREATER */
    uint8_t value; /* minutes, 0 to 15; ignored where there is no condition */
};

struct planner_mode {
    uint16_t rate; /* the charge for a minute in the mode */
    struct planner_condition first[PLANNER_MOST_TIMERS], further[PLANNER_MOST_TIMERS]; /* all the time that the unit is in the mode */
};

struct planner_move {
    uint8_t from, to; /* modes, below the number of modes */
    uint16_t price;   /* the charge for the move */
    struct planner_condition first[PLANNER_MOST_TIMERS], further[PLANNER_MOST_TIMERS]; /* when the move is made, before its resets */
    uint8_t resets;   /* the timers that it sets to 0: PLANNER_RESET_0, _1, _2; 0 for none */
    uint8_t unused;   /* ignored */
};

struct planner_form {
    uint8_t modes;                        /* 1 to 16; the unit starts in mode 0, with every timer at 0 */
    uint8_t timers;                       /* 1 to 3 */
    uint8_t moves;                        /* 0 to 64 */
    uint8_t goal;                         /* the mode to reach, below the number of modes */
    uint8_t ceiling[PLANNER_MOST_TIMERS]; /* what each timer may come to in any mode: minutes, 1 to 15; ignored for absent timers */
    uint8_t unused;                       /* ignored */
    struct planner_mode mode[PLANNER_MOST_MODES]; /* mode 0 first; those behind the number of modes are ignored */
    struct planner_move move[PLANNER_MOST_MOVES]; /* move 0 first; those behind the number of moves are ignored */
};

/* To the proved code a form is 1,384 bytes, its 16-bit numbers lowest byte first. The fields alone have as many, so in a struct of that
   size there is nothing between them. */
typedef char planner_form_has_1384_bytes[sizeof(struct planner_form) == 1384 ? 1 : -1];
#if defined __BYTE_ORDER__ && __BYTE_ORDER__ != __ORDER_LITTLE_ENDIAN__
#error "the planner is for targets that have the lowest byte of a number first"
#endif

/*
 * What holds for every call: no pointer may be null, also where a length is 0, and no two pieces of memory that are passed may overlap. A
 * call ends for every input, keeps nothing between calls, and may be made from several threads at once, each with memory of its own.
 */

/*
 * Plans a table.
 *
 * The words that a table takes are 2E, where E = modes x (ceiling + 1) of each timer x 3, 13 or 75 for one, two or three timers. 6,000
 * words (24,000 bytes) are what the unit lends; 131,072 are enough for every table that refusal 8 lets pass.
 *
 * table, table_len  The table's bytes. They are read only, and never altered. A rate or price has 16 bits, and its high byte is the last
 *                   field of its record; no charge is above 4,294,836,225.
 * words, words_len  Work memory, aligned as uint32_t. What it holds before the call does not matter. After PLANNER_ROUTE,
 *                   PLANNER_NO_ROUTE and PLANNER_ROUTE_TOO_LONG its first 2E words are 0 and the others are untouched; after every
 *                   other answer all of it is untouched.
 * route, route_len  Memory for the route. After PLANNER_ROUTE the first *steps bytes are the route and the others are untouched; after
 *                   every other answer all of it is untouched.
 * charge            After PLANNER_ROUTE the route's charge, in the table's unit (nanoseconds); otherwise untouched.
 * steps             After PLANNER_ROUTE the route's number of steps; otherwise untouched.
 *
 * The charge C is a lower bound of all runs: every run into the goal, in fractions of a minute of any denominator, is charged C or
 * more; and runs that make exactly the route's moves in their order come as near to C as is wanted.
 */
uint8_t planner_plan(const uint8_t *table, size_t table_len,
                     uint32_t *words, size_t words_len,
                     uint8_t *route, size_t route_len,
                     uint32_t *charge, size_t *steps);

/*
 * Says how much to lend for planning a table, from its bytes alone. No search is made and no memory is lent: it takes as long as reading
 * the table.
 *
 * table, table_len  The table's bytes, as for planner_plan.
 * words_needed      After PLANNER_OK 2E, the words that planning the table needs; otherwise untouched.
 * route_needed      After PLANNER_OK E - 1, which route bytes are enough for every route; otherwise untouched. A route is mostly much
 *                   shorter.
 *
 * Refusals 1 to 8 are those of planner_plan for the same bytes, and there are no others. After PLANNER_OK planner_plan with the same
 * bytes, at least so many words and at least so many route bytes gives PLANNER_ROUTE or PLANNER_NO_ROUTE; with fewer words it gives
 * PLANNER_TOO_FEW_WORDS.
 */
uint8_t planner_lend(const uint8_t *table, size_t table_len,
                     size_t *words_needed, size_t *route_needed);

/*
 * Gives a table's timetable: the moves of a run into the goal, and how many whole minutes to wait before each. The table's conditions have
 * to be <=, = or >=, all of them; for others there is planner_plan.
 *
 * A pair is two bytes: whole minutes waited, 0 to 15, and then the move with that number in the table. The first wait begins at the start,
 * in mode 0 with every timer at 0, each other one with the move before it, and nothing follows the last move. If the start is the goal
 * there are no pairs.
 *
 * table, table_len  The table's bytes, as for planner_plan.
 * words, words_len  Work memory, as for planner_plan: 2E words are needed. After PLANNER_TIMETABLE, PLANNER_NO_ROUTE and
 *                   PLANNER_ROUTE_TOO_LONG its first 2E words are 0 and the others are untouched; after every other answer all of it is
 *                   untouched.
 * route, route_len  Memory for the pairs. After PLANNER_TIMETABLE the first 2 x *pairs bytes are the pairs and the others are untouched;
 *                   after every other answer all of it is untouched. There are fewer pairs than states in whole minutes, which are modes x
 *                   (ceiling + 1) of each timer, so that 2 x (states - 1) bytes are enough for every timetable.
 * charge            After PLANNER_TIMETABLE the timetable's charge; otherwise untouched.
 * pairs             After PLANNER_TIMETABLE the number of pairs, half that of their bytes; otherwise untouched.
 *
 * The charge is exactly what planner_plan reports for the same table and words, so that no run is charged less, in fractions of a minute
 * neither. Among all timetables charged that it is one with the fewest pairs, and among those the first in byte order. There is a timetable
 * exactly if there is a route: such a table gets PLANNER_NO_ROUTE from both calls or from none.
 *
 * Refusals in their order: 1 to 7, those of planner_plan for the same bytes; PLANNER_NOT_CLOSED; 8 and 9, as there; and, if there is a
 * timetable, PLANNER_ROUTE_TOO_LONG where 2 x pairs is more than route_len.
 */
uint8_t planner_timetable(const uint8_t *table, size_t table_len,
                          uint32_t *words, size_t words_len,
                          uint8_t *route, size_t route_len,
                          uint32_t *charge, size_t *pairs);

/*
 * Writes the table that has a form's fields.
 *
 * form              The fields. They are read only, and never altered.
 * table, table_len  Memory for the table; PLANNER_LONGEST_TABLE bytes are enough for every form. After PLANNER_OK the first *written bytes
 *                   are the table and the others are untouched; after every other answer all of it is untouched.
 * written           After PLANNER_OK the table's number of bytes; otherwise untouched.
 *
 * No zero byte of a rate or price is written, neither a low nor a high one. An only condition on a timer goes to the first of its two
 * places in the record, and two keep their order. A reset byte is written only if it names a timer or announces a high byte.
 *
 * Refusals are in the order of the bytes. First PLANNER_OUT_OF_RANGE for a count, the goal or a ceiling. Then, in the modes and after them
 * in the moves, each record's faults before those of the next: PLANNER_BIT_NOT_ALLOWED for a condition on an absent timer,
 * PLANNER_NO_SUCH_MODE, PLANNER_BAD_CONDITION, PLANNER_BIT_NOT_ALLOWED for the resets. Last, if everything else is in order,
 * PLANNER_DESTINATION_TOO_SHORT. There are no others.
 *
 * planner_plan reads exactly these fields from what is written. It can still refuse them: by PLANNER_START_FAILS or
 * PLANNER_TOO_MANY_NODES, or for the memory that it is lent.
 */
uint8_t planner_write(const struct planner_form *form,
                      uint8_t *table, size_t table_len,
                      size_t *written);

/*
 * Reads a table into a form, to show its fields or to change some and write it again.
 *
 * table, table_len  The table's bytes, as for planner_plan.
 * form              After PLANNER_OK the table's fields, with each condition in the place that it has in the table, and 0 in every byte
 *                   that is no field of this table; otherwise untouched.
 *
 * Refusals 1 to 7 are those of planner_plan for the same bytes, and there are no others. A table that planner_write wrote yields the same
 * bytes when it is read and written again; of other tables the same fields are written, in the bytes that planner_write has for them.
 */
uint8_t planner_read(const uint8_t *table, size_t table_len,
                     struct planner_form *form);

#ifdef __cplusplus
}
#endif

#endif
