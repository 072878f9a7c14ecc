/*
 * The calls of planner.h where size_t has 32 bits. In the proved code every length has 64: wide.h, written from the
 * bitcode, declares the calls as they are there. A length that is passed is widened by C's rules. One that is given back
 * comes through a variable of 64 bits, and fits: it is no more than a length that was passed, or 131,072. A form has no
 * length: it is the same 1,384 bytes to both.
 */
#include "planner.h"
#include "wide.h"

__asm__ (".eabi_attribute 28, 3"); /* for firmware with either float ABI, as in retarget.py */

uint8_t planner_plan(const uint8_t *table, size_t table_len,
                     uint32_t *words, size_t words_len,
                     uint8_t *route, size_t route_len,
                     uint32_t *charge, size_t *steps)
{
    uint64_t wide_steps = 0;
    uint8_t answer =
        wide_planner_plan(table, table_len, words, words_len, route, route_len, charge, &wide_steps);

    if (answer == PLANNER_ROUTE) {
        *steps = (size_t)wide_steps;
    }
    return answer;
}

uint8_t planner_timetable(const uint8_t *table, size_t table_len,
                          uint32_t *words, size_t words_len,
                          uint8_t *route, size_t route_len,
                          uint32_t *charge, size_t *pairs)
{
    uint64_t wide_pairs = 0;
    uint8_t answer =
        wide_planner_timetable(table, table_len, words, words_len, route, route_len, charge, &wide_pairs);

    if (answer == PLANNER_TIMETABLE) {
        *pairs = (size_t)wide_pairs;
    }
    return answer;
}

uint8_t planner_lend(const uint8_t *table, size_t table_len,
                     size_t *words_needed, size_t *route_needed)
{
    uint64_t wide_words = 0, wide_route = 0;
    uint8_t answer = wide_planner_lend(table, table_len, &wide_words, &wide_route);

    if (answer == PLANNER_OK) {
        *words_needed = (size_t)wide_words;
        *route_needed = (size_t)wide_route;
    }
    return answer;
}

uint8_t planner_write(const struct planner_form *form,
                      uint8_t *table, size_t table_len,
                      size_t *written)
{
    uint64_t wide_written = 0;
    uint8_t answer = wide_planner_write(form, table, table_len, &wide_written);

    if (answer == PLANNER_OK) {
        *written = (size_t)wide_written;
    }
    return answer;
}

uint8_t planner_read(const uint8_t *table, size_t table_len,
                     struct planner_form *form)
{
    return wide_planner_read(table, table_len, form);
}
