/* Checks rolls at the boundary: what each call answers, refuses and writes. The check keeps a second list by the layout of
   the header, and compares every number of both after each call, with some before and behind the roll. */
#include <string.h>
#include "check_boundary.h"

enum { ROLL = 2002, BYTES = 16016, MEMBERS = 500, GUARD = 8, UNIT = 1000000000, LIMIT = 10000000 };
enum { NUMBERS = 2, AGES = 502, PENSIONS = 1002, LIABILITIES = 1502 };

static uint64_t lent[GUARD + ROLL + GUARD], second[GUARD + ROLL + GUARD];
static uint64_t *const roll = lent + GUARD, *const wanted = second + GUARD;

static int as_wanted(void) { return memcmp(lent, second, sizeof lent) == 0; }

/* every number of the room, guards and all */
static void fill(uint64_t number) {
    for (size_t i = 0; i < GUARD + ROLL + GUARD; i++) lent[i] = second[i] = number;
}

/* ---- the second list */

static size_t on_it(void) { return wanted[1] < MEMBERS ? (size_t)wanted[1] : MEMBERS; }

static uint64_t sum(void) {
    uint64_t total = 0;
    for (size_t i = 0; i < on_it(); i++) total += wanted[LIABILITIES + i];
    return total;
}

/* the first place with this number; how many are on the roll where there is none */
static size_t place_of(uint32_t number) {
    size_t place = 0;
    while (place < on_it() && wanted[NUMBERS + place] != number) place++;
    return place;
}

/* The pence for the whole part of the annuity, and those for the rest rounded, ties up. */
static uint64_t liability(const uint8_t *run, uint32_t age, uint32_t pension) {
    parvusek_answer_t a = parvusek_cohort_annuity(run, RUN, NO_HISTORY, age, 0, (uint32_t)wanted[0]);
    uint64_t whole = a.value / UNIT, rest = a.value % UNIT;
    HOLDS(passed(a.refusal));
    return pension * whole + (2 * pension * rest + UNIT) / (2 * (uint64_t)UNIT);
}

/* ---- calls that are answered: the answer is the second list's sum, and both lists are the same */

static int opens(uint32_t year, size_t length) {
    wanted[0] = year;
    wanted[1] = 0;
    return passed(parvusek_roll_open(year, roll, length)) && as_wanted() && is(parvusek_roll_total(roll, length), 0);
}

static int joins_a_list(const uint8_t *run, size_t length, uint32_t number, uint32_t age, uint32_t pension) {
    size_t place = on_it();
    wanted[LIABILITIES + place] = liability(run, age, pension);
    wanted[NUMBERS + place] = number;
    wanted[AGES + place] = age;
    wanted[PENSIONS + place] = pension;
    wanted[1] = place + 1;
    return is(parvusek_roll_join(run, RUN, NO_HISTORY, roll, length, number, age, pension), sum()) && as_wanted()
        && is(parvusek_roll_total(roll, length), sum());
}

static int joins(const uint8_t *run, uint32_t number, uint32_t age, uint32_t pension) {
    return joins_a_list(run, ROLL, number, age, pension);
}

static int leaves_a_list(size_t length, uint32_t number) {
    size_t place = place_of(number), last = on_it() - 1;
    for (; place < last; place++)
        for (size_t part = NUMBERS; part < ROLL; part += MEMBERS) wanted[part + place] = wanted[part + place + 1];
    wanted[1] = last;
    return is(parvusek_roll_leave(roll, length, number), sum()) && as_wanted()
        && is(parvusek_roll_total(roll, length), sum());
}

static int leaves(uint32_t number) { return leaves_a_list(ROLL, number); }

/* ---- calls that are refused: no number changes */

static int join_refused(const uint8_t *run, size_t run_len, uint32_t number, uint32_t age, uint32_t pension,
                        uint32_t by, uint64_t first, uint64_t other) {
    return declined(parvusek_roll_join(run, run_len, NO_HISTORY, roll, ROLL, number, age, pension), by, first, other)
        && as_wanted();
}

static int leave_refused(uint32_t number) {
    return declined(parvusek_roll_leave(roll, ROLL, number), 15, number, 0) && as_wanted();
}

static int too_short(uint64_t *list, size_t length) {
    return refused(parvusek_roll_open(2010, list, length), 11, BYTES, 0)
        && declined(parvusek_roll_join(NULL, 0, NO_HISTORY, list, length, 7, 19, UINT32_MAX), 11, BYTES, 0)
        && declined(parvusek_roll_leave(list, length, 8), 11, BYTES, 0)
        && declined(parvusek_roll_total(list, length), 11, BYTES, 0) && as_wanted();
}

/* ---- the checks */

static void check_lengths(void) {
    HOLDS(PARVUSEK_ROLL_LENGTH == ROLL && PARVUSEK_ROLL_MEMBERS == MEMBERS);
    HOLDS(BYTES == ROLL * sizeof *roll);
    fill(7);
    HOLDS(too_short(NULL, 0));
    HOLDS(too_short(roll, 0));
    HOLDS(too_short(roll, 1));
    HOLDS(too_short(roll, MEMBERS));
    HOLDS(too_short(roll, ROLL - 1));
}

/* the age of 149 is worth 1.9 a year, that of 148 2.71; a list may be longer than a roll */
static void check_calls(void) {
    uint8_t run[RUN];
    sample(run);
    for (size_t length = ROLL; length <= ROLL + GUARD; length += GUARD) {
        fill(0x0123456789ABCDEF);
        HOLDS(opens(2010, length));
        HOLDS(joins_a_list(run, length, 1001, 148, 100));
        HOLDS(joins_a_list(run, length, 0, 149, 5));
        HOLDS(joins_a_list(run, length, UINT32_MAX, 150, 0));
        HOLDS(joins_a_list(run, length, 1002, 148, 50));
        HOLDS(roll[LIABILITIES] == 271);
        HOLDS(roll[LIABILITIES + 1] == 10);
        HOLDS(roll[LIABILITIES + 2] == 0);
        HOLDS(roll[LIABILITIES + 3] == 136);
        HOLDS(is(parvusek_roll_total(roll, length), 417));
        HOLDS(leaves_a_list(length, 0));
        HOLDS(roll[NUMBERS + 1] == UINT32_MAX && roll[NUMBERS + 2] == 1002 && roll[NUMBERS + 3] == 1002);
        HOLDS(joins_a_list(run, length, 0, 20, LIMIT));
        HOLDS(leaves_a_list(length, 0));
        HOLDS(leaves_a_list(length, 1001));
        HOLDS(is(parvusek_roll_total(roll, length), 136));
    }
}

/* A liability is set at the join: on the other basis the age of 148 is worth 2.7109, and 150 is worth 1 on both. */
static void check_bases(void) {
    uint8_t run[RUN], other[RUN];
    sample(run);
    sample_with_addition(other, 10000000);
    fill(0);
    HOLDS(opens(2006, ROLL));
    HOLDS(joins(run, 1, 148, LIMIT));
    HOLDS(joins(other, 2, 148, LIMIT));
    HOLDS(joins(run, 3, 148, LIMIT));
    HOLDS(is(parvusek_roll_total(roll, ROLL), 27100000 + 27109000 + 27100000));
    HOLDS(leaves(1));
    HOLDS(joins(other, 1, 148, LIMIT));
    HOLDS(is(parvusek_roll_total(roll, ROLL), 27109000 + 27100000 + 27109000));
}

/* full with numbers over all 32 bits; then one goes and one comes, and at last all go */
static void check_full_rolls(void) {
    uint8_t run[RUN];
    const uint32_t apart = 8607219; /* 499 of these are just below 2^32 */
    sample_with_addition(run, 10000000);
    fill(0);
    HOLDS(opens(2010, ROLL));
    for (uint32_t i = 0; i < MEMBERS; i++) HOLDS(joins(run, i * apart, 20 + i % 131, LIMIT - i));
    HOLDS(roll[1] == MEMBERS);
    HOLDS(join_refused(run, RUN, 1, 65, 0, 14, 1, 0));
    HOLDS(join_refused(run, RUN, 499 * apart, 65, 0, 16, 499 * apart, 0));
    HOLDS(leave_refused(1));
    HOLDS(leaves(0));
    HOLDS(joins(run, 1, 65, 100));
    HOLDS(join_refused(run, RUN, 2, 65, 0, 14, 2, 0));
    HOLDS(leaves(1));
    HOLDS(joins(run, 0, 65, 100));
    HOLDS(leaves(250 * apart));
    HOLDS(leaves(499 * apart));
    HOLDS(joins(run, 499 * apart, 66, 1));
    HOLDS(joins(run, UINT32_MAX, 67, 1));
    HOLDS(join_refused(run, RUN, 1, 65, 0, 14, 1, 0));
    while (roll[1] > 0 && wanted[1] > 0) HOLDS(leaves((uint32_t)wanted[NUMBERS + wanted[1] / 2]));
    HOLDS(is(parvusek_roll_total(roll, ROLL), 0));
    HOLDS(leave_refused(0));

    /* opened again over a roll with members */
    HOLDS(joins(run, 5, 65, 100));
    HOLDS(opens(2011, ROLL));
    HOLDS(joins(run, 5, 65, 100));
}

/* 16, 14, 5 of the pension, and only then the run, the age and the year */
static void check_order(void) {
    uint8_t run[RUN];
    sample(run);
    fill(0);
    HOLDS(opens(2005, ROLL));
    HOLDS(join_refused(NULL, 0, 7, 19, LIMIT + 1, 5, 7, 0));
    HOLDS(join_refused(NULL, 0, UINT32_MAX, 19, UINT32_MAX, 5, UINT32_MAX, 0));
    HOLDS(join_refused(NULL, 0, 7, 19, LIMIT, 1, 0, 0));
    HOLDS(join_refused(run, RUN - 1, 7, 19, LIMIT, 1, 0, 0));
    HOLDS(join_refused(run, RUN, 7, 19, LIMIT, 6, 19, 0));
    HOLDS(join_refused(run, RUN, 7, UINT32_MAX, LIMIT, 6, UINT32_MAX, 0));
    HOLDS(join_refused(run, RUN, 7, 65, 0, 7, 2005, 0));
    put4(run + 12, -10000001);
    HOLDS(join_refused(run, RUN, 7, 19, LIMIT, 5, 12, 0));
    run[17] = 1;
    HOLDS(join_refused(run, RUN, 7, 19, LIMIT, 4, 17, 0));
    HOLDS(join_refused(run, RUN, 7, 19, LIMIT + 1, 5, 7, 0));

    sample(run);
    HOLDS(opens(2006, ROLL));
    for (uint32_t i = 0; i < MEMBERS; i++) {
        if (i > 0) HOLDS(join_refused(NULL, 0, i - 1, 19, UINT32_MAX, 16, i - 1, 0));
        HOLDS(joins(run, i, 65, i % 2 == 0 ? 0 : LIMIT));
    }
    HOLDS(join_refused(NULL, 0, 0, 19, UINT32_MAX, 16, 0, 0));
    HOLDS(join_refused(NULL, 0, MEMBERS, 19, UINT32_MAX, 14, MEMBERS, 0));
    HOLDS(leaves(MEMBERS - 1));
    HOLDS(join_refused(NULL, 0, MEMBERS, 19, UINT32_MAX, 5, MEMBERS, 0));

    /* what the work refuses, for a pension of 0 too */
    sample_worsening(run);
    HOLDS(join_refused(run, RUN, MEMBERS, 100, 0, 10, 104, 2010));
    sample_beyond(run);
    HOLDS(join_refused(run, RUN, MEMBERS, 100, LIMIT, 9, 101, 2007));
}

static void check_years(void) {
    uint8_t run[RUN];
    const uint32_t years[5] = {0, 2005, 2131, 0x80000000, UINT32_MAX};
    sample(run);
    fill(0);
    for (int i = 0; i < 5; i++) {
        HOLDS(opens(years[i], ROLL));
        HOLDS(join_refused(run, RUN, 7, 65, 0, 7, years[i], 0));
        HOLDS(join_refused(run, RUN, 7, 151, 0, 6, 151, 0));
        HOLDS(leave_refused(7));
    }
    HOLDS(opens(2006, ROLL));
    HOLDS(joins(run, 7, 65, 1));
    HOLDS(opens(2130, ROLL));
    HOLDS(joins(run, 7, 65, 1));

    /* past 2130: 148 is worth 2.71315, as in check_later_values, and 60 meets a 10 */
    sample_later(run, 20000000, 10000000, 5000000);
    HOLDS(joins(run, 8, 148, LIMIT));
    HOLDS(roll[LIABILITIES + 1] == 27131500);
    sample_later(run, -200000000, -200000000, -100000000);
    HOLDS(join_refused(run, RUN, 9, 60, 0, 10, 64, 2134));
}

/* ---- numbers that no call has made: every call ends and says what the header says of them */

static void check_all_bits(void) {
    uint8_t run[RUN];
    sample(run);
    fill(UINT64_MAX);
    HOLDS(is(parvusek_roll_total(roll, ROLL), (uint64_t)0 - MEMBERS));
    HOLDS(join_refused(run, RUN, UINT32_MAX, 65, 1, 14, UINT32_MAX, 0));
    HOLDS(leave_refused(UINT32_MAX));
    HOLDS(opens(UINT32_MAX, ROLL));
    HOLDS(join_refused(run, RUN, UINT32_MAX, 65, 1, 7, UINT32_MAX, 0));
}

/* a count of more than 500 is one of 500, also where its last 32 bits are 0; the leave sets it right */
static void check_counts(void) {
    uint8_t run[RUN];
    const uint64_t counts[3] = {MEMBERS + 1, (uint64_t)1 << 32, UINT64_MAX};
    sample(run);
    for (int i = 0; i < 3; i++) {
        fill(3);
        roll[0] = wanted[0] = 2010;
        roll[1] = wanted[1] = counts[i];
        HOLDS(is(parvusek_roll_total(roll, ROLL), 3 * MEMBERS));
        HOLDS(join_refused(run, RUN, 3, 65, 1, 16, 3, 0));
        HOLDS(join_refused(run, RUN, 4, 65, 1, 14, 4, 0));
        HOLDS(leave_refused(4));
        HOLDS(leaves(3));
        HOLDS(roll[1] == MEMBERS - 1);
        HOLDS(joins(run, 4, 65, 1));
    }
}

/* one number in several places, one that differs above its 32 bits, and a sum beyond 64 */
static void check_odd_members(void) {
    uint8_t run[RUN];
    sample(run);
    fill(0);
    roll[0] = wanted[0] = ((uint64_t)9 << 32) + 2010;
    roll[1] = wanted[1] = 4;
    for (size_t i = 0; i < 4; i++) {
        roll[NUMBERS + i] = wanted[NUMBERS + i] = i == 0 ? ((uint64_t)1 << 32) + 8 : 7;
        roll[LIABILITIES + i] = wanted[LIABILITIES + i] = UINT64_MAX - i;
    }
    HOLDS(is(parvusek_roll_total(roll, ROLL), (uint64_t)0 - 10));
    HOLDS(join_refused(run, RUN, 7, 65, 1, 16, 7, 0));
    HOLDS(leave_refused(8));
    HOLDS(joins(run, 8, 148, 100));
    HOLDS(is(parvusek_roll_total(roll, ROLL), 261));
    HOLDS(leaves(7));
    HOLDS(is(parvusek_roll_total(roll, ROLL), 263));
    HOLDS(leaves(7) && leaves(7));
    HOLDS(leave_refused(7));
    HOLDS(leaves(8));
}

/* ---- many calls in any order, on two bases alternately, more of them joins than leaves until the roll is full */

static void check_many_calls(void) {
    uint8_t bases[2][RUN];
    uint32_t random = 6;
    int full = 0;
    sample(bases[0]);
    sample_with_addition(bases[1], 10000000);
    fill(0);
    HOLDS(opens(2010, ROLL));
    for (int i = 0; i < 4000; i++) {
        random = random * 1664525 + 1013904223;
        uint32_t number = (random >> 8) % 600, age = 20 + (random >> 16) % 131, pension = (random >> 4) % (LIMIT + 1);
        int on = place_of(number) < on_it();
        if ((random >> 24) % 8 == 0) {
            HOLDS(on ? leaves(number) : leave_refused(number));
        } else if (on || on_it() == MEMBERS) {
            full += !on;
            HOLDS(join_refused(bases[i % 2], RUN, number, age, pension, on ? 16 : 14, number, 0));
        } else {
            HOLDS(joins(bases[i % 2], number, age, pension));
        }
    }
    HOLDS(full > 0);
}

void check_rolls(void) {
    check_lengths();
    check_calls();
    check_bases();
    check_full_rolls();
    check_order();
    check_years();
    check_all_bits();
    check_counts();
    check_odd_members();
    check_many_calls();
}
