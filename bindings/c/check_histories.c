/* Checks bases older than their foundation year at the boundary: answers from the history that is lent beside the run,
   each refusal of a history with its places, and the order run, history, question. */
#include <stdio.h>
#include <string.h>
#include "check_boundary.h"

enum { YEARS = 4, HISTORY = YEARS * PARVUSEK_HISTORY_YEAR, DATA = 506, GRID = 119 };

/* B 2002 and F 2006, every base rate 100,000,000, every projected improvement 20,000,000, and 5,000,000 more after F */
static void sample_older(uint8_t *run) {
    sample_with_addition(run, 5000000);
    put2(run + 6, 2002);
    fill4(run + 554, 262, 20000000);
}

/* puts the right check behind a block again */
static void seal(uint8_t *history, uint32_t block) {
    put4(history + BLOCK * block + 508, (int32_t)block_check(history + BLOCK * block));
}

/* the history of its four years, the same improvement in each of them at every age */
static void level(uint8_t *history, int32_t improvement) {
    memset(history, 0, HISTORY);
    for (uint32_t b = 0; b < 2 * YEARS; b++) {
        put2(history + BLOCK * b, b);
        fill4(history + BLOCK * b + 2, b % 2 == 0 ? 66 : 65, improvement);
        seal(history, b);
    }
}

/* the byte at this offset of the joined data */
static uint8_t *joined(uint8_t *history, size_t offset) { return history + BLOCK * (offset / DATA) + 2 + offset % DATA; }

/* ---- answers */

static void check_actual_cells(void) {
    uint8_t run[RUN], history[HISTORY];
    sample_older(run);
    level(history, 10000000);
    HOLDS(passed(parvusek_check_basis(run, RUN)));

    /* from B + 1 to F the history's, without the addition and whatever the initial rates say */
    HOLDS(refused(parvusek_improvement(run, RUN, history, HISTORY, 60, 2002).refusal, 7, 2002, 0));
    HOLDS(refused(parvusek_improvement(run, RUN, history, HISTORY, 60, 1992).refusal, 7, 1992, 0));
    HOLDS(is_signed(parvusek_improvement(run, RUN, history, HISTORY, 60, 2003), 10000000));
    HOLDS(is_signed(parvusek_improvement(run, RUN, history, HISTORY, 60, 2006), 10000000));
    HOLDS(is_signed(parvusek_improvement(run, RUN, history, HISTORY, 60, 2007), 25000000));

    HOLDS(declined(parvusek_factor(run, RUN, history, HISTORY, 60, 2001), 7, 2001, 0));
    HOLDS(is(parvusek_factor(run, RUN, history, HISTORY, 60, 2002), 1000000000));
    HOLDS(is(parvusek_factor(run, RUN, history, HISTORY, 60, 2003), 990000000));
    HOLDS(is(parvusek_factor(run, RUN, history, HISTORY, 60, 2006), 960596010));
    HOLDS(is(parvusek_factor(run, RUN, history, HISTORY, 60, 2007), 936581110));
    HOLDS(is(parvusek_rate(run, RUN, history, HISTORY, 60, 2004), 98010000));

    /* the first and the last age of either block, in the first and the last year */
    const uint32_t ages[4] = {20, 85, 86, 150};
    const size_t offsets[4] = {0, 260, 506, 762};
    for (int i = 0; i < 4; i++) {
        put4(joined(history, offsets[i]), -1 - i);
        put4(joined(history, 3036 + offsets[i]), 500000000 - i);
    }
    for (uint32_t b = 0; b < 2 * YEARS; b++) seal(history, b);
    for (int i = 0; i < 4; i++) {
        HOLDS(is_signed(parvusek_improvement(run, RUN, history, HISTORY, ages[i], 2003), -1 - i));
        HOLDS(is_signed(parvusek_improvement(run, RUN, history, HISTORY, ages[i], 2004), 10000000));
        HOLDS(is_signed(parvusek_improvement(run, RUN, history, HISTORY, ages[i], 2006), 500000000 - i));
    }

    /* 1.5, 2.25, 3.375, and then too much */
    level(history, -500000000);
    HOLDS(is(parvusek_factor(run, RUN, history, HISTORY, 60, 2005), 3375000000));
    HOLDS(declined(parvusek_factor(run, RUN, history, HISTORY, 60, 2006), 10, 60, 2006));
    HOLDS(declined(parvusek_rate(run, RUN, history, HISTORY, 60, 2130), 10, 60, 2006));
    HOLDS(is_signed(parvusek_improvement(run, RUN, history, HISTORY, 60, 2006), -500000000));
}

static void check_actual_values(void) {
    uint8_t run[RUN], history[HISTORY];
    sample_older(run);
    level(history, 10000000);

    /* in 2003 every rate is 99,000,000; from 2002 on a cohort meets 100,000,000 and then 99,000,000 */
    HOLDS(is(parvusek_period_survivorship(run, RUN, history, HISTORY, 148, 2, 2003), 811801000));
    HOLDS(is(parvusek_cohort_survivorship(run, RUN, history, HISTORY, 148, 2, 2002), 810900000));
    HOLDS(is(parvusek_period_expectation(run, RUN, history, HISTORY, 148, 0, 2003), 2212801000));
    HOLDS(is(parvusek_cohort_expectation(run, RUN, history, HISTORY, 148, 0, 2002), 2210900000));
    HOLDS(is(parvusek_period_annuity(run, RUN, history, HISTORY, 148, 0, 2003), 2712801000));
    HOLDS(is(parvusek_cohort_annuity(run, RUN, history, HISTORY, 148, 0, 2002), 2710900000));

    parvusek_questions_t asked = {{{148, 0, 2002}, {148, 0, 2003}, {150, 0, 2002}, {148, 0, 2001}, {19, 0, 2002}, {150, 0, 2006}}};
    parvusek_small_set_t set = parvusek_small_set(run, RUN, history, HISTORY, asked);
    HOLDS(passed(set.refusal));
    HOLDS(passed(set.points[0].refusal) && set.points[0].results[1] == 2210900000 && set.points[0].results[3] == 2710900000);
    HOLDS(passed(set.points[1].refusal) && set.points[1].results[0] == 2212801000 && set.points[1].results[2] == 2712801000);
    HOLDS(refused(set.points[3].refusal, 7, 2001, 0));
    HOLDS(refused(set.points[4].refusal, 6, 19, 0));

    static parvusek_point_t list[GRID];
    memset(list, KEPT, sizeof list);
    for (int i = 0; i < GRID; i++) {
        list[i].age = 148;
        list[i].deferment = 0;
        list[i].year = 2001 + (uint32_t)i % 3;
    }
    HOLDS(passed(parvusek_grid(run, RUN, history, HISTORY, list, GRID)));
    HOLDS(list[117].refusal == 7 && list[117].first == 2001 && list[117].second == 0 && list[117].results[3] == 0);
    HOLDS(list[118].refusal == 0 && list[118].results[1] == 2210900000 && list[118].results[3] == 2710900000);
    HOLDS(list[2].refusal == 0 && list[2].results[0] == 2212801000 && list[2].results[2] == 2712801000);
}

/* a life whose second step is lent another history: 0.901 of 900,000,000 by the one, 0.9 by the other */
static void check_actual_lives(void) {
    uint8_t run[RUN], history[HISTORY], other[HISTORY];
    sample_older(run);
    level(history, 10000000);
    level(other, 0);
    parvusek_lifeline_t l = parvusek_lifeline_start(run, RUN, history, HISTORY, 60, 2002);
    HOLDS(passed(l.refusal) && l.age == 60 && l.year == 2002 && l.survivors == 1000000000);
    l = parvusek_lifeline_step(run, RUN, history, HISTORY, 60, 2002, 1000000000);
    HOLDS(passed(l.refusal) && l.age == 61 && l.year == 2003 && l.survivors == 900000000);
    l = parvusek_lifeline_step(run, RUN, history, HISTORY, 61, 2003, 900000000);
    HOLDS(passed(l.refusal) && l.age == 62 && l.year == 2004 && l.survivors == 810900000);
    l = parvusek_lifeline_step(run, RUN, other, HISTORY, 61, 2003, 900000000);
    HOLDS(passed(l.refusal) && l.age == 62 && l.year == 2004 && l.survivors == 810000000);
    l = parvusek_lifeline_step(run, RUN, history, HISTORY, 61, 2001, 900000000);
    HOLDS(refused(l.refusal, 7, 2001, 0) && l.age == 61 && l.year == 2001 && l.survivors == 900000000);
}

/* a join is lent the history as an annuity is: 2.7109 a year by the one, 2.71 by the other */
static void check_actual_joins(void) {
    static uint64_t roll[PARVUSEK_ROLL_LENGTH];
    uint8_t run[RUN], history[HISTORY], other[HISTORY];
    sample_older(run);
    level(history, 10000000);
    level(other, 0);
    HOLDS(passed(parvusek_roll_open(2002, roll, PARVUSEK_ROLL_LENGTH)));
    HOLDS(is(parvusek_roll_join(run, RUN, history, HISTORY, roll, PARVUSEK_ROLL_LENGTH, 1, 148, 10000), 27109));
    HOLDS(is(parvusek_roll_join(run, RUN, other, HISTORY, roll, PARVUSEK_ROLL_LENGTH, 2, 148, 10000), 27109 + 27100));
    HOLDS(declined(parvusek_roll_join(run, RUN, NO_HISTORY, roll, PARVUSEK_ROLL_LENGTH, 2, 148, 10000), 16, 2, 0));
    HOLDS(is(parvusek_roll_leave(roll, PARVUSEK_ROLL_LENGTH, 1), 27100));
}

/* ---- refusals */

/* whether a call is so refused; says which is not */
static int so(const char *name, int fact) {
    if (!fact) printf("%s is not refused so\n", name);
    return fact;
}

typedef parvusek_answer_t enquiry_t(const uint8_t *run, size_t run_len, const uint8_t *history, size_t history_len,
                                    uint32_t age, uint32_t deferment, uint32_t year);

static enquiry_t *const values[6] = {parvusek_period_survivorship, parvusek_cohort_survivorship,
                                     parvusek_period_expectation,  parvusek_cohort_expectation,
                                     parvusek_period_annuity,      parvusek_cohort_annuity};

/* a join is so refused, and no number of its roll is touched */
static int refuses_join(const uint8_t *run, size_t run_len, const uint8_t *history, size_t history_len, uint32_t number,
                        uint64_t first) {
    static uint64_t roll[PARVUSEK_ROLL_LENGTH], before[PARVUSEK_ROLL_LENGTH];
    memset(roll, KEPT, sizeof roll);
    HOLDS(passed(parvusek_roll_open(0, roll, PARVUSEK_ROLL_LENGTH)));
    memcpy(before, roll, sizeof roll);
    parvusek_answer_t join = parvusek_roll_join(run, run_len, history, history_len, roll, PARVUSEK_ROLL_LENGTH, 7, 19, 0);
    return declined(join, number, first, 0) && memcmp(roll, before, sizeof roll) == 0;
}

/* Every call that is lent this basis is so refused, though age, deferment and year are wrong too: no value is answered,
   no point of the small set and no record of the grid is touched, and a step hands back what it was given. */
static int refuses(const uint8_t *run, size_t run_len, const uint8_t *history, size_t history_len, uint32_t number,
                   uint64_t first) {
    static parvusek_point_t list[GRID], before[GRID];
    const parvusek_questions_t asked = {{{148, 0, 2010}, {19, 200, 0}, {0, 0, 0}, {0, 0, 0}, {0, 0, 0}, {0, 0, 0}}};
    int all = 1;

    parvusek_signed_answer_t improvement = parvusek_improvement(run, run_len, history, history_len, 19, 0);
    all &= so("improvement", refused(improvement.refusal, number, first, 0) && improvement.value == 0);
    all &= so("factor", declined(parvusek_factor(run, run_len, history, history_len, 19, 0), number, first, 0));
    all &= so("rate", declined(parvusek_rate(run, run_len, history, history_len, 19, 0), number, first, 0));
    for (int i = 0; i < 6; i++)
        all &= so("value of a life", declined(values[i](run, run_len, history, history_len, 19, 200, 0), number, first, 0));

    parvusek_small_set_t set = parvusek_small_set(run, run_len, history, history_len, asked);
    all &= so("small set", refused(set.refusal, number, first, 0));
    for (int i = 0; i < 6; i++) {
        const uint64_t *results = set.points[i].results;
        all &= so("point of the small set", passed(set.points[i].refusal) && !results[0] && !results[1] && !results[2] && !results[3]);
    }

    memset(list, KEPT, sizeof list);
    memcpy(before, list, sizeof list);
    all &= so("grid", refused(parvusek_grid(run, run_len, history, history_len, list, GRID), number, first, 0));
    all &= so("short grid", refused(parvusek_grid(run, run_len, history, history_len, list, GRID - 1), 11, GRID, 0));
    all &= so("record of the grid", memcmp(list, before, sizeof list) == 0);

    parvusek_lifeline_t l = parvusek_lifeline_start(run, run_len, history, history_len, 19, 0);
    all &= so("lifeline's start", refused(l.refusal, number, first, 0) && !l.age && !l.year && !l.survivors && !l.ended);
    l = parvusek_lifeline_step(run, run_len, history, history_len, 19, 7, UINT64_MAX);
    all &= so("lifeline's step", refused(l.refusal, number, first, 0) && !l.ended);
    all &= so("lifeline's step", l.age == 19 && l.year == 7 && l.survivors == UINT64_MAX);
    all &= so("join", refuses_join(run, run_len, history, history_len, number, first));
    return all;
}

static void check_lengths(void) {
    uint8_t run[RUN], history[HISTORY];
    sample_older(run);
    level(history, 0);
    HOLDS(refuses(run, RUN, NO_HISTORY, 13, HISTORY));
    HOLDS(refuses(run, RUN, history, 0, 13, HISTORY));
    HOLDS(refuses(run, RUN, history, HISTORY - 1, 13, HISTORY));
    HOLDS(refuses(run, RUN, history, HISTORY - 1024, 13, HISTORY));
    put2(run + 6, 2003);
    HOLDS(refuses(run, RUN, history, HISTORY, 13, 3 * 1024));
    put2(run + 4, 2080);
    put2(run + 6, 1992);
    HOLDS(refuses(run, RUN, history, HISTORY, 13, 88 * 1024));

    /* none is needed with B at F or later, and then a length of 0 comes with any pointer */
    for (uint32_t base = 2006; base <= 2007; base++) {
        sample(run);
        put2(run + 6, base);
        HOLDS(refuses(run, RUN, history, HISTORY, 13, 0));
        HOLDS(refuses(run, RUN, history, 1, 13, 0));
        HOLDS(is(parvusek_factor(run, RUN, NULL, 0, 60, 2010), 1000000000));
        HOLDS(is(parvusek_factor(run, RUN, history, 0, 60, 2010), 1000000000));
        HOLDS(is(parvusek_factor(run, RUN, (const uint8_t *)1, 0, 60, 2010), 1000000000));
    }
}

static void check_blocks(void) {
    uint8_t run[RUN], history[HISTORY];
    sample_older(run);
    level(history, 0);
    history[BLOCK * 5 + 9] ^= 1;
    HOLDS(refuses(run, RUN, history, HISTORY, 2, 5));
    put2(history + BLOCK * 6, 7);
    seal(history, 6);
    HOLDS(refuses(run, RUN, history, HISTORY, 2, 5));
    put2(history + BLOCK * 2, 258);
    HOLDS(refuses(run, RUN, history, HISTORY, 2, 2));
    seal(history, 2);
    HOLDS(refuses(run, RUN, history, HISTORY, 3, 2));
    put2(history + BLOCK * 2, 2);
    seal(history, 2);
    seal(history, 5);
    HOLDS(refuses(run, RUN, history, HISTORY, 3, 6));
    HOLDS(refuses(run, RUN, history, HISTORY - 1, 13, HISTORY));
}

static void check_fields(void) {
    uint8_t run[RUN], history[HISTORY];
    const size_t zero[6] = {264, 505, 766, 1011, 3300, 4047};
    const size_t fields[5] = {0, 260, 506, 762, 3798};
    sample_older(run);
    for (int i = 0; i < 6; i++) {
        level(history, 0);
        *joined(history, zero[i]) = 0x80;
        seal(history, (uint32_t)(zero[i] / DATA));
        HOLDS(refuses(run, RUN, history, HISTORY, 4, zero[i]));
    }
    for (int i = 0; i < 5; i++) {
        level(history, 0);
        put4(joined(history, fields[i]), i % 2 == 0 ? 500000001 : -500000001);
        seal(history, (uint32_t)(fields[i] / DATA));
        HOLDS(refuses(run, RUN, history, HISTORY, 5, fields[i]));
    }

    /* every 4 before every 5, and both after the blocks */
    put4(joined(history, 1012), INT32_MIN);
    seal(history, 2);
    HOLDS(refuses(run, RUN, history, HISTORY, 5, 1012));
    *joined(history, 4047) = 1;
    seal(history, 7);
    HOLDS(refuses(run, RUN, history, HISTORY, 4, 4047));
    history[BLOCK * 8 - 1] ^= 1;
    HOLDS(refuses(run, RUN, history, HISTORY, 2, 7));

    /* the run's own before the history's */
    put4(run + 12, -10000001);
    HOLDS(refuses(run, RUN, history, HISTORY, 5, 12));
    HOLDS(refuses(run, RUN, NO_HISTORY, 5, 12));
    HOLDS(refuses(run, RUN - 1, history, HISTORY, 1, 0));
}

/* the calls that are lent no history do not miss it */
static void check_runs_alone(void) {
    uint8_t run[RUN], file[FILE_SIZE], back[RUN];
    sample_older(run);
    HOLDS(passed(parvusek_write_basis(run, RUN, file, FILE_SIZE)));
    HOLDS(passed(parvusek_read_basis(file, FILE_SIZE, back, RUN)));
    HOLDS(memcmp(run, back, RUN) == 0);
    HOLDS(passed(parvusek_short_form(run, RUN, 10000000, back, RUN)));
    HOLDS(memcmp(run, back, 1078) == 0);
}

void check_histories(void) {
    HOLDS(PARVUSEK_HISTORY_YEAR == 2 * BLOCK);
    check_actual_cells();
    check_actual_values();
    check_actual_lives();
    check_actual_joins();
    check_lengths();
    check_blocks();
    check_fields();
    check_runs_alone();
}
