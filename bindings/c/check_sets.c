/* Checks the sets and the lifeline at the boundary: six points by value, the records of a grid in place, and a life kept
   by its host from year to year. */
#include <string.h>
#include "check_boundary.h"

/* ---- the small set */

static int point_is(parvusek_point_answer_t p, uint64_t a, uint64_t b, uint64_t c, uint64_t d) {
    return passed(p.refusal) && p.results[0] == a && p.results[1] == b && p.results[2] == c && p.results[3] == d;
}

static int point_refused(parvusek_point_answer_t p, uint32_t number, uint64_t first, uint64_t second) {
    return refused(p.refusal, number, first, second) && !p.results[0] && !p.results[1] && !p.results[2] && !p.results[3];
}

void check_small_sets(void) {
    uint8_t run[RUN];
    const parvusek_questions_t asked = {{{148, 0, 2010}, {150, 0, 2010}, {148, 3, 2010}, {19, 0, 2010}, {148, 0, 2131}, {149, 1, 2010}}};
    sample(run);
    parvusek_small_set_t set = parvusek_small_set(run, RUN, NO_HISTORY, asked);
    HOLDS(passed(set.refusal));
    HOLDS(point_is(set.points[0], 2210000000, 2210000000, 2710000000, 2710000000));
    HOLDS(point_is(set.points[1], 500000000, 500000000, 1000000000, 1000000000));
    HOLDS(point_refused(set.points[2], 8, 148, 3));
    HOLDS(point_refused(set.points[3], 6, 19, 0));
    HOLDS(point_refused(set.points[4], 7, 2131, 0));
    HOLDS(point_is(set.points[5], 500000000, 500000000, 900000000, 900000000));

    sample_with_addition(run, 10000000);
    const parvusek_questions_t moving = {{{148, 0, 2006}, {148, 0, 2006}, {148, 0, 2006}, {148, 0, 2006}, {148, 0, 2006}, {148, 0, 2006}}};
    set = parvusek_small_set(run, RUN, NO_HISTORY, moving);
    HOLDS(point_is(set.points[5], 2210000000, 2210900000, 2710000000, 2710900000));

    /* past 2130, as in check_later_values: the period annuity alone is by the rates of 2130 */
    sample_later(run, 20000000, 10000000, 5000000);
    const parvusek_questions_t later = {{{147, 1, 2130}, {148, 0, 2130}, {149, 1, 2130}, {150, 0, 2130}, {148, 0, 2131}, {20, 131, 2130}}};
    set = parvusek_small_set(run, RUN, NO_HISTORY, later);
    HOLDS(point_is(set.points[0], 2219812250, 2222863821, 2439000000, 2450577439));
    HOLDS(point_is(set.points[1], 2210000000, 2213150000, 2710000000, 2713150000));
    HOLDS(point_is(set.points[2], 500000000, 500000000, 900000000, 900000000));
    HOLDS(point_refused(set.points[4], 7, 2131, 0));

    run[3] = '2';
    set = parvusek_small_set(run, RUN, NO_HISTORY, asked);
    HOLDS(refused(set.refusal, 4, 3, 0));
    for (int i = 0; i < 6; i++) HOLDS(point_is(set.points[i], 0, 0, 0, 0));
}

/* ---- the grid */

enum { GRID = 119, LENT = GRID + 2 };

/* a list whose records hold these questions in turn, and no byte of an answer yet */
static void ask(parvusek_point_t *list, const parvusek_question_t *questions, size_t count) {
    memset(list, KEPT, LENT * sizeof *list);
    for (size_t i = 0; i < LENT; i++) {
        list[i].age = questions[i % count].age;
        list[i].deferment = questions[i % count].deferment;
        list[i].year = questions[i % count].year;
    }
}

static int asks(parvusek_point_t p, parvusek_question_t q) {
    return p.age == q.age && p.deferment == q.deferment && p.year == q.year;
}

static int record_is(parvusek_point_t p, uint64_t a, uint64_t b, uint64_t c, uint64_t d) {
    return !p.refusal && !p.first && !p.second && p.results[0] == a && p.results[1] == b && p.results[2] == c && p.results[3] == d;
}

static int record_refused(parvusek_point_t p, uint32_t number, uint64_t first, uint64_t second) {
    return p.refusal == number && p.first == first && p.second == second && !p.results[0] && !p.results[1] && !p.results[2]
        && !p.results[3];
}

static void check_records(void) {
    static parvusek_point_t list[LENT], before[LENT];
    uint8_t run[RUN];
    const parvusek_question_t asked[7] = {{148, 0, 2010}, {150, 0, 2010}, {148, 3, 2131}, {19, 200, 2010},
                                          {148, 0, 2131}, {149, 1, 2010}, {148, 2, 2005}};
    sample(run);
    for (size_t count = GRID; count <= LENT; count += 2) {
        ask(list, asked, 7);
        memcpy(before, list, sizeof list);
        HOLDS(passed(parvusek_grid(run, RUN, NO_HISTORY, list, count)));
        for (size_t i = 0; i < GRID; i += 7) {
            HOLDS(record_is(list[i], 2210000000, 2210000000, 2710000000, 2710000000));
            HOLDS(record_is(list[i + 1], 500000000, 500000000, 1000000000, 1000000000));
            HOLDS(record_refused(list[i + 2], 8, 148, 3));
            HOLDS(record_refused(list[i + 3], 6, 19, 0));
            HOLDS(record_refused(list[i + 4], 7, 2131, 0));
            HOLDS(record_is(list[i + 5], 500000000, 500000000, 900000000, 900000000));
            HOLDS(record_refused(list[i + 6], 7, 2005, 0));
        }
        for (size_t i = 0; i < GRID; i++) HOLDS(asks(list[i], asked[i % 7]));
        HOLDS(memcmp(list + GRID, before + GRID, 2 * sizeof *list) == 0);
    }
}

/* one list on one basis after another: what stood in a record does not matter */
static void check_records_again(void) {
    static parvusek_point_t list[LENT];
    uint8_t run[RUN];
    const parvusek_question_t asked[4] = {{148, 0, 2006}, {148, 0, 2009}, {149, 1, 2010}, {150, 0, 2010}};
    ask(list, asked, 4);
    sample_worsening(run);
    HOLDS(passed(parvusek_grid(run, RUN, NO_HISTORY, list, LENT)));
    HOLDS(record_is(list[0], 2210000000, 2165000000, 2710000000, 2665000000));
    HOLDS(record_refused(list[1], 10, 149, 2010));
    HOLDS(record_refused(list[2], 10, 149, 2010));
    HOLDS(record_is(list[3], 500000000, 500000000, 1000000000, 1000000000));

    sample_beyond(run);
    HOLDS(passed(parvusek_grid(run, RUN, NO_HISTORY, list, LENT)));
    HOLDS(record_refused(list[0], 9, 149, 2007));
    HOLDS(record_refused(list[1], 9, 148, 2007));
    HOLDS(record_refused(list[2], 9, 149, 2007));
    HOLDS(record_is(list[3], 500000000, 500000000, 1000000000, 1000000000));

    sample_with_addition(run, 10000000);
    HOLDS(passed(parvusek_grid(run, RUN, NO_HISTORY, list, LENT)));
    HOLDS(record_is(list[0], 2210000000, 2210900000, 2710000000, 2710900000));
    HOLDS(record_is(list[116], 2210000000, 2210900000, 2710000000, 2710900000));
    HOLDS(list[1].refusal == 0 && list[1].first == 0 && list[1].second == 0);
}

/* a record has the results of the four enquiries, or the first refusal among them */
static int record_agrees(const uint8_t *run, parvusek_point_t p) {
    const parvusek_answer_t four[4] = {
        parvusek_period_expectation(run, RUN, NO_HISTORY, p.age, p.deferment, p.year),
        parvusek_cohort_expectation(run, RUN, NO_HISTORY, p.age, p.deferment, p.year),
        parvusek_period_annuity(run, RUN, NO_HISTORY, p.age, p.deferment, p.year),
        parvusek_cohort_annuity(run, RUN, NO_HISTORY, p.age, p.deferment, p.year)};
    for (int i = 0; i < 4; i++)
        if (four[i].refusal.number != 0)
            return record_refused(p, four[i].refusal.number, four[i].refusal.first, four[i].refusal.second);
    return record_is(p, four[0].value, four[1].value, four[2].value, four[3].value);
}

static int record_as_asked(const uint8_t *run, parvusek_point_t p) { return !p.refusal && record_agrees(run, p); }

/* two ages are refused by 10 from a year on, 70 from 2014 (1.2 to the 8th) and 80 from 2016 (1.15 to the 10th), and the
   others go on: a record has the refusal that it meets first on its own way, whatever years and ages stand around it */
static void check_records_apart(void) {
    static parvusek_point_t list[LENT];
    uint8_t run[RUN];
    const parvusek_question_t asked[10] = {{69, 0, 2130}, {81, 0, 2010}, {69, 0, 2013}, {71, 0, 2014}, {60, 15, 2100},
                                           {90, 7, 2130}, {70, 0, 2014}, {71, 0, 2016}, {60, 15, 2010}, {81, 69, 2006}};
    sample(run);
    for (uint8_t *rates = run + 554; rates <= run + 1078; rates += 524) {
        put4(rates + 4 * (70 - 20), -200000000);
        put4(rates + 4 * (80 - 20), -150000000);
    }
    ask(list, asked, 10);
    HOLDS(passed(parvusek_grid(run, RUN, NO_HISTORY, list, LENT)));
    for (size_t i = 0; i < GRID - 9; i += 10) {
        HOLDS(record_refused(list[i], 10, 70, 2014));
        HOLDS(record_as_asked(run, list[i + 1]));
        HOLDS(record_refused(list[i + 2], 10, 70, 2014));
        HOLDS(record_refused(list[i + 3], 10, 80, 2016));
        HOLDS(record_refused(list[i + 4], 10, 80, 2016));
        HOLDS(record_as_asked(run, list[i + 5]));
        HOLDS(record_refused(list[i + 6], 10, 70, 2014));
        HOLDS(record_refused(list[i + 7], 10, 80, 2016));
        HOLDS(record_refused(list[i + 8], 10, 80, 2016));
        HOLDS(record_as_asked(run, list[i + 9]));
    }
}

/* ---- years after 2130, of which the grid keeps every second one */

/* F 2080, B 2125, and every rate another: base rates by age, long-term rates by birth year and, in such steps, by age */
static void sample_apart(uint8_t *run, int32_t step_by_age) {
    sample_later(run, 0, 0, 3000000);
    put2(run + 6, 2125);
    for (int32_t i = 0; i < 131; i++) {
        put4(run + 30 + 4 * i, 1000000 * (i + 1));
        put4(run + 1078 + 4 * i, step_by_age * i);
    }
    for (uint32_t i = 0; i < 269; i++) put_birth_year(run, 1842 + i, 20000 * (int32_t)i);
}

static int point_of(parvusek_point_answer_t p, parvusek_point_t r) {
    return refused(p.refusal, r.refusal, r.first, r.second) && memcmp(p.results, r.results, sizeof p.results) == 0;
}

/* how many of a grid's records are refused by 10 in a year after 2130 that is even (0), or odd (1) */
static int tens(const parvusek_point_t *list, uint64_t odd) {
    int count = 0;
    for (size_t i = 0; i < GRID; i++) count += list[i].refusal == 10 && list[i].second > 2130 && list[i].second % 2 == odd;
    return count;
}

/* members from age 20 on, most of them deferred past 2130, in even years and odd ones: the grid and small sets answer as
   the enquiries do, where every rate improves and where those of old ages worsen */
static void check_later_records(void) {
    static parvusek_point_t list[LENT];
    static parvusek_question_t asked[GRID];
    uint8_t run[RUN];
    for (uint32_t i = 0; i < GRID; i++) {
        uint32_t age = 20 + 37 * i % 130;
        asked[i] = (parvusek_question_t){age, 17 * i % (151 - age), 2125 + i % 6};
    }
    for (int32_t step = 30000; step >= -300000; step -= 330000) {
        sample_apart(run, step);
        ask(list, asked, GRID);
        HOLDS(passed(parvusek_grid(run, RUN, NO_HISTORY, list, LENT)));
        for (size_t i = 0; i < GRID; i++) HOLDS(record_agrees(run, list[i]));
        for (size_t i = 0; i + 6 <= GRID; i += 6) {
            parvusek_questions_t six;
            memcpy(six.points, asked + i, sizeof six.points);
            parvusek_small_set_t set = parvusek_small_set(run, RUN, NO_HISTORY, six);
            for (size_t j = 0; j < 6; j++) HOLDS(point_of(set.points[j], list[i + j]));
        }
        HOLDS(step > 0 ? tens(list, 0) + tens(list, 1) == 0 : tens(list, 0) > 10 && tens(list, 1) > 10);
    }
}

/* the refusals of check_later_refusals: that of the period expectation, at the deferred age, comes first */
static void check_later_tens(void) {
    static parvusek_point_t list[LENT];
    uint8_t run[RUN];
    const parvusek_question_t asked[4] = {{60, 7, 2130}, {60, 0, 2130}, {146, 0, 2130}, {60, 2, 2130}};
    sample_later(run, -200000000, -200000000, -100000000);
    ask(list, asked, 4);
    HOLDS(passed(parvusek_grid(run, RUN, NO_HISTORY, list, GRID)));
    HOLDS(record_refused(list[0], 10, 67, 2134));
    HOLDS(record_refused(list[1], 10, 64, 2134));
    HOLDS(record_is(list[2], 3595100000, 3150654688, 4095100000, 3650654688));
    HOLDS(record_refused(list[3], 10, 64, 2134));
}

static void check_refused_grids(void) {
    static parvusek_point_t list[LENT], before[LENT];
    uint8_t run[RUN];
    const parvusek_question_t asked[1] = {{148, 0, 2010}};
    sample(run);
    ask(list, asked, 1);
    memcpy(before, list, sizeof list);
    HOLDS(refused(parvusek_grid(run, RUN, NO_HISTORY, list, GRID - 1), 11, GRID, 0));
    HOLDS(refused(parvusek_grid(run, RUN - 1, NO_HISTORY, list, GRID - 1), 11, GRID, 0));
    HOLDS(refused(parvusek_grid(NULL, 0, NO_HISTORY, NULL, 0), 11, GRID, 0));
    HOLDS(refused(parvusek_grid(run, RUN - 1, NO_HISTORY, list, LENT), 1, 0, 0));
    put4(run + 12, -10000001);
    HOLDS(refused(parvusek_grid(run, RUN, NO_HISTORY, list, GRID), 5, 12, 0));
    run[29] = 1;
    HOLDS(refused(parvusek_grid(run, RUN, NO_HISTORY, list, GRID), 4, 29, 0));
    HOLDS(refused(parvusek_grid(run, RUN, NO_HISTORY, list, GRID - 1), 11, GRID, 0));
    HOLDS(memcmp(list, before, sizeof list) == 0);
}

void check_grids(void) {
    check_records();
    check_records_again();
    check_records_apart();
    check_later_records();
    check_later_tens();
    check_refused_grids();
}

/* ---- the lifeline */

enum { UNIT = 1000000000 };

static int stands(parvusek_lifeline_t l, uint32_t age, uint32_t year, uint64_t survivors, uint32_t ended) {
    return passed(l.refusal) && l.age == age && l.year == year && l.survivors == survivors && l.ended == ended;
}

static int not_started(parvusek_lifeline_t l, uint32_t number, uint64_t first) {
    return refused(l.refusal, number, first, 0) && !l.age && !l.year && !l.survivors && !l.ended;
}

static parvusek_lifeline_t step(const uint8_t *run, parvusek_lifeline_t l) {
    return parvusek_lifeline_step(run, RUN, NO_HISTORY, l.age, l.year, l.survivors);
}

/* a step from here is so refused, and hands back what it was given */
static int stays(const uint8_t *run, size_t run_len, uint32_t age, uint32_t year, uint64_t survivors,
                 uint32_t number, uint64_t first, uint64_t second) {
    parvusek_lifeline_t l = parvusek_lifeline_step(run, run_len, NO_HISTORY, age, year, survivors);
    return refused(l.refusal, number, first, second) && l.age == age && l.year == year && l.survivors == survivors && !l.ended;
}

static void check_starts(void) {
    uint8_t run[RUN];
    sample(run);
    HOLDS(stands(parvusek_lifeline_start(run, RUN, NO_HISTORY, 20, 2130), 20, 2130, UNIT, 0));
    HOLDS(stands(parvusek_lifeline_start(run, RUN, NO_HISTORY, 150, 2006), 150, 2006, UNIT, 0));
    HOLDS(not_started(parvusek_lifeline_start(run, RUN, NO_HISTORY, 19, 2131), 6, 19));
    HOLDS(not_started(parvusek_lifeline_start(run, RUN, NO_HISTORY, UINT32_MAX, 2010), 6, UINT32_MAX));
    HOLDS(not_started(parvusek_lifeline_start(run, RUN, NO_HISTORY, 148, 2131), 7, 2131));
    HOLDS(not_started(parvusek_lifeline_start(run, RUN, NO_HISTORY, 148, 2005), 7, 2005));
    HOLDS(not_started(parvusek_lifeline_start(run, RUN - 1, NO_HISTORY, 19, 2005), 1, 0));
    put4(run + 12, -10000001);
    HOLDS(not_started(parvusek_lifeline_start(run, RUN, NO_HISTORY, 148, 2010), 5, 12));
}

static void check_steps(void) {
    uint8_t run[RUN];
    sample(run);
    parvusek_lifeline_t l = parvusek_lifeline_start(run, RUN, NO_HISTORY, 148, 2010);
    HOLDS(stands(l, 148, 2010, UNIT, 0));
    l = step(run, l);
    HOLDS(stands(l, 149, 2011, 900000000, 0));
    l = step(run, l);
    HOLDS(stands(l, 150, 2012, 810000000, 0));
    l = step(run, l);
    HOLDS(stands(l, 150, 2012, 810000000, 1));
    l = step(run, l);
    HOLDS(stands(l, 150, 2012, 810000000, 1));

    HOLDS(stands(parvusek_lifeline_step(run, RUN, NO_HISTORY, 149, 2259, UNIT), 150, 2260, 900000000, 0));
    HOLDS(stands(parvusek_lifeline_step(run, RUN, NO_HISTORY, 150, 2260, UNIT), 150, 2260, UNIT, 1));
    HOLDS(stands(parvusek_lifeline_step(run, RUN, NO_HISTORY, 20, 2130, UNIT), 21, 2131, 900000000, 0));
    HOLDS(stands(parvusek_lifeline_step(run, RUN, NO_HISTORY, 60, 2010, 5), 61, 2011, 5, 0));
    HOLDS(stands(parvusek_lifeline_step(run, RUN, NO_HISTORY, 60, 2010, 0), 61, 2011, 0, 0));

    /* the next year's rate is 99,000,000 */
    sample_with_addition(run, 10000000);
    l = step(run, parvusek_lifeline_start(run, RUN, NO_HISTORY, 148, 2006));
    HOLDS(stands(l, 149, 2007, 900000000, 0));
    HOLDS(stands(step(run, l), 150, 2008, 810900000, 0));
}

/* the survivors of check_later_values, year by year, and the refusals of check_later_refusals */
static void check_later_steps(void) {
    uint8_t run[RUN];
    sample_later(run, 20000000, 10000000, 5000000);
    parvusek_lifeline_t l = step(run, parvusek_lifeline_start(run, RUN, NO_HISTORY, 148, 2130));
    HOLDS(stands(l, 149, 2131, 900000000, 0));
    l = step(run, l);
    HOLDS(stands(l, 150, 2132, 813150000, 0));
    HOLDS(stands(step(run, l), 150, 2132, 813150000, 1));
    HOLDS(stands(parvusek_lifeline_step(run, RUN, NO_HISTORY, 149, 2132, UNIT), 150, 2133, 906877500, 0));

    /* the latest rate of all: one in two, and 10 per cent fewer by birth year 2110 */
    sample_later(run, 0, 0, 0);
    put4(run + 30 + 4 * (149 - 20), 500000000);
    put_birth_year(run, 2110, 100000000);
    HOLDS(stands(parvusek_lifeline_step(run, RUN, NO_HISTORY, 149, 2258, UNIT), 150, 2259, 500000000, 0));
    HOLDS(stands(parvusek_lifeline_step(run, RUN, NO_HISTORY, 149, 2259, UNIT), 150, 2260, 550000000, 0));
    HOLDS(stands(parvusek_lifeline_step(run, RUN, NO_HISTORY, 150, 2260, UNIT), 150, 2260, UNIT, 1));
    HOLDS(stays(run, RUN, 149, 2260, UNIT, 7, 2260, 0));
    HOLDS(stays(run, RUN, 150, 2261, UNIT, 7, 2261, 0));

    sample_later(run, -200000000, -200000000, -100000000);
    HOLDS(stands(parvusek_lifeline_step(run, RUN, NO_HISTORY, 64, 2133, UNIT), 65, 2134, 662500000, 0));
    HOLDS(stays(run, RUN, 64, 2134, 7, 10, 64, 2134));
    HOLDS(stays(run, RUN, 64, 2174, 0, 10, 64, 2134));
    HOLDS(stays(run, RUN, 64, 2175, 0, 7, 2175, 0));
}

static void check_refused_steps(void) {
    uint8_t run[RUN];
    sample(run);
    HOLDS(stays(run, RUN - 1, 19, 2005, UINT64_MAX, 1, 0, 0));
    HOLDS(stays(NULL, 0, 150, 2012, UNIT, 1, 0, 0));
    HOLDS(stays(run, RUN, 0, 0, 0, 6, 0, 0));
    HOLDS(stays(run, RUN, 19, 2005, UINT64_MAX, 6, 19, 0));
    HOLDS(stays(run, RUN, 151, 2261, UNIT, 6, 151, 0));
    HOLDS(stays(run, RUN, UINT32_MAX, UINT32_MAX, UNIT, 6, UINT32_MAX, 0));
    HOLDS(stays(run, RUN, 148, 2005, UNIT + 1, 7, 2005, 0));
    HOLDS(stays(run, RUN, 150, 2261, UNIT, 7, 2261, 0));
    HOLDS(stays(run, RUN, 20, 2131, UNIT, 7, 2131, 0));
    HOLDS(stays(run, RUN, 150, UINT32_MAX, UNIT, 7, UINT32_MAX, 0));
    HOLDS(stays(run, RUN, 148, 2010, UNIT + 1, 5, RUN, 0));
    HOLDS(stays(run, RUN, 150, 2260, UINT64_MAX, 5, RUN, 0));
    put4(run + 12, -10000001);
    HOLDS(stays(run, RUN, 148, 2010, UNIT + 1, 5, 12, 0));

    sample_beyond(run);
    parvusek_lifeline_t l = step(run, parvusek_lifeline_start(run, RUN, NO_HISTORY, 100, 2006));
    HOLDS(stands(l, 101, 2007, 900000000, 0));
    HOLDS(stays(run, RUN, 101, 2007, 900000000, 9, 101, 2007));
    HOLDS(stays(run, RUN, 101, 2211, 0, 9, 101, 2007));
    HOLDS(stands(parvusek_lifeline_step(run, RUN, NO_HISTORY, 150, 2010, 7), 150, 2010, 7, 1));
    sample_worsening(run);
    HOLDS(stands(parvusek_lifeline_step(run, RUN, NO_HISTORY, 100, 2009, UNIT), 101, 2010, 662500000, 0));
    HOLDS(stays(run, RUN, 101, 2010, 662500000, 10, 101, 2010));
}

/* so many steps are so many years of cohort survivorship, on base rates that differ by age */
static void check_whole_lives(void) {
    uint8_t run[RUN];
    sample_with_addition(run, 10000000);
    for (int32_t i = 0; i < 131; i++) put4(run + 30 + 4 * i, 1000000 * (i + 1));
    for (uint32_t year = 2006; year <= 2130; year += 124) {
        parvusek_lifeline_t l = parvusek_lifeline_start(run, RUN, NO_HISTORY, 20, year);
        for (uint32_t n = 0; n <= 130; n++) {
            HOLDS(stands(l, 20 + n, year + n, l.survivors, 0));
            HOLDS(is(parvusek_cohort_survivorship(run, RUN, NO_HISTORY, 20, n, year), l.survivors));
            l = step(run, l);
        }
        HOLDS(stands(l, 150, year + 130, l.survivors, 1));
    }
}

void check_lifelines(void) {
    check_starts();
    check_steps();
    check_later_steps();
    check_refused_steps();
    check_whole_lives();
}
