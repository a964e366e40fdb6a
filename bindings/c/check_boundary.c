/* Checks the boundary that nothing proves: C sees the engine's structs where the engine puts them, and each function
   answers and refuses as the definitions say on a few cases worked by hand. Prints one line, and each check that failed.
   The new form is in check_forms.c, the sets and the lifeline are in check_sets.c, bases older than their foundation year in
   check_histories.c, rolls of pensions in payment in check_rolls.c. */
#include <stddef.h>
#include <stdio.h>
#include <string.h>
#include "check_boundary.h"

static int checks, failures;

void holds(int fact, const char *text, const char *file, int line) {
    checks++;
    if (!fact) {
        failures++;
        printf("%s:%d: not so: %s\n", file, line, text);
    }
}

/* ---- what an answer says */

int refused(parvusek_refusal_t r, uint32_t number, uint64_t first, uint64_t second) {
    return r.number == number && r.first == first && r.second == second;
}

int passed(parvusek_refusal_t r) { return refused(r, 0, 0, 0); }

int is(parvusek_answer_t a, uint64_t value) { return passed(a.refusal) && a.value == value; }

int declined(parvusek_answer_t a, uint32_t number, uint64_t first, uint64_t second) {
    return refused(a.refusal, number, first, second) && a.value == 0;
}

int is_signed(parvusek_signed_answer_t a, int64_t value) { return passed(a.refusal) && a.value == value; }

int all(const uint8_t *at, size_t n, uint8_t byte) {
    for (size_t i = 0; i < n; i++)
        if (at[i] != byte) return 0;
    return 1;
}

/* ---- bases */

void put2(uint8_t *at, uint32_t n) {
    at[0] = (uint8_t)n;
    at[1] = (uint8_t)(n >> 8);
}

void put4(uint8_t *at, int32_t n) {
    put2(at, (uint32_t)n);
    put2(at + 2, (uint32_t)n >> 16);
}

uint32_t get4(const uint8_t *at) {
    return at[0] | (uint32_t)at[1] << 8 | (uint32_t)at[2] << 16 | (uint32_t)at[3] << 24;
}

void fill4(uint8_t *at, size_t count, int32_t n) {
    for (size_t i = 0; i < count; i++) put4(at + 4 * i, n);
}

void sample(uint8_t *run) {
    memset(run, 0, RUN);
    memcpy(run, "MPB1", 4);
    put2(run + 4, 2006);
    put2(run + 6, 2006);
    fill4(run + 30, 131, 100000000);
    memset(run + 1602, 20, 131);
    memset(run + 1733, 50, 131);
    memset(run + 4016, 20, 269);
    memset(run + 4285, 50, 269);
}

void sample_with_addition(uint8_t *run, int32_t addition) {
    sample(run);
    put4(run + 8, addition);
}

void sample_worsening(uint8_t *run) {
    sample_with_addition(run, -100000000);
    fill4(run + 554, 262, -200000000);
    fill4(run + 1864, 538, -200000000);
}

void sample_beyond(uint8_t *run) {
    sample(run);
    fill4(run + 554, 131, 200000000);
    fill4(run + 1078, 131, -200000000);
    memset(run + 1602, 4, 131);
    memset(run + 1733, 150, 131);
}

void sample_later(uint8_t *run, int32_t by_age, int32_t by_birth_year, int32_t addition) {
    sample_with_addition(run, addition);
    put2(run + 4, 2080);
    put2(run + 6, 2130);
    fill4(run + 1078, 131, by_age);
    fill4(run + 2940, 269, by_birth_year);
}

void put_birth_year(uint8_t *run, uint32_t birth_year, int32_t rate) { put4(run + 2940 + 4 * (birth_year - 1842), rate); }

/* ---- version and layouts */

static void check_version(void) {
    HOLDS(parvusek_version() == PARVUSEK_VERSION);
}

static void check_layouts(void) {
    HOLDS(sizeof(parvusek_refusal_t) == 24);
    HOLDS(offsetof(parvusek_refusal_t, number) == 0);
    HOLDS(offsetof(parvusek_refusal_t, first) == 8);
    HOLDS(offsetof(parvusek_refusal_t, second) == 16);
    HOLDS(sizeof(parvusek_answer_t) == 32);
    HOLDS(offsetof(parvusek_answer_t, refusal) == 0);
    HOLDS(offsetof(parvusek_answer_t, value) == 24);
    HOLDS(sizeof(parvusek_signed_answer_t) == 32);
    HOLDS(offsetof(parvusek_signed_answer_t, refusal) == 0);
    HOLDS(offsetof(parvusek_signed_answer_t, value) == 24);
    HOLDS(sizeof(parvusek_question_t) == 12);
    HOLDS(offsetof(parvusek_question_t, age) == 0);
    HOLDS(offsetof(parvusek_question_t, deferment) == 4);
    HOLDS(offsetof(parvusek_question_t, year) == 8);
    HOLDS(sizeof(parvusek_questions_t) == 72);
    HOLDS(sizeof(parvusek_point_answer_t) == 56);
    HOLDS(offsetof(parvusek_point_answer_t, results) == 0);
    HOLDS(offsetof(parvusek_point_answer_t, refusal) == 32);
    HOLDS(sizeof(parvusek_small_set_t) == 360);
    HOLDS(offsetof(parvusek_small_set_t, refusal) == 0);
    HOLDS(offsetof(parvusek_small_set_t, points) == 24);
    HOLDS(sizeof(parvusek_point_t) == 64);
    HOLDS(offsetof(parvusek_point_t, age) == 0);
    HOLDS(offsetof(parvusek_point_t, deferment) == 4);
    HOLDS(offsetof(parvusek_point_t, year) == 8);
    HOLDS(offsetof(parvusek_point_t, refusal) == 12);
    HOLDS(offsetof(parvusek_point_t, results) == 16);
    HOLDS(offsetof(parvusek_point_t, first) == 48);
    HOLDS(offsetof(parvusek_point_t, second) == 56);
    HOLDS(sizeof(parvusek_lifeline_t) == 48);
    HOLDS(offsetof(parvusek_lifeline_t, refusal) == 0);
    HOLDS(offsetof(parvusek_lifeline_t, survivors) == 24);
    HOLDS(offsetof(parvusek_lifeline_t, age) == 32);
    HOLDS(offsetof(parvusek_lifeline_t, year) == 36);
    HOLDS(offsetof(parvusek_lifeline_t, ended) == 40);
}

/* ---- the basis */

static void check_runs(void) {
    uint8_t run[RUN];
    sample(run);
    HOLDS(passed(parvusek_check_basis(run, RUN)));
    HOLDS(refused(parvusek_check_basis(run, RUN - 1), 1, 0, 0));
    HOLDS(refused(parvusek_check_basis(NULL, 0), 1, 0, 0));
    put2(run + 6, 1992);
    HOLDS(passed(parvusek_check_basis(run, RUN)));
    put2(run + 6, 2130);
    HOLDS(passed(parvusek_check_basis(run, RUN)));
    put2(run + 6, 2131);
    HOLDS(refused(parvusek_check_basis(run, RUN), 5, 6, 0));
    put2(run + 6, 1991);
    HOLDS(refused(parvusek_check_basis(run, RUN), 5, 6, 0));
    run[17] = 1;
    HOLDS(refused(parvusek_check_basis(run, RUN), 4, 17, 0));
    run[0] = 'm';
    HOLDS(refused(parvusek_check_basis(run, RUN), 4, 0, 0));
    sample(run);
    put4(run + 12, -10000000);
    HOLDS(passed(parvusek_check_basis(run, RUN)));
    put4(run + 12, -10000001);
    HOLDS(refused(parvusek_check_basis(run, RUN), 5, 12, 0));
}

uint32_t block_check(const uint8_t *block) {
    uint32_t sum = 0;
    for (uint32_t i = 0; i < 127; i++) sum += get4(block + 4 * i) * (i + 1);
    return sum;
}

static void check_files(void) {
    uint8_t run[RUN], file[FILE_SIZE + FURTHER], back[RUN + FURTHER];
    sample(run);
    memset(file, KEPT, sizeof file);
    memset(back, KEPT, sizeof back);

    HOLDS(refused(parvusek_write_basis(run, RUN - 1, file, FILE_SIZE - 1), 11, FILE_SIZE, 0));
    HOLDS(refused(parvusek_write_basis(run, RUN - 1, file, sizeof file), 1, 0, 0));
    HOLDS(all(file, sizeof file, KEPT));
    HOLDS(passed(parvusek_write_basis(run, RUN, file, sizeof file)));
    HOLDS(all(file + FILE_SIZE, FURTHER, KEPT));
    for (uint32_t b = 0; b < 9; b++) {
        const uint8_t *block = file + 512 * b;
        HOLDS(block[0] == b && block[1] == 0);
        HOLDS(memcmp(block + 2, run + 506 * b, 506) == 0);
        HOLDS(get4(block + 508) == block_check(block));
    }

    HOLDS(refused(parvusek_read_basis(NULL, 0, NULL, 0), 11, RUN, 0));
    HOLDS(refused(parvusek_read_basis(file, FILE_SIZE + 1, back, sizeof back), 1, 0, 0));
    file[512 * 7 + 9] ^= 1;
    HOLDS(refused(parvusek_read_basis(file, FILE_SIZE, back, sizeof back), 2, 7, 0));
    file[512 * 7 + 9] ^= 1;
    file[512 * 3] = 4;
    put4(file + 512 * 3 + 508, (int32_t)block_check(file + 512 * 3));
    HOLDS(refused(parvusek_read_basis(file, FILE_SIZE, back, sizeof back), 3, 3, 0));
    HOLDS(all(back, sizeof back, KEPT));
    file[512 * 3] = 3;
    put4(file + 512 * 3 + 508, (int32_t)block_check(file + 512 * 3));
    HOLDS(passed(parvusek_read_basis(file, FILE_SIZE, back, sizeof back)));
    HOLDS(memcmp(back, run, RUN) == 0);
    HOLDS(all(back + RUN, FURTHER, KEPT));
}

static int32_t long_term(const uint8_t *run, uint32_t age) { return (int32_t)get4(run + 1078 + 4 * (age - 20)); }

/* 20 to age 61, then each year less for two ages, and 5 from age 90 on */
static int has_default_periods(const uint8_t *periods) {
    for (uint8_t period = 19, place = 42; period > 5; period--, place += 2)
        if (periods[place] != period || periods[place + 1] != period) return 0;
    return all(periods, 42, 20) && all(periods + 70, 61, 5);
}

static void check_short_forms(void) {
    uint8_t run[RUN], out[RUN + FURTHER];
    sample_beyond(run);
    memset(out, KEPT, sizeof out);
    HOLDS(refused(parvusek_short_form(run, RUN, 200000001, out, RUN - 1), 11, RUN, 0));
    HOLDS(refused(parvusek_short_form(run, RUN - 1, 200000001, out, RUN), 1, 0, 0));
    HOLDS(refused(parvusek_short_form(run, RUN, 200000001, out, RUN), 5, 1078, 0));
    HOLDS(refused(parvusek_short_form(run, RUN, -200000001, out, RUN), 5, 1078, 0));
    HOLDS(all(out, sizeof out, KEPT));

    HOLDS(passed(parvusek_short_form(run, RUN, 10000000, out, sizeof out)));
    HOLDS(all(out + RUN, FURTHER, KEPT));
    HOLDS(memcmp(out, run, 1078) == 0);
    HOLDS(long_term(out, 20) == 10000000 && long_term(out, 90) == 10000000);
    HOLDS(long_term(out, 91) == 9666667);
    HOLDS(long_term(out, 119) == 333333);
    HOLDS(long_term(out, 120) == 0 && long_term(out, 150) == 0);
    HOLDS(has_default_periods(out + 1602) && all(out + 1733, 131, 50));
    HOLDS(memcmp(out + 1864, run + 1864, 1076) == 0);
    HOLDS(all(out + 2940, 1076, 0));
    HOLDS(all(out + 4016, 269, 20) && all(out + 4285, 269, 50));

    HOLDS(passed(parvusek_short_form(run, RUN, 15000000, out, RUN)));
    HOLDS(long_term(out, 90) == 15000000 && long_term(out, 100) == 10000000);
    HOLDS(passed(parvusek_short_form(run, RUN, -1, out, RUN)));
    HOLDS(long_term(out, 91) == -1 && long_term(out, 105) == 0);

    /* three years after F 0.93925 of the difference remains with T 20, a half with T 6 and 0.352 with T 5 */
    sample(run);
    fill4(run + 554, 131, 20000000);
    HOLDS(passed(parvusek_short_form(run, RUN, 10000000, out, RUN)));
    HOLDS(is_signed(parvusek_improvement(out, RUN, NO_HISTORY, 61, 2009), 19392500));
    HOLDS(is_signed(parvusek_improvement(out, RUN, NO_HISTORY, 89, 2009), 15000000));
    HOLDS(is_signed(parvusek_improvement(out, RUN, NO_HISTORY, 90, 2009), 13520000));
}

/* ---- single cells */

static void check_cells(void) {
    uint8_t run[RUN];
    sample(run);
    HOLDS(is_signed(parvusek_improvement(run, RUN, NO_HISTORY, 148, 2010), 0));
    HOLDS(is(parvusek_factor(run, RUN, NO_HISTORY, 148, 2010), 1000000000));
    HOLDS(is(parvusek_rate(run, RUN, NO_HISTORY, 148, 2010), 100000000));
    HOLDS(declined(parvusek_factor(run, RUN, NO_HISTORY, 19, 2131), 6, 19, 0));
    HOLDS(declined(parvusek_rate(run, RUN, NO_HISTORY, UINT32_MAX, 2010), 6, UINT32_MAX, 0));
    HOLDS(declined(parvusek_factor(run, RUN, NO_HISTORY, 150, UINT32_MAX), 7, UINT32_MAX, 0));
    HOLDS(declined(parvusek_rate(run, RUN, NO_HISTORY, 20, 2005), 7, 2005, 0));
    HOLDS(declined(parvusek_rate(run, RUN - 1, NO_HISTORY, 19, 2005), 1, 0, 0));

    /* an improvement is asked from F on, the others from B on */
    put2(run + 6, 2009);
    HOLDS(is_signed(parvusek_improvement(run, RUN, NO_HISTORY, 60, 2006), 0));
    HOLDS(declined(parvusek_factor(run, RUN, NO_HISTORY, 60, 2008), 7, 2008, 0));

    sample_with_addition(run, 10000000);
    HOLDS(is_signed(parvusek_improvement(run, RUN, NO_HISTORY, 60, 2006), 0));
    HOLDS(is_signed(parvusek_improvement(run, RUN, NO_HISTORY, 60, 2007), 10000000));
    HOLDS(is(parvusek_factor(run, RUN, NO_HISTORY, 60, 2006), 1000000000));
    HOLDS(is(parvusek_factor(run, RUN, NO_HISTORY, 60, 2009), 970299000));
    HOLDS(is(parvusek_rate(run, RUN, NO_HISTORY, 60, 2009), 97029900));

    sample_worsening(run);
    HOLDS(is_signed(parvusek_improvement(run, RUN, NO_HISTORY, 60, 2006), -400000000));
    HOLDS(is_signed(parvusek_improvement(run, RUN, NO_HISTORY, 60, 2130), -500000000));
    HOLDS(is(parvusek_factor(run, RUN, NO_HISTORY, 60, 2009), 3375000000));
    HOLDS(declined(parvusek_factor(run, RUN, NO_HISTORY, 60, 2011), 10, 60, 2010));

    /* T 2 in the year after F: half a unit by age and half by birth year, whose sum is rounded once */
    sample(run);
    memset(run + 1602, 2, 131);
    memset(run + 4016, 2, 269);
    fill4(run + 554, 131, 1);
    fill4(run + 1864, 269, 1);
    HOLDS(is_signed(parvusek_improvement(run, RUN, NO_HISTORY, 60, 2007), 1));
    fill4(run + 554, 131, -1);
    HOLDS(is_signed(parvusek_improvement(run, RUN, NO_HISTORY, 60, 2007), 0));
    fill4(run + 1864, 269, -1);
    HOLDS(is_signed(parvusek_improvement(run, RUN, NO_HISTORY, 60, 2007), -1));

    sample_beyond(run);
    parvusek_signed_answer_t beyond = parvusek_improvement(run, RUN, NO_HISTORY, 60, 2007);
    HOLDS(refused(beyond.refusal, 9, 60, 2007) && beyond.value == 0);
    HOLDS(declined(parvusek_rate(run, RUN, NO_HISTORY, 60, 2130), 9, 60, 2007));
}

/* ---- values */

static void check_values(void) {
    uint8_t run[RUN];
    sample(run);
    HOLDS(is(parvusek_period_survivorship(run, RUN, NO_HISTORY, 148, 2, 2010), 810000000));
    HOLDS(is(parvusek_cohort_survivorship(run, RUN, NO_HISTORY, 148, 0, 2010), 1000000000));
    HOLDS(is(parvusek_period_expectation(run, RUN, NO_HISTORY, 148, 0, 2010), 2210000000));
    HOLDS(is(parvusek_period_expectation(run, RUN, NO_HISTORY, 148, 1, 2010), 1400000000));
    HOLDS(is(parvusek_period_annuity(run, RUN, NO_HISTORY, 148, 0, 2010), 2710000000));
    HOLDS(is(parvusek_period_annuity(run, RUN, NO_HISTORY, 148, 1, 2010), 1710000000));
    HOLDS(is(parvusek_cohort_expectation(run, RUN, NO_HISTORY, 148, 2, 2130), 500000000));
    HOLDS(declined(parvusek_cohort_annuity(run, RUN, NO_HISTORY, 148, 3, 2131), 8, 148, 3));
    HOLDS(declined(parvusek_period_annuity(run, RUN, NO_HISTORY, 148, UINT32_MAX, 2010), 8, 148, UINT32_MAX));
    HOLDS(declined(parvusek_cohort_expectation(run, RUN, NO_HISTORY, 151, 3, 2131), 6, 151, 0));
    HOLDS(declined(parvusek_period_expectation(run, RUN, NO_HISTORY, 148, 2, 2131), 7, 2131, 0));
    HOLDS(declined(parvusek_cohort_survivorship(NULL, 0, NO_HISTORY, 151, 3, 2131), 1, 0, 0));

    /* a cohort moves to the next year, whose rate is 99,000,000 */
    sample_with_addition(run, 10000000);
    HOLDS(is(parvusek_period_survivorship(run, RUN, NO_HISTORY, 148, 2, 2006), 810000000));
    HOLDS(is(parvusek_cohort_survivorship(run, RUN, NO_HISTORY, 148, 2, 2006), 810900000));
    HOLDS(is(parvusek_cohort_expectation(run, RUN, NO_HISTORY, 148, 0, 2006), 2210900000));
    HOLDS(is(parvusek_cohort_annuity(run, RUN, NO_HISTORY, 148, 0, 2006), 2710900000));
    HOLDS(is(parvusek_period_annuity(run, RUN, NO_HISTORY, 148, 0, 2006), 2710000000));

    sample(run);
    put4(run + 12, 200000000);
    HOLDS(is(parvusek_period_annuity(run, RUN, NO_HISTORY, 149, 0, 2010), 1750000000));

    /* the discount grows: 1,010,101,010 after a year and 1,020,304,051 after two, of which 0.9 and 0.81 are paid */
    put4(run + 12, -10000000);
    HOLDS(is(parvusek_period_annuity(run, RUN, NO_HISTORY, 149, 0, 2010), 1909090909));
    HOLDS(is(parvusek_cohort_annuity(run, RUN, NO_HISTORY, 148, 1, 2010), 1735537190));

    sample_worsening(run);
    HOLDS(declined(parvusek_cohort_annuity(run, RUN, NO_HISTORY, 100, 0, 2006), 10, 104, 2010));
    HOLDS(declined(parvusek_period_survivorship(run, RUN, NO_HISTORY, 100, 1, 2010), 10, 100, 2010));
    sample_beyond(run);
    HOLDS(declined(parvusek_cohort_expectation(run, RUN, NO_HISTORY, 100, 0, 2006), 9, 101, 2007));
}

/* ---- years after 2130: one in ten dies in 2130, which is B */

static void check_later_values(void) {
    uint8_t run[RUN];
    /* 1 per cent by age, by birth year or of the addition: 0.099 die in 2131, so that 0.9 x 0.901 of a cohort are left */
    for (int part = 0; part < 3; part++) {
        sample_later(run, part == 0 ? 10000000 : 0, part == 1 ? 10000000 : 0, part == 2 ? 10000000 : 0);
        HOLDS(is(parvusek_cohort_survivorship(run, RUN, NO_HISTORY, 148, 2, 2130), 810900000));
        HOLDS(is(parvusek_period_survivorship(run, RUN, NO_HISTORY, 148, 2, 2130), 810000000));
    }

    /* 2 by age, 1 by birth year and 0.5 of the addition: 0.0965 die in 2131, and 0.0965 x 0.965 = 0.0931225 in 2132 */
    sample_later(run, 20000000, 10000000, 5000000);
    HOLDS(is(parvusek_cohort_survivorship(run, RUN, NO_HISTORY, 148, 2, 2130), 813150000));
    HOLDS(is(parvusek_cohort_expectation(run, RUN, NO_HISTORY, 148, 0, 2130), 2213150000));
    HOLDS(is(parvusek_period_expectation(run, RUN, NO_HISTORY, 148, 0, 2130), 2210000000));
    HOLDS(is(parvusek_cohort_annuity(run, RUN, NO_HISTORY, 148, 0, 2130), 2713150000));
    /* from 148 in 2131: the period kind stays there, 0.9035 x 0.9035, and the cohort goes on, 0.9035 x 0.9068775 */
    HOLDS(is(parvusek_period_expectation(run, RUN, NO_HISTORY, 147, 1, 2130), 2219812250));
    HOLDS(is(parvusek_cohort_expectation(run, RUN, NO_HISTORY, 147, 1, 2130), 2222863821));
    /* from 147 in 2130: 0.9, 0.81 and 0.729 by the rates of 2130, and 0.9, 0.81315 and 0.737427439 */
    HOLDS(is(parvusek_period_annuity(run, RUN, NO_HISTORY, 147, 1, 2130), 2439000000));
    HOLDS(is(parvusek_cohort_annuity(run, RUN, NO_HISTORY, 147, 1, 2130), 2450577439));

    /* B 2129, and a factor runs on through 2130: 0.099 die at 148 in 2130, 0.09801 at 149 in 2131 */
    sample_later(run, 0, 0, 10000000);
    put2(run + 6, 2129);
    HOLDS(is(parvusek_cohort_survivorship(run, RUN, NO_HISTORY, 148, 2, 2130), 812692990));
}

/* each year takes the birth year that has the age then */
static void check_later_birth_years(void) {
    uint8_t run[RUN];
    /* 20 per cent of 1983 alone, 148 in 2131: 0.08 die at 148 from then on, and at 149 from 2132 on */
    sample_later(run, 0, 0, 0);
    put_birth_year(run, 1983, 200000000);
    HOLDS(is(parvusek_cohort_survivorship(run, RUN, NO_HISTORY, 148, 2, 2130), 810000000));
    HOLDS(is(parvusek_cohort_survivorship(run, RUN, NO_HISTORY, 147, 3, 2130), 761760000));
    HOLDS(is(parvusek_cohort_survivorship(run, RUN, NO_HISTORY, 146, 4, 2130), 685584000));

    /* the latest rate, that of 149 in 2259: nobody dies before 149, one in two there, 10 per cent fewer of birth year 2110 */
    sample_later(run, 0, 0, 0);
    fill4(run + 30, 131, 0);
    put4(run + 30 + 4 * (149 - 20), 500000000);
    put_birth_year(run, 2110, 100000000);
    HOLDS(is(parvusek_cohort_survivorship(run, RUN, NO_HISTORY, 20, 129, 2130), 1000000000));
    HOLDS(is(parvusek_cohort_survivorship(run, RUN, NO_HISTORY, 20, 130, 2130), 550000000));
    HOLDS(is(parvusek_cohort_survivorship(run, RUN, NO_HISTORY, 21, 129, 2130), 500000000));
    HOLDS(is(parvusek_period_expectation(run, RUN, NO_HISTORY, 20, 129, 2130), 1050000000));
    HOLDS(is(parvusek_period_expectation(run, RUN, NO_HISTORY, 21, 128, 2130), 1000000000));
}

static void check_later_refusals(void) {
    uint8_t run[RUN];
    /* half as much again each year: 1.5, 2.25 and 3.375 in 2133, so that 0.15, 0.225 and 0.3375 die, and 2134 is 10 */
    sample_later(run, -200000000, -200000000, -100000000);
    HOLDS(is(parvusek_cohort_survivorship(run, RUN, NO_HISTORY, 60, 4, 2130), 392779688));
    HOLDS(declined(parvusek_cohort_survivorship(run, RUN, NO_HISTORY, 60, 5, 2130), 10, 64, 2134));
    HOLDS(declined(parvusek_cohort_expectation(run, RUN, NO_HISTORY, 60, 2, 2130), 10, 64, 2134));
    HOLDS(declined(parvusek_cohort_annuity(run, RUN, NO_HISTORY, 60, 20, 2130), 10, 64, 2134));
    HOLDS(is(parvusek_cohort_annuity(run, RUN, NO_HISTORY, 146, 0, 2130), 3650654688));
    /* deferred to a later year, a period expectation is refused at its first age, in the year that passes 4 */
    HOLDS(passed(parvusek_period_expectation(run, RUN, NO_HISTORY, 60, 3, 2130).refusal));
    HOLDS(declined(parvusek_period_expectation(run, RUN, NO_HISTORY, 60, 4, 2130), 10, 64, 2134));
    HOLDS(declined(parvusek_period_expectation(run, RUN, NO_HISTORY, 60, 7, 2130), 10, 67, 2134));
    HOLDS(passed(parvusek_period_annuity(run, RUN, NO_HISTORY, 60, 7, 2130).refusal));

    /* a single cell ends in 2130, and so does the year of an enquiry */
    HOLDS(is_signed(parvusek_improvement(run, RUN, NO_HISTORY, 60, 2130), -500000000));
    HOLDS(is(parvusek_factor(run, RUN, NO_HISTORY, 60, 2130), 1000000000));
    HOLDS(refused(parvusek_improvement(run, RUN, NO_HISTORY, 60, 2131).refusal, 7, 2131, 0));
    HOLDS(declined(parvusek_factor(run, RUN, NO_HISTORY, 60, 2131), 7, 2131, 0));
    HOLDS(declined(parvusek_rate(run, RUN, NO_HISTORY, 149, 2259), 7, 2259, 0));
    HOLDS(declined(parvusek_cohort_annuity(run, RUN, NO_HISTORY, 60, 0, 2131), 7, 2131, 0));

    /* no 9 at the limits, which add up to 500,000,000: 0.05 die in 2131 */
    sample_later(run, 200000000, 200000000, 100000000);
    HOLDS(is(parvusek_cohort_survivorship(run, RUN, NO_HISTORY, 148, 2, 2130), 855000000));

    /* 0.6 per cent more each year from 2007 on: 1.006 to the power of 231 is below 4, to that of 232, in 2238, above */
    sample_with_addition(run, -6000000);
    HOLDS(declined(parvusek_cohort_annuity(run, RUN, NO_HISTORY, 20, 0, 2130), 10, 128, 2238));
    HOLDS(declined(parvusek_period_expectation(run, RUN, NO_HISTORY, 41, 108, 2130), 10, 149, 2238));
    HOLDS(passed(parvusek_cohort_annuity(run, RUN, NO_HISTORY, 42, 0, 2130).refusal));
}

int main(void) {
    check_version();
    check_layouts();
    check_runs();
    check_files();
    check_short_forms();
    check_cells();
    check_values();
    check_later_values();
    check_later_birth_years();
    check_later_refusals();
    check_forms();
    check_small_sets();
    check_grids();
    check_lifelines();
    check_histories();
    check_rolls();
    printf("boundary, C: %d checks, %d failed\n", checks, failures);
    return failures != 0;
}
