/* Checks the new form at the boundary, MPB2: its lengths and places, reading and writing in it, the old form of a run, and
   the same answers as in the old form. The layout is written out here once more, from the paper. */
#include <string.h>
#include "check_boundary.h"

enum { AGE_P = 1733, BIRTH_I = 1995, BIRTH_L = 3071, BIRTH_T = 4147, BIRTH_P = 4416, TAIL = 4954, GRID = 119 };

/* the fields of a run in the old form with each P byte replaced by two, times 100, then zero bytes */
static void widen(const uint8_t *old, uint8_t *run) {
    memset(run, 0, RUN_2);
    memcpy(run, old, AGE_P);
    run[3] = '2';
    memcpy(run + BIRTH_I, old + 1864, BIRTH_P - BIRTH_I);
    for (uint32_t i = 0; i < 131; i++) put2(run + AGE_P + 2 * i, 100u * old[1733 + i]);
    for (uint32_t i = 0; i < 269; i++) put2(run + BIRTH_P + 2 * i, 100u * old[4285 + i]);
}

/* the sample in the new form: every P is 5,000 */
static void sample_2(uint8_t *run) {
    uint8_t old[RUN];
    sample(old);
    widen(old, run);
}

/* whether a run with this number of two bytes in this place, and otherwise the sample, is so refused */
static int at_is(size_t offset, uint32_t n, uint32_t number, uint64_t first) {
    uint8_t run[RUN_2];
    sample_2(run);
    put2(run + offset, n);
    return refused(parvusek_check_basis(run, RUN_2), number, first, 0);
}

/* ---- the run */

static void check_lengths_of_runs(void) {
    uint8_t run[FILE_SIZE_2 + 1];
    memset(run, 0, sizeof run);
    sample_2(run);
    for (size_t length = 0; length <= sizeof run; length++)
        if (length != RUN && length != RUN_2) HOLDS(refused(parvusek_check_basis(run, length), 1, 0, 0));
    HOLDS(passed(parvusek_check_basis(run, RUN_2)));

    /* the length tells the form, and the other form's mark is wrong in its fourth byte */
    HOLDS(refused(parvusek_check_basis(run, RUN), 4, 3, 0));
    run[3] = '1';
    HOLDS(refused(parvusek_check_basis(run, RUN_2), 4, 3, 0));
}

static void check_fields(void) {
    HOLDS(at_is(AGE_P, 15000, 0, 0) && at_is(AGE_P, 0, 0, 0) && at_is(AGE_P, 6237, 0, 0));
    HOLDS(at_is(AGE_P, 15001, 5, AGE_P));
    HOLDS(at_is(AGE_P + 260, 15001, 5, AGE_P + 260) && at_is(AGE_P + 260, 65535, 5, AGE_P + 260));
    HOLDS(at_is(BIRTH_P, 15001, 5, BIRTH_P));
    HOLDS(at_is(BIRTH_P + 536, 15001, 5, BIRTH_P + 536));
    HOLDS(at_is(BIRTH_I + 2, 0x7FFF, 5, BIRTH_I) && at_is(BIRTH_L + 2, 0x7FFF, 5, BIRTH_L));
    HOLDS(at_is(BIRTH_T, 20 * 256, 5, BIRTH_T) && at_is(BIRTH_T + 267, 20 + 51 * 256, 5, BIRTH_T + 268));
    HOLDS(at_is(TAIL, 1, 4, TAIL) && at_is(TAIL, 256, 4, TAIL + 1));
    HOLDS(at_is(RUN_2 - 2, 256, 4, RUN_2 - 1));

    /* a zero byte of the tail is looked at before every field, and after the mark and the other zero bytes */
    uint8_t run[RUN_2];
    sample_2(run);
    put2(run + 4, 0);
    run[RUN_2 - 1] = 1;
    HOLDS(refused(parvusek_check_basis(run, RUN_2), 4, RUN_2 - 1, 0));
    run[29] = 1;
    HOLDS(refused(parvusek_check_basis(run, RUN_2), 4, 29, 0));
}

/* ---- files */

static void check_reading(void) {
    uint8_t run[RUN_2], file[FILE_SIZE_2 + FURTHER], back[RUN_2 + FURTHER];
    sample_2(run);
    put2(run + AGE_P, 6237);
    memset(file, KEPT, sizeof file);
    memset(back, KEPT, sizeof back);
    HOLDS(refused(parvusek_write_basis(run, RUN_2, file, FILE_SIZE_2 - 1), 11, FILE_SIZE_2, 0));
    HOLDS(refused(parvusek_write_basis(run, RUN_2 - 1, file, FILE_SIZE - 1), 11, FILE_SIZE, 0));
    HOLDS(refused(parvusek_write_basis(run, RUN_2 - 1, file, FILE_SIZE), 1, 0, 0));
    HOLDS(all(file, sizeof file, KEPT));
    HOLDS(passed(parvusek_write_basis(run, RUN_2, file, sizeof file)));
    HOLDS(all(file + FILE_SIZE_2, FURTHER, KEPT));
    for (uint32_t b = 0; b < 10; b++) {
        const uint8_t *block = file + BLOCK * b;
        HOLDS(block[0] == b && block[1] == 0 && memcmp(block + 2, run + 506 * b, 506) == 0);
        HOLDS(get4(block + 508) == block_check(block));
    }

    /* a file of another length needs the old form's room, one of 5,060 and a run of 5,120 among them */
    HOLDS(refused(parvusek_read_basis(file, FILE_SIZE_2, back, RUN_2 - 1), 11, RUN_2, 0));
    HOLDS(refused(parvusek_read_basis(file, RUN_2, back, RUN - 1), 11, RUN, 0));
    HOLDS(refused(parvusek_read_basis(file, RUN_2, back, RUN), 1, 0, 0));
    HOLDS(refused(parvusek_write_basis(file, FILE_SIZE_2, back, RUN), 11, FILE_SIZE, 0));
    HOLDS(refused(parvusek_write_basis(file, FILE_SIZE_2, back, sizeof back), 1, 0, 0));
    file[BLOCK * 9 + 100] ^= 1;
    HOLDS(refused(parvusek_read_basis(file, FILE_SIZE_2, back, sizeof back), 2, 9, 0));
    file[BLOCK * 9 + 100] ^= 1;
    file[BLOCK * 9] = 8;
    put4(file + BLOCK * 9 + 508, (int32_t)block_check(file + BLOCK * 9));
    HOLDS(refused(parvusek_read_basis(file, FILE_SIZE_2, back, sizeof back), 3, 9, 0));
    HOLDS(all(back, sizeof back, KEPT));
    file[BLOCK * 9] = 9;
    put4(file + BLOCK * 9 + 508, (int32_t)block_check(file + BLOCK * 9));
    HOLDS(passed(parvusek_read_basis(file, FILE_SIZE_2, back, sizeof back)));
    HOLDS(memcmp(back, run, RUN_2) == 0 && all(back + RUN_2, FURTHER, KEPT));
}

static void check_old_forms(void) {
    uint8_t old[RUN], run[RUN_2], file[FILE_SIZE + FURTHER], wanted[FILE_SIZE];
    sample_beyond(old);
    widen(old, run);
    memset(file, KEPT, sizeof file);
    HOLDS(passed(parvusek_write_basis(old, RUN, wanted, sizeof wanted)));

    /* 11 (4,608) whatever the length, 1, 4, 5, and only then 17 */
    HOLDS(refused(parvusek_write_old_form(run, RUN_2, file, FILE_SIZE - 1), 11, FILE_SIZE, 0));
    HOLDS(refused(parvusek_write_old_form(NULL, 0, NULL, 0), 11, FILE_SIZE, 0));
    HOLDS(refused(parvusek_write_old_form(run, RUN_2 - 1, file, sizeof file), 1, 0, 0));
    put2(run + BIRTH_P + 536, 1);
    HOLDS(refused(parvusek_write_old_form(run, RUN_2, file, sizeof file), 17, BIRTH_P + 536, 0));
    put2(run + AGE_P + 260, 14999);
    HOLDS(refused(parvusek_write_old_form(run, RUN_2, file, sizeof file), 17, AGE_P + 260, 0));
    put2(run + AGE_P + 2, 99);
    HOLDS(refused(parvusek_write_old_form(run, RUN_2, file, sizeof file), 17, AGE_P + 2, 0));
    put2(run + BIRTH_P + 534, 15001);
    HOLDS(refused(parvusek_write_old_form(run, RUN_2, file, sizeof file), 5, BIRTH_P + 534, 0));
    run[TAIL] = 1;
    HOLDS(refused(parvusek_write_old_form(run, RUN_2, file, sizeof file), 4, TAIL, 0));
    HOLDS(all(file, sizeof file, KEPT));

    widen(old, run);
    HOLDS(passed(parvusek_write_old_form(run, RUN_2, file, sizeof file)));
    HOLDS(memcmp(file, wanted, FILE_SIZE) == 0 && all(file + FILE_SIZE, FURTHER, KEPT));
    memset(file, KEPT, sizeof file);
    HOLDS(passed(parvusek_write_old_form(old, RUN, file, FILE_SIZE)));
    HOLDS(memcmp(file, wanted, FILE_SIZE) == 0 && all(file + FILE_SIZE, FURTHER, KEPT));
}

static void check_short_forms_2(void) {
    uint8_t old[RUN], run[RUN_2], out[RUN_2 + FURTHER], wanted[RUN], widened[RUN_2];
    sample_beyond(old);
    widen(old, run);
    put2(run + AGE_P, 6237);
    memset(out, KEPT, sizeof out);
    HOLDS(refused(parvusek_short_form(run, RUN_2, 10000000, out, RUN_2 - 1), 11, RUN_2, 0));
    HOLDS(refused(parvusek_short_form(run, RUN_2 + 1, 10000000, out, RUN - 1), 11, RUN, 0));
    HOLDS(refused(parvusek_short_form(run, RUN_2 - 1, 10000000, out, RUN), 1, 0, 0));
    HOLDS(refused(parvusek_short_form(run, RUN_2, 200000001, out, sizeof out), 5, 1078, 0));
    HOLDS(all(out, sizeof out, KEPT));
    HOLDS(passed(parvusek_short_form(run, RUN_2, 10000000, out, sizeof out)));
    HOLDS(passed(parvusek_short_form(old, RUN, 10000000, wanted, RUN)));
    widen(wanted, widened);
    HOLDS(memcmp(out, widened, RUN_2) == 0 && all(out + RUN_2, FURTHER, KEPT));
    HOLDS(out[AGE_P] == 5000 % 256 && out[AGE_P + 1] == 5000 / 256 && all(out + TAIL, RUN_2 - TAIL, 0));
}

/* ---- answers */

/* I 20,000,000, L 10,000,000, T 40 at every age, and this P at age 60 */
static int component_is(uint32_t p, int64_t value) {
    uint8_t run[RUN_2];
    sample_2(run);
    fill4(run + 554, 131, 20000000);
    fill4(run + 1078, 131, 10000000);
    memset(run + 1602, 40, 131);
    put2(run + AGE_P + 2 * 40, p);
    return is_signed(parvusek_improvement(run, RUN_2, NO_HISTORY, 60, 2016), value);
}

static void check_hundredths(void) {
    HOLDS(component_is(5000, 18437500) && component_is(12500, 26875000));
    /* 900 x (400,000 + (8P - 20,000) x 10) / 640,000,000 of the difference remains */
    HOLDS(component_is(5025, 18465625) && component_is(1, 12813625) && component_is(256, 13100500));
}

static int same(parvusek_answer_t a, parvusek_answer_t b) {
    return a.value == b.value && refused(a.refusal, b.refusal.number, b.refusal.first, b.refusal.second);
}

/* a run in either form answers the same, refusals too */
static void check_same_answers(const uint8_t *old) {
    uint8_t run[RUN_2];
    widen(old, run);
    for (uint32_t age = 19; age <= 151; age += 11) {
        for (uint32_t year = 2005; year <= 2131; year += 21) {
            parvusek_signed_answer_t one = parvusek_improvement(run, RUN_2, NO_HISTORY, age, year);
            parvusek_signed_answer_t other = parvusek_improvement(old, RUN, NO_HISTORY, age, year);
            HOLDS(one.value == other.value && refused(one.refusal, other.refusal.number, other.refusal.first, other.refusal.second));
            HOLDS(same(parvusek_rate(run, RUN_2, NO_HISTORY, age, year), parvusek_rate(old, RUN, NO_HISTORY, age, year)));
            HOLDS(same(parvusek_cohort_expectation(run, RUN_2, NO_HISTORY, age, 3, year),
                       parvusek_cohort_expectation(old, RUN, NO_HISTORY, age, 3, year)));
            HOLDS(same(parvusek_period_annuity(run, RUN_2, NO_HISTORY, age, 0, year),
                       parvusek_period_annuity(old, RUN, NO_HISTORY, age, 0, year)));
        }
    }
}

/* the sets, a life and a roll on the sample in the new form, whose improvements are 10,000,000 after F */
static void check_calls(void) {
    static parvusek_point_t list[GRID];
    static uint64_t roll[PARVUSEK_ROLL_LENGTH];
    uint8_t old[RUN], run[RUN_2];
    sample_with_addition(old, 10000000);
    widen(old, run);
    const parvusek_questions_t asked = {{{148, 0, 2006}, {150, 0, 2010}, {19, 0, 2010}, {0, 0, 0}, {0, 0, 0}, {0, 0, 0}}};
    parvusek_small_set_t set = parvusek_small_set(run, RUN_2, NO_HISTORY, asked);
    HOLDS(passed(set.refusal) && passed(set.points[0].refusal) && set.points[0].results[3] == 2710900000);
    HOLDS(refused(set.points[2].refusal, 6, 19, 0));

    memset(list, 0, sizeof list);
    list[GRID - 1] = (parvusek_point_t){148, 0, 2006, 0, {0, 0, 0, 0}, 0, 0};
    HOLDS(passed(parvusek_grid(run, RUN_2, NO_HISTORY, list, GRID)));
    HOLDS(list[0].refusal == 6 && list[GRID - 1].refusal == 0 && list[GRID - 1].results[1] == 2210900000);
    HOLDS(refused(parvusek_grid(run, RUN_2 - 1, NO_HISTORY, list, GRID), 1, 0, 0));

    parvusek_lifeline_t l = parvusek_lifeline_step(run, RUN_2, NO_HISTORY, 149, 2007, 900000000);
    HOLDS(passed(l.refusal) && l.age == 150 && l.year == 2008 && l.survivors == 810900000);
    HOLDS(passed(parvusek_lifeline_start(run, RUN_2, NO_HISTORY, 148, 2006).refusal));
    /* the place behind the run's own fields is its length */
    l = parvusek_lifeline_step(run, RUN_2, NO_HISTORY, 148, 2010, 1000000001);
    HOLDS(refused(l.refusal, 5, RUN_2, 0) && l.age == 148 && l.survivors == 1000000001);
    HOLDS(refused(parvusek_lifeline_step(old, RUN, NO_HISTORY, 148, 2010, 1000000001).refusal, 5, RUN, 0));

    HOLDS(passed(parvusek_roll_open(2006, roll, PARVUSEK_ROLL_LENGTH)));
    HOLDS(is(parvusek_roll_join(run, RUN_2, NO_HISTORY, roll, PARVUSEK_ROLL_LENGTH, 1, 148, 10000), 27109));
    HOLDS(is(parvusek_roll_join(old, RUN, NO_HISTORY, roll, PARVUSEK_ROLL_LENGTH, 2, 148, 10000), 2 * 27109));

    /* a base year before F needs a history in this form as well */
    put2(run + 6, 2005);
    HOLDS(passed(parvusek_check_basis(run, RUN_2)));
    HOLDS(declined(parvusek_factor(run, RUN_2, NO_HISTORY, 60, 2010), 13, 1024, 0));
}

void check_forms(void) {
    uint8_t run[RUN];
    check_lengths_of_runs();
    check_fields();
    check_reading();
    check_old_forms();
    check_short_forms_2();
    check_hundredths();
    sample_with_addition(run, 10000000);
    check_same_answers(run);
    sample_worsening(run);
    check_same_answers(run);
    sample_beyond(run);
    check_same_answers(run);
    check_calls();
}
