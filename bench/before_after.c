/* One side of bench/before_after: times calls of the archive that it is linked to.
   Usage: before_after RUN HISTORY, the history an empty file where the run needs none. Prints a line for each kind of
   work: nanoseconds a call, the least of many rounds. With a history only what reads it is timed. */
#include <stdio.h>
#include <stdlib.h>
#include <time.h>
#include "parvusek.h"

enum { LONGEST_HISTORY = 88 * PARVUSEK_HISTORY_YEAR, ROUNDS = 200, CALLS = 20, BASE_YEAR = 6 };

static uint8_t run[PARVUSEK_RUN_LENGTH], file[PARVUSEK_FILE_LENGTH], history[LONGEST_HISTORY];
static size_t history_length;
static uint32_t base_year;

static double now(void)
{
    struct timespec at;
    clock_gettime(CLOCK_MONOTONIC, &at);
    return 1e9 * (double)at.tv_sec + (double)at.tv_nsec;
}

/* ---- the kinds of work; each is asked for 20 ages, and hands back its refusal's number */

static uint32_t check(uint32_t age) { (void)age; return parvusek_check_basis(run, sizeof run).number; }
static uint32_t read_file(uint32_t age)
{
    static uint8_t out[PARVUSEK_RUN_LENGTH];
    (void)age;
    return parvusek_read_basis(file, sizeof file, out, sizeof out).number;
}
static uint32_t write_file(uint32_t age)
{
    static uint8_t out[PARVUSEK_FILE_LENGTH];
    (void)age;
    return parvusek_write_basis(run, sizeof run, out, sizeof out).number;
}
static uint32_t short_form(uint32_t age)
{
    static uint8_t out[PARVUSEK_RUN_LENGTH];
    return parvusek_short_form(run, sizeof run, 200000 * (int32_t)age, out, sizeof out).number;
}
static uint32_t factor_after(uint32_t age, uint32_t years)
{
    return parvusek_factor(run, sizeof run, history, history_length, age, base_year + years).refusal.number;
}
static uint32_t factor_0(uint32_t age) { return factor_after(age, 0); }
static uint32_t factor_40(uint32_t age) { return factor_after(age, 40); }
static uint32_t factor_94(uint32_t age) { return factor_after(age, 94); }
static uint32_t factor_120(uint32_t age) { return factor_after(age, 120); }
static uint32_t rate_94(uint32_t age)
{
    return parvusek_rate(run, sizeof run, history, history_length, age, base_year + 94).refusal.number;
}
static uint32_t period(uint32_t age)
{
    return parvusek_period_annuity(run, sizeof run, history, history_length, age, 0, base_year + 4).refusal.number;
}
static uint32_t cohort(uint32_t age)
{
    return parvusek_cohort_annuity(run, sizeof run, history, history_length, age, 0, base_year + 4).refusal.number;
}
static uint32_t late_cohort(uint32_t age) /* at 20 to 39 in 2130: every rate but the first is of a later year */
{
    return parvusek_cohort_annuity(run, sizeof run, history, history_length, age - 40, 0, 2130).refusal.number;
}
static uint32_t grid(uint32_t age)
{
    static parvusek_point_t points[PARVUSEK_GRID];
    for (uint32_t i = 0; i < PARVUSEK_GRID; i++) {
        points[i].age = age - 40 + 5 * (i % 17);
        points[i].year = base_year + 4 + 5 * (i / 17);
    }
    return parvusek_grid(run, sizeof run, history, history_length, points, PARVUSEK_GRID).number;
}

enum { WITHOUT_HISTORY = 4 }; /* the first so many are never lent one */

static const struct { const char *name; uint32_t (*refusal)(uint32_t age); } works[] = {
    { "checking a basis", check },
    { "reading a file", read_file },
    { "writing a file", write_file },
    { "short form", short_form },
    { "factor, 0 years on", factor_0 },
    { "factor, 40 years on", factor_40 },
    { "factor, 94 years on", factor_94 },
    { "factor, 120 years on", factor_120 },
    { "rate, 94 years on", rate_94 },
    { "period annuity, ages 60 to 79", period },
    { "cohort annuity, ages 60 to 79", cohort },
    { "cohort annuity, 20 to 39 in 2130", late_cohort },
    { "grid, 17 ages by 7 years", grid },
};

static double least(uint32_t (*refusal)(uint32_t age))
{
    double best = 1e30;
    for (int round = 0; round < ROUNDS; round++) {
        double start = now(), taken;
        for (uint32_t i = 0; i < CALLS; i++)
            if (refusal(60 + i) != 0)
                exit(EXIT_FAILURE);
        taken = now() - start;
        best = taken < best ? taken : best;
    }
    return best / CALLS;
}

static size_t bytes_of(const char *name, uint8_t *bytes, size_t most)
{
    FILE *lent = fopen(name, "rb");
    size_t length;
    if (lent == NULL) {
        perror(name);
        exit(EXIT_FAILURE);
    }
    length = fread(bytes, 1, most, lent);
    fclose(lent);
    return length;
}

int main(int argc, char **argv)
{
    if (argc != 3 || bytes_of(argv[1], run, sizeof run) != sizeof run) {
        fputs("usage: before_after RUN HISTORY\n", stderr);
        return EXIT_FAILURE;
    }
    history_length = bytes_of(argv[2], history, sizeof history);
    base_year = run[BASE_YEAR] + 256u * run[BASE_YEAR + 1];
    if (parvusek_write_basis(run, sizeof run, file, sizeof file).number != 0)
        return EXIT_FAILURE;
    for (size_t i = history_length == 0 ? 0 : WITHOUT_HISTORY; i < sizeof works / sizeof works[0]; i++)
        printf("%s\t%.1f\n", works[i].name, least(works[i].refusal));
    return EXIT_SUCCESS;
}
