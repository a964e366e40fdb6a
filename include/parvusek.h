/* The engine's surface for C. Every call is total: any bytes with their true length, any number.
   No call keeps a pointer, allocates, or writes anything but the lent output it names, and that only where it is
   not refused. There is no shared state: any number of threads may call at once, also on the same data run and history.
   Units: 1,000,000,000 to one.

   What a call asks of its pointers, and does not check:
   - The length is the true one: so many bytes, records or 8-byte numbers are there, and those of an output may be
     written. A length of 0 may come with any pointer.
   - The records of the grid (parvusek_point_t *) and the numbers of a roll (uint64_t *) are aligned for their type, as
     every array of that type is. Bytes may stand anywhere.
   - No input overlaps an output. Where one does, a call that is not refused may have written a wrong file, run, record
     or roll.

   A basis comes as a file; parvusek_read_basis makes of it, once, the data run that the other calls are lent. Every
   call checks its data run afresh (1, 4, 5), so nothing depends on where the host keeps it.

   A basis has one of two forms, which differ in the proportions remaining at mid-point, P. In the old form, marked MPB1,
   a P is one byte, 0 to 150 per cent; in the new form, marked MPB2, it is two bytes, 0 to 15,000 hundredths of a per cent,
   and zero bytes fill the last block. The length alone tells the form: 4,608 or 5,120 bytes for a file, 4,554 or 5,060
   for a data run. Any other length is 1, and the mark of the other form is 4. So a data run is lent with its own length,
   and not with that of a longer array it may stand in. Every call takes either form, and answers the same on a basis in
   the old form as on the one that has the same fields and each P times 100 in the new.

   A basis whose base year B is before its foundation year F needs a history: a second file, lent as it is, with the
   actual improvements of each year from B + 1 to F. It has 1,024 bytes for each of these years, two blocks of the basis
   file's kind, numbered from 0: ages 20 to 85, then 86 to 150, signed 4 bytes each, -500,000,000 to 500,000,000 units,
   the remaining data bytes zero. With B at F or later none is needed: its length is then 0, with any pointer.
   Every call that is lent a data run, but the five directly after parvusek_version, is lent the history after it, and
   checks it afresh after the run's own 1, 4, 5: 13 (any other length: the length needed), blocks ascending 2 (check)
   before 3 (number), then 4 (a byte that must be zero), then 5 (an improvement beyond its limits). Offsets are counted
   in its joined data, of which block i has the 506 bytes from 506 x i on. A refused history counts as a refused basis:
   what is refused "by the basis" below is so by 1, 4, 5 of the data run, then by 13, 2, 3, 4, 5 of the history.

   A refusal is a number and two places; the first in the order below decides. Nothing in it says whether a 4 or 5 is
   the data run's or the history's: it is the history's if parvusek_check_basis accepts the run. docs/REFUSALS.md has
   each number's sentence, its cause and what to do; parvusek_refusals.h has the sentences for a program to print. U is
   1,000,000,000, F the foundation year and B the base year of the data run. */
#ifndef PARVUSEK_H
#define PARVUSEK_H
#include <stddef.h>
#include <stdint.h>

#ifdef __cplusplus
extern "C" {
#endif

#define PARVUSEK_VERSION 800u        /* of this header, 0.8.0: 10,000 x major + 100 x minor + patch */
#define PARVUSEK_UNIT 1000000000u    /* U, units to one */
#define PARVUSEK_FILE_LENGTH 4608u   /* bytes of a basis file in the old form, MPB1 */
#define PARVUSEK_RUN_LENGTH 4554u    /* bytes of a data run in the old form */
#define PARVUSEK_FILE_LENGTH_2 5120u /* bytes of a basis file in the new form, MPB2 */
#define PARVUSEK_RUN_LENGTH_2 5060u  /* bytes of a data run in the new form */
#define PARVUSEK_HISTORY_YEAR 1024u  /* bytes of a history file for each year from B + 1 to F */
#define PARVUSEK_SMALL_SET 6u        /* points of the small set */
#define PARVUSEK_GRID 119u           /* records of the grid */
#define PARVUSEK_ROLL_MEMBERS 500u   /* members that a roll holds */
#define PARVUSEK_ROLL_LENGTH 2002u   /* 8-byte numbers of a roll */

typedef struct { uint32_t number; uint64_t first, second; } parvusek_refusal_t;      /* number 0: none, places 0 */
typedef struct { parvusek_refusal_t refusal; uint64_t value; } parvusek_answer_t;    /* refused: value 0 */
typedef struct { parvusek_refusal_t refusal; int64_t value; } parvusek_signed_answer_t;

typedef struct { uint32_t age, deferment, year; } parvusek_question_t;
typedef struct { parvusek_question_t points[6]; } parvusek_questions_t;
/* results are period and cohort expectation, period and cohort annuity; refused: all four 0 */
typedef struct { uint64_t results[4]; parvusek_refusal_t refusal; } parvusek_point_answer_t;
typedef struct { parvusek_refusal_t refusal; parvusek_point_answer_t points[6]; } parvusek_small_set_t;
/* a record of the grid, with the same four results; first and second are the refusal's places */
typedef struct { uint32_t age, deferment, year, refusal; uint64_t results[4]; uint64_t first, second; } parvusek_point_t;
/* where a lifeline stands after a start or a step, and whether it has ended (1) */
typedef struct { parvusek_refusal_t refusal; uint64_t survivors; uint32_t age, year, ended; } parvusek_lifeline_t;

/* The version of the archive or shared library that is linked, as PARVUSEK_VERSION writes it. A minor version may change
   what a function takes or answers, a patch does neither: where parvusek_version() / 100 is not PARVUSEK_VERSION / 100,
   call no other function. */
uint32_t parvusek_version(void);

/* ---- the data run: a file of 4,608 bytes and a run of 4,554, or a file of 5,120 and a run of 5,060. No history is lent
   here, and none is missed. What is needed of an output follows the form of the file or run that is lent; where that has
   any other length, it is the old form's */

/* Whether a data run may be used. Refused: 1 (length), 4 (mark or zero bytes; in the new form those from 4,954 on too), 5
   (a field outside its limits). B is 1992 to 2130, before F too. The rate of discount may be below zero: it is
   -10,000,000 to 200,000,000 units. */
parvusek_refusal_t parvusek_check_basis(const uint8_t *run, size_t run_len);

/* Writes the data run of a file, in the file's own form, into the first 4,554 or 5,060 bytes of run; further bytes are
   kept. No P is changed: an old one stays in per cent.
   Refused: 11 (run too short: 4554, or 5060 for a file of 5,120 bytes), 1 (length), blocks ascending 2 (check) before 3
   (number), then 4, 5. */
parvusek_refusal_t parvusek_read_basis(const uint8_t *file, size_t file_len, uint8_t *run, size_t run_len);

/* Writes the file of a data run, in the run's own form, into the first 4,608 or 5,120 bytes of file; further bytes are
   kept. Refused: 11 (file too short: 4608, or 5120 for a run of 5,060 bytes), 1, 4, 5. */
parvusek_refusal_t parvusek_write_basis(const uint8_t *run, size_t run_len, uint8_t *file, size_t file_len);

/* Writes the file of a data run of either form in the old form into the first 4,608 bytes of file; further bytes are kept.
   It holds the same fields, a P of the new form over 100; a run in the old form is written as above. No call writes one in
   the new form. Refused: 11 (file too short: 4608, whatever the run's length), 1, 4, 5, then 17 for a P that is no whole
   per cent (offset of the first such P in the data run that is lent). */
parvusek_refusal_t parvusek_write_old_form(const uint8_t *run, size_t run_len, uint8_t *file, size_t file_len);

/* Writes the short form into the first 4,554 or 5,060 bytes of out, in the run's own form: the data run with this one
   long-term rate, in units, run off over the ages 91 to 119, a default period, and every proportion 50 per cent (50 in
   the old form, 5,000 in the new); further bytes are kept. The period by age is 20 through age 60, then 20 less the
   whole part of (age - 60) / 2 through 90, and 5 above; by birth year it is 20.
   Refused: 11 (out too short: 4554, or 5060 for a run of 5,060 bytes), 1, 4, 5, then 5 at offset 1078 for a rate beyond
   200,000,000 either way. */
parvusek_refusal_t parvusek_short_form(const uint8_t *run, size_t run_len, int32_t long_term_rate, uint8_t *out, size_t out_len);

/* ---- single cells. Refused: by the basis, 6 (age outside 20 to 150), 7 (year after 2130, or before the first that may
   be asked: B, and for an improvement the earlier of F and B + 1), 9 (an improvement needed is beyond 500,000,000
   either way), and for a factor and a rate 10 (a factor needed is above 4 U). Cells end in 2130; the values below go
   on. */

/* The rate of improvement; below zero where mortality worsens. A projected one is the exact sum of its two components
   rounded once, ties up, so within half a unit of the exact one, plus the constant addition after F. From B + 1 to F it
   is the history's, without the constant addition. */
parvusek_signed_answer_t parvusek_improvement(const uint8_t *run, size_t run_len, const uint8_t *history,
                                              size_t history_len, uint32_t age, uint32_t year);
/* The reduction factor, U in year B. */
parvusek_answer_t parvusek_factor(const uint8_t *run, size_t run_len, const uint8_t *history, size_t history_len,
                                  uint32_t age, uint32_t year);
/* The mortality rate: the base rate times the factor, at most U. */
parvusek_answer_t parvusek_rate(const uint8_t *run, size_t run_len, const uint8_t *history, size_t history_len,
                                uint32_t age, uint32_t year);

/* ---- values of a life, each period and cohort. Refused: by the basis, 6, 8 (age + deferment above 150), 7 (year after
   2130 or before B; year + deferment may be after 2130), then 9 and 10 in the order of the work.
   The cohort kind goes on with the life after 2130, to age 149 in 2259 at the latest, and a period expectation may be in
   such a year. The improvement of each year after 2130 is the long-term rate by age plus that by birth year plus the
   constant addition: it is never beyond the limits of 9, but 10 may name a year up to 2259. */

/* Of U lives at this age in this year, those left after so many years; survivorship names its number of years as the
   deferment. */
parvusek_answer_t parvusek_period_survivorship(const uint8_t *run, size_t run_len, const uint8_t *history,
                                               size_t history_len, uint32_t age, uint32_t deferment, uint32_t year);
parvusek_answer_t parvusek_cohort_survivorship(const uint8_t *run, size_t run_len, const uint8_t *history,
                                               size_t history_len, uint32_t age, uint32_t deferment, uint32_t year);
/* The expectation of life at age + deferment in year + deferment, in years. */
parvusek_answer_t parvusek_period_expectation(const uint8_t *run, size_t run_len, const uint8_t *history,
                                              size_t history_len, uint32_t age, uint32_t deferment, uint32_t year);
parvusek_answer_t parvusek_cohort_expectation(const uint8_t *run, size_t run_len, const uint8_t *history,
                                              size_t history_len, uint32_t age, uint32_t deferment, uint32_t year);
/* The value at this age in this year of 1 a year in advance for life, from the deferment's end on. */
parvusek_answer_t parvusek_period_annuity(const uint8_t *run, size_t run_len, const uint8_t *history,
                                          size_t history_len, uint32_t age, uint32_t deferment, uint32_t year);
parvusek_answer_t parvusek_cohort_annuity(const uint8_t *run, size_t run_len, const uint8_t *history,
                                          size_t history_len, uint32_t age, uint32_t deferment, uint32_t year);

/* ---- sets of model points. The results of a point are those of its four enquiries, after 2130 too */

/* Six points by value. The set is refused by the basis alone, its points then being 0 throughout; a point is refused by
   itself (6, 8, 7, then 9 and 10 in the order of its four results). */
parvusek_small_set_t parvusek_small_set(const uint8_t *run, size_t run_len, const uint8_t *history, size_t history_len,
                                        parvusek_questions_t questions);
/* The first 119 records, in place: each gets its four results, or its refusal with all four 0, whatever stood there;
   questions and further records are kept. Refused: 11 (a list of fewer than 119: 119), then by the basis; then no
   record changes. To value fewer, fill the list up with records of age 0, which are refused at once (6). */
parvusek_refusal_t parvusek_grid(const uint8_t *run, size_t run_len, const uint8_t *history, size_t history_len,
                                 parvusek_point_t *points, size_t count);

/* ---- one life, year by year; the host keeps age, year and survivors between calls, and lends the basis to each */

/* U lives at this age in this year. Refused as a value with deferment 0; then age, year and survivors are 0. */
parvusek_lifeline_t parvusek_lifeline_start(const uint8_t *run, size_t run_len, const uint8_t *history,
                                            size_t history_len, uint32_t age, uint32_t year);
/* One year of cohort survivorship, or ended at age 150. Refused: by the basis, 6, 7 (year before B, or year - age after
   2110; a year after 2130 may stand), 5 at the run's length, 4554 or 5060, for survivors above U, then 9 and 10. A step
   that ends or is refused hands back the age, year and survivors that it was given. One after 2130 takes the rate that
   the cohort kind takes there; the latest of all is from age 149 in 2259. */
parvusek_lifeline_t parvusek_lifeline_step(const uint8_t *run, size_t run_len, const uint8_t *history,
                                           size_t history_len, uint32_t age, uint32_t year, uint64_t survivors);

/* ---- a roll of pensions in payment: up to 500 members for one valuation year, and what their pensions come to. The
   host keeps its numbers and hands them on unchanged from call to call: roll[0] is the valuation year, roll[1] how many
   are on it; then in the order of joining, from place 2 on their member numbers, from 502 on their ages, from 1,002 on
   their yearly pensions and from 1,502 on their liabilities, both in pence. Further numbers are kept.
   A member's liability is pension x cohort annuity (deferment 0) / U, rounded to whole pence, ties up. It is set at the
   join from the basis and the history lent there, and not worked out again.
   Any numbers of this length are a roll, so that every call ends: of roll[0] the lowest 32 bits count, of roll[1] at most
   500, and a sum is taken modulo 2^64. What the total is in pence is promised of a roll that was opened here and changed
   by these calls alone: the sum for those who joined and have not left, at most 2,620,000,000,000. */

/* Empty, for one valuation year, which is not checked here. It writes roll[0] and roll[1], and leaves the other numbers as
   they are. Refused: 11 (roll too short: 16,016 bytes). */
parvusek_refusal_t parvusek_roll_open(uint32_t year, uint64_t *roll, size_t roll_len);
/* A member joins, with a yearly pension of 0 to 10,000,000 pence. The value is the total after the call.
   Refused: 11; 16 (the number is on the roll), 14 (the roll is full), 5 (a pension above its limit), these three with the
   member number and 0; then as a cohort annuity with deferment 0 in the roll's year, also for a pension of 0. */
parvusek_answer_t parvusek_roll_join(const uint8_t *run, size_t run_len, const uint8_t *history, size_t history_len,
                                     uint64_t *roll, size_t roll_len, uint32_t number, uint32_t age, uint32_t pension);
/* A member leaves, and those who joined later move up a place. The value is the total after the call. Nothing is cleared:
   behind the last member numbers of those who have left may still stand.
   Refused: 11, 15 (the number is not on the roll: member number and 0). */
parvusek_answer_t parvusek_roll_leave(uint64_t *roll, size_t roll_len, uint32_t number);
/* The total, in pence. Refused: 11. */
parvusek_answer_t parvusek_roll_total(const uint64_t *roll, size_t roll_len);

#ifdef __cplusplus
}
#endif
#endif
