/* What the checks of the boundary share: one check, what a refusal says, and the bases that the cases are worked on. */
#ifndef CHECK_BOUNDARY_H
#define CHECK_BOUNDARY_H
#include "parvusek.h"

enum { RUN = 4554, FILE_SIZE = 4608, RUN_2 = 5060, FILE_SIZE_2 = 5120, BLOCK = 512, FURTHER = 16, KEPT = 0xA5 };

/* what is lent beside a data run that needs no history */
#define NO_HISTORY NULL, 0

#define HOLDS(fact) holds((fact), #fact, __FILE__, __LINE__)

void holds(int fact, const char *text, const char *file, int line);

int refused(parvusek_refusal_t r, uint32_t number, uint64_t first, uint64_t second);
int passed(parvusek_refusal_t r);
int is(parvusek_answer_t a, uint64_t value);
int is_signed(parvusek_signed_answer_t a, int64_t value);
int declined(parvusek_answer_t a, uint32_t number, uint64_t first, uint64_t second);
/* whether so many bytes are all this one */
int all(const uint8_t *at, size_t n, uint8_t byte);

void put2(uint8_t *at, uint32_t n);
void put4(uint8_t *at, int32_t n);
void fill4(uint8_t *at, size_t count, int32_t n);
uint32_t get4(const uint8_t *at);
/* the check that belongs behind the 508 bytes of a block */
uint32_t block_check(const uint8_t *block);

/* F and B 2006, every base rate 100,000,000, other rates 0, T 20, P 50 */
void sample(uint8_t *run);
/* the same with every improvement after F the constant addition */
void sample_with_addition(uint8_t *run, int32_t addition);
/* the same with every improvement -400,000,000 in F and -500,000,000 after it */
void sample_worsening(uint8_t *run);
/* the same with an improvement of 587,500,000 in the year after F */
void sample_beyond(uint8_t *run);
/* the same with F 2080 and B 2130, so that every improvement taken is of a year after 2130: these long-term rates, the
   first at every age and the second of every birth year, and this addition */
void sample_later(uint8_t *run, int32_t by_age, int32_t by_birth_year, int32_t addition);
/* the long-term rate of one birth year in a run of the old form */
void put_birth_year(uint8_t *run, uint32_t birth_year, int32_t rate);

/* the checks of check_forms.c */
void check_forms(void);

/* the checks of check_sets.c */
void check_small_sets(void);
void check_grids(void);
void check_lifelines(void);

/* the checks of check_histories.c */
void check_histories(void);

/* the checks of check_rolls.c */
void check_rolls(void);

#endif
