/* The sentence of each refusal of parvusek.h, as docs/REFUSALS.md has it, and a line that explains one with its places.
   All is in this header: nothing more is linked. Text is UTF-8. */
#ifndef PARVUSEK_REFUSALS_H
#define PARVUSEK_REFUSALS_H

#include <inttypes.h>
#include <stdio.h>

#include "parvusek.h"

/* What a refusal says. The number 0 gives "not refused", and any other that no refusal has "no such refusal". */
static inline const char *parvusek_refusal_sentence(uint32_t number) {
    switch (number) {
    case 0: return "not refused";
    /* made by tools/make_refusals: sentences */
    case 1: return "file not 4,608 or 5,120 bytes, or data run not 4,554 or 5,060";
    case 2: return "a block's check is wrong";
    case 3: return "a block's number is not its place";
    case 4: return "mark or zero bytes wrong";
    case 5: return "a field outside its limits";
    case 6: return "age outside 20 to 150";
    case 7: return "year after 2130, or before B (before both F and B + 1 for an improvement)";
    case 8: return "age + deferment above 150";
    case 9: return "an improvement needed is beyond \302\261500,000,000";
    case 10: return "a factor needed is above 4 \303\227 U";
    case 11: return "lent output too short";
    case 12: return "a line is not of the form asked";
    case 13: return "history not 1,024 bytes for each year from B + 1 to F";
    case 14: return "the roll is full";
    case 15: return "the member number is not on the roll";
    case 16: return "the member number is on the roll already";
    case 17: return "a proportion is no whole per cent";
    /* end of what tools/make_refusals makes */
    default: return "no such refusal";
    }
}

/* What the first place of a refusal is; NULL where it has none. */
static inline const char *parvusek_refusal_first(uint32_t number) {
    switch (number) {
    /* made by tools/make_refusals: first places */
    case 2: case 3: return "block";
    case 4: case 5: case 17: return "offset";
    case 6: case 8: case 9: case 10: return "age";
    case 7: return "year";
    case 11: case 13: return "needed";
    case 12: return "line";
    case 14: case 15: case 16: return "member";
    /* end of what tools/make_refusals makes */
    default: return NULL;
    }
}

/* What the second place of a refusal is; NULL where it has none. */
static inline const char *parvusek_refusal_second(uint32_t number) {
    switch (number) {
    /* made by tools/make_refusals: second places */
    case 8: return "deferment";
    case 9: case 10: return "year";
    /* end of what tools/make_refusals makes */
    default: return NULL;
    }
}

/* Writes a line such as "refused 8: age + deferment above 150 (age 148, deferment 3)" as snprintf does: at most `size`
   bytes with the ending 0, and hands back the length that the whole line has. 128 bytes are enough for every refusal. */
static inline int parvusek_refusal_line(char *line, size_t size, parvusek_refusal_t refusal) {
    const char *sentence = parvusek_refusal_sentence(refusal.number);
    const char *first = parvusek_refusal_first(refusal.number);
    const char *second = parvusek_refusal_second(refusal.number);
    if (first == NULL) {
        return snprintf(line, size, "refused %" PRIu32 ": %s", refusal.number, sentence);
    }
    if (second == NULL) {
        return snprintf(line, size, "refused %" PRIu32 ": %s (%s %" PRIu64 ")", refusal.number, sentence, first,
                        refusal.first);
    }
    return snprintf(line, size, "refused %" PRIu32 ": %s (%s %" PRIu64 ", %s %" PRIu64 ")", refusal.number, sentence,
                    first, refusal.first, second, refusal.second);
}

/* The same for a refused parvusek_roll_join of this pension. The 5 of a pension above 10,000,000 comes before every
   other 5 and has the member number where those have an offset; the refusal alone does not say which it is. */
static inline int parvusek_join_refusal_line(char *line, size_t size, parvusek_refusal_t refusal, uint32_t pension) {
    if (refusal.number == 5 && pension > 10000000) {
        return snprintf(line, size, "refused 5: %s: the pension is above 10,000,000 pence (member %" PRIu64 ")",
                        parvusek_refusal_sentence(5), refusal.first);
    }
    return parvusek_refusal_line(line, size, refusal);
}

#endif
