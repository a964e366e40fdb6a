/* Values a list of members against a basis file and prints a table; a refusal is explained where it stands.

     value_members BASIS.bin [MEMBERS.csv [HISTORY.bin]]

   MEMBERS.csv has the header row member,age,deferment,year; without it the three members below are valued. A name has 1
   to 23 bytes, and no number has a needless leading zero. HISTORY.bin is needed where the base year of the basis is before
   its foundation year.
   Exit status: 0 done (refused members are part of the table), 1 the basis is refused, a file cannot be used or the
   library is another, 2 usage. */
#include <errno.h>
#include <stdio.h>
#include <string.h>

#include "parvusek.h"
#include "parvusek_refusals.h"

#define PROGRAM "value_members"
#include "example_basis.h"
#include "example_rows.h"

typedef struct {
    char name[24];
    parvusek_question_t question;
} member_t;

static const member_t own_members[] = {
    {"in payment", {65, 0, 2010}},
    {"deferred", {45, 20, 2010}},
    {"too old", {148, 3, 2010}},
};

/* ---- the table */

/* Units with nine decimals, as whole numbers: no floating point comes near a value. */
static void print_units(uint64_t units) {
    printf(" %5" PRIu64 ".%09" PRIu64, units / PARVUSEK_UNIT, units % PARVUSEK_UNIT);
}

static void print_header(void) {
    printf("%-12s %3s %9s %4s %15s %15s %15s %15s\n", "member", "age", "deferment", "year", "period exp.", "cohort exp.",
           "period annuity", "cohort annuity");
}

static void print_member(const member_t *member, const parvusek_point_answer_t *answer) {
    const parvusek_question_t *asked = &member->question;
    char line[128];
    int i;
    printf("%-12s %3" PRIu32 " %9" PRIu32 " %4" PRIu32, member->name, asked->age, asked->deferment, asked->year);
    if (answer->refusal.number != 0) {
        parvusek_refusal_line(line, sizeof line, answer->refusal);
        printf(" %s\n", line);
        return;
    }
    for (i = 0; i < 4; i++) {
        print_units(answer->results[i]);
    }
    printf("\n");
}

/* Values up to six members by one small set: the basis is checked once for all of them. */
static void value(const basis_t *basis, const member_t *members, size_t count) {
    parvusek_questions_t questions;
    parvusek_small_set_t set;
    size_t i;
    /* Age 0 in the places that are left: these points are refused at once and not printed. */
    memset(&questions, 0, sizeof questions);
    for (i = 0; i < count; i++) {
        questions.points[i] = members[i].question;
    }
    /* The set as a whole can only be refused for its basis, which was accepted when it was read. */
    set = parvusek_small_set(basis->run, basis->run_length, basis->history, basis->history_length, questions);
    for (i = 0; i < count; i++) {
        print_member(&members[i], &set.points[i]);
    }
}

/* ---- the list of members */

/* Whether a row is a member with a question. */
static int read_member(const char *row, member_t *member) {
    size_t length = strcspn(row, ",");
    const char *rest = row + length;
    if (length == 0 || length >= sizeof member->name) {
        return 0;
    }
    memcpy(member->name, row, length);
    member->name[length] = '\0';
    rest = take_number(take(rest, ","), &member->question.age);
    rest = take_number(take(rest, ","), &member->question.deferment);
    rest = take_number(take(rest, ","), &member->question.year);
    return rest != NULL && *rest == '\0';
}

/* Values the rows below the header, six at a time. Hands back 0, or 1 where it has said what is wrong. */
static int value_rows(const basis_t *basis, const char *path, FILE *list) {
    member_t members[PARVUSEK_SMALL_SET];
    size_t count = 0;
    unsigned long line = 1;
    char row[256];
    if (next_row(list, row, sizeof row) == 0 || strcmp(row, "member,age,deferment,year") != 0) {
        fprintf(stderr, PROGRAM ": %s does not begin with the row member,age,deferment,year\n", path);
        return 1;
    }
    while (next_row(list, row, sizeof row) != 0) {
        line++;
        if (!read_member(row, &members[count])) {
            fprintf(stderr, PROGRAM ": %s, line %lu is not a member, an age, a deferment and a year\n", path, line);
            return 1;
        }
        if (++count == PARVUSEK_SMALL_SET) {
            value(basis, members, count);
            count = 0;
        }
    }
    if (ferror(list)) {
        fprintf(stderr, PROGRAM ": %s cannot be read to its end\n", path);
        return 1;
    }
    value(basis, members, count);
    return 0;
}

/* Opens the list and values it. Hands back 0, or 1 where it has said what is wrong. */
static int value_list(const basis_t *basis, const char *path) {
    int status;
    FILE *list = fopen(path, "r");
    if (list == NULL) {
        fprintf(stderr, PROGRAM ": %s: %s\n", path, strerror(errno));
        return 1;
    }
    status = value_rows(basis, path, list);
    fclose(list);
    if (fflush(stdout) != 0 || ferror(stdout)) {
        fprintf(stderr, PROGRAM ": not all could be printed\n");
        return 1;
    }
    return status;
}

int main(int count, char **words) {
    static basis_t basis;
    if (count < 2 || count > 4) {
        fprintf(stderr, "usage: value_members BASIS.bin [MEMBERS.csv [HISTORY.bin]]\n");
        return 2;
    }
    /* A minor version may change answers, so none is given by a library of another. */
    if (parvusek_version() / 100 != PARVUSEK_VERSION / 100) {
        fprintf(stderr, PROGRAM ": compiled for version %u, linked with %" PRIu32 "\n", PARVUSEK_VERSION,
                parvusek_version());
        return 1;
    }
    if (read_run(words[1], &basis) != 0 || read_history(count == 4 ? words[3] : NULL, &basis) != 0) {
        return 1;
    }
    print_header();
    if (count >= 3) {
        return value_list(&basis, words[2]);
    }
    value(&basis, own_members, sizeof own_members / sizeof own_members[0]);
    return 0;
}
