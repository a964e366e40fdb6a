/* Keeps a roll of pensions in payment: runs a list of joins and leaves, prints the total after each of them, and at the
   end the members.

     keep_roll YEAR BASIS.bin CALLS.csv [HISTORY.bin]

   CALLS.csv has the header row call,number,age,pension. A row is join with these three, the yearly pension in pence, or
   leave and a number; what stands behind that is not looked at. No number has a needless leading zero. HISTORY.bin is
   needed where the base year of the basis is before its foundation year.
   Exit status: 0 done (refused calls are part of the table), 1 the basis is refused, a file cannot be used or the library
   is another, 2 usage. */
#include <errno.h>
#include <stdio.h>
#include <string.h>

#include "parvusek.h"
#include "parvusek_refusals.h"

#define PROGRAM "keep_roll"
#include "example_basis.h"
#include "example_rows.h"

/* ---- the list of calls */

typedef struct {
    int is_join;
    uint32_t number, age, pension;
} call_t;

/* Whether a row is a call. */
static int read_call(const char *row, call_t *call) {
    const char *rest = take(row, "join,");
    memset(call, 0, sizeof *call);
    if (rest != NULL) {
        call->is_join = 1;
        rest = take_number(rest, &call->number);
        rest = take_number(take(rest, ","), &call->age);
        rest = take_number(take(rest, ","), &call->pension);
        return rest != NULL && *rest == '\0';
    }
    rest = take_number(take(row, "leave,"), &call->number);
    return rest != NULL && (*rest == ',' || *rest == '\0');
}

/* ---- the roll */

/* Where the parts of a roll begin. */
enum {
    YEAR = 0,
    COUNT = 1,
    NUMBERS = 2,
    AGES = NUMBERS + PARVUSEK_ROLL_MEMBERS,
    PENSIONS = AGES + PARVUSEK_ROLL_MEMBERS,
    LIABILITIES = PENSIONS + PARVUSEK_ROLL_MEMBERS
};

/* Prints a call with the total after it, and its refusal. */
static void run_call(const basis_t *basis, uint64_t *roll, const call_t *call) {
    parvusek_answer_t answer;
    char line[128];
    if (call->is_join) {
        answer = parvusek_roll_join(basis->run, basis->run_length, basis->history, basis->history_length, roll,
                                    PARVUSEK_ROLL_LENGTH, call->number, call->age, call->pension);
        printf("join  %10" PRIu32 " %3" PRIu32 " %10" PRIu32, call->number, call->age, call->pension);
    } else {
        answer = parvusek_roll_leave(roll, PARVUSEK_ROLL_LENGTH, call->number);
        printf("leave %10" PRIu32 " %3s %10s", call->number, "", "");
    }
    if (answer.refusal.number == 0) {
        printf(" %13" PRIu64 "\n", answer.value);
        return;
    }
    /* Nothing has changed then, so that the total is what it was. */
    parvusek_join_refusal_line(line, sizeof line, answer.refusal, call->pension);
    printf(" %13" PRIu64 " %s\n", parvusek_roll_total(roll, PARVUSEK_ROLL_LENGTH).value, line);
}

static void print_members(const uint64_t *roll) {
    uint64_t i;
    printf("\nmembers in %" PRIu64 ": %" PRIu64 "\n", roll[YEAR], roll[COUNT]);
    printf("%16s %3s %10s %13s\n", "number", "age", "pension", "liability");
    for (i = 0; i < roll[COUNT]; i++) {
        printf("%16" PRIu64 " %3" PRIu64 " %10" PRIu64 " %13" PRIu64 "\n", roll[NUMBERS + i], roll[AGES + i],
               roll[PENSIONS + i], roll[LIABILITIES + i]);
    }
}

/* Runs the rows below the header. Hands back 0, or 1 where it has said what is wrong. */
static int run_calls(const basis_t *basis, uint64_t *roll, const char *path, FILE *list) {
    unsigned long line = 1;
    char row[256];
    call_t call;
    if (next_row(list, row, sizeof row) == 0 || strcmp(row, "call,number,age,pension") != 0) {
        fprintf(stderr, PROGRAM ": %s does not begin with the row call,number,age,pension\n", path);
        return 1;
    }
    printf("%-5s %10s %3s %10s %13s\n", "call", "number", "age", "pension", "total");
    while (next_row(list, row, sizeof row) != 0) {
        line++;
        if (!read_call(row, &call)) {
            fprintf(stderr, PROGRAM ": %s, line %lu is neither a join nor a leave; the calls before it are done\n", path,
                    line);
            return 1;
        }
        run_call(basis, roll, &call);
    }
    if (ferror(list)) {
        fprintf(stderr, PROGRAM ": %s cannot be read to its end\n", path);
        return 1;
    }
    return 0;
}

/* Opens the roll and runs the list. Hands back 0, or 1 where it has said what is wrong. */
static int keep_roll(const basis_t *basis, uint32_t year, const char *path) {
    static uint64_t roll[PARVUSEK_ROLL_LENGTH];
    int status;
    FILE *list = fopen(path, "r");
    if (list == NULL) {
        fprintf(stderr, PROGRAM ": %s: %s\n", path, strerror(errno));
        return 1;
    }
    /* Only a list that is too short is refused here; the year is, where it is wrong, at each join. */
    parvusek_roll_open(year, roll, PARVUSEK_ROLL_LENGTH);
    status = run_calls(basis, roll, path, list);
    fclose(list);
    if (status == 0) {
        print_members(roll);
    }
    if (fflush(stdout) != 0 || ferror(stdout)) {
        fprintf(stderr, PROGRAM ": not all could be printed\n");
        return 1;
    }
    return status;
}

int main(int count, char **words) {
    static basis_t basis;
    uint32_t year;
    const char *rest = count < 2 ? NULL : take_number(words[1], &year);
    if (count < 4 || count > 5 || rest == NULL || *rest != '\0') {
        fprintf(stderr, "usage: keep_roll YEAR BASIS.bin CALLS.csv [HISTORY.bin]\n");
        return 2;
    }
    /* A minor version may change answers, so none is given by a library of another. */
    if (parvusek_version() / 100 != PARVUSEK_VERSION / 100) {
        fprintf(stderr, PROGRAM ": compiled for version %u, linked with %" PRIu32 "\n", PARVUSEK_VERSION,
                parvusek_version());
        return 1;
    }
    if (read_run(words[2], &basis) != 0 || read_history(count == 5 ? words[4] : NULL, &basis) != 0) {
        return 1;
    }
    return keep_roll(&basis, year, words[3]);
}
