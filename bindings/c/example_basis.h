/* What the examples share: the basis that they are given, read once from its files. An example names itself, as
   PROGRAM, before it takes this in, and every line of an error begins with that name. */
#ifndef PARVUSEK_EXAMPLE_BASIS_H
#define PARVUSEK_EXAMPLE_BASIS_H

#include <errno.h>
#include <stdio.h>
#include <string.h>

#include "parvusek.h"
#include "parvusek_refusals.h"

/* The longest history is for the years 1993 to 2080. */
enum { HISTORY_YEARS = 88 };

/* The engine keeps nothing, so run and history are ours to keep. */
typedef struct {
    /* Room for either form; the run's own length is what is lent. */
    uint8_t run[PARVUSEK_RUN_LENGTH_2];
    size_t run_length;
    /* One byte more than the longest history has: a longer file is then refused, too. */
    uint8_t history[HISTORY_YEARS * PARVUSEK_HISTORY_YEAR + 1];
    size_t history_length;
} basis_t;

/* Reads up to `size` bytes of a file. Hands back 0, or 1 where it has said what is wrong. */
static int read_file(const char *path, uint8_t *bytes, size_t size, size_t *length) {
    FILE *opened = fopen(path, "rb");
    if (opened == NULL) {
        fprintf(stderr, PROGRAM ": %s: %s\n", path, strerror(errno));
        return 1;
    }
    *length = fread(bytes, 1, size, opened);
    fclose(opened);
    return 0;
}

/* Hands back 0, or 1 where it has said why the file is refused. */
static int say_refusal(const char *path, parvusek_refusal_t refusal) {
    char line[128];
    if (refusal.number == 0) {
        return 0;
    }
    parvusek_refusal_line(line, sizeof line, refusal);
    fprintf(stderr, PROGRAM ": %s: %s\n", path, line);
    return 1;
}

/* The data run of a basis file. Hands back 0, or 1 where it has said what is wrong. */
static int read_run(const char *path, basis_t *basis) {
    /* One byte more than the longer form has, for the same reason. */
    uint8_t file[PARVUSEK_FILE_LENGTH_2 + 1];
    size_t length;
    if (read_file(path, file, sizeof file, &length) != 0) {
        return 1;
    }
    basis->run_length = length == PARVUSEK_FILE_LENGTH_2 ? PARVUSEK_RUN_LENGTH_2 : PARVUSEK_RUN_LENGTH;
    return say_refusal(path, parvusek_read_basis(file, length, basis->run, sizeof basis->run));
}

/* The history beside it, as it is; without a path there is none. Hands back 0, or 1 where it has said what is wrong. */
static int read_history(const char *path, basis_t *basis) {
    parvusek_questions_t none;
    parvusek_small_set_t set;
    basis->history_length = 0;
    if (path != NULL && read_file(path, basis->history, sizeof basis->history, &basis->history_length) != 0) {
        return 1;
    }
    /* A set is refused as a whole by its basis alone. The run is accepted, so that this is the history's refusal. */
    memset(&none, 0, sizeof none);
    set = parvusek_small_set(basis->run, basis->run_length, basis->history, basis->history_length, none);
    return say_refusal(path == NULL ? "no history" : path, set.refusal);
}

#endif
