/* Tables, and a file read into them: TriG, or Turtle where its name ends in .ttl. */
#ifndef TABLES_H
#define TABLES_H

#include <inttypes.h>
#include <stdio.h>
#include <stdlib.h>
#include <string.h>

#include "sycamoot.h"

/* A longer work slice is an index of the terms, which keeps finding them fast. */
enum {
    ROWS = 65536 * SYCAMOOT_ROW_WORDS,
    TERMS = 65536 * SYCAMOOT_TERM_WORDS,
    STORE = 1 << 22,
    WORK = SYCAMOOT_WORK_BYTES + SYCAMOOT_INDEX_BYTES * 65536,
    OUT = 1 << 24
};

struct tables {
    uint32_t rows[ROWS], terms[TERMS];
    uint8_t store[STORE];
    sycamoot_answer answer;
};

/* The tables as they are given to a call: each slice, its length, and how much of it is used. */
#define GIVEN(t) (t)->rows, ROWS, (t)->answer.rows, (t)->terms, TERMS, (t)->answer.terms, (t)->store, STORE, (t)->answer.store

static uint8_t out[OUT];

/* The bytes of a file, at most so many. */
static size_t load(const char *name, uint8_t *bytes, size_t most)
{
    FILE *file = fopen(name, "rb");
    if (!file) {
        perror(name);
        exit(2);
    }
    size_t length = fread(bytes, 1, most, file);
    fclose(file);
    return length;
}

/* Ends with 1 where a call was refused. */
static void expect(uint32_t number, uint64_t position)
{
    if (number == SYCAMOOT_ACCEPTED)
        return;
    printf("refused %" PRIu32 " at %" PRIu64 "\n", number, position);
    exit(1);
}

static void read_tables(const char *name, struct tables *t)
{
    static uint8_t document[SYCAMOOT_DOCUMENT_BYTES + 1], work[WORK];
    size_t length = load(name, document, sizeof document);
    size_t n = strlen(name);
    uint32_t mode = n >= 4 && strcmp(name + n - 4, ".ttl") == 0 ? SYCAMOOT_TURTLE : SYCAMOOT_TRIG;
    t->answer = sycamoot_read(document, length, document, 0, mode, work, WORK, t->rows, ROWS, t->terms, TERMS, t->store, STORE);
    expect(t->answer.number, t->answer.position);
}

#endif
