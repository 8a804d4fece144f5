// Builds and checks the index of tables with so many subjects, in no order, and so many rows each.
#define _GNU_SOURCE
#include <stdio.h>
#include <stdlib.h>

#include "painted.h"
#include "sycamoot.h"
#include "timed.h"

enum { ROWS = 30000, SUBJECTS = 3000, TERMS = SUBJECTS + 1, STORE = 64 * TERMS, OUT = 128 * SUBJECTS };

static uint32_t rows[ROWS * SYCAMOOT_ROW_WORDS], terms[TERMS * SYCAMOOT_TERM_WORDS], row_count, term_count, used;
static uint8_t store[STORE], out[OUT];
static sycamoot_written written;
static sycamoot_checked checked;

static uint32_t add(const char *text)
{
    uint32_t *t = terms + SYCAMOOT_TERM_WORDS * term_count++, size = strlen(text);
    memcpy(store + used, text, size);
    t[0] = SYCAMOOT_IRI, t[1] = used, t[2] = size, t[3] = t[4] = 0;
    used += size;
    return term_count;
}

static void fill(uint32_t subjects, uint32_t each)
{
    char text[64];
    row_count = term_count = used = 0;
    uint32_t predicate = add("http://motor.example/terms#torque");
    for (uint32_t i = 0; i < subjects; i++) {
        snprintf(text, sizeof text, "http://motor.example/serial/%08u", 7919 * i % 10007);
        uint32_t subject = add(text);
        for (uint32_t k = 0; k < each; k++) {
            uint32_t *r = rows + SYCAMOOT_ROW_WORDS * row_count++;
            r[0] = 0, r[1] = subject, r[2] = r[3] = predicate, r[4] = 0;
        }
    }
}

static void build(void)
{
    written = sycamoot_write_index(rows, ROWS * SYCAMOOT_ROW_WORDS, row_count, terms, TERMS * SYCAMOOT_TERM_WORDS, term_count, store, STORE, used, out, OUT);
}

static void check(void)
{
    checked = sycamoot_check_index(rows, ROWS * SYCAMOOT_ROW_WORDS, row_count, terms, TERMS * SYCAMOOT_TERM_WORDS, term_count, store, STORE, used, out, written.position);
}

static void nothing(void) {}

int main(void)
{
    const uint32_t sizes[][2] = {{100, 30}, {1000, 3}, {3000, 1}, {1000, 30}, {3000, 10}};
    double pallet = 0;
    for (size_t i = 0; i < sizeof sizes / sizeof *sizes; i++) {
        fill(sizes[i][0], sizes[i][1]);
        double building = seconds_of(build), checking = seconds_of(check);
        if (written.number || checked.number || !checked.yes)
            return 2;
        if (i == 0)
            pallet = building > checking ? building : checking;
        printf("%5u subjects %6u rows %7u bytes: built in %7.4f s, checked in %7.4f s\n", sizes[i][0], row_count, (unsigned)written.position, building, checking);
    }
    size_t own = stack_of(nothing);
    printf("stack: %zu bytes to build, %zu to check\n", stack_of(build) - own, stack_of(check) - own);
    return pallet >= 1;
}
