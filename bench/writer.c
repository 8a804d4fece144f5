// Writes about 1 MB of long form from tables of four kinds: IRIs, plain literals, literals to be escaped, a mix with graphs.
#define _GNU_SOURCE
#include <stdio.h>
#include <stdlib.h>
#include <time.h>

#include "painted.h"

size_t bench_write(const uint32_t *rows, size_t row_words, uint32_t row_count, const uint32_t *terms, size_t term_words, uint32_t term_count,
                   const uint8_t *store, size_t store_size, uint32_t store_count, uint8_t *out, size_t out_size);

enum { ROOM = 1 << 20, TERMS = 1 << 16, ROWS = 1 << 16, STORE = 1 << 22 };

static uint32_t rows[5 * ROWS], terms[5 * TERMS], row_count, term_count, used;
static uint8_t store[STORE], out[ROOM];

static uint32_t add(uint32_t kind, const char *text, uint32_t fourth, uint32_t fifth) {
    uint32_t *t = terms + 5 * term_count++, size = strlen(text);
    memcpy(store + used, text, size);
    t[0] = kind, t[1] = used, t[2] = size, t[3] = fourth, t[4] = fifth;
    used += size;
    return term_count;
}

static uint32_t add_tagged(const char *text, const char *tag) {
    uint32_t size = strlen(tag);
    memcpy(store + used, tag, size);
    used += size;
    return add(4, text, used - size, size);
}

static void add_row(uint32_t graph, uint32_t subject, uint32_t predicate, uint32_t object) {
    uint32_t *r = rows + 5 * row_count++;
    r[0] = graph, r[1] = subject, r[2] = predicate, r[3] = object, r[4] = 0;
}

static size_t write_all(void) { return bench_write(rows, 5 * ROWS, row_count, terms, 5 * TERMS, term_count, store, STORE, used, out, ROOM); }

static void nothing(void) {}

// Rows of a kind until the long form is nearly as long as the output.
static void fill(int kind) {
    char text[256];
    row_count = term_count = used = 0;
    uint32_t string = add(1, "http://www.w3.org/2001/XMLSchema#string", 0, 0);
    uint32_t integer = add(1, "http://www.w3.org/2001/XMLSchema#integer", 0, 0);
    uint32_t predicate = add(1, "http://motor.example/terms#torque", 0, 0);
    uint32_t graph = add(1, "http://motor.example/graphs/1", 0, 0);
    size_t length = 0;
    for (int i = 0; length < ROOM - 20000; i++) {
        snprintf(text, sizeof text, "http://motor.example/parts/%08d", i);
        uint32_t subject = add(1, text, 0, 0), object;
        if (kind == 0) {
            snprintf(text, sizeof text, "http://motor.example/values/%08d", i);
            object = add(1, text, 0, 0);
        } else if (kind == 1) {
            snprintf(text, sizeof text, "the value of part %08d, as it was measured on the bench with the cover closed", i);
            object = add(3, text, string, 0);
        } else if (kind == 2) {
            snprintf(text, sizeof text, "\"\\\"\n\"\\\"\n\"\\\"\n\"\\\"\n%d", i);
            object = add(3, text, string, 0);
        } else if (i % 3 == 0) {
            snprintf(text, sizeof text, "%d", i);
            object = add(3, text, integer, 0);
        } else if (i % 3 == 1) {
            object = add_tagged("a closed cover", "en-GB");
        } else {
            object = add(2, "", i, 0);
        }
        add_row(kind == 3 ? graph : 0, subject, predicate, object);
        if (i % 64 == 0 && !(length = write_all())) exit(1);
    }
}

static double seconds(void) {
    struct timespec t;
    clock_gettime(CLOCK_THREAD_CPUTIME_ID, &t);
    return t.tv_sec + t.tv_nsec * 1e-9;
}

static volatile size_t answer;
static void write_once(void) { answer = write_all(); }

int main(void) {
    const char *names[] = {"IRIs", "literals", "escapes", "mixed, in a graph"};
    for (int kind = 0; kind < 4; kind++) {
        fill(kind);
        double best = 1e9;
        size_t n = 0;
        for (int i = 0; i < 25; i++) {
            double start = seconds();
            n = write_all();
            double took = seconds() - start;
            if (took < best) best = took;
        }
        printf("%-18s %8zu bytes %6u rows %6.0f MB/s  stack %zu\n", names[kind], n, row_count, n / best / 1e6, stack_of(write_once) - stack_of(nothing));
    }
    return 0;
}
