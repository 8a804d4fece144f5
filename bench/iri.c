// Stack on a painted stack, and time, of the escape and IRI routines. See bench/iri.sh.
#define _GNU_SOURCE
#include <stdbool.h>
#include <stdio.h>
#include <time.h>

#include "painted.h"

bool bench_bad_escape(const uint8_t *, size_t);
bool bench_same(const uint8_t *, size_t, const uint8_t *, size_t);
size_t bench_write(const uint8_t *, size_t, uint8_t *, size_t);
bool bench_scheme(const uint8_t *, size_t);
size_t bench_resolve(const uint8_t *, size_t, uint8_t *, size_t, size_t);

enum { MEGABYTE = 1 << 20, IRI = 1024 };
static uint8_t text[MEGABYTE], other[MEGABYTE], buffer[IRI];
static size_t result;
static const uint8_t base[] = "http://a/b/c/d;p?q";

static void nothing(void) {}
static void bad_escape(void) { result = bench_bad_escape(text, MEGABYTE); }
static void same(void) { result = bench_same(text, MEGABYTE, other, MEGABYTE); }
static void write_text(void) { result = bench_write(text, MEGABYTE, other, MEGABYTE); }
static void scheme(void) { result = bench_scheme(text, MEGABYTE); }
static void resolve(void) {
    size_t n = IRI - 13;
    for (size_t i = 0; i < n; i++) buffer[IRI - n + i] = i & 1 ? '/' : '.';
    result = bench_resolve(base, sizeof base - 1, buffer, IRI, n);
}

static double seconds(void) {
    struct timespec t;
    clock_gettime(CLOCK_MONOTONIC, &t);
    return t.tv_sec + t.tv_nsec / 1e9;
}

static void measure(const char *name, void (*f)(void), int times) {
    size_t bytes = stack_of(f) - stack_of(nothing);
    double start = seconds();
    for (int i = 0; i < times; i++) f();
    printf("%-20s %5zu bytes of stack, %9.2f us, result %zu\n", name, bytes, (seconds() - start) * 1e6 / times, result);
}

int main(void) {
    memset(text, 'a', MEGABYTE);
    memset(other, 'a', MEGABYTE);
    measure("bad escape, 1 MiB", bad_escape, 20);
    measure("same text, 1 MiB", same, 20);
    measure("write text, 1 MiB", write_text, 20);
    measure("scheme, 1 MiB", scheme, 20);
    memcpy(text + MEGABYTE - 2, "\\t", 2);
    measure("one escape, 1 MiB", write_text, 20);
    for (size_t i = 0; i + 6 <= MEGABYTE; i += 6) memcpy(text + i, "\\u00E9", 6);
    measure("all escapes, 1 MiB", write_text, 20);
    measure("resolve ././. 1,011", resolve, 2000);
    return 0;
}
