// Times of cutting into tokens and of the UTF-8 check on a text, beside memchr on the same bytes; and the stack that cutting takes.
#define _GNU_SOURCE
#include <stdio.h>
#include <time.h>

#include "painted.h"

extern size_t bench_tokens(const uint8_t *text, size_t length);
extern size_t bench_utf8(const uint8_t *text, size_t length);

typedef size_t (*pass)(const uint8_t *, size_t);

static uint8_t text[1 << 21];
static size_t length;
static volatile size_t result;

static size_t scan(const uint8_t *t, size_t n) {
    const uint8_t *hit = memchr(t, 0xFF, n);
    return hit ? (size_t)(hit - t) : n;
}

static void nothing(void) {}
static void cut(void) { result = bench_tokens(text, length); }

static double seconds(void) {
    struct timespec t;
    clock_gettime(CLOCK_THREAD_CPUTIME_ID, &t);
    return t.tv_sec + t.tv_nsec * 1e-9;
}

// The best of several runs.
static double time_of(pass f, size_t n, int runs, size_t *answer) {
    double best = 1e9;
    pass volatile call = f;
    for (int i = 0; i < runs; i++) {
        double start = seconds();
        *answer = call(text, n);
        double took = seconds() - start;
        if (took < best) best = took;
    }
    return best;
}

int main(int count, char **names) {
    for (int i = 1; i < count; i++) {
        FILE *file = fopen(names[i], "rb");
        if (!file) return 1;
        size_t n = fread(text, 1, sizeof text, file), tokens, valid, found;
        fclose(file);
        double t = time_of(bench_tokens, n, 25, &tokens);
        double u = time_of(bench_utf8, n, 25, &valid);
        double m = time_of(scan, n, 25, &found);
        length = n;
        size_t used = stack_of(cut) - stack_of(nothing);
        const char *base = strrchr(names[i], '/');
        printf("%-16s %8zu bytes %8zu tokens  cutting %6.0f MB/s  UTF-8 %6.0f MB/s%s  memchr %6.0f MB/s  stack %zu\n", base ? base + 1 : names[i], n, tokens,
               n / t / 1e6, n / u / 1e6, valid == n ? "" : " (bad)", n / m / 1e6, used);
    }
    for (size_t n = 1 << 18; n <= 1 << 20; n <<= 1) {
        size_t tokens;
        text[0] = '(';
        for (size_t i = 1; i < n; i++) text[i] = "true"[(i - 1) % 4];
        printf("(truetrue..      %8zu bytes  %8.2f ms", n, time_of(bench_tokens, n, 5, &tokens) * 1e3);
        printf("  %zu tokens\n", tokens);
    }
    return 0;
}
