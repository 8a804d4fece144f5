// Looks up, and adds where new, 1 MB of terms with 500, 5,000 and 50,000 distinct ones, with and without the index.
#include <stdint.h>
#include <stdio.h>
#include <stdlib.h>
#include <string.h>
#include <time.h>

size_t share_iri(uint8_t *work, size_t work_size, uint32_t *terms, size_t words, uint8_t *store, size_t bytes, size_t count, size_t used,
                 const uint8_t *text, size_t size);

enum { SIZE = 20, TOKENS = 1048576 / SIZE, WORK = 35840, INDEX = 12 * 65536, WORDS = 5 * 65536, BYTES = 1 << 21 };

static uint8_t work[WORK + INDEX], store[BYTES], tokens[TOKENS][SIZE + 1];
static uint32_t terms[WORDS];

static double seconds(void) {
    struct timespec t;
    clock_gettime(CLOCK_PROCESS_CPUTIME_ID, &t);
    return t.tv_sec + t.tv_nsec * 1e-9;
}

static double run(size_t distinct, size_t work_size) {
    for (size_t i = 0; i < TOKENS; i++)
        snprintf((char *)tokens[i], SIZE + 1, "x:item/%013zu", i * 7919 % distinct);
    memset(work, 0, WORK + INDEX);
    size_t count = 0, used = 0;
    double start = seconds();
    for (size_t i = 0; i < TOKENS; i++) {
        if (share_iri(work, work_size, terms, WORDS, store, BYTES, count, used, tokens[i], SIZE) > count) {
            used += SIZE;
            count++;
        }
    }
    double took = seconds() - start;
    if (count != distinct || used != distinct * SIZE) {
        printf("wrong: %zu terms, %zu bytes\n", count, used);
        exit(1);
    }
    return took;
}

// The best of several runs, since other work may share the machine.
static double best(size_t distinct, size_t work_size, int times) {
    double least = run(distinct, work_size);
    for (int i = 1; i < times; i++) {
        double took = run(distinct, work_size);
        if (took < least)
            least = took;
    }
    return least;
}

int main(void) {
    const size_t distinct[] = {500, 5000, 50000};
    for (int i = 0; i < 3; i++)
        printf("%5zu distinct: %8.2f ms with the index, %9.2f ms without\n", distinct[i], 1e3 * best(distinct[i], WORK + INDEX, 9), 1e3 * best(distinct[i], WORK, 1));
    return 0;
}
