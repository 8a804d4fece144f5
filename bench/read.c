// Speed of the read, beside serd's on the same bytes where it is there (WITH_SERD). See bench/read.sh.
//     read-bench FILE              MB/s of both, in turn, the best of several runs
//     read-bench sycamoot|serd FILE    one read, for callgrind
#include <stdio.h>
#include <stdlib.h>
#include <string.h>

#include "serd_read.h"

static void ours(const struct lent *l)
{
    sycamoot_answer a = read_lent(l);
    if (a.number != SYCAMOOT_ACCEPTED) {
        printf("refused %u at %u\n", a.number, (unsigned)a.position);
        exit(1);
    }
}

#ifdef WITH_SERD
// Both must have found the same, or they did not do the same work.
static void serds(const struct lent *l)
{
    struct counts c = serd_read(l);
    if (!c.accepted || c.rows != l->answer.rows || c.terms != l->answer.terms) {
        printf("serd: %u rows and %u terms, not %u and %u\n", c.rows, c.terms, l->answer.rows, l->answer.terms);
        exit(1);
    }
}
#else
static void serds(const struct lent *l) { (void)l; }
#endif

static void keep_best(double *best, void (*f)(const struct lent *), const struct lent *l)
{
    double start = cpu_seconds();
    f(l);
    double took = cpu_seconds() - start;
    if (took < *best) *best = took;
}

int main(int count, char **arguments)
{
    struct lent l = lend(arguments[count - 1]);
    if (count == 3) {
        (strcmp(arguments[1], "serd") ? ours : serds)(&l);
        return 0;
    }
    double best = 1e9, serd_best = 1e9;
    for (size_t read = 0; read < 25 * (size_t)SYCAMOOT_DOCUMENT_BYTES; read += l.length) {
        keep_best(&best, ours, &l);
        keep_best(&serd_best, serds, &l);
    }
    printf("%zu %u %u %.1f", l.length, l.answer.rows, l.answer.terms, l.length / best / 1e6);
#ifdef WITH_SERD
    printf(" %.1f", l.length / serd_best / 1e6);
#endif
    printf("\n");
    return 0;
}
