// Time of the read at three sizes of one text: twice the text may take 2.2 times as long. See bench/growth.sh.
//     growth-bench long|short NAME FILE FILE FILE    with an index, or with the shortest work slice, of which nothing is demanded
#include <stdio.h>
#include <stdlib.h>
#include <string.h>
#include <unistd.h>

#include "lent.h"

enum { SIZES = 3, ROUNDS = 201, TRIES = 4 };

static const double limit = 2.2, a_while = 1;

static struct lent sizes[SIZES];
static double best[SIZES], growths[SIZES - 1][ROUNDS]; // of the last measurement
static int rounds, tries;

static double time_of(const struct lent *l)
{
    double start = cpu_seconds();
    read_lent(l);
    return cpu_seconds() - start;
}

// One read of each size in turn, so that all meet the same machine: how many times as long the longer takes, had it twice the length.
static void measure_round(void)
{
    double a_byte[SIZES];
    for (int i = 0; i < SIZES; i++) {
        double took = time_of(sizes + i);
        if (took < best[i]) best[i] = took;
        a_byte[i] = took / sizes[i].length;
    }
    for (int i = 1; i < SIZES; i++)
        growths[i - 1][rounds] = 2 * a_byte[i] / a_byte[i - 1];
    rounds++;
}

static int by_size(const void *a, const void *b)
{
    double x = *(const double *)a, y = *(const double *)b;
    return (x > y) - (x < y);
}

static void measure(void)
{
    rounds = 0;
    tries++;
    for (double start = cpu_seconds(); rounds == 0 || (rounds < ROUNDS && cpu_seconds() - start < a_while);)
        measure_round();
    for (int i = 1; i < SIZES; i++)
        qsort(growths[i - 1], rounds, sizeof(double), by_size);
}

// The median of the rounds.
static double growth(int i) { return growths[i - 1][rounds / 2]; }

static int is_over(void)
{
    for (int i = 1; i < SIZES; i++)
        if (growth(i) > limit) return 1;
    return 0;
}

static void print(const char *name)
{
    printf("%-18s", name);
    for (int i = 0; i < SIZES; i++)
        printf(" %9.2f", best[i] * 1e3);
    for (int i = 1; i < SIZES; i++)
        printf(" %6.2f", growth(i));
    printf(" %7u%s", sizes[SIZES - 1].answer.number, is_over() ? "  over" : "");
    if (tries > 1) printf("  measured %d times", tries);
    printf("\n");
}

int main(int count, char **arguments)
{
    if (count != 3 + SIZES) return 2;
    int is_short = !strcmp(arguments[1], "short");
    for (int i = 0; i < SIZES; i++) {
        sizes[i] = lend(arguments[3 + i]);
        if (is_short) sizes[i].work = SYCAMOOT_WORK_BYTES;
        best[i] = 1e9;
    }
    measure();
    // Again, a little later, while it is over, since the machine may be busy; the last measurement counts.
    while (tries < TRIES && !is_short && is_over()) {
        sleep(1);
        measure();
    }
    print(arguments[2]);
    return !is_short && is_over();
}
