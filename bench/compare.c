// Time of the comparison of two editions at three sizes of one text, with an index; without one at the smallest alone, where it need
// not be waited for. Twice the text may take 2.6 times as long. See bench/compare.sh.
//     compare-bench [free] NAME LEFT RIGHT LEFT RIGHT LEFT RIGHT    with free, nothing is demanded
//     compare-bench lines FILE                                     the long form of a file, for other tools
#define _GNU_SOURCE
#include <math.h>
#include <stdio.h>
#include <stdlib.h>
#include <string.h>
#include <unistd.h>

#include "../c/labels.h"
#include "lent.h"
#include "timed.h"

enum { SIZES = 3, TRIES = 4, COMPARE_AT_LEAST = 1 << 21, LINES = 1 << 27 };

static const double limit = 2.6;

struct edition {
    size_t length;
    uint32_t *rows, *terms, *list;
    uint8_t *store;
    sycamoot_answer answer;
};

struct pair {
    struct edition left, right;
    uint32_t *pairing, *index;
    size_t pairing_words, index_words;
    double took;
};

static struct pair pairs[SIZES], *now;
static sycamoot_compared compared;
static int tries, times;

static void *taken(const void *from, size_t bytes)
{
    void *copy = malloc(bytes + 1);
    return from ? memcpy(copy, from, bytes) : copy;
}

static struct edition read_edition(const char *name)
{
    struct lent l = lend(name);
    struct edition e = {.length = l.length, .answer = read_lent(&l)};
    if (e.answer.number != SYCAMOOT_ACCEPTED) {
        fprintf(stderr, "%s: refused %u at %u\n", name, e.answer.number, (unsigned)e.answer.position);
        exit(2);
    }
    e.rows = taken(rows, 4 * SYCAMOOT_ROW_WORDS * e.answer.rows);
    e.terms = taken(terms, 4 * SYCAMOOT_TERM_WORDS * e.answer.terms);
    e.store = taken(store, e.answer.store);
    e.list = taken(NULL, 4 * e.answer.rows);
    free(l.document);
    return e;
}

static size_t labels_of(const struct edition *e, struct label **all)
{
    *all = taken(NULL, sizeof **all * e->answer.terms);
    return labels(e->terms, e->answer.terms, e->store, *all);
}

static struct pair read_pair(const char *left, const char *right)
{
    struct pair p = {.left = read_edition(left), .right = read_edition(right)};
    struct label *left_labels, *right_labels;
    size_t left_count = labels_of(&p.left, &left_labels), right_count = labels_of(&p.right, &right_labels);
    p.pairing = taken(NULL, 8 * (left_count < right_count ? left_count : right_count));
    p.pairing_words = pair_labels(left_labels, left_count, right_labels, right_count, p.pairing);
    p.index_words = SYCAMOOT_COMPARE_WORDS * (p.left.answer.rows + p.right.answer.rows + p.pairing_words / 2);
    p.index = taken(NULL, 4 * p.index_words);
    free(left_labels);
    free(right_labels);
    return p;
}

#define ROWS_OF(e) (e).rows, SYCAMOOT_ROW_WORDS * (size_t)(e).answer.rows, (e).answer.rows
#define TERMS_OF(e) (e).terms, SYCAMOOT_TERM_WORDS * (size_t)(e).answer.terms, (e).answer.terms
#define GIVEN(e) ROWS_OF(e), TERMS_OF(e), (e).store, (e).answer.store, (e).answer.store
#define LISTS(p) (p)->left.list, (p)->left.answer.rows, (p)->right.list, (p)->right.answer.rows
#define BOTH(p) GIVEN((p)->left), GIVEN((p)->right), (p)->pairing, (p)->pairing_words, LISTS(p)

static void with_index(void)
{
    for (int i = 0; i < times; i++)
        compared = sycamoot_compare_indexed(BOTH(now), now->index, now->index_words);
}

static void without_index(void) { compared = sycamoot_compare(BOTH(now)); }

// The seconds of a call that compares so often.
static double seconds(struct pair *p, void (*call)(void), int often)
{
    now = p;
    times = often;
    double took = seconds_of(call) / often;
    if (compared.number != SYCAMOOT_ACCEPTED) {
        fprintf(stderr, "refused %u\n", compared.number);
        exit(2);
    }
    return took;
}

// How many times as long twice the text takes.
static double growth(int i)
{
    return pow(pairs[i].took / pairs[i - 1].took, log(2) / log((double)pairs[i].left.length / pairs[i - 1].left.length));
}

static int is_over(void)
{
    for (int i = 1; i < SIZES; i++)
        if (growth(i) > limit)
            return 1;
    return 0;
}

static int print_lines(const char *name)
{
    struct edition e = read_edition(name);
    uint8_t *out = malloc(LINES);
    sycamoot_written w = sycamoot_write(GIVEN(e), out, LINES);
    return w.number != SYCAMOOT_ACCEPTED || fwrite(out, 1, w.position, stdout) != w.position;
}

int main(int count, char **arguments)
{
    if (count == 3 && !strcmp(arguments[1], "lines"))
        return print_lines(arguments[2]);
    int is_free = count == 3 + 2 * SIZES && !strcmp(arguments[1], "free");
    char **names = arguments + 1 + is_free;
    if (count != 2 + 2 * SIZES + is_free)
        return 2;
    for (int i = 0; i < SIZES; i++)
        pairs[i] = read_pair(names[1 + 2 * i], names[2 + 2 * i]);
    double slow = seconds(pairs, without_index, 1);
    sycamoot_compared slowly = compared;
    // Again, a little later, while it is over, since the machine may be busy; the last measurement counts.
    do {
        if (tries++)
            sleep(1);
        for (int i = 0; i < SIZES; i++) {
            pairs[i].took = seconds(pairs + i, with_index, 1 + COMPARE_AT_LEAST / pairs[i].left.length);
            if (i == 0 && memcmp(&compared, &slowly, sizeof compared)) {
                fputs("the index changes the answer\n", stderr);
                return 2;
            }
        }
    } while (tries < TRIES && !is_free && is_over());
    const struct pair *last = pairs + SIZES - 1;
    printf("%-12s %9.2f", names[0], slow * 1e3);
    for (int i = 0; i < SIZES; i++)
        printf(" %9.2f", pairs[i].took * 1e3);
    for (int i = 1; i < SIZES; i++)
        printf(" %6.2f", growth(i));
    printf(" %7u %7u %7zu %7u %7u%s", last->left.answer.rows, last->right.answer.rows, last->pairing_words / 2, compared.left, compared.right, is_over() ? "  over" : "");
    if (tries > 1)
        printf("  measured %d times", tries);
    printf("\n");
    return !is_free && is_over();
}
