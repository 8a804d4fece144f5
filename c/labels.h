/* The pairing of two files' blank nodes that have the same label. */
#ifndef LABELS_H
#define LABELS_H

#include <stdlib.h>
#include <string.h>

#include "sycamoot.h"

struct label {
    const uint8_t *text;
    uint32_t length, number; /* the number is the blank node's */
};

static int by_text(const void *a, const void *b)
{
    const struct label *x = a, *y = b;
    int order = memcmp(x->text, y->text, x->length < y->length ? x->length : y->length);
    return order ? order : (x->length > y->length) - (x->length < y->length);
}

/* The labels of a file's blank nodes, in order, and how many there are. Brackets and lists have none. */
static size_t labels(const uint32_t *terms, uint32_t term_count, const uint8_t *store, struct label *all)
{
    size_t count = 0;
    for (uint32_t i = 0; i < term_count; i++) {
        const uint32_t *term = terms + SYCAMOOT_TERM_WORDS * i;
        if (term[0] == SYCAMOOT_BLANK && term[2] > 0)
            all[count++] = (struct label){store + term[1], term[2], term[3]};
    }
    qsort(all, count, sizeof *all, by_text);
    return count;
}

/* The words of the pairing, and how many there are. A file has a label once at most. */
static size_t pair_labels(const struct label *left, size_t left_count, const struct label *right, size_t right_count, uint32_t *pairing)
{
    size_t words = 0;
    for (size_t l = 0, r = 0; l < left_count && r < right_count;) {
        int order = by_text(left + l, right + r);
        if (order == 0) {
            pairing[words++] = left[l].number;
            pairing[words++] = right[r].number;
        }
        l += order <= 0;
        r += order >= 0;
    }
    return words;
}

#endif
