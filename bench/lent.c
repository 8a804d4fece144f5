#include "lent.h"

#include <stdio.h>
#include <stdlib.h>
#include <string.h>
#include <time.h>

enum { MOST = SYCAMOOT_DOCUMENT_BYTES + 128, STORE = 1 << 24, SPARE = 64, SPARE_BYTES = 1 << 12 };

uint8_t store[STORE];
uint32_t rows[MOST * SYCAMOOT_ROW_WORDS], terms[MOST * SYCAMOOT_TERM_WORDS];
static uint8_t work[SYCAMOOT_WORK_BYTES + SYCAMOOT_INDEX_BYTES * MOST];

static void load(const char *name, struct lent *l)
{
    FILE *file = fopen(name, "rb");
    if (!file) {
        perror(name);
        exit(2);
    }
    l->document = calloc(SYCAMOOT_DOCUMENT_BYTES + 1, 1); // a zero is where serd finds the end
    l->length = fread(l->document, 1, SYCAMOOT_DOCUMENT_BYTES, file);
    fclose(file);
}

sycamoot_answer read_lent(const struct lent *l)
{
    return sycamoot_read(l->document, l->length, l->document, 0, l->mode, work, l->work, rows, l->rows * SYCAMOOT_ROW_WORDS, terms,
                         l->terms * SYCAMOOT_TERM_WORDS, store, l->store);
}

static void set_room(struct lent *l, size_t row_count, size_t term_count, size_t bytes)
{
    l->rows = row_count;
    l->terms = term_count;
    l->store = bytes;
    l->work = SYCAMOOT_WORK_BYTES + SYCAMOOT_INDEX_BYTES * term_count;
}

static int answers_alike(const struct lent *l)
{
    sycamoot_answer a = read_lent(l);
    return a.number == l->answer.number && a.position == l->answer.position;
}

// An accepted document is lent what it fills and a little more: a reader that is about to run out of room counts exactly what each
// token asks for, which nobody who lends enough pays for. A refused one, which clears all that is lent, about what it has filled by
// then: as little, by halving, as it gives the same answer with.
struct lent lend(const char *name)
{
    struct lent l = {.mode = strstr(name, ".ttl") ? SYCAMOOT_TURTLE : SYCAMOOT_TRIG};
    load(name, &l);
    set_room(&l, MOST, MOST, STORE);
    sycamoot_answer a = l.answer = read_lent(&l);
    if (a.number == SYCAMOOT_ACCEPTED) {
        set_room(&l, a.rows + SPARE, a.terms + SPARE, a.store + l.length + SPARE_BYTES);
        return l;
    }
    for (size_t room = l.length; room > 0; room /= 2) {
        struct lent less = l;
        set_room(&less, room, room, 8 * room);
        if (!answers_alike(&less)) break;
        l = less;
    }
    return l;
}

double cpu_seconds(void)
{
    struct timespec t;
    clock_gettime(CLOCK_PROCESS_CPUTIME_ID, &t);
    return t.tv_sec + t.tv_nsec * 1e-9;
}
