/* Provokes every answer once through the C interface, and compares number and position (of a check, number and yes; of a look-up,
 * number and rows; of a comparison, number and how many statements are only in one edition). */
#include <inttypes.h>
#include <stdio.h>
#include <stdlib.h>
#include <string.h>

#include "sycamoot.h"

#define S "<x:s> <x:p> "

static uint8_t document[SYCAMOOT_DOCUMENT_BYTES + 1];
static uint8_t work[SYCAMOOT_WORK_BYTES];
static uint32_t rows[1000 * SYCAMOOT_ROW_WORDS];
static uint32_t terms[1000 * SYCAMOOT_TERM_WORDS];
static uint8_t store[100000];
static uint8_t out[100000];
static int wrong;

static void compare(const char *what, uint32_t number, uint64_t position, uint32_t expected, uint64_t place)
{
    int same = number == expected && position == place;
    printf("%2" PRIu32 " at %-8" PRIu64 "%s%s\n", number, position, what, same ? "" : "   <- WRONG");
    wrong |= !same;
}

/* What is lent to one call, beside the document. */
struct lent {
    const char *base;
    uint32_t mode;
    size_t work, rows, terms, store;
};

static const struct lent all = {"", SYCAMOOT_TRIG, sizeof work, sizeof rows / 4, sizeof terms / 4, sizeof store};

static void reads(const char *what, size_t length, struct lent l, uint32_t expected, uint64_t place)
{
    sycamoot_answer a = sycamoot_read(document, length, (const uint8_t *)l.base, strlen(l.base), l.mode, work, l.work, rows,
                                      l.rows, terms, l.terms, store, l.store);
    compare(what, a.number, a.position, expected, place);
}

static void text(const char *s, struct lent l, uint32_t expected, uint64_t place)
{
    memcpy(document, s, strlen(s));
    reads(s, strlen(s), l, expected, place);
}

/* An edition of a file: its tables, and how much of them is used. */
struct edition {
    uint32_t rows[10 * SYCAMOOT_ROW_WORDS], terms[20 * SYCAMOOT_TERM_WORDS];
    uint8_t store[500];
    sycamoot_answer answer;
};

#define ROWS_OF(e) (e)->rows, sizeof (e)->rows / 4, (e)->answer.rows
#define TERMS_OF(e) (e)->terms, sizeof (e)->terms / 4, (e)->answer.terms
#define STORE_OF(e) (e)->store, sizeof (e)->store, (e)->answer.store
#define GIVEN(e) ROWS_OF(e), TERMS_OF(e), STORE_OF(e)

static struct edition read_edition(const char *s)
{
    struct edition e;
    e.answer = sycamoot_read((const uint8_t *)s, strlen(s), document, 0, SYCAMOOT_TRIG, work, sizeof work, e.rows, sizeof e.rows / 4, e.terms,
                             sizeof e.terms / 4, e.store, sizeof e.store);
    compare(s, e.answer.number, e.answer.position, SYCAMOOT_ACCEPTED, strlen(s));
    return e;
}

/* The lists and the index that are lent to a comparison, and how much of them. */
enum { LIST = 4, INDEX = 100, PATTERN = 0x77777777 };
static uint32_t left_list[LIST], right_list[LIST], index_words[INDEX];
static size_t left_room = LIST, right_room = LIST;

static int all_are(const uint32_t *words, size_t from, size_t to, uint32_t value)
{
    for (size_t i = from; i < to; i++)
        if (words[i] != value)
            return 0;
    return 1;
}

static void fill(void)
{
    memset(left_list, 0x77, sizeof left_list);
    memset(right_list, 0x77, sizeof right_list);
    memset(index_words, 0x77, sizeof index_words);
}

/* Both calls: they answer alike, what lies past the counts stays, and the index is zeros, as far as it is lent. */
static void compares(const char *what, const struct edition *left, const struct edition *right, const uint32_t *pairing, size_t words,
                     uint32_t expected, uint32_t only_left, uint32_t only_right)
{
    for (size_t lent = 0; lent <= INDEX; lent += INDEX / 2) {
        fill();
        sycamoot_compared c = lent ? sycamoot_compare_indexed(GIVEN(left), GIVEN(right), pairing, words, left_list, left_room, right_list,
                                                              right_room, index_words, lent)
                                   : sycamoot_compare(GIVEN(left), GIVEN(right), pairing, words, left_list, left_room, right_list, right_room);
        compare(what, c.number, c.left + c.right, expected, only_left + only_right);
        wrong |= c.left != only_left || c.same != (c.number == SYCAMOOT_ACCEPTED && c.left + c.right == 0);
        wrong |= !all_are(left_list, c.left, LIST, PATTERN) || !all_are(right_list, c.right, LIST, PATTERN);
        wrong |= !all_are(index_words, 0, lent, 0) || !all_are(index_words, lent, INDEX, PATTERN);
    }
}

int main(void)
{
    struct lent l = all;

    text(S "1.", all, SYCAMOOT_ACCEPTED, 14);

    memset(document, ' ', sizeof document);
    reads("a document of 1,048,577 bytes", sizeof document, all, SYCAMOOT_DOCUMENT_LENGTH, 0);
    l.mode = 2;
    text("", l, SYCAMOOT_MODE, 0);
    l.mode = 256; /* is not cut to 0 */
    text("", l, SYCAMOOT_MODE, 0);
    l = all;
    l.base = "no-scheme";
    text("", l, SYCAMOOT_BASE, 0);
    l = all;
    l.work = SYCAMOOT_WORK_BYTES - 1;
    text("", l, SYCAMOOT_WORK, 0);
    text(S "\"\xff\" .", all, SYCAMOOT_UTF8, 13);
    text(S "| .", all, SYCAMOOT_TOKEN, 12);
    text(S "\"\\uD800\" .", all, SYCAMOOT_ESCAPE, 12);
    text("(1) .", all, SYCAMOOT_GRAMMAR, 4);
    text(S "true.ex:t .", all, SYCAMOOT_PREFIX, 12);
    text(S "<g> .", all, SYCAMOOT_NO_BASE, 12);

    char long_iri[1100] = S "<x:";
    memset(long_iri + strlen(long_iri), 'i', 1023);
    strcpy(long_iri + 12 + 1 + 1025, "> .");
    memcpy(document, long_iri, strlen(long_iri));
    reads("an IRI of 1,025 bytes", strlen(long_iri), all, SYCAMOOT_IRI_LENGTH, 12);

    char prefixes[2000] = "";
    for (int i = 0; i < 33; i++)
        sprintf(prefixes + strlen(prefixes), "@prefix p%d: <x:> . ", i);
    memcpy(document, prefixes, strlen(prefixes));
    reads("33 prefixes", strlen(prefixes), all, SYCAMOOT_PREFIXES, strlen(prefixes) - strlen("<x:> . "));

    char deep[100] = S;
    memset(deep + 12, '(', 65);
    memcpy(document, deep, 12 + 65);
    reads("65 open lists", 12 + 65, all, SYCAMOOT_DEPTH, 12 + 64);

    l = all;
    l.rows = SYCAMOOT_ROW_WORDS;
    text(S "1, 2 .", l, SYCAMOOT_ROWS, 15);
    l = all;
    l.terms = 4 * SYCAMOOT_TERM_WORDS;
    text(S "1, 2 .", l, SYCAMOOT_TERMS, 15);
    l = all;
    l.store = strlen("x:s" "x:p" "http://www.w3.org/2001/XMLSchema#integer" "1");
    text(S "1, 2 .", l, SYCAMOOT_STORE, 15);

    /* The tables of an accepted document: its long form, and the text of a term. */
    memcpy(document, S "1 .", 15);
    sycamoot_answer a = sycamoot_read(document, 15, document, 0, SYCAMOOT_TRIG, work, sizeof work, rows, all.rows, terms,
                                      all.terms, store, sizeof store);
    const char *line = S "\"1\"^^<http://www.w3.org/2001/XMLSchema#integer> .\n";
    sycamoot_written w = sycamoot_write(rows, all.rows, a.rows, terms, all.terms, a.terms, store, sizeof store, a.store, out,
                                        strlen(line));
    compare("its long form", w.number, w.position, SYCAMOOT_ACCEPTED, strlen(line));
    wrong |= memcmp(out, line, strlen(line)) != 0;
    w = sycamoot_write(rows, all.rows, a.rows, terms, all.terms, a.terms, store, sizeof store, a.store, out, strlen(line) - 1);
    compare("a buffer of a byte less", w.number, w.position, SYCAMOOT_OUTPUT, 0);
    sycamoot_text t = sycamoot_term_text(terms, all.terms, a.terms, store, sizeof store, a.store, 1);
    compare("the text of term 1", t.number, t.length, SYCAMOOT_ACCEPTED, strlen("x:s"));
    wrong |= memcmp(store + t.start, "x:s", t.length) != 0;
    t = sycamoot_term_text(terms, all.terms, a.terms, store, sizeof store, a.store, a.terms + 1);
    compare("the text of a term that is not there", t.number, t.start + t.length, SYCAMOOT_TABLES, 0);
    w = sycamoot_write(rows, all.rows, a.rows, terms, all.terms, a.terms - 1, store, sizeof store, a.store, out, sizeof out);
    compare("a term missing", w.number, w.position, SYCAMOOT_TABLES, 0);

    /* The index of its one subject, and the check of it. */
    const uint8_t index[] = {0x47, 0x58, 3, 0, 1, 0, 0, 0, 0, 0, 0, 0, 'x', ':', 's'};
    w = sycamoot_write_index(rows, all.rows, a.rows, terms, all.terms, a.terms, store, sizeof store, a.store, out, sizeof index);
    compare("its index", w.number, w.position, SYCAMOOT_ACCEPTED, sizeof index);
    wrong |= memcmp(out, index, sizeof index) != 0;
    w = sycamoot_write_index(rows, all.rows, a.rows, terms, all.terms, a.terms, store, sizeof store, a.store, out, sizeof index - 1);
    compare("an output of a byte less", w.number, w.position, SYCAMOOT_INDEX_OUTPUT, 0);
    w = sycamoot_write_index(rows, all.rows, a.rows, terms, all.terms, a.terms - 1, store, sizeof store, a.store, out, 0);
    compare("a term missing, and no output", w.number, w.position, SYCAMOOT_TABLES, 0);
    sycamoot_checked c = sycamoot_check_index(rows, all.rows, a.rows, terms, all.terms, a.terms, store, sizeof store, a.store, index, sizeof index);
    compare("the check of its index", c.number, c.yes, SYCAMOOT_ACCEPTED, 1);
    c = sycamoot_check_index(rows, all.rows, a.rows, terms, all.terms, a.terms, store, sizeof store, a.store, index, sizeof index - 1);
    compare("the check of a byte less", c.number, c.yes, SYCAMOOT_ACCEPTED, 0);
    c = sycamoot_check_index(rows, all.rows, a.rows, terms, all.terms, a.terms - 1, store, sizeof store, a.store, index, sizeof index);
    compare("the check where a term is missing", c.number, c.yes, SYCAMOOT_TABLES, 0);

    /* Its subject in that index, one that is not there, and a record that is cut short. */
    const uint8_t subject[] = {'x', ':', 's'};
    sycamoot_found f = sycamoot_look_up(subject, sizeof subject, index, sizeof index);
    compare("the look-up of its subject", f.number, f.rows, SYCAMOOT_ACCEPTED, 1);
    wrong |= f.first != 0;
    f = sycamoot_look_up(subject, sizeof subject - 1, index, sizeof index);
    compare("the look-up of a byte less", f.number, f.rows, SYCAMOOT_ACCEPTED, 0);
    wrong |= f.first != 0;
    f = sycamoot_look_up(subject, sizeof subject, index, sizeof index - 1);
    compare("the look-up in a byte less", f.number, f.rows, SYCAMOOT_INDEX, 0);
    wrong |= f.first != 0;

    /* Two editions: row 2 is in the left alone, rows 0 and 3 are in the right alone; the one blank node has another label in each. */
    struct edition left = read_edition("_:a <x:p> 1 . " S "1, 2, 1 .");
    struct edition right = read_edition(S "3, 1, 3 . <x:g> { " S "1 } _:b <x:p> 1 .");
    const uint32_t pairing[] = {0, 0, 0, 0}, other[] = {0, 1};
    compares("two editions", &left, &right, pairing, 2, SYCAMOOT_ACCEPTED, 1, 2);
    wrong |= left_list[0] != 2 || right_list[0] != 0 || right_list[1] != 3;
    compares("two editions, no blank nodes paired", &left, &right, pairing, 0, SYCAMOOT_ACCEPTED, 2, 3);
    wrong |= left_list[0] != 0 || left_list[1] != 2 || right_list[2] != 4;
    compares("an edition and itself", &left, &left, pairing, 2, SYCAMOOT_ACCEPTED, 0, 0);
    compares("an odd word", &left, &right, pairing, 1, SYCAMOOT_PAIRING, 0, 0);
    compares("a pair twice", &left, &right, pairing, 4, SYCAMOOT_PAIRING, 0, 0);
    compares("a blank number that is not there", &left, &right, other, 2, SYCAMOOT_PAIRING, 0, 0);
    left_room = 1, right_room = 2;
    compares("lists that are just long enough", &left, &right, pairing, 2, SYCAMOOT_ACCEPTED, 1, 2);
    left_room = 0;
    compares("a left list that is too short", &left, &right, pairing, 2, SYCAMOOT_LIST, 0, 0);
    left_room = 1, right_room = 1;
    compares("a right list that is too short", &left, &right, pairing, 2, SYCAMOOT_LIST, 0, 0);
    compares("that, and an odd word", &left, &right, pairing, 1, SYCAMOOT_PAIRING, 0, 0);
    right.answer.terms--;
    compares("that, and a term missing in the right", &left, &right, pairing, 1, SYCAMOOT_TABLES, 0, 0);
    compares("a term missing in the left", &right, &left, pairing, 0, SYCAMOOT_TABLES, 0, 0);

    puts(wrong ? "some answers are wrong" : "every answer is as it should be");
    return wrong;
}
