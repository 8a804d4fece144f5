/* Reads two editions of a file, and prints the statements that are only in the left, each behind a minus, then those that are only in
 * the right, each behind a plus; or the refusal's number and place. Blank nodes with one label are taken for one node; those without
 * a label are in one edition alone. */
#include "labels.h"
#include "tables.h"

enum { MOST = ROWS / SYCAMOOT_ROW_WORDS, INDEX = SYCAMOOT_COMPARE_WORDS * 3 * MOST };

static struct tables left, right;
static struct label left_labels[MOST], right_labels[MOST];
static uint32_t pairing[2 * MOST], left_list[MOST], right_list[MOST], index_words[INDEX];

/* The statements of some rows, each on its line behind a mark. */
static void print(const char *mark, struct tables *t, const uint32_t *list, uint32_t count)
{
    /* Rows are listed in order, so that none is written over before it is moved. */
    for (uint32_t i = 0; i < count; i++)
        memmove(t->rows + SYCAMOOT_ROW_WORDS * i, t->rows + SYCAMOOT_ROW_WORDS * list[i], SYCAMOOT_ROW_WORDS * sizeof *t->rows);
    t->answer.rows = count;
    sycamoot_written w = sycamoot_write(GIVEN(t), out, OUT);
    expect(w.number, w.position);
    for (uint8_t *line = out, *end = out + w.position; line < end;) {
        uint8_t *next = (uint8_t *)memchr(line, '\n', (size_t)(end - line)) + 1;
        fputs(mark, stdout);
        fwrite(line, 1, (size_t)(next - line), stdout);
        line = next;
    }
}

int main(int argc, char **argv)
{
    if (argc != 3) {
        fprintf(stderr, "usage: %s LEFT RIGHT\n", argv[0]);
        return 2;
    }
    read_tables(argv[1], &left);
    read_tables(argv[2], &right);
    size_t left_count = labels(left.terms, left.answer.terms, left.store, left_labels);
    size_t right_count = labels(right.terms, right.answer.terms, right.store, right_labels);
    size_t words = pair_labels(left_labels, left_count, right_labels, right_count, pairing);
    sycamoot_compared c = sycamoot_compare_indexed(GIVEN(&left), GIVEN(&right), pairing, words, left_list, MOST, right_list, MOST, index_words, INDEX);
    expect(c.number, 0);
    print("- ", &left, left_list, c.left);
    print("+ ", &right, right_list, c.right);
    return !c.same;
}
