// The high-water mark of a call on a painted stack: a read without nesting, of 64 lists, of 64 brackets, of both in turn; and the
// comparison of what the last of them left with itself, without an index and with one. None may reach 8 KiB. C functions are linked
// beforehand, or the first call would have the dynamic linker's stack too.
#define _GNU_SOURCE
#include <stdio.h>

#include "painted.h"
#include "sycamoot.h"

static uint8_t document[65536], work[SYCAMOOT_WORK_BYTES + 65536];
static uint32_t rows[65536], terms[65536];
static uint8_t store[1 << 20];
static uint32_t pairing[2000], left_list[2000], right_list[2000], index_words[20000];
static size_t length, pairing_words;
static sycamoot_answer answer;
static sycamoot_compared compared;
static int over;

static void call(void)
{
    const char *base = "x://a/b/c/";
    answer = sycamoot_read(document, length, (const uint8_t *)base, strlen(base), SYCAMOOT_TRIG, work, sizeof work, rows,
                           sizeof rows / 4, terms, sizeof terms / 4, store, sizeof store);
}

// `depth` openings of a list (0), a bracket (1) or both in turn (2), around terms of every kind.
static size_t nested(int kind, int depth)
{
    char *p = (char *)document;
    p += sprintf(p, "@prefix m: <x:m#> . <s> <p> ");
    for (int i = 0; i < depth; i++)
        p += sprintf(p, kind == 0 || (kind == 2 && i % 2) ? "( 1 " : "[ <../q> 1 ; m:q ");
    p += sprintf(p, "\"a\\u0041\"^^<./../type> ");
    for (int i = depth; i-- > 0;)
        p += sprintf(p, kind == 0 || (kind == 2 && i % 2) ? "<../../r%d> 'x'@en ) " : ", <../../r%d>, \"y\"^^<d> ] ", i);
    p += sprintf(p, " .");
    length = p - (char *)document;
    return stack_of(call);
}

#define GIVEN rows, sizeof rows / 4, answer.rows, terms, sizeof terms / 4, answer.terms, store, sizeof store, answer.store

static void compare(void)
{
    compared = sycamoot_compare(GIVEN, GIVEN, pairing, pairing_words, left_list, sizeof left_list / 4, right_list, sizeof right_list / 4);
}

static void compare_indexed(void)
{
    compared = sycamoot_compare_indexed(GIVEN, GIVEN, pairing, pairing_words, left_list, sizeof left_list / 4, right_list, sizeof right_list / 4,
                                        index_words, sizeof index_words / 4);
}

// Each blank node with itself, but for the last, whose statements are then only in one edition each.
static void pair_all_but_one(void)
{
    for (uint32_t i = 0; i < answer.terms; i++)
        if (terms[SYCAMOOT_TERM_WORDS * i] == SYCAMOOT_BLANK) {
            pairing[pairing_words++] = terms[SYCAMOOT_TERM_WORDS * i + 3];
            pairing[pairing_words++] = terms[SYCAMOOT_TERM_WORDS * i + 3];
        }
    pairing_words -= 2;
}

// A figure; over is set where it is not under 8 KiB.
static size_t within(size_t bytes)
{
    over |= bytes >= 8192;
    return bytes;
}

int main(void)
{
    const char *names[] = {"lists", "brackets", "both in turn"};
    printf("%-14s%10zu bytes\n", "no nesting", within(nested(0, 0)));
    for (int kind = 0; kind < 3; kind++) {
        size_t one = nested(kind, 1), all = nested(kind, SYCAMOOT_DEPTH_LEVELS);
        if (answer.number) {
            printf("refused %u at %u\n", answer.number, (unsigned)answer.position);
            return 1;
        }
        printf("%-14s%10zu bytes at depth %d, %zu a level\n", names[kind], within(all), SYCAMOOT_DEPTH_LEVELS, (all - one) / (SYCAMOOT_DEPTH_LEVELS - 1));
    }
    pair_all_but_one();
    printf("%-14s%10zu bytes\n", "comparison", within(stack_of(compare)));
    printf("%-14s%10zu bytes, with an index\n", "", within(stack_of(compare_indexed)));
    if (compared.number || !compared.left) {
        printf("compared with %u, %u only in the left\n", compared.number, compared.left);
        return 1;
    }
    return over;
}
