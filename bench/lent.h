// A document from a file, memory lent for it, and one read. Shared by bench/read.c and bench/growth.c.
#include <stddef.h>
#include <stdint.h>

#include "sycamoot.h"

struct lent {
    uint8_t *document;
    uint8_t mode;
    size_t length, work, rows, terms, store; // rows and terms are counts, the others bytes
    sycamoot_answer answer;
};

// The tables, which all reads share.
extern uint8_t store[];
extern uint32_t rows[], terms[];

// Loads a file and finds what it needs; the index has room for every term.
struct lent lend(const char *name);

// One read with what is lent: this call is what is measured.
sycamoot_answer read_lent(const struct lent *l);

double cpu_seconds(void);
