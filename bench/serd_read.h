// One read with serd, which fills the same tables: this call is what is measured.
#include "lent.h"

struct counts {
    int accepted;
    uint32_t rows, terms;
};

struct counts serd_read(const struct lent *l);
