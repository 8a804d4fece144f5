/* Reads a file and prints its statements, or the refusal's number and place. */
#include "tables.h"

static struct tables tables;

int main(int argc, char **argv)
{
    if (argc != 2) {
        fprintf(stderr, "usage: %s FILE\n", argv[0]);
        return 2;
    }
    read_tables(argv[1], &tables);
    sycamoot_written w = sycamoot_write(GIVEN(&tables), out, OUT);
    expect(w.number, w.position);
    fwrite(out, 1, w.position, stdout);
    return 0;
}
