/* Writes the index of a file's subjects to standard output, or the refusal's number and place; of a file and an index it says
 * whether that is its index. */
#include "tables.h"

static struct tables tables;

int main(int argc, char **argv)
{
    if (argc != 2 && argc != 3) {
        fprintf(stderr, "usage: %s FILE [INDEX]\n", argv[0]);
        return 2;
    }
    read_tables(argv[1], &tables);
    if (argc == 3) {
        size_t length = load(argv[2], out, OUT);
        sycamoot_checked c = sycamoot_check_index(GIVEN(&tables), out, length);
        expect(c.number, 0);
        puts(c.yes ? "yes" : "no");
        return !c.yes;
    }
    sycamoot_written w = sycamoot_write_index(GIVEN(&tables), out, OUT);
    expect(w.number, w.position);
    fwrite(out, 1, w.position, stdout);
    return 0;
}
