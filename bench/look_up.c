// Look-ups at the front, in the middle and at the end of indexes with so many records, and of a subject that is behind them all; the
// stack of a look-up, and of the scanner's program. With two numbers it is one look-up of the second in an index of so many motors,
// whose instructions can be counted; it prints how many bytes are before the stopping record.
#define _GNU_SOURCE
#define main scan
#include "../c/look_up.c"
#undef main

#include "painted.h"
#include "timed.h"

enum { HEAD = 12, MOST = 50000 * 64, SIZES = 4, PLACES = 4, READ_AT_LEAST = 1 << 24, MOST_STACK = 512 };

static uint8_t bytes[MOST], address[SYCAMOOT_IRI_BYTES + 1];
static size_t length, address_length;
static int times;
static sycamoot_found found;

// The texts of an index, by their numbers, and how many there are.
struct texts {
    size_t (*put)(uint8_t *out, uint32_t number);
    uint32_t counts[SIZES];
};

// A zero is put behind it.
static size_t put_motor(uint8_t *out, uint32_t number)
{
    return sprintf((char *)out, "http://motor.example/serial/%08u", number);
}

// As long as an IRI may be; the last byte alone is another in each, so that every comparison goes to the end.
static size_t put_long(uint8_t *out, uint32_t number)
{
    memset(out, 'x', SYCAMOOT_IRI_BYTES);
    out[1] = ':';
    out[SYCAMOOT_IRI_BYTES - 1] = number;
    return SYCAMOOT_IRI_BYTES;
}

static const struct texts all[] = {{put_motor, {100, 1000, 10000, 50000}}, {put_long, {8, 32, 128, 255}}};

static uint8_t *put_low_first(uint8_t *out, uint32_t number, int count)
{
    for (int i = 0; i < count; i++)
        *out++ = number >> 8 * i;
    return out;
}

// An index in which the text of a number has a row more than that, of which the first has that number; the size of a record.
static size_t fill(const struct texts *t, uint32_t count)
{
    uint8_t *end = bytes;
    for (uint32_t i = 0; i < count; i++) {
        size_t text = t->put(end + HEAD, i);
        *end++ = 0x47, *end++ = 0x58;
        end = put_low_first(put_low_first(put_low_first(end, text, 2), i + 1, 4), i, 4) + text;
    }
    length = end - bytes;
    return length / count;
}

static void look(void)
{
    for (int i = 0; i < times; i++)
        found = sycamoot_look_up(address, address_length, bytes, length);
}

static char SCANNED[] = "target/look-up.index";

static void run_scanner(void)
{
    char *arguments[] = {"scan", SCANNED, (char *)address};
    if (scan(3, arguments))
        exit(2);
}

static void save(const char *name)
{
    FILE *file = fopen(name, "wb");
    if (!file || fwrite(bytes, 1, length, file) != length || fclose(file))
        fail(name);
}

static void nothing(void) {}

// The nanoseconds of a look-up of this number, of which so many bytes are before the stopping place.
static double measure(const struct texts *t, uint32_t count, uint32_t number, size_t before)
{
    address_length = t->put(address, number);
    times = 1 + READ_AT_LEAST / (before + SYCAMOOT_IRI_BYTES);
    double took = seconds_of(look) / times * 1e9;
    int there = number < count;
    if (found.number != SYCAMOOT_ACCEPTED || found.rows != (there ? number + 1 : 0) || found.first != (there ? number : 0))
        exit(2);
    return took;
}

int main(int argc, char **argv)
{
    if (argc == 3) {
        uint32_t number = (uint32_t)atoi(argv[2]);
        size_t size = fill(all, (uint32_t)atoi(argv[1]));
        address_length = put_motor(address, number);
        times = 1;
        look();
        printf("%zu\n", number * size);
        return found.number != SYCAMOOT_ACCEPTED;
    }
    const char *names[PLACES] = {"front", "middle", "end", "absent"};
    int over = 0;
    for (size_t k = 0; k < sizeof all / sizeof *all; k++) {
        double a_byte[SIZES][PLACES];
        for (int i = 0; i < SIZES; i++) {
            uint32_t count = all[k].counts[i], numbers[PLACES] = {0, count / 2, count - 1, count};
            size_t size = fill(all + k, count);
            printf("%5u records of %4zu bytes:", count, size);
            for (int p = 0; p < PLACES; p++) {
                size_t before = numbers[p] * size;
                double took = measure(all + k, count, numbers[p], before);
                printf("  %s %7.0f ns", names[p], took);
                if (before == 0)
                    continue;
                a_byte[i][p] = took / before;
                printf(" (%.3f a byte)", a_byte[i][p]);
                over |= i == SIZES - 1 && a_byte[i][p] > 2 * a_byte[1][p];
            }
            puts("");
        }
    }
    fill(all, 1000);
    address_length = put_motor(address, 999);
    times = 1;
    save(SCANNED);
    fflush(stdout);
    size_t own = stack_of(nothing), used = stack_of(look) - own, scanner = stack_of(run_scanner) - own;
    printf("stack: %zu bytes; of the scanner's program, which has printed the line above, %zu\n", used, scanner);
    return over || used > MOST_STACK || scanner > MOST_STACK;
}
