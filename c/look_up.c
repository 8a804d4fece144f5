/* The hand scanner's program: looks an address up in an index, and prints how many rows it has and the number of the first, or the
 * refusal's number. The index is mapped, so that nothing of it is copied, and the line is put together without stdio: what it needs
 * is the index's bytes and a few hundred bytes of stack. */
#define _POSIX_C_SOURCE 200809L
#include <fcntl.h>
#include <stdio.h>
#include <stdlib.h>
#include <string.h>
#include <sys/mman.h>
#include <sys/stat.h>
#include <unistd.h>

#include "sycamoot.h"

static void fail(const char *name)
{
    perror(name);
    exit(2);
}

/* The bytes of a file. An empty one, the index of no subjects, cannot be mapped; what is no file is not taken for one. */
static const uint8_t *map(const char *name, size_t *length)
{
    struct stat told;
    int file = open(name, O_RDONLY);
    if (file < 0 || fstat(file, &told) < 0)
        fail(name);
    *length = (size_t)told.st_size;
    if (S_ISREG(told.st_mode) && *length == 0)
        return (const uint8_t *)"";
    const void *bytes = mmap(NULL, *length, PROT_READ, MAP_PRIVATE, file, 0);
    if (bytes == MAP_FAILED)
        fail(name);
    return bytes;
}

static char *put_text(char *out, const char *text)
{
    size_t length = strlen(text);
    memcpy(out, text, length);
    return out + length;
}

static char *put_number(char *out, uint32_t number)
{
    char digits[10];
    int count = 0;
    do
        digits[count++] = (char)('0' + number % 10);
    while (number /= 10);
    while (count)
        *out++ = digits[--count];
    return out;
}

int main(int argc, char **argv)
{
    if (argc != 3) {
        fprintf(stderr, "usage: %s INDEX ADDRESS\n", argv[0]);
        return 2;
    }
    size_t length;
    const uint8_t *index = map(argv[1], &length);
    sycamoot_found f = sycamoot_look_up((const uint8_t *)argv[2], strlen(argv[2]), index, length);
    char line[64], *end = line;
    if (f.number == SYCAMOOT_ACCEPTED)
        end = put_number(put_text(put_number(put_text(end, "rows "), f.rows), ", first "), f.first);
    else
        end = put_number(put_text(end, "refused "), f.number);
    end = put_text(end, "\n");
    if (write(STDOUT_FILENO, line, (size_t)(end - line)) != end - line)
        fail("standard output");
    return f.number != SYCAMOOT_ACCEPTED;
}
