/*
 * Prints a load as an L file of the text program, so that the same list can be
 * had on every bench.
 *
 *   cc -Iinclude examples/load.c build/libclifford.a -o build/load
 *   build/load D N SEED COUNT > load.txt
 *
 * Each argument is decimal, or hexadecimal after 0x. Where there is no load,
 * one line on standard error says why, and the exit status is 1.
 */

#include "clifford.h"

#include <ctype.h>
#include <errno.h>
#include <inttypes.h>
#include <stdio.h>
#include <stdlib.h>

/* Digits alone: strtoull takes a space or a sign too, and in base 0 a decimal
   number with a zero before it for an octal one. */
static uint64_t number(const char *text, uint64_t most)
{
    const int base = text[0] == '0' && (text[1] == 'x' || text[1] == 'X') ? 16 : 10;
    char *end;

    errno = 0;
    const unsigned long long found = strtoull(text, &end, base);
    if (!isdigit((unsigned char)text[0]) || *end != '\0' || errno != 0 || found > most) {
        fprintf(stderr, "load: no number from 0 to %" PRIu64 ": %s\n", most, text);
        exit(1);
    }
    return found;
}

/* In lent bytes each number is two bytes, low byte first. */
static unsigned get(const uint8_t *at)
{
    return at[0] | (unsigned)at[1] << 8;
}

int main(int argc, char **argv)
{
    static uint8_t list[CLIFFORD_LIST_MOST * CLIFFORD_ROW_BYTES];
    /* Room is never refused here: that of the longest list is lent. */
    static const char *const meanings[] = {"", "dimension: d is below 2 or above 1,024",
                                           "width: n is 0 or above 16",
                                           "length: more than 4,096 rows", "room"};

    if (argc != 5) {
        fprintf(stderr, "use: load D N SEED COUNT\n");
        return 1;
    }
    const uint16_t d = (uint16_t)number(argv[1], UINT16_MAX);
    const uint16_t n = (uint16_t)number(argv[2], UINT16_MAX);
    const uint64_t seed = number(argv[3], UINT64_MAX);
    const uint16_t count = (uint16_t)number(argv[4], UINT16_MAX);

    const uint16_t refusal = clifford_load(d, n, seed, count, list, sizeof list);
    if (refusal != CLIFFORD_OK) {
        fprintf(stderr, "load refuses: %u, %s\n", refusal, meanings[refusal]);
        return 1;
    }
    printf("L,%u,%u\n", d, n);
    const uint8_t *row = list;
    for (unsigned i = 0; i < count; i++, row += CLIFFORD_ROW_BYTES)
        printf("%c,%u,%u,%u\n", "?FSAMXZ"[get(row)], get(row + 2), get(row + 4), get(row + 6));
    /* No line tells that it is the last, so a file cut short would pass for a list. */
    if (fflush(stdout) != 0 || ferror(stdout)) {
        fprintf(stderr, "load: standard output could not be written whole\n");
        return 1;
    }
    return 0;
}
