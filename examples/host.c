/*
 * A host of the library: build a list of gates, get its tableau, get a list
 * back from the tableau, run that on a Pauli, and get the images of a batch of
 * Paulis under the tableau.
 *
 *   cc -Iinclude examples/host.c build/libclifford.a -o build/host
 */

#include "clifford.h"

#include <stdio.h>
#include <stdlib.h>
#include <string.h>

enum { D = 4, N = 2 };

/* In lent bytes each number is two bytes, low byte first. */

static void put(uint8_t *at, unsigned number)
{
    at[0] = (uint8_t)(number & 0xFF);
    at[1] = (uint8_t)(number >> 8);
}

static unsigned get(const uint8_t *at)
{
    return at[0] | (unsigned)at[1] << 8;
}

/* A row is its kind, first qudit, second qudit (0 where the kind has one) and
   power. */
static void put_row(uint8_t *row, unsigned kind, unsigned first, unsigned second, unsigned power)
{
    put(row, kind);
    put(row + 2, first);
    put(row + 4, second);
    put(row + 6, power);
}

static void print_rows(const uint8_t *list, size_t rows)
{
    for (size_t i = 0; i < rows; i++, list += CLIFFORD_ROW_BYTES)
        printf("  %c,%u,%u,%u\n", "?FSAMXZCW"[get(list)], get(list + 2), get(list + 4),
               get(list + 6));
}

/* Phase; v of each qudit; w of each qudit. */
static void print_pauli(const uint8_t *pauli)
{
    printf("  %u", get(pauli));
    for (int i = 1; i <= 2 * N; i++)
        printf("%s%u", i == 1 || i == N + 1 ? "; " : ",", get(pauli + 2 * i));
    printf("\n");
}

static void print_paulis(const uint8_t *paulis, size_t count)
{
    for (size_t i = 0; i < count; i++)
        print_pauli(paulis + i * CLIFFORD_PAULI_BYTES(N));
}

/* A refusal has written nothing, so there is nothing to clean up. */
static void stop_on_refusal(const char *call, unsigned number)
{
    static const char *const words[] = {"",    "dimension", "width",   "length", "room",
                                        "range", "row",     "pairing", "parity"};
    if (number == CLIFFORD_OK)
        return;
    fprintf(stderr, "%s refuses: %u, %s\n", call, number, words[number]);
    if (number == CLIFFORD_PAIRING || number == CLIFFORD_PARITY)
        fprintf(stderr, "no list of gates does what this tableau says\n");
    exit(1);
}

int main(void)
{
    /* Fourier on qudit 1, SUM from qudit 1 to qudit 2, Z^3 on qudit 2. */
    uint8_t list[3 * 8];
    put_row(list, 1, 1, 0, 1);
    put_row(list + 8, 3, 1, 2, 1);
    put_row(list + 16, 6, 2, 0, 3);
    printf("list:\n");
    print_rows(list, 3);

    uint8_t tableau[CLIFFORD_TABLEAU_BYTES(N)];
    stop_on_refusal("tableau", clifford_tableau(D, N, list, sizeof list, tableau, sizeof tableau));
    printf("its tableau, a column a line:\n");
    print_paulis(tableau, 2 * N);

    /* The value is the count of rows; they stand at the start of the output. */
    uint8_t found[CLIFFORD_SYNTHESIS_BYTES(N)];
    struct clifford_answer answer =
        clifford_synthesis(D, N, tableau, sizeof tableau, found, sizeof found);
    stop_on_refusal("synthesis", answer.number);
    printf("a list with this tableau, %u rows:\n", answer.value);
    print_rows(found, answer.value);

    /* Only the rows that the count names are lent. */
    const size_t found_len = CLIFFORD_ROW_BYTES * answer.value;
    answer = clifford_ticks(D, N, found, found_len);
    stop_on_refusal("ticks", answer.number);
    printf("its ticks, with rows on separate qudits in the same one: %u\n", answer.value);

    /* The Pauli X on qudit 1 times Z^2 on qudit 2, with phase 1. */
    uint8_t pauli[CLIFFORD_PAULI_BYTES(N)] = {0};
    uint8_t result[CLIFFORD_PAULI_BYTES(N)];
    put(pauli, 1);
    put(pauli + 2, 1);
    put(pauli + 8, 2);
    stop_on_refusal("run", clifford_run(D, N, found, found_len, pauli, sizeof pauli, result,
                                        sizeof result));
    printf("a Pauli:\n");
    print_pauli(pauli);
    printf("what the list makes of it:\n");
    print_pauli(result);

    /* A batch: that Pauli, Z on qudit 1 and X^3 on qudit 2, end to end. Their
       images stand in the same order. */
    uint8_t batch[3 * CLIFFORD_PAULI_BYTES(N)] = {0};
    uint8_t images[sizeof batch];
    memcpy(batch, pauli, sizeof pauli);
    put(batch + sizeof pauli + 6, 1);
    put(batch + 2 * sizeof pauli + 4, 3);
    stop_on_refusal("images", clifford_images(D, N, tableau, sizeof tableau, batch, sizeof batch,
                                              images, sizeof images));
    printf("a batch of Paulis:\n");
    print_paulis(batch, 3);
    printf("their images under the tableau:\n");
    print_paulis(images, 3);
    return 0;
}
