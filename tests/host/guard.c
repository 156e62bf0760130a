/*
 * Calls each function of the library once as it should be called and once as
 * it should not, with guard bytes around each output. Inputs are blocks of
 * their exact length, so that valgrind sees a byte read beyond one.
 */

#include "clifford.h"

#include <stdio.h>
#include <stdlib.h>
#include <string.h>

enum { GUARD = 32, FILL = 0xA5 };

static int faults;

static void expect(int holds, const char *what)
{
    if (!holds) {
        printf("guard: %s\n", what);
        faults++;
    }
}

/* A block with these numbers, low byte first. */
static uint8_t *lend(const uint16_t *numbers, size_t count)
{
    uint8_t *bytes = malloc(2 * count);
    if (bytes == NULL)
        exit(2);
    for (size_t i = 0; i < count; i++) {
        bytes[2 * i] = (uint8_t)(numbers[i] & 0xFF);
        bytes[2 * i + 1] = (uint8_t)(numbers[i] >> 8);
    }
    return bytes;
}

/* An output of some length between guard bytes, all filled alike. */
static uint8_t *block;

static uint8_t *output(size_t len)
{
    free(block);
    block = malloc(GUARD + len + GUARD);
    if (block == NULL)
        exit(2);
    memset(block, FILL, GUARD + len + GUARD);
    return block + GUARD;
}

/* The output holds these bytes, and everything else in the block is as it was. */
static void expect_output(const uint8_t *wanted, size_t wanted_len, size_t len, const char *what)
{
    int same = wanted_len == 0 || memcmp(block + GUARD, wanted, wanted_len) == 0;
    for (size_t i = 0; i < GUARD + len + GUARD; i++)
        if (i < GUARD || i >= GUARD + wanted_len)
            same = same && block[i] == FILL;
    expect(same, what);
}

static int answers(struct clifford_answer answer, uint16_t number, uint16_t value)
{
    return answer.number == number && answer.value == value;
}

static int supports(struct clifford_support answer, uint16_t number, uint16_t word,
                    uint16_t touched)
{
    return answer.number == number && answer.word == word && answer.touched == touched;
}

/* d = 2, n = 2, rows A,2,1,1 then S,1,0,1: the inverse composed in either order
   gives the units. The closed formula of the source paper fails here. */
static void undo_both_ways(const uint8_t *units)
{
    const uint16_t list_numbers[] = {3, 2, 1, 1, 2, 1, 0, 1};
    const size_t len = CLIFFORD_TABLEAU_BYTES(2);
    uint8_t tableau[CLIFFORD_TABLEAU_BYTES(2)], undone[CLIFFORD_TABLEAU_BYTES(2)];
    uint8_t *list = lend(list_numbers, 8);
    uint8_t *out;

    expect(clifford_tableau(2, 2, list, 2 * CLIFFORD_ROW_BYTES, tableau, len) == 0,
           "both ways, tableau");
    expect(clifford_inverse(2, 2, tableau, len, undone, len) == 0, "both ways, inverse");
    out = output(len);
    expect(clifford_compose(2, 2, tableau, len, undone, len, out, len) == 0, "both ways, after");
    expect_output(units, len, len, "both ways, after, the units");
    out = output(len);
    expect(clifford_compose(2, 2, undone, len, tableau, len, out, len) == 0, "both ways, before");
    expect_output(units, len, len, "both ways, before, the units");
    free(list);
}

/* What an output held before makes no difference to the list; bytes after the
   list stay. */
static void old_bytes(const uint8_t *tableau)
{
    enum { ROOM = CLIFFORD_SYNTHESIS_BYTES(2) };
    uint8_t zeros[ROOM], ones[ROOM];
    struct clifford_answer first, second;
    size_t len;

    memset(zeros, 0, sizeof zeros);
    memset(ones, 0xFF, sizeof ones);
    first = clifford_synthesis(4, 2, tableau, CLIFFORD_TABLEAU_BYTES(2), zeros, sizeof zeros);
    second = clifford_synthesis(4, 2, tableau, CLIFFORD_TABLEAU_BYTES(2), ones, sizeof ones);
    len = first.value * CLIFFORD_ROW_BYTES;
    expect(answers(first, 0, second.value) && second.number == 0, "old bytes, the counts");
    expect(len > 0 && memcmp(zeros, ones, len) == 0, "old bytes, the lists");
    for (size_t i = len; i < sizeof zeros; i++)
        expect(zeros[i] == 0 && ones[i] == 0xFF, "old bytes, after the list");
}

/* Columns 0; 1; 1 and 0; 0; 1 for d = 2: parity. With 1 added to the phase of
   the first, whose sum is odd, the tableau is sound, as the header says. */
static void parity_advice(void)
{
    const uint16_t numbers[] = {0, 1, 1, 0, 0, 1};
    uint8_t *tableau = lend(numbers, 6);
    uint8_t *out = output(CLIFFORD_SYNTHESIS_BYTES(1));

    expect(answers(clifford_synthesis(2, 1, tableau, 12, out, CLIFFORD_SYNTHESIS_BYTES(1)),
                   CLIFFORD_PARITY, 0), "parity advice, the refusal");
    expect_output(NULL, 0, CLIFFORD_SYNTHESIS_BYTES(1), "parity advice, output on refusal");
    tableau[0] = 1;
    expect(clifford_synthesis(2, 1, tableau, 12, out, CLIFFORD_SYNTHESIS_BYTES(1)).number == 0,
           "parity advice, sound");
    free(tableau);
}

/* F on qudits 1 and 2, A from 2 to 3, or C or W, F on 3 and on 1: rows on
   separate qudits share a tick, A waits for both of its qudits and holds both.
   Then lists of rows on one qudit alone, up to the most and one more. */
static void overlapping_rows(void)
{
    uint16_t numbers[] = {1, 1, 0, 1, 1, 2, 0, 1, 3, 2, 3, 1, 1, 3, 0, 1, 1, 1, 0, 1};
    const uint16_t wanted[] = {1, 1, 2, 3, 3}, of_two[] = {3, 7, 8};
    const size_t most = CLIFFORD_LIST_MOST;
    uint16_t *same = malloc((most + 1) * CLIFFORD_ROW_BYTES);

    for (size_t k = 0; k < 3; k++) {
        numbers[8] = of_two[k];
        for (size_t rows = 1; rows <= 5; rows++) {
            uint8_t *list = lend(numbers, 4 * rows);
            expect(answers(clifford_ticks(4, 3, list, rows * CLIFFORD_ROW_BYTES), 0,
                           wanted[rows - 1]),
                   "ticks of rows that overlap");
            free(list);
        }
    }
    if (same == NULL)
        exit(2);
    for (size_t k = 0; k < 4 * (most + 1); k++)
        same[k] = numbers[k % 4];
    uint8_t *list = lend(same, 4 * (most + 1));
    expect(answers(clifford_ticks(4, 3, list, 2 * CLIFFORD_ROW_BYTES), 0, 2),
           "ticks of two rows on one qudit");
    expect(answers(clifford_ticks(4, 3, list, most * CLIFFORD_ROW_BYTES), 0, most),
           "ticks of the most rows on one qudit");
    expect(answers(clifford_ticks(4, 3, list, (most + 1) * CLIFFORD_ROW_BYTES), CLIFFORD_LENGTH, 0),
           "ticks of one row more");
    free(list);
    free(same);
}

/* C,1,2,3 then W,1,2,1 for d = 4, n = 2. On (7; 1,3; 3,0): C makes w1 = 3 + 3*3,
   w2 = 0 + 3*1 and the phase 7 + 2*3*1*3, W exchanges 1,3 and 0,3. */
static void rows_on_two_qudits(void)
{
    const uint16_t list_numbers[] = {7, 1, 2, 3, 8, 1, 2, 1};
    const uint16_t pauli_numbers[] = {7, 1, 3, 3, 0}, image_numbers[] = {1, 3, 1, 3, 0};
    const uint16_t tableau_numbers[] = {0, 0, 1, 3, 0, 0, 1, 0, 0, 3,
                                        0, 0, 0, 0, 1, 0, 0, 0, 1, 0};
    /* C with no power, with power d, without a second qudit, with the first as
       its second, with the third of two, as its first too, from no qudit; the
       same of W, whose power is 1; and kinds that there are not. */
    static const uint16_t illegal[][4] = {
        {7, 1, 2, 0}, {7, 1, 2, 4}, {7, 1, 2, 65535}, {7, 1, 0, 1}, {7, 1, 1, 1}, {7, 1, 3, 1},
        {7, 3, 1, 1}, {7, 0, 1, 1}, {8, 1, 2, 0}, {8, 1, 2, 2}, {8, 1, 2, 3}, {8, 1, 2, 4},
        {8, 1, 2, 257}, {8, 1, 0, 1}, {8, 2, 2, 1}, {8, 1, 3, 1}, {8, 3, 1, 1}, {8, 0, 1, 1},
        {0, 1, 2, 1}, {9, 1, 2, 1}, {9, 1, 0, 1}, {10, 1, 2, 1}, {263, 1, 2, 1}, {264, 1, 2, 1},
        {65535, 1, 2, 1},
    };
    const size_t pauli_len = CLIFFORD_PAULI_BYTES(2), tableau_len = CLIFFORD_TABLEAU_BYTES(2);
    const size_t list_len = 2 * CLIFFORD_ROW_BYTES, row_len = CLIFFORD_ROW_BYTES;
    uint8_t *list = lend(list_numbers, 8), *p = lend(pauli_numbers, 5);
    uint8_t *image = lend(image_numbers, 5), *tableau = lend(tableau_numbers, 20);
    uint8_t *out = output(pauli_len + 3);

    expect(clifford_run(4, 2, list, list_len, p, pauli_len, out, pauli_len + 3) == 0, "C and W, run");
    expect_output(image, pauli_len, pauli_len + 3, "C and W, output of run");
    out = output(tableau_len + 3);
    expect(clifford_tableau(4, 2, list, list_len, out, tableau_len + 3) == 0, "C and W, tableau");
    expect_output(tableau, tableau_len, tableau_len + 3, "C and W, output of tableau");
    expect(answers(clifford_ticks(4, 2, list, list_len), 0, 2), "C and W, ticks");
    out = output(CLIFFORD_SYNTHESIS_BYTES(2));
    struct clifford_answer found =
        clifford_synthesis(4, 2, tableau, tableau_len, out, CLIFFORD_SYNTHESIS_BYTES(2));
    expect(found.number == 0 && found.value <= 5 * 4 + 6 * 2, "C and W, synthesis");
    if (found.number == 0 && found.value <= 5 * 4 + 6 * 2) {
        uint8_t again[CLIFFORD_TABLEAU_BYTES(2)];
        expect(clifford_tableau(4, 2, out, row_len * found.value, again, sizeof again) == 0
                   && memcmp(again, tableau, sizeof again) == 0,
               "C and W, the tableau of the list of synthesis");
    }

    for (size_t k = 0; k < sizeof illegal / sizeof *illegal; k++) {
        /* The row alone, and behind the list. */
        for (size_t before = 0; before <= 2; before += 2) {
            uint16_t numbers[12];
            size_t len = (before + 1) * row_len;
            memcpy(numbers, list_numbers, before * row_len);
            memcpy(numbers + 4 * before, illegal[k], row_len);
            uint8_t *bad = lend(numbers, 4 * (before + 1));
            out = output(pauli_len);
            expect(clifford_run(4, 2, bad, len, p, pauli_len, out, pauli_len) == CLIFFORD_ROW,
                   "no legal row, run");
            expect_output(NULL, 0, pauli_len, "no legal row, output of run");
            out = output(tableau_len);
            expect(clifford_tableau(4, 2, bad, len, out, tableau_len) == CLIFFORD_ROW,
                   "no legal row, tableau");
            expect_output(NULL, 0, tableau_len, "no legal row, output of tableau");
            expect(answers(clifford_ticks(4, 2, bad, len), CLIFFORD_ROW, 0), "no legal row, ticks");
            free(bad);
        }
    }
    /* One qudit has no C and no W. */
    expect(answers(clifford_ticks(4, 1, list, row_len), CLIFFORD_ROW, 0), "C for n = 1");
    expect(answers(clifford_ticks(4, 1, list + row_len, row_len), CLIFFORD_ROW, 0), "W for n = 1");
    free(list);
    free(p);
    free(image);
    free(tableau);
}

/* The images of these Paulis are as wanted, and nothing after them is written;
   with one byte less room nothing is written at all. */
static void expect_images(uint16_t d, uint16_t n, const uint8_t *tableau, const uint8_t *paulis,
                          const uint8_t *wanted, size_t len, const char *what)
{
    const size_t tableau_len = CLIFFORD_TABLEAU_BYTES(n);
    uint8_t *out = output(len + 3);

    expect(clifford_images(d, n, tableau, tableau_len, paulis, len, out, len + 3) == 0, what);
    expect_output(wanted, len, len + 3, what);
    out = output(len - 1);
    expect(clifford_images(d, n, tableau, tableau_len, paulis, len, out, len - 1) == CLIFFORD_ROOM,
           what);
    expect_output(NULL, 0, len - 1, what);
}

/* A batch as long as it may be, 512 Paulis on 16 qudits: what single calls give,
   and with a last Pauli that is out of range nothing. One more is a wrong
   length. */
static void full_batch(void)
{
    enum { D = 1024, N = 16, NUMBERS = 2 * N + 1 };
    const uint16_t list_numbers[] = {1, 1, 0, 1, 3, 1, 16, 5, 2, 16, 0, 7, 3, 16, 2, 9};
    const size_t count = CLIFFORD_BATCH_MOST, len = count * CLIFFORD_PAULI_BYTES(N);
    const size_t pauli_len = CLIFFORD_PAULI_BYTES(N), tableau_len = CLIFFORD_TABLEAU_BYTES(N);
    uint8_t *list = lend(list_numbers, 16);
    uint8_t *tableau = malloc(tableau_len), *wanted = malloc(len);
    uint16_t *numbers = malloc(len + pauli_len);
    uint8_t *paulis, *more, *out;

    if (tableau == NULL || wanted == NULL || numbers == NULL)
        exit(2);
    for (size_t i = 0; i < (count + 1) * NUMBERS; i++)
        numbers[i] = (uint16_t)(i * i % D);
    paulis = lend(numbers, count * NUMBERS);
    more = lend(numbers, (count + 1) * NUMBERS);
    expect(clifford_tableau(D, N, list, 4 * CLIFFORD_ROW_BYTES, tableau, tableau_len) == 0,
           "full batch, tableau");
    for (size_t at = 0; at < len; at += pauli_len)
        expect(clifford_image(D, N, tableau, tableau_len, paulis + at, pauli_len, wanted + at,
                              pauli_len) == 0, "full batch, a single call");
    expect_images(D, N, tableau, paulis, wanted, len, "full batch");

    out = output(len + pauli_len);
    expect(clifford_images(D, N, tableau, tableau_len, more, len + pauli_len, out, len + pauli_len)
               == CLIFFORD_LENGTH,
           "full batch, one Pauli more");
    expect_output(NULL, 0, len + pauli_len, "full batch, output with one Pauli more");
    paulis[len - 1] = D >> 8;
    out = output(len);
    expect(clifford_images(D, N, tableau, tableau_len, paulis, len, out, len) == CLIFFORD_RANGE,
           "full batch, the last Pauli out of range");
    expect_output(NULL, 0, len, "full batch, output with the last Pauli out of range");
    free(list);
    free(tableau);
    free(wanted);
    free(numbers);
    free(paulis);
    free(more);
}

/* These rows are the load, and nothing after them is written; with one byte less
   room nothing is written at all. */
static void expect_load(uint16_t d, uint16_t n, uint64_t seed, const uint16_t *numbers,
                        uint16_t count, const char *what)
{
    const size_t len = CLIFFORD_ROW_BYTES * count;
    uint8_t *wanted = lend(numbers, 4 * (size_t)count);
    uint8_t *out = output(len + 3);

    expect(clifford_load(d, n, seed, count, out, len + 3) == 0, what);
    expect_output(wanted, len, len + 3, what);
    out = output(len - 1);
    expect(clifford_load(d, n, seed, count, out, len - 1) == CLIFFORD_ROOM, what);
    expect_output(NULL, 0, len - 1, what);
    free(wanted);
}

/* The header's loads; refused ones; no rows; and the most, which are a legal list
   that begins as the shorter one does. */
static void loads(void)
{
    enum { D = 1024, N = 16 };
    const uint16_t general[] = {4, 1, 0, 5, 4, 1, 0, 1, 3, 1, 2, 2, 2, 3, 0, 5};
    const uint16_t one_qudit[] = {4, 1, 0, 5, 4, 1, 0, 1, 1, 1, 0, 3, 2, 1, 0, 5};
    const uint16_t last_seed[] = {1, 9, 0, 2, 1, 12, 0, 3, 2, 5, 0, 939, 3, 2, 14, 710};
    static const struct {
        uint16_t d, n, count, number;
    } refused[] = {
        {0, 0, 4097, CLIFFORD_DIMENSION}, {1, 3, 4, CLIFFORD_DIMENSION},
        {1025, 17, 4097, CLIFFORD_DIMENSION}, {6, 0, 4097, CLIFFORD_WIDTH},
        {6, 17, 4, CLIFFORD_WIDTH}, {6, 3, 4097, CLIFFORD_LENGTH},
        {6, 3, 8192, CLIFFORD_LENGTH}, {6, 1, 65535, CLIFFORD_LENGTH},
    };
    const size_t most = CLIFFORD_LIST_MOST, len = most * CLIFFORD_ROW_BYTES;
    uint8_t tableau[CLIFFORD_TABLEAU_BYTES(N)];
    uint8_t *list = malloc(len), *out;

    if (list == NULL)
        exit(2);
    expect_load(6, 3, 0, general, 4, "load");
    expect_load(6, 1, 0, one_qudit, 4, "load on one qudit");
    expect_load(D, N, UINT64_MAX, last_seed, 4, "load of the last seed");

    for (size_t k = 0; k < sizeof refused / sizeof *refused; k++)
        /* With room for the rows, and with none. */
        for (size_t room = 0; room < 2; room++) {
            const size_t room_len = room * refused[k].count * CLIFFORD_ROW_BYTES;
            out = output(room_len);
            expect(clifford_load(refused[k].d, refused[k].n, 0, refused[k].count, out, room_len)
                       == refused[k].number,
                   "load, a refusal");
            expect_output(NULL, 0, room_len, "load, output on refusal");
        }
    expect(clifford_load(6, 3, 0, 1, NULL, 0) == CLIFFORD_ROOM, "load into nothing, a refusal");
    expect(clifford_load(6, 3, 0, 0, NULL, 0) == 0, "load of no rows");
    out = output(8);
    expect(clifford_load(6, 3, 0, 0, out, 8) == 0, "load of no rows, with room");
    expect_output(NULL, 0, 8, "load of no rows, output");

    out = output(len);
    expect(clifford_load(D, N, UINT64_MAX, (uint16_t)most, out, len) == 0, "load of the most rows");
    memcpy(list, out, len);
    expect_output(list, len, len, "load of the most rows, output");
    expect(clifford_tableau(D, N, list, len, tableau, sizeof tableau) == 0,
           "load of the most rows, its tableau");
    expect(clifford_ticks(D, N, list, len).number == 0, "load of the most rows, its ticks");
    for (size_t i = 0; i < 16; i++)
        expect(list[2 * i] + 256 * list[2 * i + 1] == last_seed[i],
               "load of the most rows, its first rows");
    free(list);
}

int main(void)
{
    /* d = 4, n = 2: the document's list and its tableau. */
    const uint16_t list_numbers[] = {1, 1, 0, 1, 3, 1, 2, 1, 6, 2, 0, 3};
    const uint16_t tableau_numbers[] = {0, 0, 0, 1, 0, 6, 0, 1, 0, 0,
                                        2, 3, 3, 0, 0, 0, 0, 0, 3, 1};
    const uint16_t unit_numbers[] = {0, 1, 0, 0, 0, 0, 0, 1, 0, 0,
                                     0, 0, 0, 1, 0, 0, 0, 0, 0, 1};
    const uint16_t pauli_numbers[] = {7, 1, 2, 3, 0};
    const uint16_t other_numbers[] = {1, 3, 3, 0, 2};
    /* (7; 1,2; 3,0) times (1; 3,3; 0,2), then the fifth power of the first. */
    const uint16_t product_numbers[] = {2, 0, 1, 3, 2};
    const uint16_t power_numbers[] = {7, 1, 2, 3, 0};
    /* F: v1, w1 = 1, 3 become 1, 1 with phase 7 - 6 = 1. A: v2 = 3. Z: phase
       1 + 2*3*3 = 19, so 3. */
    const uint16_t image_numbers[] = {3, 1, 3, 1, 0};
    /* Both Paulis. The second: F makes v1, w1 = 0, 3 of 3, 0. A: v2 = 3 and
       w1 = 3 - 2. Z: phase 1 + 2*3*3 = 19, so 3. */
    const uint16_t batch_numbers[] = {7, 1, 2, 3, 0, 1, 3, 3, 0, 2};
    const uint16_t images_numbers[] = {3, 1, 3, 1, 0, 3, 0, 3, 1, 2};
    /* w of qudit 2 alone, and a phase alone. */
    const uint16_t sparse_numbers[] = {7, 0, 0, 0, 2};
    const uint16_t phase_numbers[] = {7, 0, 0, 0, 0};

    const size_t pauli_len = CLIFFORD_PAULI_BYTES(2);
    const size_t tableau_len = CLIFFORD_TABLEAU_BYTES(2);
    const size_t list_len = 3 * CLIFFORD_ROW_BYTES;
    const size_t room = CLIFFORD_SYNTHESIS_BYTES(2);

    uint8_t *list = lend(list_numbers, 12);
    uint8_t *tableau = lend(tableau_numbers, 20);
    uint8_t *units = lend(unit_numbers, 20);
    uint8_t *p = lend(pauli_numbers, 5);
    uint8_t *q = lend(other_numbers, 5);
    uint8_t *product = lend(product_numbers, 5);
    uint8_t *power = lend(power_numbers, 5);
    uint8_t *image = lend(image_numbers, 5);
    uint8_t *batch = lend(batch_numbers, 10);
    uint8_t *images = lend(images_numbers, 10);
    uint8_t *sparse = lend(sparse_numbers, 5);
    uint8_t *phase = lend(phase_numbers, 5);
    uint8_t undone[CLIFFORD_TABLEAU_BYTES(2)];
    uint8_t *out;

    undo_both_ways(units);
    old_bytes(tableau);
    parity_advice();
    full_batch();
    rows_on_two_qudits();

    expect(answers(clifford_least_multiplier(6, 2, 1), 0, 5), "least multiplier, -1");
    expect(answers(clifford_least_multiplier(840, 6, 1), 0, 5),
           "least multiplier, 5 and -5 fit, no nearer one");
    expect(answers(clifford_least_multiplier(840, 5, 1), 0, 836), "least multiplier, -4");
    expect(answers(clifford_least_multiplier(2, 0, 1), 0, 1), "least multiplier, d / 2");
    expect(answers(clifford_least_multiplier(1009, 0, 1008), 0, 1),
           "least multiplier, the largest step");
    expect(answers(clifford_least_multiplier(6, 6, 1), CLIFFORD_RANGE, 0),
           "least multiplier, a refusal");

    out = output(pauli_len + 3);
    expect(clifford_product(4, 2, p, pauli_len, q, pauli_len, out, pauli_len + 3) == 0, "product");
    expect_output(product, pauli_len, pauli_len + 3, "product, output");
    out = output(pauli_len - 1);
    expect(clifford_product(4, 2, p, pauli_len, q, pauli_len, out, pauli_len - 1) == CLIFFORD_ROOM,
           "product, a refusal");
    expect_output(NULL, 0, pauli_len - 1, "product, output on refusal");

    out = output(pauli_len);
    expect(clifford_power(4, 2, p, pauli_len, 5, out, pauli_len) == 0, "power");
    expect_output(power, pauli_len, pauli_len, "power, output");
    out = output(pauli_len);
    expect(clifford_power(3, 2, p, pauli_len, 5, out, pauli_len) == CLIFFORD_RANGE,
           "power, a refusal");
    expect_output(NULL, 0, pauli_len, "power, output on refusal");

    expect(answers(clifford_commutation(4, 2, p, pauli_len, q, pauli_len), 0, 1), "commutation");
    expect(answers(clifford_commutation(4, 17, p, pauli_len, q, pauli_len), CLIFFORD_WIDTH, 0),
           "commutation, a refusal");

    expect(supports(clifford_support(4, 2, p, pauli_len), 0, 3, 2), "support");
    expect(supports(clifford_support(4, 2, sparse, pauli_len), 0, 2, 1), "support, one qudit");
    expect(supports(clifford_support(4, 2, phase, pauli_len), 0, 0, 0), "support, a phase alone");
    expect(supports(clifford_support(2, 2, sparse, pauli_len), CLIFFORD_RANGE, 0, 0),
           "support, a refusal");
    expect(supports(clifford_support(4, 2, NULL, 0), CLIFFORD_LENGTH, 0, 0),
           "support of nothing, a refusal");

    out = output(pauli_len);
    expect(clifford_run(4, 2, list, list_len, p, pauli_len, out, pauli_len) == 0, "run");
    expect_output(image, pauli_len, pauli_len, "run, output");
    out = output(pauli_len);
    expect(clifford_run(4, 2, NULL, 0, p, pauli_len, out, pauli_len) == 0, "run, empty list");
    expect_output(p, pauli_len, pauli_len, "run, output for the empty list");
    out = output(pauli_len);
    expect(clifford_run(4, 2, list, list_len - 1, p, pauli_len, out, pauli_len) == CLIFFORD_LENGTH,
           "run, a refusal");
    expect_output(NULL, 0, pauli_len, "run, output on refusal");

    out = output(tableau_len);
    expect(clifford_tableau(4, 2, list, list_len, out, tableau_len) == 0, "tableau");
    expect_output(tableau, tableau_len, tableau_len, "tableau, output");
    out = output(tableau_len);
    expect(clifford_tableau(3, 2, list, list_len, out, tableau_len) == CLIFFORD_ROW,
           "tableau, a refusal");
    expect_output(NULL, 0, tableau_len, "tableau, output on refusal");

    out = output(tableau_len);
    expect(clifford_inverse(4, 2, tableau, tableau_len, out, tableau_len) == 0, "inverse");
    memcpy(undone, out, tableau_len);
    expect_output(undone, tableau_len, tableau_len, "inverse, output");
    out = output(tableau_len);
    expect(clifford_inverse(4, 2, list, list_len, out, tableau_len) == CLIFFORD_LENGTH,
           "inverse, a refusal");
    expect_output(NULL, 0, tableau_len, "inverse, output on refusal");

    out = output(tableau_len);
    expect(clifford_compose(4, 2, tableau, tableau_len, undone, tableau_len, out, tableau_len) == 0,
           "compose");
    expect_output(units, tableau_len, tableau_len, "compose, output");
    out = output(tableau_len);
    expect(clifford_compose(1025, 2, tableau, tableau_len, undone, tableau_len, out, tableau_len)
               == CLIFFORD_DIMENSION,
           "compose, a refusal");
    expect_output(NULL, 0, tableau_len, "compose, output on refusal");

    out = output(pauli_len);
    expect(clifford_image(4, 2, tableau, tableau_len, p, pauli_len, out, pauli_len) == 0, "image");
    expect_output(image, pauli_len, pauli_len, "image, output");
    out = output(pauli_len);
    units[0] = 1;
    expect(clifford_image(4, 2, units, tableau_len, p, pauli_len, out, pauli_len)
               == CLIFFORD_PARITY,
           "image, a refusal");
    expect_output(NULL, 0, pauli_len, "image, output on refusal");

    expect_images(4, 2, tableau, batch, images, 2 * pauli_len, "images");
    expect(clifford_images(4, 2, tableau, tableau_len, NULL, 0, NULL, 0) == 0,
           "images of an empty batch");
    out = output(pauli_len);
    expect(clifford_images(4, 2, tableau, tableau_len, NULL, 0, out, pauli_len) == 0,
           "images of an empty batch, with room");
    expect_output(NULL, 0, pauli_len, "images of an empty batch, output");
    expect(clifford_images(4, 2, units, tableau_len, NULL, 0, NULL, 0) == CLIFFORD_PARITY,
           "images of an empty batch, a refusal");
    out = output(2 * pauli_len);
    batch[pauli_len] = 8;
    expect(clifford_images(4, 2, units, tableau_len, batch, 2 * pauli_len, out, 2 * pauli_len)
               == CLIFFORD_PARITY,
           "images, the tableau before the second Pauli");
    batch[0] = 8;
    expect(clifford_images(4, 2, units, tableau_len, batch, 2 * pauli_len, out, 2 * pauli_len)
               == CLIFFORD_RANGE,
           "images, the first Pauli before the tableau");
    expect_output(NULL, 0, 2 * pauli_len, "images, output on refusal");

    out = output(room + 8);
    struct clifford_answer found = clifford_synthesis(4, 2, tableau, tableau_len, out, room + 8);
    size_t found_len = CLIFFORD_ROW_BYTES * found.value;
    expect(found.number == 0 && found_len <= room, "synthesis");
    if (found_len <= room) {
        uint8_t *found_list = malloc(found_len + 1);
        if (found_list == NULL)
            return 2;
        memcpy(found_list, out, found_len);
        expect_output(found_list, found_len, room + 8, "synthesis, output");
        out = output(tableau_len);
        expect(clifford_tableau(4, 2, found_list, found_len, out, tableau_len) == 0,
               "synthesis, a legal list");
        expect_output(tableau, tableau_len, tableau_len, "synthesis, the list's tableau");
        free(found_list);
    }
    out = output(room);
    tableau[2] = 1;
    expect(answers(clifford_synthesis(4, 2, tableau, tableau_len, out, room), CLIFFORD_PAIRING, 0),
           "synthesis, a refusal");
    expect_output(NULL, 0, room, "synthesis, output on refusal");

    expect(answers(clifford_ticks(4, 2, list, list_len), 0, 3), "ticks");
    expect(answers(clifford_ticks(4, 2, NULL, 0), 0, 0), "ticks of the empty list");
    expect(answers(clifford_ticks(4, 1, list, list_len), CLIFFORD_ROW, 0), "ticks, a refusal");
    overlapping_rows();
    loads();

    free(list);
    free(tableau);
    free(units);
    free(p);
    free(q);
    free(product);
    free(power);
    free(image);
    free(batch);
    free(images);
    free(sparse);
    free(phase);
    free(block);
    if (faults == 0)
        printf("guard: all fourteen calls, no fault\n");
    return faults != 0;
}
