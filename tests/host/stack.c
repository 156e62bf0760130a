/*
 * How much stack each call uses: it runs on a stack of its own that was
 * painted before, and the bytes that it changed are counted from the far end.
 * The header promises less than 32 KiB; more fails the test.
 */
#define _XOPEN_SOURCE 700

#include "clifford.h"

#include <stdio.h>
#include <string.h>
#include <ucontext.h>

enum { ROWS = 400, QUDITS = 16, STACK = 1 << 18, PROMISED = 1 << 15 };

static uint16_t dimension;
static uint8_t list[ROWS * 8];
static uint8_t first[CLIFFORD_TABLEAU_BYTES(QUDITS)], second[CLIFFORD_TABLEAU_BYTES(QUDITS)];
static uint8_t pauli[CLIFFORD_PAULI_BYTES(QUDITS)];
static uint8_t batch[CLIFFORD_BATCH_MOST * CLIFFORD_PAULI_BYTES(QUDITS)];
static uint8_t out[sizeof batch]; /* the longest answer of all */
static uint16_t number;

static void least_multiplier(void)
{
    number = clifford_least_multiplier(dimension, dimension / 2, 1).number;
}

static void product(void)
{
    number = clifford_product(dimension, QUDITS, pauli, sizeof pauli, pauli, sizeof pauli, out, sizeof out);
}

static void power(void)
{
    number = clifford_power(dimension, QUDITS, pauli, sizeof pauli, 65535, out, sizeof out);
}

static void commutation(void)
{
    number = clifford_commutation(dimension, QUDITS, pauli, sizeof pauli, pauli, sizeof pauli).number;
}

static void support(void)
{
    number = clifford_support(dimension, QUDITS, pauli, sizeof pauli).number;
}

static void run(void)
{
    number = clifford_run(dimension, QUDITS, list, sizeof list, pauli, sizeof pauli, out, sizeof out);
}

static void tableau(void)
{
    number = clifford_tableau(dimension, QUDITS, list, sizeof list, out, sizeof out);
}

static void synthesis(void)
{
    number = clifford_synthesis(dimension, QUDITS, first, sizeof first, out, sizeof out).number;
}

static void image(void)
{
    number = clifford_image(dimension, QUDITS, first, sizeof first, pauli, sizeof pauli, out, sizeof out);
}

static void images(void)
{
    number = clifford_images(dimension, QUDITS, first, sizeof first, batch, sizeof batch, out, sizeof out);
}

static void compose(void)
{
    number = clifford_compose(dimension, QUDITS, first, sizeof first, second, sizeof second, out, sizeof out);
}

static void inverse(void)
{
    number = clifford_inverse(dimension, QUDITS, first, sizeof first, out, sizeof out);
}

static void ticks(void)
{
    number = clifford_ticks(dimension, QUDITS, list, sizeof list).number;
}

static void load(void)
{
    number = clifford_load(dimension, QUDITS, UINT64_MAX, CLIFFORD_LIST_MOST, out, sizeof out);
}

static const struct {
    const char *name;
    void (*call)(void);
} calls[] = {
    {"least_multiplier", least_multiplier}, {"product", product}, {"power", power},
    {"commutation", commutation}, {"support", support}, {"run", run}, {"tableau", tableau},
    {"synthesis", synthesis}, {"image", image}, {"images", images}, {"compose", compose},
    {"inverse", inverse}, {"ticks", ticks}, {"load", load},
};

static unsigned long drawn = 1;

static unsigned below(unsigned bound)
{
    drawn = drawn * 6364136223846793005ul + 1442695040888963407ul;
    return (unsigned)(drawn >> 33) % bound;
}

static void put(uint8_t *bytes, size_t k, unsigned x)
{
    bytes[2 * k] = (uint8_t)x;
    bytes[2 * k + 1] = (uint8_t)(x >> 8);
}

/* Rows of every kind on every qudit; M has the power d - 1, which is a unit. Of
   two qudits are A, C and W, kinds 3, 7 and 8. */
static void draw_list(void)
{
    for (size_t r = 0; r < ROWS; r++) {
        unsigned kind = 1 + below(8), i = below(QUDITS), most = dimension - 1;
        unsigned j = (i + 1 + below(QUDITS - 1)) % QUDITS, power = 1 + below(most);
        put(list, 4 * r, kind);
        put(list, 4 * r + 1, i + 1);
        put(list, 4 * r + 2, kind == 3 || kind > 6 ? j + 1 : 0);
        put(list, 4 * r + 3, kind == 1 ? 1 + below(3) : kind == 4 ? most : kind == 8 ? 1 : power);
    }
}

static size_t used_by(void (*call)(void))
{
    static uint8_t stack[STACK];
    static ucontext_t here, there;
    size_t untouched = 0;
    memset(stack, 0xa5, sizeof stack);
    getcontext(&there);
    there.uc_stack.ss_sp = stack;
    there.uc_stack.ss_size = sizeof stack;
    there.uc_link = &here;
    makecontext(&there, call, 0);
    swapcontext(&here, &there);
    while (untouched < sizeof stack && stack[untouched] == 0xa5)
        untouched++;
    return sizeof stack - untouched;
}

int main(void)
{
    static const uint16_t dimensions[] = {2, 3, 6, 997, 1024};
    size_t most = 0;
    int wrong = 0;
    for (size_t k = 0; k < sizeof dimensions / sizeof *dimensions; k++) {
        dimension = dimensions[k];
        draw_list();
        tableau();
        memcpy(second, out, sizeof second);
        draw_list();
        tableau();
        memcpy(first, out, sizeof first);
        for (size_t i = 0; i < sizeof batch / 2; i++)
            put(batch, i, below(dimension));
        memcpy(pauli, batch, sizeof pauli);
        for (size_t i = 0; i < sizeof calls / sizeof *calls; i++) {
            size_t used = used_by(calls[i].call);
            most = used > most ? used : most;
            if (number != CLIFFORD_OK || used >= PROMISED) {
                printf("wrong: %s, d = %u: number %u, %zu bytes of stack\n", calls[i].name, (unsigned)dimension, (unsigned)number, used);
                wrong++;
            }
        }
    }
    printf("stack: %zu bytes at most, less than %d are promised\n", most, PROMISED);
    return wrong != 0;
}
