/*
 * clifford: Clifford operations on up to 16 qudits, as lists of gates and as
 * tableaus, and each turned into the other.
 *
 * No call allocates or keeps state; of the C library it needs memcpy and
 * memset alone. A call may run on any number of threads at once. Every call
 * ends on every input and uses less than 32 KiB of stack (measured by the
 * tests, not proved).
 *
 * NUMBERS AND LAYOUTS
 *
 * d is the dimension of a qudit, 2 to 1,024, prime or composite. n is the
 * number of qudits, 1 to 16; qudits count from 1. Each number in lent bytes is
 * two bytes, low byte first, at any alignment.
 *
 *   Pauli    phase, v1 .. vn, w1 .. wn            2(1 + 2n) bytes
 *            It is the phase times X^v1 Z^w1 on qudit 1, and so on. Entries v
 *            and w are residues, below d; the phase is below 2d and counts
 *            steps of a 2d-th root of unity.
 *   Tableau  2n Paulis, its columns               4n(1 + 2n) bytes
 *            Column j is what the operation makes of unit Pauli j: X on
 *            qudit j for j up to n, Z on qudit j - n above n.
 *   Batch    0 to 512 Paulis, end to end
 *   Row      kind, first, second, power           8 bytes
 *   List     0 to 4,096 rows; the first acts first
 *
 * A row is legal when its first qudit is 1 to n, its second is 0, or for the
 * kinds A, C and W another qudit from 1 to n, and its power k is as follows.
 * Phases are modulo 2d, entries modulo d. k is a unit when gcd(k, d) = 1, and
 * k' is its inverse. Numbers not named don't change.
 *
 *   kind   legal power         effect on first qudit i, second qudit j
 *   1 F    1 to 3              k times: phase - 2 vi wi, then vi, wi become
 *                              -wi, vi
 *   2 S    1 to 2d - 1         phase + k vi (vi + d), wi + k vi
 *   3 A    1 to d - 1          vj + k vi, wi - k wj
 *   4 M    1 to d - 1, a unit  vi becomes k vi, wi becomes k' wi
 *   5 X    1 to d - 1          phase - 2 k wi
 *   6 Z    1 to d - 1          phase + 2 k vi
 *   7 C    1 to d - 1          phase + 2 k vi vj, wi + k vj, wj + k vi
 *   8 W    1                   vi and vj, and wi and wj, are exchanged
 *
 * A tableau is sound when for columns j < k the commutation number is d - 1
 * if k = j + n, else 0, and for each column with phase h the sum
 * h + (d - 1)(w.v) is even. A list has a sound tableau, and every sound
 * tableau is that of a list; a refusal 7 or 8 therefore means that no list of
 * any length does what the tableau says.
 *
 * LENT BYTES
 *
 * A pointer and the length after it lend that many bytes for the call. Inputs
 * are only read. Outputs are written, and synthesis also reads back rows that
 * it has written there. Inputs may share bytes with each other. An output
 * shares no byte with anything else lent to the same call: that is the
 * caller's duty and is not tested. A length of 0 may come with a null pointer.
 *
 * An output may be longer than the answer; the bytes after the answer don't
 * change. What an output held before makes no difference to the answer.
 *
 * ANSWERS
 *
 * Each call gives a number: 0 when it did what was asked, else the first
 * refusal of the list below that applies, over all inputs of the call. (In
 * clifford_images the Paulis after the first come last.) A refusal writes no
 * byte of any output and gives 0 as every value.
 */

#ifndef CLIFFORD_H
#define CLIFFORD_H

#include <stddef.h>
#include <stdint.h>

#ifdef __cplusplus
extern "C" {
#endif

enum {
    CLIFFORD_OK = 0,

    /* d is below 2 or above 1,024. Give another d. */
    CLIFFORD_DIMENSION = 1,

    /* n is 0 or above 16. Give another n. */
    CLIFFORD_WIDTH = 2,

    /* An input isn't as long as its layout says, or a list isn't whole rows
       or has more than 4,096, or a batch isn't whole Paulis or has more than
       512, or the count of a load is above 4,096. Lend the exact length; run a
       longer list or batch in parts; ask for fewer rows. */
    CLIFFORD_LENGTH = 3,

    /* An output is too short. Lend the room that the call names. */
    CLIFFORD_ROOM = 4,

    /* An entry or a residue is d or more, or a phase 2d or more. Reduce
       entries modulo d and phases modulo 2d, not d. */
    CLIFFORD_RANGE = 5,

    /* A row of the list isn't legal. Correct the list; leave out rows of
       power 0. */
    CLIFFORD_ROW = 6,

    /* The commutation number of two columns is wrong: no list does this. Use
       another tableau. */
    CLIFFORD_PAIRING = 7,

    /* Pairing holds, but the sum of a column is odd: no list does this. Use
       another tableau; this one with 1 added, modulo 2d, to the phase of each
       such column is sound. */
    CLIFFORD_PARITY = 8,

    /* The text program alone: a line breaks the layout, or the input could not
       be read to its end. No call gives it. */
    CLIFFORD_TEXT = 9
};

/* Bytes of each layout, and of the room that synthesis asks for; and the most
   rows of a list and Paulis of a batch. */
#define CLIFFORD_PAULI_BYTES(n) (2 * (1 + 2 * (size_t)(n)))
#define CLIFFORD_TABLEAU_BYTES(n) (2 * (size_t)(n) * CLIFFORD_PAULI_BYTES(n))
#define CLIFFORD_ROW_BYTES ((size_t)8)
#define CLIFFORD_SYNTHESIS_BYTES(n) (40 * (size_t)(n) * (size_t)(n) + 48 * (size_t)(n))
#define CLIFFORD_LIST_MOST ((size_t)4096)
#define CLIFFORD_BATCH_MOST ((size_t)512)

/* A number, and a value that is 0 on refusal. */
struct clifford_answer {
    uint16_t number;
    uint16_t value;
};

/*
 * Least multiplier.
 * Inputs d, a, b (residues, below d); output function return
 *
 * The value is the m nearest zero with gcd(a + m b, d) = gcd(gcd(a, b), d), the
 * first of 0, 1, -1, 2, -2 and on, written as a residue: d - 1 for -1. So
 * "least" is the least distance from zero, and of m and -m the value is m where
 * both will do. One always exists. gcd(0, d) is d, so a = b = 0 gives 0.
 * d = 6, a = 2, b = 1 gives 5.
 *
 * Refusals: 1 dimension; 5 range: a or b is d or more.
 */
struct clifford_answer clifford_least_multiplier(uint16_t d, uint16_t a, uint16_t b);

/*
 * Product of two Paulis, out := p q
 * Inputs d, n, p[2(1 + 2n)], q[2(1 + 2n)]; outputs function return and
 * out[2(1 + 2n)]
 *
 * The phase is p's plus q's plus 2 (w of p . v of q) modulo 2d; entries add
 * modulo d.
 *
 * Refusals: 1 dimension; 2 width; 3 length of p or q; 4 room: out_len is below
 * 2(1 + 2n); 5 range: a number of p or q.
 */
uint16_t clifford_product(uint16_t d, uint16_t n,
                          const uint8_t *p, size_t p_len,
                          const uint8_t *q, size_t q_len,
                          uint8_t *out, size_t out_len);

/*
 * Power of a Pauli, out := p^k
 * Inputs d, n, p[2(1 + 2n)], k (any, 0 to 65,535); outputs function return and
 * out[2(1 + 2n)]
 *
 * The product of k copies of p; k = 0 gives all zeros.
 *
 * Refusals: 1 dimension; 2 width; 3 length of p; 4 room: out_len is below
 * 2(1 + 2n); 5 range: a number of p.
 */
uint16_t clifford_power(uint16_t d, uint16_t n,
                        const uint8_t *p, size_t p_len, uint16_t k,
                        uint8_t *out, size_t out_len);

/*
 * Commutation number of two Paulis.
 * Inputs d, n, p[2(1 + 2n)], q[2(1 + 2n)]; output function return
 *
 * The value is (w of p . v of q) - (v of p . w of q) modulo d: 0 when the two
 * commute.
 *
 * Refusals: 1 dimension; 2 width; 3 length of p or q; 5 range: a number of p
 * or q.
 */
struct clifford_answer clifford_commutation(uint16_t d, uint16_t n,
                                            const uint8_t *p, size_t p_len,
                                            const uint8_t *q, size_t q_len);

/* A number, and two values that are 0 on refusal. The call below has the same
   name, so C++ too has to write struct before it. */
struct clifford_support {
    uint16_t number;
    uint16_t word;
    uint16_t touched;
};

/*
 * Support of a Pauli.
 * Inputs d, n, p[2(1 + 2n)]; output function return
 *
 * Qudit i is touched when vi or wi isn't 0; the phase makes no difference. In
 * word bit i - 1, which counts 2^(i - 1), is set exactly when qudit i is
 * touched, and no other bit is set; touched is the number of qudits touched.
 * d = 6, n = 3, v = 2, 0, 0 and w = 0, 0, 3 gives word 5 and touched 2.
 *
 * Refusals: 1 dimension; 2 width; 3 length of p; 5 range: a number of p.
 */
struct clifford_support clifford_support(uint16_t d, uint16_t n,
                                         const uint8_t *p, size_t p_len);

/*
 * A list run on a Pauli.
 * Inputs d, n, list[8 rows], p[2(1 + 2n)]; outputs function return and
 * out[2(1 + 2n)]
 *
 * The first row takes p, each later row what the one before it handed on, and
 * out is what the last one hands on. The empty list hands on p.
 *
 * Refusals: 1 dimension; 2 width; 3 length of list or p; 4 room: out_len is
 * below 2(1 + 2n); 5 range: a number of p; 6 row.
 */
uint16_t clifford_run(uint16_t d, uint16_t n,
                      const uint8_t *list, size_t list_len,
                      const uint8_t *p, size_t p_len,
                      uint8_t *out, size_t out_len);

/*
 * Tableau of a list.
 * Inputs d, n, list[8 rows]; outputs function return and out[4n(1 + 2n)]
 *
 * Column j is what the list makes of unit Pauli j. The empty list gives the
 * unit Paulis. The answer is always sound. For one d and n the answers for two
 * lists have the same bytes exactly when the lists carry every Pauli alike,
 * phase included. So a tableau that is stored in place of its list loses the
 * rows, their number and their ticks, and nothing that a Pauli can show.
 *
 * Refusals: 1 dimension; 2 width; 3 length of list; 4 room: out_len is below
 * 4n(1 + 2n); 6 row.
 */
uint16_t clifford_tableau(uint16_t d, uint16_t n,
                          const uint8_t *list, size_t list_len,
                          uint8_t *out, size_t out_len);

/*
 * Synthesis: a list for a tableau.
 * Inputs d, n, tableau[4n(1 + 2n)]; outputs function return and out[8 rows]
 *
 * The value is the count of rows, at most 5n^2 + 6n. They stand at the start
 * of out, 8 bytes a row; bytes after the last row don't change. All rows are
 * legal. The list carries every Pauli, phase included, to its image under the
 * tableau; so its tableau is the given one.
 *
 * Which list it is, is free: it may change from one version of the library to
 * the next, and with it what this paragraph says. In this version the identity
 * gives the empty list, and no list has a row that does nothing. There are at
 * most 9n(n + 1)/2 rows, for a prime d n(5n + 9)/2, and at most 3 on any two
 * qudits; none is of kind C or W. One row of another kind comes back as one row
 * (at an even d some S as S and Z), C as three rows, W as three or four, and
 * ten random rows on 16 qudits as nine to seventeen on average.
 *
 * Refusals: 1 dimension; 2 width; 3 length of tableau; 4 room: out_len is
 * below 40n^2 + 48n, however short the list would be; 5 range: a number of
 * tableau; 7 pairing; 8 parity.
 */
struct clifford_answer clifford_synthesis(uint16_t d, uint16_t n,
                                          const uint8_t *tableau, size_t tableau_len,
                                          uint8_t *out, size_t out_len);

/*
 * Image of a Pauli under a tableau.
 * Inputs d, n, tableau[4n(1 + 2n)], p[2(1 + 2n)]; outputs function return and
 * out[2(1 + 2n)]
 *
 * The phase of p alone, times column 1 to the power v1, and so on to column
 * 2n to the power wn, multiplied in that order.
 *
 * Refusals: 1 dimension; 2 width; 3 length of tableau or p; 4 room: out_len is
 * below 2(1 + 2n); 5 range: a number of tableau or p; 7 pairing; 8 parity.
 */
uint16_t clifford_image(uint16_t d, uint16_t n,
                        const uint8_t *tableau, size_t tableau_len,
                        const uint8_t *p, size_t p_len,
                        uint8_t *out, size_t out_len);

/*
 * Images of a batch of Paulis under a tableau.
 * Inputs d, n, tableau[4n(1 + 2n)], paulis[2(1 + 2n) for each, 0 to 512 of
 * them]; outputs function return and out[paulis_len]
 *
 * The same as a call of clifford_image for each Pauli in order: the images
 * stand end to end at the start of out, in the order of the Paulis, and bytes
 * after the last one don't change. The first of those calls to be refused
 * gives the refusal, and then nothing is written, not even the images before
 * it. An empty batch is accepted when the tableau is, and writes nothing.
 *
 * Refusals: 1 dimension; 2 width; 3 length of tableau, or paulis isn't whole
 * Paulis or has more than 512; 4 room: out_len is below paulis_len, the room
 * for all images; 5 range: a number of tableau or of the first Pauli; 7
 * pairing; 8 parity; 5 range: a number of a later Pauli. So an unsound tableau
 * gives 5 with the first Pauli out of range, but 7 or 8 with only a later one
 * out of range.
 */
uint16_t clifford_images(uint16_t d, uint16_t n,
                         const uint8_t *tableau, size_t tableau_len,
                         const uint8_t *paulis, size_t paulis_len,
                         uint8_t *out, size_t out_len);

/*
 * Composition: first one tableau, then another.
 * Inputs d, n, first[4n(1 + 2n)], second[4n(1 + 2n)]; outputs function return
 * and out[4n(1 + 2n)]
 *
 * Each column of out is the image of that column of first under second.
 *
 * Refusals: 1 dimension; 2 width; 3 length of first or second; 4 room: out_len
 * is below 4n(1 + 2n); 5 range: a number of first or second; 7 pairing in
 * first or second; 8 parity in first or second.
 */
uint16_t clifford_compose(uint16_t d, uint16_t n,
                          const uint8_t *first, size_t first_len,
                          const uint8_t *second, size_t second_len,
                          uint8_t *out, size_t out_len);

/*
 * Inverse: the tableau that undoes another.
 * Inputs d, n, tableau[4n(1 + 2n)]; outputs function return and
 * out[4n(1 + 2n)]
 *
 * Composed with tableau in either order, out gives the unit Paulis.
 *
 * Refusals: 1 dimension; 2 width; 3 length of tableau; 4 room: out_len is
 * below 4n(1 + 2n); 5 range: a number of tableau; 7 pairing; 8 parity.
 */
uint16_t clifford_inverse(uint16_t d, uint16_t n,
                          const uint8_t *tableau, size_t tableau_len,
                          uint8_t *out, size_t out_len);

/*
 * Ticks of a list.
 * Inputs d, n, list[8 rows]; output function return
 *
 * Rows on separate qudits run in the same tick. A row uses its first qudit,
 * and one of kind A, C or W its second too; it starts in the first tick after
 * the last one used by any of these. The value is the highest tick used, 0 for
 * the empty list: F on qudit 1 and F on qudit 2 take 1 tick, F twice on qudit 1
 * takes 2.
 *
 * It is at most the number of rows, and at least the number of rows that any
 * one qudit takes part in. No schedule in which rows that share a qudit run in
 * the order of the list, no two of them at once, takes fewer ticks.
 *
 * Refusals: 1 dimension; 2 width; 3 length of list; 6 row.
 */
struct clifford_answer clifford_ticks(uint16_t d, uint16_t n,
                                      const uint8_t *list, size_t list_len);

/*
 * Load: a list made of a seed, the same on every bench.
 * Inputs d, n, seed (any of 64 bits), count (rows, 0 to 4,096); outputs
 * function return and out[8 count]
 *
 * All rows are legal, of the kinds F, S, A, M, X and Z, and the list is exactly
 * the one that this rule gives. s is the seed at first. Each draw adds
 * hexadecimal 9E3779B97F4A7C15 to s, modulo 2^64; then t is s xor (s >> 30),
 * then t xor (t << 27), its low 64 bits, then t xor (t >> 31), and that is the
 * draw. Each row takes four draws, a, b, c and e in this order, whether it uses
 * them or not:
 *
 *   kind    1 + a mod 6; for n = 1 kind 3, A, becomes 1, F
 *   first   1 + b mod n
 *   second  for A 1 + c mod (n - 1), and one more if that isn't below first; 0
 *           for the other kinds, and so for n = 1
 *   power   1 + e mod m, where m is the highest legal power of the kind: 3 for
 *           F, 2d - 1 for S, d - 1 for the others; for M one more until it is
 *           a unit
 *
 * First rows, to check a port against:
 *
 *   d = 6, n = 3, seed 0              4,1,0,5  4,1,0,1  3,1,2,2  2,3,0,5
 *   d = 6, n = 1, seed 0              4,1,0,5  4,1,0,1  1,1,0,3  2,1,0,5
 *   d = 1,024, n = 16, seed 2^64 - 1  1,9,0,2  1,12,0,3  2,5,0,939
 *                                     3,2,14,710
 *
 * In the first load M's power in row 1 is raised from 2 to 5, and A's second
 * qudit in row 3 from 1 to 2.
 *
 * Refusals: 1 dimension; 2 width; 3 length: count is above 4,096; 4 room:
 * out_len is below 8 count.
 */
uint16_t clifford_load(uint16_t d, uint16_t n, uint64_t seed, uint16_t count,
                       uint8_t *out, size_t out_len);

#ifdef __cplusplus
}
#endif

#endif
