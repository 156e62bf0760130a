#!/usr/bin/env python3
"""Holds the gates of document 002, as matrices, against what request P3 says
that the letters of a G file stand for, and against what the text program prints.

    tests/partner/matrices.py PROGRAM
    tests/partner/matrices.py --without-program

For d from 2 to 6, on two qudits, each gate is the matrix that the document
defines: of document 002 those of (1), (5) to (8) and (11), for G files; of
document 000 those of sections II and III, for L files. A gate Q carries a Pauli
P to Q P Q†, which is read as phase, v and w of document 01: the 2d-th root of
unity ζ to the power of the phase, times X^v Z^w on each qudit, where X raises a
level. That is compared with the effect that document 01 and the request give
for the row, on the unit Paulis and on drawn ones, and with the tableaus that
PROGRAM prints for a file of that row alone, and for one with rows before it that
make v and w of both qudits other than 0, which some phases need to be seen. Then
document 002's tables and relations are computed, and longer files are printed.

Numbers are exact: sums of powers of ζ with whole coefficients, reduced by the
cyclotomic polynomial. The factor 1/√d of F is left out, and its square divided
out where a Pauli is read. The exit status is 1 where anything differs.
"""

import random
import subprocess
import sys

DIMENSIONS = range(2, 7)
DRAWN = 4  # Paulis for each row, besides those that are columns
LISTS = 8  # lists of several rows for each d up to 5, and header
SECONDS = 60


# ------------------------------------------------------------------ numbers


def quotient(a, b):
    """Polynomials as lists, the constant first; b divides a and has leading 1."""
    a, found = list(a), []
    while len(a) >= len(b):
        top = a[-1]
        found.insert(0, top)
        for place in range(len(b)):
            a[len(a) - len(b) + place] -= top * b[place]
        a.pop()
    assert not any(a)
    return found


def cyclotomic(m):
    """The polynomial whose roots are the primitive m-th roots of unity."""
    found = [-1] + [0] * (m - 1) + [1]
    for e in range(1, m):
        if m % e == 0:
            found = quotient(found, cyclotomic(e))
    return found


class Numbers:
    """Sums of powers of ζ, a primitive 2d-th root of unity: each has one form, a
    tuple of whole coefficients."""

    def __init__(self, d):
        self.d = d
        self.modulus = cyclotomic(2 * d)
        size = len(self.modulus) - 1
        self.zero = (0,) * size
        self.products = {}  # those computed before
        self.roots = []
        power = (1,) + (0,) * (size - 1)
        for _ in range(2 * d):
            self.roots.append(power)
            top = power[-1]
            moved = (0,) + power[:-1]
            power = tuple(x - top * y for x, y in zip(moved, self.modulus))

    def root(self, e):
        return self.roots[e % (2 * self.d)]

    def total(self, terms):
        """The sum of whole multiples of powers of ζ: pairs of multiple, exponent."""
        found = list(self.zero)
        for multiple, e in terms:
            for place, x in enumerate(self.root(e)):
                found[place] += multiple * x
        return tuple(found)

    def plus(self, a, b):
        return tuple(x + y for x, y in zip(a, b))

    def times(self, a, b):
        if (a, b) not in self.products:
            self.products[a, b] = self.total(
                (x * y, i + j) for i, x in enumerate(a) if x for j, y in enumerate(b) if y
            )
        return self.products[a, b]

    def conjugate(self, a):
        return self.total((x, -i) for i, x in enumerate(a) if x)

    def scaled(self, s, a):
        return tuple(s * x for x in a)


# ----------------------------------------------------------------- matrices
#
# A matrix is a table from kets to what it makes of each: a table from kets to
# numbers that aren't 0. A ket is a pair, the levels of qudits 1 and 2.


def matrix(numbers, terms):
    """A sum of terms: exponent of ζ, ket, bra."""
    found = {}
    for e, ket, bra in terms:
        column, term = found.setdefault(bra, {}), numbers.root(e)
        column[ket] = numbers.plus(column[ket], term) if ket in column else term
    return found


def after(numbers, second, first):
    """The product second · first: first acts first."""
    found = {}
    for bra, column in first.items():
        sums = {}
        for middle, a in column.items():
            for ket, b in second[middle].items():
                term = numbers.times(b, a)
                sums[ket] = numbers.plus(sums[ket], term) if ket in sums else term
        found[bra] = {ket: x for ket, x in sums.items() if x != numbers.zero}
    return found


def dagger(numbers, m):
    found = {bra: {} for bra in m}
    for bra, column in m.items():
        for ket, x in column.items():
            found[ket][bra] = numbers.conjugate(x)
    return found


def scaled(numbers, s, m):
    return {
        bra: {ket: numbers.scaled(s, x) for ket, x in column.items()} for bra, column in m.items()
    }


class Space:
    """Two qudits of d levels. Qudits count from 1."""

    def __init__(self, d):
        self.d = d
        self.numbers = Numbers(d)
        self.kets = [(x, y) for x in range(d) for y in range(d)]
        self.identity = matrix(self.numbers, [(0, ket, ket) for ket in self.kets])

    def on_one(self, q, terms):
        """A one-qudit matrix on qudit q: terms are exponent of ζ, ket, bra."""
        d = self.d
        at = lambda level, other: (level % d, other) if q == 1 else (other, level % d)
        return matrix(
            self.numbers,
            [(e, at(ket, o), at(bra, o)) for e, ket, bra in terms for o in range(d)],
        )

    def on_two(self, a, terms):
        """A matrix on qudit a and the other one: ket and bra are pairs, a first."""
        d = self.d
        at = lambda pair: tuple(x % d for x in (pair if a == 1 else pair[::-1]))
        return matrix(self.numbers, [(e, at(ket), at(bra)) for e, ket, bra in terms])

    def product(self, *factors):
        """The matrices from left to right: the last acts first."""
        found = factors[0] if factors else self.identity
        for m in factors[1:]:
            found = after(self.numbers, found, m)
        return found

    def power(self, m, k):
        return self.product(*[m] * k)

    def dagger(self, m):
        return dagger(self.numbers, m)

    def scale(self, m):
        """The whole s with m m† = s: m divided by √s is a unitary matrix."""
        squared = self.product(m, self.dagger(m))
        s = squared[0, 0][0, 0][0]
        assert squared == scaled(self.numbers, s, self.identity), "no multiple of a unitary matrix"
        return s

    def conjugated(self, m, paulis):
        """m p m† for each p, which is Q p Q† times the scale of m."""
        back = self.dagger(m)
        return [self.product(m, p, back) for p in paulis]

    def images(self, m, paulis):
        """What m, divided by the root of its scale, carries Paulis to."""
        s = self.scale(m)
        conjugated = self.conjugated(m, [self.pauli(p) for p in paulis])
        return [self.read(image, s) for image in conjugated]

    def pauli(self, p):
        """Document 000, (2) and (3): ζ^δ XZ(v, w) |x> = ζ^(δ + 2 w·x) |x + v>."""
        phase, v, w = p
        d = self.d
        return matrix(
            self.numbers,
            [
                (phase + 2 * (w[0] * x + w[1] * y), ((x + v[0]) % d, (y + v[1]) % d), (x, y))
                for x, y in self.kets
            ],
        )

    def read(self, m, s):
        """The Pauli that m is s times of: phase, v, w."""
        d, numbers = self.d, self.numbers

        def exponent(ket, bra):
            for e in range(2 * d):
                if m[bra].get(ket) == numbers.scaled(s, numbers.root(e)):
                    return e
            sys.exit("a gate carries a Pauli to no Pauli")

        (v,) = m[0, 0]
        phase = exponent(v, (0, 0))
        w = []
        for bra in [(1, 0), (0, 1)]:
            ket = tuple((x + y) % d for x, y in zip(v, bra))
            steps = (exponent(ket, bra) - phase) % (2 * d)
            w.append(steps // 2)
        p = (phase, v, tuple(w))
        if m != scaled(numbers, s, self.pauli(p)):
            sys.exit("a gate carries a Pauli to no Pauli")
        return p


def unit_paulis():
    return [(0, (1, 0), (0, 0)), (0, (0, 1), (0, 0)), (0, (0, 0), (1, 0)), (0, (0, 0), (0, 1))]


def drawn_pauli(rng, d):
    entries = [rng.randrange(d) for _ in range(4)]
    return rng.randrange(2 * d), tuple(entries[:2]), tuple(entries[2:])


# ------------------------------------------------------- gates of document 002


def z_002(space, a):  # (1)
    return space.on_one(a, [(2 * j, j, j) for j in range(space.d)])


def x_002(space, a):  # (1)
    return space.on_one(a, [(0, j, j + 1) for j in range(space.d)])


def f_002(space, a):  # (5) times √d
    d = space.d
    return space.on_one(a, [(2 * j * k, j, k) for j in range(d) for k in range(d)])


def s_002(space, a, q):  # (6)
    return space.on_one(a, [(0, j, j * q) for j in range(space.d)])


def cnot_002(space, a):  # (7), from a to the other qudit
    d = space.d
    return space.on_two(a, [(0, (j, k), (j, k + j)) for j in range(d) for k in range(d)])


def swap_002(space, a):  # (8)
    d = space.d
    return space.on_two(a, [(0, (k, j), (j, k)) for j in range(d) for k in range(d)])


def cp_002(space, a):  # (11)
    d = space.d
    return space.on_two(a, [(2 * j * k, (j, k), (j, k)) for j in range(d) for k in range(d)])


# A row is letter, first, second, power.


def gate_002(space, row):
    """What a row of a G file means."""
    letter, first, _, k = row
    if letter == "M":
        return s_002(space, first, k)
    gates = {"F": f_002, "A": cnot_002, "X": x_002, "Z": z_002, "C": cp_002, "W": swap_002}
    return space.power(gates[letter](space, first), k)


NAMES_002 = {
    "F": "F^k, (5)",
    "A": "CNOT^k, (7)",
    "M": "S_k, (6)",
    "X": "X^k, (1)",
    "Z": "Z^k, (1)",
    "C": "CP^k, (11)",
    "W": "SWAP, (8)",
}


# ------------------------------------------------------- gates of document 000


def gate_000(space, row):
    """What a row of an L file means. C is no gate of document 000: it is (11) of
    document 002, which has no sign that differs here."""
    letter, a, _, k = row
    d, levels = space.d, range(space.d)
    pairs = [(x, y) for x in levels for y in levels]
    if letter == "F":
        return space.power(space.on_one(a, [(2 * y * x, y, x) for x, y in pairs]), k)
    if letter == "S":
        return space.power(space.on_one(a, [(x * (x + d), x, x) for x in levels]), k)
    if letter == "A":
        return space.power(space.on_two(a, [(0, (x, x + y), (x, y)) for x, y in pairs]), k)
    if letter == "M":
        return space.on_one(a, [(0, k * x, x) for x in levels])
    if letter == "X":
        return space.power(space.on_one(a, [(0, x + 1, x) for x in levels]), k)
    if letter == "Z":
        return space.power(space.on_one(a, [(2 * x, x, x) for x in levels]), k)
    if letter == "C":
        return space.power(cp_002(space, a), k)
    return space.on_two(a, [(0, (y, x), (x, y)) for x, y in pairs])


NAMES_000 = {
    "F": "Fourier transform^k",
    "S": "phase gate^k",
    "A": "SUM^k",
    "M": "multiplication by k",
    "X": "X^k",
    "Z": "Z^k",
    "C": "CP^k of 002",
    "W": "exchange",
}


# ----------------------------------------------- document 01 and request P3


def inverse(k, d):
    return next((x for x in range(1, d) if k * x % d == 1), None)


def legal_rows(d, letters):
    """Every legal row on two qudits with one of these letters."""
    powers = {"F": range(1, 4), "S": range(1, 2 * d), "W": [1]}
    powers["M"] = [k for k in range(1, d) if inverse(k, d)]
    return [
        (letter, first, 3 - first if letter in "ACW" else 0, k)
        for letter in letters
        for first in (1, 2)
        for k in powers.get(letter, range(1, d))
    ]


def effect(d, row, p):
    """The table of document 01, and the request's C and W."""
    letter, first, second, k = row
    phase, v, w = p[0], list(p[1]), list(p[2])
    i, j = first - 1, second - 1
    if letter == "F":
        for _ in range(k):
            phase -= 2 * v[i] * w[i]
            v[i], w[i] = -w[i] % d, v[i]
    elif letter == "S":
        phase += k * v[i] * (v[i] + d)
        w[i] += k * v[i]
    elif letter == "A":
        v[j] += k * v[i]
        w[i] -= k * w[j]
    elif letter == "M":
        v[i] *= k
        w[i] *= inverse(k, d)
    elif letter == "X":
        phase -= 2 * k * w[i]
    elif letter == "Z":
        phase += 2 * k * v[i]
    elif letter == "C":
        w[i] += k * v[j]
        w[j] += k * v[i]
        phase += 2 * k * v[i] * v[j]
    else:
        v[i], v[j], w[i], w[j] = v[j], v[i], w[j], w[i]
    return phase % (2 * d), tuple(x % d for x in v), tuple(x % d for x in w)


def stands_for(d, row):
    """The request: "A, X and M stand for our A and X of power d − k and our M of
    the inverse; F, Z, C and W are unchanged"."""
    letter, first, second, k = row
    if letter in "AX":
        k = d - k
    if letter == "M":
        k = inverse(k, d)
    return letter, first, second, k


STANDS_FOR = {"A": "A of power d - k", "X": "X of power d - k", "M": "M of the inverse"}


# ------------------------------------------------------------------ program


def printed_for(program, header, d, rows):
    """What PROGRAM prints for a file of these rows."""
    lines = [f"{header},{d},2"] + [",".join(map(str, row)) for row in rows]
    data = "".join(line + "\n" for line in lines).encode()
    return subprocess.run([program], input=data, capture_output=True, timeout=SECONDS).stdout


def as_printed(d, columns):
    """A tableau as the text program prints it."""
    lines = [f"T,{d},2"] + [",".join(map(str, [phase, *v, *w])) for phase, v, w in columns]
    return "".join(line + "\n" for line in lines).encode()


# ------------------------------------------------------------------- checks

# Rows that make v and w of both qudits other than 0 in the first column.
BEFORE = [("A", 1, 2, 1), ("C", 1, 2, 1)]


class Check:
    def __init__(self, program):
        self.program = program
        self.spaces = {d: Space(d) for d in DIMENSIONS}
        self.differences = 0

    def differ(self, what):
        self.differences += 1
        if self.differences <= 20:
            print(f"difference: {what}")

    def prints(self, header, d, rows, wanted):
        """Whether the program prints another text than wanted for a file of these rows."""
        given = printed_for(self.program, header, d, rows)
        if given != wanted:
            self.differ(f"{header}, d = {d}, {rows}: prints {given[:80]}, not {wanted}")
        return given != wanted

    def letters(self, header, letters, gate, meant, names):
        """Each legal row of these letters. Prints a line for each letter."""
        for letter in letters:
            compared, printed = 0, 0
            by_effect, by_program, as_written = 0, 0, set()  # where they differ
            for d, space in self.spaces.items():
                rng = random.Random(f"{header} {letter} {d}")
                columns = unit_paulis()
                for row in BEFORE:
                    columns = space.images(gate(space, row), columns)
                for row in legal_rows(d, letter):
                    drawn = [drawn_pauli(rng, d) for _ in range(DRAWN)]
                    paulis = unit_paulis() + columns + drawn
                    images = space.images(gate(space, row), paulis)
                    for p, image in zip(paulis, images):
                        compared += 1
                        if image != effect(d, meant(d, row), p):
                            by_effect += 1
                            self.differ(f"{header}, d = {d}, {row} on {p}: {image} by the matrix")
                        if image != effect(d, row, p):
                            as_written.add(d)
                    if self.program:
                        printed += 2
                        for rows, wanted in [([row], images[:4]), (BEFORE + [row], images[4:8])]:
                            by_program += self.prints(header, d, rows, as_printed(d, wanted))
            cells = [letter, names[letter]]
            if header == "G":
                cells.append(STANDS_FOR.get(letter, "the same row"))
            cells += [compared, "NO" if by_effect else "yes", printed or "-"]
            cells.append("-" if not printed else "NO" if by_program else "yes")
            if header == "G":
                cells.append(", ".join(map(str, sorted(as_written))) or "none")
            print(f"| {' | '.join(map(str, cells))} |")

    def refused(self):
        """S is refused as a row of a G file."""
        files = [(d, row) for d in DIMENSIONS for row in legal_rows(d, "S")]
        other = sum(self.prints("G", d, [row], b"R,6\n") for d, row in files)
        print(f"\nS in a G file: {len(files)} files printed, {len(files) - other} refused with 6")

    def lists(self, header, letters, gate):
        """Lists of several rows: the first acts first."""
        count = 0
        for d in range(2, 6):
            space, rng = self.spaces[d], random.Random(f"{header} lists {d}")
            for _ in range(LISTS):
                rows = [rng.choice(legal_rows(d, rng.choice(letters))) for _ in range(5)]
                m = space.product(*[gate(space, row) for row in reversed(rows)])
                images = space.images(m, unit_paulis())
                by_effect = []
                for p in unit_paulis():
                    for row in rows:
                        p = effect(d, stands_for(d, row) if header == "G" else row, p)
                    by_effect.append(p)
                if images != by_effect:
                    self.differ(f"{header}, d = {d}, {rows}: {by_effect}, not {images}")
                if self.program:
                    self.prints(header, d, rows, as_printed(d, images))
                count += 1
        print(f"{header} files: {count} lists of 5 rows, d from 2 to 5")

    def same(self, what, d, m, other):
        if m != other:
            self.differ(f"document 002, {what}, d = {d}")

    def tables(self):
        """Document 002's (2), tables I to III and relations (9), (10), (12)."""
        for d, space in self.spaces.items():
            z = {q: z_002(space, q) for q in (1, 2)}
            x = {q: x_002(space, q) for q in (1, 2)}
            f = {q: f_002(space, q) for q in (1, 2)}
            product, power, dagger_of = space.product, space.power, space.dagger
            omega = scaled_by_root(space, 2)

            for a, b in [(1, 2), (2, 1)]:
                self.same("(2)", d, product(x[a], z[a]), product(omega, z[a], x[a]))
                self.same("(2)", d, power(x[a], d), space.identity)
                self.same("(2)", d, power(z[a], d), space.identity)
                cnot, swap, cp = cnot_002(space, a), swap_002(space, a), cp_002(space, a)
                back = cnot_002(space, b)

                # Table I: gate, Pauli, what it becomes.
                table = [("I, F", f[a], z[a], x[a]), ("I, F", f[a], x[a], power(z[a], d - 1))]
                for q in range(1, d):
                    if inverse(q, d):
                        s_q = s_002(space, a, q)
                        table.append(("I, S_q", s_q, z[a], power(z[a], q)))
                        table.append(("I, S_q", s_q, x[a], power(x[a], inverse(q, d))))
                # Table II.
                table += [
                    ("II, CNOT", cnot, z[b], product(z[a], z[b])),
                    ("II, CNOT", cnot, z[a], z[a]),
                    ("II, CNOT", cnot, x[b], x[b]),
                    ("II, CNOT", cnot, x[a], product(x[a], power(x[b], d - 1))),
                    ("II, SWAP", swap, z[b], z[a]),
                    ("II, SWAP", swap, z[a], z[b]),
                    ("II, SWAP", swap, x[b], x[a]),
                    ("II, SWAP", swap, x[a], x[b]),
                    ("II, CP", cp, z[b], z[b]),
                    ("II, CP", cp, z[a], z[a]),
                    ("II, CP", cp, x[b], product(power(z[a], d - 1), x[b])),
                    ("II, CP", cp, x[a], product(x[a], power(z[b], d - 1))),
                ]
                # Table III: what becomes of X_a^xa Z_a^za X_b^xb Z_b^zb. None of
                # these gates adds a phase to it.
                rng = random.Random(f"table III {d} {a}")
                for m in range(1, d):
                    xa, xb, za, zb = [rng.randrange(d) for _ in range(4)]
                    pauli = lambda xa, xb, za, zb: product(
                        *[power(p, k % d) for p, k in [(x[a], xa), (z[a], za), (x[b], xb), (z[b], zb)]]
                    )
                    before = pauli(xa, xb, za, zb)
                    becomes = pauli(xa, xb - m * xa, za + m * zb, zb)
                    table.append(("III, CNOT^m", power(cnot, m), before, becomes))
                    table.append(("III, SWAP", swap, before, pauli(xb, xa, zb, za)))
                    if inverse(m, d):
                        becomes = pauli(xa * inverse(m, d), xb, za * m, zb)
                        table.append(("III, S_q", s_002(space, a, m), before, becomes))
                for what, gate, p, becomes in table:
                    wanted = scaled(space.numbers, space.scale(gate), becomes)
                    self.same(f"table {what}", d, space.conjugated(gate, [p])[0], wanted)

                # The relations. F is √d times a unitary matrix here.
                f_squared = power(f[a], 2)
                times = lambda s, m: scaled(space.numbers, s, m)
                nine = product(cnot, dagger_of(back), cnot, f_squared)
                self.same("(9)", d, times(d, swap), nine)
                self.same("(10), the power", d, dagger_of(back), power(back, d - 1))
                f_target = power(f[b], 2)
                ten = product(f_target, back, f_target)
                self.same("(10), by F", d, times(d * d, dagger_of(back)), ten)
                twelve = product(f[b], cp, dagger_of(f[b]))
                self.same("(12)", d, times(d, cnot), twelve)
        print(f"document 002's (2), tables I to III, (9), (10) and (12): {spoken(DIMENSIONS)}")


def scaled_by_root(space, e):
    return matrix(space.numbers, [(e, ket, ket) for ket in space.kets])


def spoken(dimensions):
    return f"d from {dimensions[0]} to {dimensions[-1]}"


def main():
    if len(sys.argv) != 2:
        sys.exit(__doc__)
    program = None if sys.argv[1] == "--without-program" else sys.argv[1]
    if program:
        # Once unjudged: PROGRAM may be one that builds itself when first run.
        subprocess.run([program], input=b"", capture_output=True)
    check = Check(program)
    print(f"Gates as matrices on two qudits, {spoken(DIMENSIONS)}, exact.\n")
    print(
        "| letter in a G file | document 002 | stands for | Paulis | agree | files printed | agree "
        "| d at which the row as it is written would differ |"
    )
    print("|---|---|---|---|---|---|---|---|")
    check.letters("G", "FAMXZCW", gate_002, stands_for, NAMES_002)
    if program:
        check.refused()
    print("\n| letter in an L file | document 000 | Paulis | agree | files printed | agree |")
    print("|---|---|---|---|---|---|")
    check.letters("L", "FSAMXZCW", gate_000, lambda d, row: row, NAMES_000)
    print()
    check.lists("G", "FAMXZCW", gate_002)
    check.lists("L", "FSAMXZCW", gate_000)
    check.tables()
    if not program:
        print("no file was printed: --without-program")
    print(f"partner: {check.differences} differences")
    sys.exit(1 if check.differences else 0)


if __name__ == "__main__":
    main()
