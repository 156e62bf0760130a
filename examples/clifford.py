"""The same as host.c, from Python.

    python3 examples/clifford.py build/libclifford.so

A shared object is made from the archive with
    cc -shared -Wl,--whole-archive build/libclifford.a -Wl,--no-whole-archive \\
       -o build/libclifford.so
"""

import ctypes
import struct
import sys

WORDS = ["", "dimension", "width", "length", "room", "range", "row", "pairing", "parity"]
LETTERS = "?FSAMXZCW"


class Answer(ctypes.Structure):
    _fields_ = [("number", ctypes.c_uint16), ("value", ctypes.c_uint16)]


def pack(numbers):
    """Each number is two bytes, low byte first."""
    return struct.pack(f"<{len(numbers)}H", *numbers)


def pack_all(parts):
    """Rows or Paulis end to end."""
    return b"".join(pack(part) for part in parts)


def unpack(data):
    return list(struct.unpack(f"<{len(data) // 2}H", data))


class Clifford:
    """The calls used here, for one dimension d and one number of qudits n."""

    def __init__(self, path, d, n):
        self.library = ctypes.CDLL(path)
        self.d, self.n = d, n
        self.pauli_bytes = 2 * (1 + 2 * n)
        self.tableau_bytes = 2 * n * self.pauli_bytes

    def call(self, name, result, inputs, room=0):
        """Lends the inputs and an output of `room` bytes, if any; gives (value, output)."""
        out = ctypes.create_string_buffer(room)
        lent = [part for data in inputs for part in (data, len(data))]
        if room > 0:
            lent += [out, room]
        function = getattr(self.library, "clifford_" + name)
        function.restype = result
        function.argtypes = [ctypes.c_uint16] * 2 + [ctypes.c_char_p, ctypes.c_size_t] * (
            len(lent) // 2
        )
        answer = function(self.d, self.n, *lent)
        number, value = (answer, 0) if result is ctypes.c_uint16 else (answer.number, answer.value)
        if number != 0:
            raise ValueError(f"{name} refuses: {number}, {WORDS[number]}")
        return value, out.raw

    def paulis(self, name, inputs, room):
        """A call whose output is Paulis end to end."""
        out = self.call(name, ctypes.c_uint16, inputs, room)[1]
        return [unpack(out[i : i + self.pauli_bytes]) for i in range(0, room, self.pauli_bytes)]

    def tableau(self, rows):
        return self.paulis("tableau", [pack_all(rows)], self.tableau_bytes)

    def synthesis(self, columns):
        room = 40 * self.n**2 + 48 * self.n
        count, out = self.call("synthesis", Answer, [pack_all(columns)], room)
        return [unpack(out[8 * i : 8 * i + 8]) for i in range(count)]

    def ticks(self, rows):
        return self.call("ticks", Answer, [pack_all(rows)])[0]

    def run(self, rows, pauli):
        return self.paulis("run", [pack_all(rows), pack(pauli)], self.pauli_bytes)[0]

    def images(self, columns, batch):
        """The images of up to 512 Paulis under a tableau, in one call."""
        data = pack_all(batch)
        return self.paulis("images", [pack_all(columns), data], len(data))


def print_pauli(p, n):
    print(f"  {p[0]}; {','.join(map(str, p[1 : n + 1]))}; {','.join(map(str, p[n + 1 :]))}")


def print_paulis(paulis, n):
    for p in paulis:
        print_pauli(p, n)


def print_rows(rows):
    for kind, first, second, power in rows:
        print(f"  {LETTERS[kind]},{first},{second},{power}")


def main():
    n = 2
    clifford = Clifford(sys.argv[1], 4, n)
    rows = [[1, 1, 0, 1], [3, 1, 2, 1], [6, 2, 0, 3]]
    print("list:")
    print_rows(rows)
    columns = clifford.tableau(rows)
    print("its tableau, a column a line:")
    print_paulis(columns, n)
    found = clifford.synthesis(columns)
    print(f"a list with this tableau, {len(found)} rows:")
    print_rows(found)
    print(f"its ticks, with rows on separate qudits in the same one: {clifford.ticks(found)}")
    pauli = [1, 1, 0, 0, 2]
    print("a Pauli:")
    print_pauli(pauli, n)
    print("what the list makes of it:")
    print_pauli(clifford.run(found, pauli), n)
    batch = [pauli, [0, 0, 0, 1, 0], [0, 0, 3, 0, 0]]
    print("a batch of Paulis:")
    print_paulis(batch, n)
    print("their images under the tableau:")
    print_paulis(clifford.images(columns, batch), n)


if __name__ == "__main__":
    main()
