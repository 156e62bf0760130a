//! Seeded inputs. The same seed gives the same inputs on every machine.

use crate::{calls, is_unit, takes_two, Pauli, Row, Tableau, F, M, S, W, Z};

/// Some dimensions, prime and composite, that the tests go back to: small
/// ones, powers of primes, products of many primes, and those at the limit.
pub const DIMENSIONS: [u16; 30] = [
    2, 3, 4, 5, 6, 7, 8, 9, 10, 12, 15, 16, 25, 27, 30, 36, 101, 128, 210, 243, 256, 257, 360, 509,
    512, 720, 961, 1021, 1023, 1024,
];

/// The ways to touch a qudit: whether v isn't 0, and whether w isn't.
pub const WAYS: [(bool, bool); 3] = [(true, false), (false, true), (true, true)];

/// So many rows that most entries of their tableau are not 0.
fn dense_rows(n: usize) -> usize {
    20 * n + 4 * n * n
}

pub struct Random(u64);

impl Random {
    /// Each pair of a seed and an index has a sequence of its own.
    pub fn new(seed: u64, index: u64) -> Random {
        let mut random = Random(seed);
        random.0 = random.next() ^ index;
        random.0 = random.next();
        random
    }

    /// SplitMix64.
    pub fn next(&mut self) -> u64 {
        self.0 = self.0.wrapping_add(0x9e37_79b9_7f4a_7c15);
        let mut z = self.0;
        z = (z ^ (z >> 30)).wrapping_mul(0xbf58_476d_1ce4_e5b9);
        z = (z ^ (z >> 27)).wrapping_mul(0x94d0_49bb_1331_11eb);
        z ^ (z >> 31)
    }

    /// A number from 0 to limit − 1.
    pub fn below(&mut self, limit: usize) -> usize {
        (self.next() % limit as u64) as usize
    }

    /// A number from low to high, both included.
    pub fn between(&mut self, low: usize, high: usize) -> usize {
        low + self.below(high - low + 1)
    }

    /// True once in so many times.
    pub fn one_in(&mut self, times: usize) -> bool {
        self.below(times) == 0
    }

    pub fn pick<T: Copy>(&mut self, from: &[T]) -> T {
        from[self.below(from.len())]
    }

    pub fn bytes(&mut self, length: usize) -> Vec<u8> {
        (0..length).map(|_| self.next() as u8).collect()
    }

    /// A number from 0 to limit − 1, with 0, 1, the last one, and those that
    /// share a divisor with the limit (a product of three has one often) more
    /// frequent than by chance: a reduction has to meet entries without units.
    pub fn entry(&mut self, limit: i64) -> i64 {
        match self.below(8) {
            0 => 0,
            1 => 1,
            2 => limit - 1,
            3 | 4 => {
                (0..3)
                    .map(|_| self.below(limit as usize) as i64)
                    .product::<i64>()
                    % limit
            }
            _ => self.below(limit as usize) as i64,
        }
    }

    fn nonzero(&mut self, limit: i64) -> i64 {
        loop {
            let entry = self.entry(limit);
            if entry != 0 {
                break entry;
            }
        }
    }

    pub fn pauli(&mut self, d: i64, n: usize) -> Pauli {
        let mut p = Pauli::zero(n);
        p.phase = self.entry(2 * d);
        p.v.iter_mut()
            .chain(&mut p.w)
            .for_each(|x| *x = self.entry(d));
        p
    }

    /// Makes a Pauli touch qudit i + 1 in a given way.
    pub fn touch(&mut self, p: &mut Pauli, i: usize, way: (bool, bool), d: i64) {
        p.v[i] = if way.0 { self.nonzero(d) } else { 0 };
        p.w[i] = if way.1 { self.nonzero(d) } else { 0 };
    }

    /// A Pauli that touches the qudits of a support word and no others.
    pub fn pauli_on(&mut self, word: usize, d: i64, n: usize) -> Pauli {
        let mut p = Pauli::zero(n);
        p.phase = self.entry(2 * d);
        for i in (0..n).filter(|i| word >> i & 1 == 1) {
            let way = self.pick(&WAYS);
            self.touch(&mut p, i, way, d);
        }
        p
    }

    /// A Pauli that touches three qudits at most.
    pub fn sparse_pauli(&mut self, d: i64, n: usize) -> Pauli {
        let count = self.between(0, 3);
        let word = (0..count).fold(0, |word, _| word | 1 << self.below(n));
        self.pauli_on(word, d, n)
    }

    /// A legal row of one of the kinds up to the last one.
    fn row_up_to(&mut self, last: u16, d: i64, n: usize) -> Row {
        let kind = loop {
            let kind = self.between(1, last as usize) as u16;
            if !takes_two(kind) || n > 1 {
                break kind;
            }
        };
        let first = self.between(1, n);
        let second = match takes_two(kind) {
            true => (first - 1 + self.between(1, n - 1)) % n + 1,
            false => 0,
        };
        let power = loop {
            let power = match kind {
                F => self.between(1, 3) as i64,
                S => self.entry(2 * d),
                W => 1,
                _ => self.entry(d),
            };
            if power != 0 && (kind != M || is_unit(power, d)) {
                break power;
            }
        };
        Row {
            kind,
            first: first as u16,
            second: second as u16,
            power: power as u16,
        }
    }

    pub fn row(&mut self, d: i64, n: usize) -> Row {
        self.row_up_to(W, d, n)
    }

    /// A row of one of the first six kinds.
    pub fn row_of_six(&mut self, d: i64, n: usize) -> Row {
        self.row_up_to(Z, d, n)
    }

    pub fn rows(&mut self, count: usize, d: i64, n: usize) -> Vec<Row> {
        (0..count).map(|_| self.row(d, n)).collect()
    }

    pub fn rows_of_six(&mut self, count: usize, d: i64, n: usize) -> Vec<Row> {
        (0..count).map(|_| self.row_of_six(d, n)).collect()
    }

    /// The tableau of a list, with an even number added to each phase, which
    /// keeps it sound.
    fn moved_tableau(&mut self, rows: &[Row], d: i64, n: usize) -> Tableau {
        let mut tableau = crate::tableau_of_list(rows, d, n);
        for column in &mut tableau {
            column.phase = (column.phase + 2 * self.entry(d)) % (2 * d);
        }
        tableau
    }

    /// A sound tableau, by a random list of so many rows.
    pub fn sound_tableau(&mut self, count: usize, d: i64, n: usize) -> Tableau {
        let rows = self.rows(count, d, n);
        self.moved_tableau(&rows, d, n)
    }

    /// The same with enough rows that most entries are not 0.
    pub fn dense_tableau(&mut self, d: i64, n: usize) -> Tableau {
        self.sound_tableau(dense_rows(n), d, n)
    }

    /// The same by rows of the first six kinds.
    pub fn dense_tableau_of_six(&mut self, d: i64, n: usize) -> Tableau {
        let rows = self.rows_of_six(dense_rows(n), d, n);
        self.moved_tableau(&rows, d, n)
    }

    pub fn list_bytes(&mut self, count: usize, d: i64, n: usize) -> Vec<u8> {
        calls::bytes_of_rows(&self.rows(count, d, n))
    }
}
