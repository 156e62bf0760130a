//! Clifford operations on qudits, written from the rules (document 01, and
//! those requests of document 02 that are built) and from nothing else. It is
//! the other side of every comparison, so it stays close to the words of the
//! rules and takes no short cut for speed.
//!
//! This file has the mathematics: numbers are `i64` and always reduced.
//! `load` has the lists made of a seed, `calls` the fourteen public calls on
//! bytes, `text` the text program, `random` the seeded inputs.

pub mod calls;
pub mod load;
pub mod random;
pub mod text;

#[cfg(test)]
mod tests;

// ---------------------------------------------------------------- arithmetic

pub fn gcd(a: i64, b: i64) -> i64 {
    if b == 0 {
        a
    } else {
        gcd(b, a % b)
    }
}

pub fn is_unit(q: i64, d: i64) -> bool {
    gcd(q, d) == 1
}

/// The greatest common divisor g of q and d, and a u with u·q = g modulo d, by
/// Euclid's algorithm: `x` and `y` keep x·q = a and y·q = b modulo d.
fn euclid(q: i64, d: i64) -> (i64, i64) {
    let (mut a, mut b) = (d, q);
    let (mut x, mut y) = (0, 1);
    while b != 0 {
        let times = a / b;
        (a, b) = (b, a - times * b);
        (x, y) = (y, x - times * y);
    }
    (a, x)
}

/// The inverse of a unit q modulo d.
pub fn inverse_of_unit(q: i64, d: i64) -> i64 {
    let (g, u) = euclid(q, d);
    assert_eq!(g, 1, "{q} is not a unit modulo {d}");
    u.rem_euclid(d)
}

/// The first c, counted from 0, with c·a = b modulo d. There is one where
/// gcd(a, d) divides b, and it is below d / gcd(a, d).
pub fn quotient(a: i64, b: i64, d: i64) -> i64 {
    let (g, u) = euclid(a, d);
    assert_eq!(b % g, 0, "{b} is no multiple of {a} modulo {d}");
    (b / g * u).rem_euclid(d / g)
}

/// The m nearest zero with gcd(a + m·b, d) = gcd(gcd(a, b), d), the first of 0,
/// 1, −1, 2, −2 and on, as a residue.
pub fn least_multiplier(a: i64, b: i64, d: i64) -> i64 {
    let wanted = gcd(gcd(a, b), d);
    let fits = |m: i64| gcd((a + m * b).abs(), d) == wanted;
    if fits(0) {
        return 0;
    }
    let mut m = 1;
    loop {
        if fits(m) {
            return m;
        }
        if fits(-m) {
            return d - m;
        }
        m += 1;
    }
}

fn dot(a: &[i64], b: &[i64]) -> i64 {
    a.iter().zip(b).map(|(x, y)| x * y).sum()
}

// -------------------------------------------------------------------- Paulis

/// A phase modulo 2d, and for each qudit a residue v and a residue w modulo d.
#[derive(Clone, Debug, PartialEq, Eq)]
pub struct Pauli {
    pub phase: i64,
    pub v: Vec<i64>,
    pub w: Vec<i64>,
}

impl Pauli {
    pub fn zero(n: usize) -> Pauli {
        Pauli {
            phase: 0,
            v: vec![0; n],
            w: vec![0; n],
        }
    }

    /// Unit Pauli j, for j from 1 to 2n.
    pub fn unit(n: usize, j: usize) -> Pauli {
        let mut p = Pauli::zero(n);
        if j <= n {
            p.v[j - 1] = 1;
        } else {
            p.w[j - n - 1] = 1;
        }
        p
    }

    pub fn in_range(&self, d: i64) -> bool {
        self.phase < 2 * d && self.entries().all(|x| x < d)
    }

    /// v1 to vn, then w1 to wn.
    pub fn entries(&self) -> impl Iterator<Item = i64> + '_ {
        self.v.iter().chain(&self.w).copied()
    }

    pub fn product(&self, other: &Pauli, d: i64) -> Pauli {
        let add = |a: &[i64], b: &[i64]| a.iter().zip(b).map(|(x, y)| (x + y) % d).collect();
        Pauli {
            phase: (self.phase + other.phase + 2 * dot(&self.w, &other.v)) % (2 * d),
            v: add(&self.v, &other.v),
            w: add(&self.w, &other.w),
        }
    }

    /// The product of k copies. Each pair of copies adds 2·(w·v) to the phase,
    /// and there are k(k − 1)/2 pairs. The unit tests hold this against
    /// multiplying the copies one by one.
    pub fn power(&self, k: i64, d: i64) -> Pauli {
        let pairs_twice = k * (k - 1);
        Pauli {
            phase: (k * self.phase + pairs_twice * dot(&self.w, &self.v)) % (2 * d),
            v: self.v.iter().map(|x| k * x % d).collect(),
            w: self.w.iter().map(|x| k * x % d).collect(),
        }
    }

    pub fn commutation(&self, other: &Pauli, d: i64) -> i64 {
        (dot(&self.w, &other.v) - dot(&self.v, &other.w)).rem_euclid(d)
    }

    /// The support word, which has bit i − 1 for qudit i, and the number of
    /// qudits touched.
    pub fn support(&self) -> (i64, i64) {
        let (mut word, mut touched) = (0, 0);
        for i in 0..self.v.len() {
            if self.v[i] != 0 || self.w[i] != 0 {
                word += 1 << i;
                touched += 1;
            }
        }
        (word, touched)
    }
}

// ----------------------------------------------------------------- gate rows

pub const F: u16 = 1;
pub const S: u16 = 2;
pub const A: u16 = 3;
pub const M: u16 = 4;
pub const X: u16 = 5;
pub const Z: u16 = 6;
pub const C: u16 = 7;
pub const W: u16 = 8;

/// Whether rows of a kind have a second qudit.
pub fn takes_two(kind: u16) -> bool {
    matches!(kind, A | C | W)
}

#[derive(Clone, Copy, Debug, PartialEq, Eq)]
pub struct Row {
    pub kind: u16,
    pub first: u16,
    pub second: u16,
    pub power: u16,
}

impl Row {
    pub fn is_legal(&self, d: i64, n: usize) -> bool {
        let power = self.power as i64;
        let power_is_legal = match self.kind {
            F => (1..=3).contains(&power),
            S => (1..=2 * d - 1).contains(&power),
            A | X | Z | C => (1..=d - 1).contains(&power),
            M => (1..=d - 1).contains(&power) && is_unit(power, d),
            W => power == 1,
            _ => return false,
        };
        let is_qudit = |q: u16| 1 <= q && q as usize <= n;
        let second_is_legal = match takes_two(self.kind) {
            true => is_qudit(self.second) && self.second != self.first,
            false => self.second == 0,
        };
        power_is_legal && is_qudit(self.first) && second_is_legal
    }

    /// What a legal row makes of a Pauli.
    pub fn apply(&self, p: &mut Pauli, d: i64) {
        let k = self.power as i64;
        let i = self.first as usize - 1;
        match self.kind {
            F => {
                for _ in 0..k {
                    p.phase -= 2 * p.v[i] * p.w[i];
                    (p.v[i], p.w[i]) = ((-p.w[i]).rem_euclid(d), p.v[i]);
                }
            }
            S => {
                p.phase += k * p.v[i] * (p.v[i] + d);
                p.w[i] += k * p.v[i];
            }
            A => {
                let j = self.second as usize - 1;
                p.v[j] = (p.v[j] + k * p.v[i]).rem_euclid(d);
                p.w[i] -= k * p.w[j];
            }
            M => {
                p.v[i] *= k;
                p.w[i] *= inverse_of_unit(k, d);
            }
            X => p.phase -= 2 * k * p.w[i],
            Z => p.phase += 2 * k * p.v[i],
            C => {
                let j = self.second as usize - 1;
                p.phase += 2 * k * p.v[i] * p.v[j];
                p.w[j] = (p.w[j] + k * p.v[i]).rem_euclid(d);
                p.w[i] += k * p.v[j];
            }
            W => {
                let j = self.second as usize - 1;
                p.v.swap(i, j);
                p.w.swap(i, j);
            }
            _ => unreachable!("the row is legal"),
        }
        p.phase = p.phase.rem_euclid(2 * d);
        p.v[i] = p.v[i].rem_euclid(d);
        p.w[i] = p.w[i].rem_euclid(d);
    }

    /// The qudits that a legal row uses: its first, and its second where its kind
    /// takes two.
    pub fn qudits(&self) -> impl Iterator<Item = usize> + Clone {
        let second = takes_two(self.kind).then_some(self.second as usize);
        std::iter::once(self.first as usize).chain(second)
    }

    /// Whether a legal row carries every Pauli to itself.
    pub fn is_idle(&self, d: i64) -> bool {
        let power = self.power as i64;
        match self.kind {
            F => power == 2 && d == 2,
            S => power == d && d % 2 == 1,
            M => power == 1,
            _ => false,
        }
    }

    /// The legal row that undoes this one.
    pub fn undo(&self, d: i64) -> Row {
        let k = self.power as i64;
        let power = match self.kind {
            F => 4 - k,
            S => 2 * d - k,
            M => inverse_of_unit(k, d),
            W => 1,
            _ => d - k,
        };
        Row {
            power: power as u16,
            ..*self
        }
    }

    /// Whether a row may stand in a list written by document 002: it is legal as
    /// it is written, and it isn't S.
    pub fn is_legal_by_002(&self, d: i64, n: usize) -> bool {
        self.kind != S && self.is_legal(d, n)
    }

    /// The row here that does what such a row means in document 002.
    pub fn from_002(&self, d: i64) -> Row {
        let k = self.power as i64;
        let power = match self.kind {
            A | X => d - k,
            M => inverse_of_unit(k, d),
            _ => k,
        };
        Row {
            power: power as u16,
            ..*self
        }
    }
}

/// What a list makes of a Pauli: the first row acts first.
pub fn run(rows: &[Row], p: &Pauli, d: i64) -> Pauli {
    let mut p = p.clone();
    for row in rows {
        row.apply(&mut p, d);
    }
    p
}

/// The ticks of a list of legal rows: each row starts in the first tick after the
/// last one used by any of its qudits. The highest tick used, 0 for the empty
/// list.
pub fn ticks(rows: &[Row], n: usize) -> i64 {
    let mut last_used = vec![0; n + 1];
    let mut highest = 0;
    for row in rows {
        let last = row.qudits().map(|q| last_used[q]).max().unwrap();
        row.qudits().for_each(|q| last_used[q] = last + 1);
        highest = highest.max(last + 1);
    }
    highest
}

// ------------------------------------------------------------------ tableaus

/// 2n columns, each a Pauli.
pub type Tableau = Vec<Pauli>;

pub fn unit_tableau(n: usize) -> Tableau {
    (1..=2 * n).map(|j| Pauli::unit(n, j)).collect()
}

pub fn tableau_of_list(rows: &[Row], d: i64, n: usize) -> Tableau {
    unit_tableau(n)
        .iter()
        .map(|unit| run(rows, unit, d))
        .collect()
}

/// The phase alone, times column 1 to the power v1, and so on to column 2n to
/// the power wn.
pub fn image(tableau: &[Pauli], p: &Pauli, d: i64) -> Pauli {
    let mut result = Pauli {
        phase: p.phase,
        ..Pauli::zero(p.v.len())
    };
    for (column, power) in tableau.iter().zip(p.entries()) {
        result = result.product(&column.power(power, d), d);
    }
    result
}

/// First tableau, then second.
pub fn compose(first: &[Pauli], second: &[Pauli], d: i64) -> Tableau {
    first
        .iter()
        .map(|column| image(second, column, d))
        .collect()
}

pub fn pairing_holds(tableau: &[Pauli], d: i64) -> bool {
    let n = tableau.len() / 2;
    (0..2 * n).all(|j| {
        (j + 1..2 * n).all(|k| {
            let wanted = if k == j + n { d - 1 } else { 0 };
            tableau[j].commutation(&tableau[k], d) == wanted
        })
    })
}

pub fn parity_holds(tableau: &[Pauli], d: i64) -> bool {
    tableau
        .iter()
        .all(|column| (column.phase + (d - 1) * dot(&column.w, &column.v)) % 2 == 0)
}

/// The tableau that undoes a sound one.
///
/// Column k is the Pauli whose image is unit Pauli k. Write the entries of
/// that unit as a combination of the columns. The commutation numbers with
/// the columns read off its coefficients, since by pairing each column fails
/// to commute with its partner alone: column j with column n + j has −1. Those
/// coefficients are the entries sought, and the phase is what cancels the
/// phase of their image.
pub fn inverse(tableau: &[Pauli], d: i64) -> Tableau {
    let n = tableau.len() / 2;
    unit_tableau(n)
        .iter()
        .map(|unit| {
            let with = |column: usize| unit.commutation(&tableau[column], d);
            let mut p = Pauli::zero(n);
            for j in 0..n {
                p.v[j] = (-with(n + j)).rem_euclid(d);
                p.w[j] = with(j);
            }
            p.phase = (-image(tableau, &p, d).phase).rem_euclid(2 * d);
            p
        })
        .collect()
}

// ----------------------------------------------------------------- synthesis

/// Brings the columns to the unit Paulis row by row and keeps what undoes it.
struct Reduction {
    d: i64,
    columns: Tableau,
    undone: Vec<Row>,
}

impl Reduction {
    fn v(&self, column: usize, qudit: usize) -> i64 {
        self.columns[column].v[qudit - 1]
    }

    fn w(&self, column: usize, qudit: usize) -> i64 {
        self.columns[column].w[qudit - 1]
    }

    /// Applies a row to all columns. The power may be any number; one that
    /// does nothing makes no row.
    fn row(&mut self, kind: u16, first: usize, second: usize, power: i64) {
        let order = match kind {
            F => 4,
            S => 2 * self.d,
            _ => self.d,
        };
        let power = power.rem_euclid(order);
        if power == 0 || (kind == M && power == 1) {
            return;
        }
        let row = Row {
            kind,
            first: first as u16,
            second: second as u16,
            power: power as u16,
        };
        for column in &mut self.columns {
            row.apply(column, self.d);
        }
        self.undone.push(row.undo(self.d));
    }

    /// Adds k·v to w at a qudit. S does so with power k and with power k + d;
    /// the one nearer to 0 modulo 2d is used.
    fn shear(&mut self, qudit: usize, k: i64) {
        let k = k.rem_euclid(self.d);
        if k != 0 {
            let power = if 2 * k < self.d { k } else { k + self.d };
            self.row(S, qudit, 0, power);
        }
    }

    /// Makes w of a column 0 at a qudit. One S does it where gcd(v, d) divides
    /// w. Elsewhere w first becomes a number whose divisor shared with d
    /// divides v, and changes places with v up to a sign, by the power of F
    /// that leaves the lower v.
    fn straighten(&mut self, column: usize, qudit: usize) {
        let d = self.d;
        let (v, w) = (self.v(column, qudit), self.w(column, qudit));
        if w % gcd(v, d) != 0 {
            self.shear(qudit, least_multiplier(w, v, d));
            let w = self.w(column, qudit);
            self.row(F, qudit, 0, if d < 2 * w { 1 } else { 3 });
        }
        let (v, w) = (self.v(column, qudit), self.w(column, qudit));
        self.shear(qudit, quotient(v, -w, d));
    }

    /// Makes columns t and n + t the unit Paulis t and n + t up to phase.
    fn stage(&mut self, t: usize) {
        let (d, n) = (self.d, self.columns.len() / 2);
        let (a, b) = (t - 1, n + t - 1);
        let later = t + 1..=n;

        // a: clear its w, then gather the common divisor of its v at qudit t.
        // By pairing that is a unit.
        for j in t..=n {
            self.straighten(a, j);
        }
        for j in later.clone() {
            let m = least_multiplier(self.v(a, t), self.v(a, j), d);
            self.row(A, j, t, m);
        }
        self.row(M, t, 0, inverse_of_unit(self.v(a, t), d));
        // That made v of qudit t 1. Clear the other v with it.
        for j in later.clone() {
            self.row(A, t, j, -self.v(a, j));
        }

        // b: pairing with a makes its w of qudit t 1. Clear the later w, with
        // that 1 where every later v is 0, else qudit by qudit. These rows
        // keep a.
        if later.clone().all(|j| self.v(b, j) == 0) {
            for j in later.clone() {
                self.row(A, j, t, self.w(b, j));
            }
        } else {
            for j in later.clone() {
                self.straighten(b, j);
            }
        }
        // If a v is left, exchange, so that v of qudit t is −1, clear the rest
        // with it, and exchange back.
        if (t..=n).any(|j| self.v(b, j) != 0) {
            self.row(F, t, 0, 1);
            for j in later {
                self.row(A, t, j, self.v(b, j));
            }
            self.shear(t, self.w(b, t));
            self.row(F, t, 0, 3);
        }
    }
}

/// A list whose tableau is the given sound one.
///
/// Stage t makes columns t and n + t the unit Paulis t and n + t up to phase,
/// by rows on qudit t and later ones. The columns made before are zero there,
/// so they stay. No entry need be a unit at the start: the least multiplier
/// gathers the common divisor of the entries of column t, and pairing makes
/// that a unit. Columns that are unit Paulis up to phase take no row, so the
/// identity has the empty list.
///
/// To straighten takes at most three rows; for prime d it takes one, F where v
/// is 0 and S elsewhere. So with m qudits after t a stage makes at most 9m + 7
/// rows, for prime d 5m + 5, with at most three A rows between t and each of
/// the m. The phases take at most 2n rows, so there are at most
/// (9n² + 9n) / 2 rows in all, for prime d (5n² + 9n) / 2.
pub fn synthesis(tableau: &[Pauli], d: i64) -> Vec<Row> {
    let n = tableau.len() / 2;
    let mut r = Reduction {
        d,
        columns: tableau.to_vec(),
        undone: Vec::new(),
    };
    for t in 1..=n {
        r.stage(t);
    }
    // Every column is now a unit Pauli with an even phase.
    for j in 1..=n {
        r.row(Z, j, 0, -r.columns[j - 1].phase / 2);
        r.row(X, j, 0, r.columns[n + j - 1].phase / 2);
    }
    assert_eq!(r.columns, unit_tableau(n), "the tableau is sound");
    r.undone.reverse();
    r.undone
}

/// Says what a list of legal rows has that no list of synthesis has, by what
/// is proved of them. Whether it has the right tableau is another matter.
pub fn unexpected(rows: &[Row], d: i64, n: usize) -> Option<String> {
    let count = rows.len();
    if 2 * count > 9 * n * n + 9 * n {
        return Some(format!("{count} rows are more than (9n² + 9n) / 2"));
    }
    let is_prime = (2..d).all(|k| d % k != 0);
    if is_prime && 2 * count > 5 * n * n + 9 * n {
        return Some(format!("{count} rows are more than (5n² + 9n) / 2"));
    }
    if let Some(place) = rows.iter().position(|row| row.is_idle(d)) {
        return Some(format!("row {} does nothing", place + 1));
    }
    let mut between = vec![0; (n + 1) * (n + 1)];
    for row in rows.iter().filter(|row| row.kind == A) {
        let low = row.first.min(row.second) as usize;
        let high = row.first.max(row.second) as usize;
        let met = &mut between[low * (n + 1) + high];
        *met += 1;
        if *met > 3 {
            return Some(format!("more than 3 A rows between {low} and {high}"));
        }
    }
    None
}
