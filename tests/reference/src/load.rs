//! The repeatable load: the list that d, n, a seed and a number of rows make.

use crate::{is_unit, Row, A, F, M, S};

/// The draws of a seed. The rule has them without a multiplication, so they are
/// not those of `random`.
pub struct Draws(u64);

impl Draws {
    pub fn new(seed: u64) -> Draws {
        Draws(seed)
    }

    pub fn next(&mut self) -> u64 {
        self.0 = self.0.wrapping_add(0x9e37_79b9_7f4a_7c15);
        let s = self.0;
        let t = s ^ (s >> 30);
        let t = t ^ (t << 27);
        t ^ (t >> 31)
    }
}

/// A number from 1 to limit.
fn up_to(limit: i64, draw: u64) -> i64 {
    1 + (draw % limit as u64) as i64
}

fn highest_power(kind: u16, d: i64) -> i64 {
    match kind {
        F => 3,
        S => 2 * d - 1,
        _ => d - 1,
    }
}

fn row(draws: [u64; 4], d: i64, n: i64) -> Row {
    let mut kind = up_to(6, draws[0]) as u16;
    if n == 1 && kind == A {
        kind = F;
    }
    let first = up_to(n, draws[1]);
    let mut second = 0;
    if kind == A {
        second = up_to(n - 1, draws[2]);
        if second >= first {
            second += 1;
        }
    }
    let mut power = up_to(highest_power(kind, d), draws[3]);
    // This ends: d − 1 is a unit.
    while kind == M && !is_unit(power, d) {
        power += 1;
    }
    Row {
        kind,
        first: first as u16,
        second: second as u16,
        power: power as u16,
    }
}

pub fn rows(d: i64, n: usize, seed: u64, count: usize) -> Vec<Row> {
    let mut draws = Draws::new(seed);
    (0..count)
        .map(|_| row([(); 4].map(|_| draws.next()), d, n as i64))
        .collect()
}
