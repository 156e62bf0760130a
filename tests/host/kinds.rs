//! Rows of each kind: which are legal, and what those of kinds C and W do, by
//! themselves and by rows of other kinds.

use super::{dimension, drawn_list, Case, Host};
use library::Name;
use reference::calls::{self, Answer};
use reference::random::Random;
use reference::{Pauli, Row, A, C, F, M, S, W};

const LETTERS: [&str; 8] = ["F", "S", "A", "M", "X", "Z", "C", "W"];

pub fn row(kind: u16, first: u16, second: u16, power: u16) -> Row {
    Row {
        kind,
        first,
        second,
        power,
    }
}

/// Numbers about a limit, and some that are far from it.
fn edges(limits: &[u16]) -> Vec<u16> {
    let mut found = vec![0, 1, 2, 256 + 1, u16::MAX];
    for &limit in limits {
        found.extend([limit - 1, limit, limit + 1]);
    }
    found.sort();
    found.dedup();
    found
}

/// The calls that take a list, with this one.
fn calls_with(rows: &[Row], p: &Pauli, d: u16, n: u16) -> [Case; 3] {
    let list = calls::bytes_of_rows(rows);
    [
        Case::new(Name::Run, d, n, list.clone(), calls::bytes_of_pauli(p)),
        Case::new(Name::Tableau, d, n, list.clone(), vec![]),
        Case::new(Name::Ticks, d, n, list, vec![]),
    ]
}

/// One row with every choice of its numbers at the edges, of kinds that there are
/// and of others, alone or between rows that are legal.
pub fn every_edge(host: &mut Host, seed: u64) {
    const DIMENSIONS: [u16; 5] = [2, 3, 6, 257, 1024];
    const WIDTHS: [u16; 4] = [1, 2, 3, 16];
    let others = [0, 9, 10, 256 + A, 256 + C, 256 + W, u16::MAX];
    let kinds: Vec<u16> = (1..=W).chain(others).collect();
    let mut counts = vec![[0_u64; 2]; kinds.len()];
    for (d, n) in DIMENSIONS.iter().flat_map(|&d| WIDTHS.map(|n| (d, n))) {
        let random = &mut Random::new(seed, (d as u64) << 16 | n as u64);
        let (dim, wide) = (d as i64, n as usize);
        let (qudits, powers) = (edges(&[n]), edges(&[4, d / 2 + 1, d, 2 * d]));
        for (k, &kind) in kinds.iter().enumerate() {
            for (&first, &second) in qudits
                .iter()
                .flat_map(|first| qudits.iter().map(move |second| (first, second)))
            {
                for &power in &powers {
                    let mut rows = vec![row(kind, first, second, power)];
                    if random.one_in(4) {
                        rows.insert(0, random.row(dim, wide));
                        rows.push(random.row(dim, wide));
                    }
                    let p = random.pauli(dim, wide);
                    let mut numbers = vec![];
                    for case in calls_with(&rows, &p, d, n) {
                        numbers.push(host.compare(&case.filled(random)).0.number);
                    }
                    let number = numbers[0];
                    assert!(numbers.iter().all(|&other| other == number), "{rows:?}");
                    assert!(number == 0 || number == calls::ROW, "{rows:?}");
                    counts[k][(number != 0) as usize] += 1;
                }
            }
        }
    }
    println!("\n| kind | letter | rows taken | rows refused |");
    println!("|---|---|---|---|");
    for (&kind, [taken, refused]) in kinds.iter().zip(counts) {
        let letter = LETTERS.get(kind.wrapping_sub(1) as usize).unwrap_or(&"-");
        println!("| {kind} | {letter} | {taken} | {refused} |");
        assert!(refused > 0 && (taken > 0) == (1..=W).contains(&kind));
    }
    println!(
        "\nrun, tableau and ticks: d in {DIMENSIONS:?}, n in {WIDTHS:?}, numbers at the edges"
    );
}

/// Every legal row for small d and n: run on Paulis, its tableau, its ticks, and
/// synthesis of its tableau.
pub fn every_legal_row(host: &mut Host, seed: u64) {
    let mut count = [0_u64; 9];
    for (d, n) in (2..=9_u16).flat_map(|d| (1..=3_u16).map(move |n| (d, n))) {
        let random = &mut Random::new(seed, (d as u64) << 16 | n as u64);
        let (dim, wide) = (d as i64, n as usize);
        for kind in 1..=W {
            let most = if kind == S { 2 * d } else { d.max(4) };
            for (first, second) in (1..=n).flat_map(|i| (0..=n).map(move |j| (i, j))) {
                for power in 1..most {
                    let row = row(kind, first, second, power);
                    if !row.is_legal(dim, wide) {
                        continue;
                    }
                    let p = random.pauli(dim, wide);
                    let [run, tableau, ticks] = calls_with(&[row], &p, d, n);
                    host.compare(&run.filled(random));
                    let columns = host.compare(&tableau.filled(random)).1;
                    expect_value(host, &ticks, 1);
                    let case = Case::new(Name::Synthesis, d, n, columns, vec![]);
                    host.compare(&case.filled(random));
                    count[kind as usize] += 1;
                }
            }
        }
    }
    let counts: Vec<String> = LETTERS
        .iter()
        .zip(&count[1..])
        .map(|(letter, count)| format!("{letter} {count}"))
        .collect();
    println!(
        "rows: all legal ones for d from 2 to 9, n from 1 to 3: {}",
        counts.join(", ")
    );
}

fn expect_value(host: &mut Host, case: &Case, value: u16) {
    let wanted = Answer { number: 0, value };
    assert_eq!(host.compare(case).0, wanted, "{}", case.describe());
}

/// What the library makes of a Pauli by a list.
pub fn run(host: &mut Host, rows: &[Row], p: &Pauli, d: u16) -> Pauli {
    let [case, ..] = calls_with(rows, p, d, p.v.len() as u16);
    let (given, out) = host.compare(&case);
    assert_eq!(given.number, 0, "{}", case.describe());
    calls::pauli_of_bytes(&out)
}

/// The library's tableau of a list.
pub fn tableau(host: &mut Host, rows: &[Row], d: u16, n: u16) -> Vec<u8> {
    let [_, case, _] = calls_with(rows, &Pauli::zero(n as usize), d, n);
    let (given, out) = host.compare(&case);
    assert_eq!(given.number, 0, "{}", case.describe());
    out
}

/// Two different qudits.
fn pair(n: u16, random: &mut Random) -> (u16, u16) {
    let first = random.between(1, n as usize) as u16;
    let step = random.between(1, n as usize - 1) as u16;
    (first, (first - 1 + step) % n + 1)
}

/// C and W do what document 002's (12) and (9) say by rows of other kinds; W twice
/// is nothing, and so is C with what undoes it; either qudit may come first.
pub fn rows_by_other_rows(host: &mut Host, seed: u64) {
    const ROUNDS: u64 = 2000;
    for index in 0..ROUNDS {
        let random = &mut Random::new(seed, index);
        let (d, n) = (dimension(random), random.between(2, 16) as u16);
        let (i, j) = pair(n, random);
        let k = random.between(1, d as usize - 1) as u16;
        let c = [row(C, i, j, k)];
        let w = [row(W, i, j, 1)];
        let twelve = [row(F, j, 0, 1), row(A, i, j, d - k), row(F, j, 0, 3)];
        let nine = [
            row(F, i, 0, 2),
            row(A, i, j, d - 1),
            row(A, j, i, 1),
            row(A, i, j, d - 1),
        ];
        let p = random.pauli(d as i64, n as usize);
        for (rows, others) in [
            (&c[..], &twelve[..]),
            (&c, &[row(C, j, i, k)]),
            (&w, &nine),
            (&w, &[row(W, j, i, 1)]),
            (&[w[0], w[0]], &[]),
            (&[c[0], row(C, i, j, d - k)], &[]),
        ] {
            let told = format!("d = {d}, {rows:?} and {others:?}");
            assert_eq!(run(host, rows, &p, d), run(host, others, &p, d), "{told}");
            assert_eq!(
                tableau(host, rows, d, n),
                tableau(host, others, d, n),
                "{told}"
            );
        }
    }
    println!("rows: C and W by rows of other kinds, {ROUNDS} rounds of run and tableau");
}

/// Lists of all kinds keep products and commutation numbers; a list and what undoes
/// its rows, the last first, is nothing; the image under its tableau is what it
/// makes of a Pauli.
pub fn laws_of_lists(host: &mut Host, seed: u64) {
    const LISTS: u64 = 2000;
    for index in 0..LISTS {
        let random = &mut Random::new(seed, index);
        let (d, n, rows) = drawn_list(1, 1, 30, random);
        let (dim, wide) = (d as i64, n as usize);
        let (p, q) = (random.pauli(dim, wide), random.pauli(dim, wide));
        let (image, other) = (run(host, &rows, &p, d), run(host, &rows, &q, d));

        let of_product = run(host, &rows, &p.product(&q, dim), d);
        assert_eq!(image.product(&other, dim), of_product, "{rows:?}");
        let commutation = |p: &Pauli, q: &Pauli| Case::of_paulis(Name::Commutation, d, n, &[p, q]);
        let before = host.compare(&commutation(&p, &q)).0;
        assert_eq!(host.compare(&commutation(&image, &other)).0, before);

        let mut both = rows.clone();
        both.extend(rows.iter().rev().map(|row| row.undo(dim)));
        assert_eq!(run(host, &both, &p, d), p, "{rows:?}");
        let units = calls::bytes_of_tableau(&reference::unit_tableau(wide));
        assert_eq!(tableau(host, &both, d, n), units, "{rows:?}");

        let columns = tableau(host, &rows, d, n);
        let bytes = calls::bytes_of_pauli(&p);
        let case = Case::new(Name::Image, d, n, columns, bytes).filled(random);
        let by_image = host.compare(&case).1;
        assert_eq!(by_image, calls::bytes_of_pauli(&image), "{rows:?}");
    }
    println!("rows: {LISTS} lists of all kinds by the laws");
}

/// An M row between C and W rows is taken exactly where its power is a unit.
pub fn units_between(host: &mut Host) {
    let mut refused = 0;
    for d in 2..=64_u16 {
        for power in 1..d {
            let rows = [row(C, 1, 2, 1), row(M, 2, 0, power), row(W, 2, 1, 1)];
            let is_unit = reference::is_unit(power as i64, d as i64);
            for case in calls_with(&rows, &Pauli::unit(2, 1), d, 2) {
                let number = host.compare(&case).0.number;
                assert_eq!(number, if is_unit { 0 } else { calls::ROW }, "{rows:?}");
            }
            refused += !is_unit as usize;
        }
    }
    println!("rows: M between C and W for d from 2 to 64, {refused} powers refused");
}
