//! Lists compared by their tableaus: what storing a tableau keeps.

use super::kinds::{row, run, tableau};
use super::{drawn_list, Case, Host};
use library::Name;
use reference::calls;
use reference::random::Random;
use reference::{Pauli, Row, W};
use std::collections::HashMap;

/// Every legal row.
fn legal_rows(d: u16, n: u16) -> Vec<Row> {
    let mut rows = vec![];
    for (kind, first, second) in (1..=W)
        .flat_map(|kind| (1..=n).map(move |first| (kind, first)))
        .flat_map(|(kind, first)| (0..=n).map(move |second| (kind, first, second)))
    {
        rows.extend((1..2 * d).map(|power| row(kind, first, second, power)));
    }
    rows.retain(|row| row.is_legal(d as i64, n as usize));
    rows
}

/// Every Pauli in range.
fn every_pauli(d: i64, n: usize) -> Vec<Pauli> {
    let mut paulis = vec![];
    for mut code in 0..2 * d * d.pow(2 * n as u32) {
        let mut digit = |base| {
            let digit = code % base;
            code /= base;
            digit
        };
        let mut p = Pauli::zero(n);
        p.phase = digit(2 * d);
        p.v.iter_mut().chain(&mut p.w).for_each(|x| *x = digit(d));
        paulis.push(p);
    }
    paulis
}

/// Of all lists of up to two rows: two have equal tableaus exactly when they carry
/// every Pauli alike.
pub fn every_short_list(host: &mut Host) {
    const SHORT: [(u16, u16); 4] = [(2, 1), (3, 1), (4, 1), (2, 2)];
    for (d, n) in SHORT {
        let (rows, paulis) = (legal_rows(d, n), every_pauli(d as i64, n as usize));
        let mut lists = vec![vec![]];
        lists.extend(rows.iter().map(|&row| vec![row]));
        for &first in &rows {
            lists.extend(rows.iter().map(|&second| vec![first, second]));
        }
        let (mut by_tableau, mut by_images) = (HashMap::new(), HashMap::new());
        for list in &lists {
            let columns = tableau(host, list, d, n);
            let images: Vec<u8> = paulis
                .iter()
                .flat_map(|p| calls::bytes_of_pauli(&run(host, list, p, d)))
                .collect();
            let seen = by_tableau.entry(columns.clone()).or_insert(images.clone());
            assert_eq!(*seen, images, "one tableau, other images: {list:?}");
            let seen = by_images.entry(images).or_insert(columns.clone());
            assert_eq!(
                *seen, columns,
                "one set of images, another tableau: {list:?}"
            );
        }
        assert!(
            by_tableau.len() < lists.len(),
            "no two lists have one tableau"
        );
        println!(
            "comparing: d = {d}, n = {n}, {} lists have {} tableaus, each with its own images",
            lists.len(),
            by_tableau.len()
        );
    }
}

/// Two lists with no qudit in common, put one behind the other, have one tableau and
/// carry a Pauli alike in either order. Of lists with one in common some don't.
pub fn lists_apart(host: &mut Host, seed: u64) {
    const ROUNDS: u64 = 3000;
    let mut differ = 0;
    for index in 0..ROUNDS {
        let random = &mut Random::new(seed, index);
        let (d, n, rows) = drawn_list(2, 1, 60, random);
        let ours = random.below(1 << n);
        let within = |word: usize| -> Vec<Row> {
            let of_word = |row: &&Row| row.qudits().all(|q| word >> (q - 1) & 1 == 1);
            rows.iter().filter(of_word).copied().collect()
        };
        let (xs, ys) = (within(ours), within(!ours));
        let p = random.pauli(d as i64, n as usize);
        let (there, back) = (([&xs[..], &ys]).concat(), ([&ys[..], &xs]).concat());
        assert_eq!(
            tableau(host, &there, d, n),
            tableau(host, &back, d, n),
            "d = {d}, {xs:?} and {ys:?}"
        );
        assert_eq!(run(host, &there, &p, d), run(host, &back, &p, d));

        let (front, end) = rows.split_at(rows.len() / 2);
        let exchanged = [end, front].concat();
        differ += (tableau(host, &rows, d, n) != tableau(host, &exchanged, d, n)) as u64;
    }
    assert!(differ > 0, "no two lists with a qudit in common differ");
    println!("comparing: {ROUNDS} pairs of lists with no qudit in common, and {differ} with one that differ");
}

/// A list's tableau, stored and synthesised, gives a list with this tableau that
/// carries a Pauli alike.
pub fn lists_restored(host: &mut Host, seed: u64) {
    const LISTS: u64 = 2000;
    for index in 0..LISTS {
        let random = &mut Random::new(seed, index);
        let (d, n, rows) = drawn_list(1, 0, 40, random);
        let stored = tableau(host, &rows, d, n);
        let case = Case::new(Name::Synthesis, d, n, stored.clone(), vec![]).filled(random);
        let (answer, out) = host.compare(&case);
        assert_eq!(answer.number, 0, "{rows:?}");
        let restored = calls::rows_of_bytes(&out[..calls::ROW_LEN * answer.value as usize]);
        assert_eq!(tableau(host, &restored, d, n), stored, "{rows:?}");
        let p = random.pauli(d as i64, n as usize);
        assert_eq!(
            run(host, &restored, &p, d),
            run(host, &rows, &p, d),
            "{rows:?}"
        );
    }
    println!("comparing: {LISTS} lists whose tableaus were stored and synthesised");
}
