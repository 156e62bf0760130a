//! Ticks of lists whose rows overlap.

use super::{drawn_list, Case, Host};
use library::Name;
use reference::calls;
use reference::random::Random;
use reference::{Row, A, C, F, W};

fn ticks_of(rows: &[Row], d: u16, n: u16) -> Case {
    Case::new(Name::Ticks, d, n, calls::bytes_of_rows(rows), vec![])
}

/// F on each qudit, and A, C and W from each qudit to each other one.
fn simple_rows(n: u16) -> Vec<Row> {
    let mut rows = vec![];
    for first in 1..=n {
        for second in (0..=n).filter(|&second| second != first) {
            let kinds = if second == 0 { &[F][..] } else { &[A, C, W] };
            rows.extend(kinds.iter().map(|&kind| Row {
                kind,
                first,
                second,
                power: 1,
            }));
        }
    }
    rows
}

/// Ticks of all lists of up to so many of these rows.
pub fn every_short_list(host: &mut Host) {
    const SHORT: [(u16, u32); 4] = [(1, 6), (2, 6), (3, 4), (4, 3)];
    for (n, most) in SHORT {
        let rows = simple_rows(n);
        for count in 0..=most {
            for code in 0..rows.len().pow(count) {
                let digit = |place| code / rows.len().pow(place) % rows.len();
                let list: Vec<Row> = (0..count).map(|place| rows[digit(place)]).collect();
                host.compare(&ticks_of(&list, 2, n));
            }
        }
    }
    println!("ticks: all lists of F, A, C and W rows, for n and the most rows in {SHORT:?}");
}

/// Stops unless the list has so many ticks.
fn has_ticks(host: &mut Host, rows: &[Row], d: u16, n: u16, wanted: usize) {
    let case = ticks_of(rows, d, n);
    let (answer, _) = host.compare(&case);
    if answer.number != 0 || answer.value as usize != wanted {
        println!("{wanted} ticks expected: {answer:?}\n{}", case.describe());
        std::process::exit(1);
    }
}

/// The laws: rows on separate qudits take 1 tick, rows that share a qudit one
/// each; no list takes more ticks than rows, nor fewer than any qudit has rows,
/// nor more than two parts of it one after the other.
pub fn laws_of_ticks(host: &mut Host, seed: u64) {
    const LISTS: u64 = 4000;
    for index in 0..LISTS {
        let random = &mut Random::new(seed, index);
        let (d, n, rows) = drawn_list(1, 1, 60, random);
        let (wide, count) = (n as usize, rows.len());

        let mut free = vec![true; wide + 1];
        let mut separate = rows.clone();
        separate.retain(|row| {
            let keep = row.qudits().all(|q| free[q]);
            if keep {
                row.qudits().for_each(|q| free[q] = false);
            }
            keep
        });
        has_ticks(host, &separate, d, n, 1);

        let shared = rows[0].first as usize;
        let mut on_one = rows.clone();
        on_one.retain(|row| row.qudits().any(|q| q == shared));
        has_ticks(host, &on_one, d, n, on_one.len());

        let mut ticks = |rows: &[Row]| host.compare(&ticks_of(rows, d, n)).0.value as usize;
        let (whole, cut) = (ticks(&rows), random.between(0, count));
        let (front, back) = rows.split_at(cut);
        let busiest = (1..=wide)
            .map(|q| {
                rows.iter()
                    .filter(|row| row.qudits().any(|p| p == q))
                    .count()
            })
            .max();
        assert!(busiest.unwrap() <= whole && whole <= count, "{rows:?}");
        assert!(whole <= ticks(front) + ticks(back), "{rows:?} cut at {cut}");
    }
    println!("ticks: {LISTS} random lists by the laws");
}

/// The longest lists: on one qudit, on 16 in turn, and drawn.
pub fn longest_lists(host: &mut Host, seed: u64) {
    let on = |first: usize| Row {
        kind: F,
        first: first as u16,
        second: 0,
        power: 1,
    };
    for n in 1..=16 {
        let rows: Vec<Row> = (0..calls::MOST_ROWS).map(|r| on(1 + r % n)).collect();
        has_ticks(host, &rows, 2, n as u16, calls::MOST_ROWS.div_ceil(n));
        let rows = Random::new(seed, n as u64).rows(calls::MOST_ROWS, 6, n);
        host.compare(&ticks_of(&rows, 6, n as u16));
    }
    println!(
        "ticks: lists of {} rows for n from 1 to 16",
        calls::MOST_ROWS
    );
}
