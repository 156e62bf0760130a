//! The examples of the document, then facts that hold of every right
//! implementation and would not hold of most wrong ones.

use crate::calls;
use crate::random::{Random, DIMENSIONS};
use crate::*;

fn pauli(phase: i64, v: &[i64], w: &[i64]) -> Pauli {
    Pauli {
        phase,
        v: v.to_vec(),
        w: w.to_vec(),
    }
}

fn row(kind: u16, first: u16, second: u16, power: u16) -> Row {
    Row {
        kind,
        first,
        second,
        power,
    }
}

/// A file of the text program: the header, then the lines, here parted by
/// spaces.
fn file(header: &str, lines: &str) -> Vec<u8> {
    std::iter::once(header)
        .chain(lines.split_whitespace())
        .flat_map(|line| [line.as_bytes(), b"\n"].concat())
        .collect()
}

/// Synthesises a sound tableau, and sees that the list is right.
fn judged_synthesis(tableau: &[Pauli], d: i64) -> Vec<Row> {
    let n = tableau.len() / 2;
    let rows = synthesis(tableau, d);
    assert!(rows.iter().all(|row| row.is_legal(d, n)));
    assert_eq!(tableau_of_list(&rows, d, n), tableau);
    assert_eq!(unexpected(&rows, d, n), None);
    rows
}

/// 0, 7 or 8, through the public call.
fn synthesis_number(tableau: &[Pauli], d: u16) -> u16 {
    let n = tableau.len() / 2;
    let mut out = vec![0; calls::synthesis_room(n)];
    calls::synthesis(d, n as u16, &calls::bytes_of_tableau(tableau), &mut out).number
}

#[test]
fn examples_c1_to_c5() {
    let (x, z) = (pauli(0, &[1], &[0]), pauli(0, &[0], &[1]));
    assert_eq!(z.product(&x, 4), pauli(2, &[1], &[1]));
    assert_eq!(pauli(0, &[1], &[1]).power(4, 4), pauli(4, &[0], &[0]));
    assert_eq!(
        run(&[row(F, 1, 0, 1)], &pauli(0, &[1], &[1]), 4),
        pauli(6, &[3], &[1])
    );
    assert_eq!(
        run(&[row(S, 1, 0, 1)], &pauli(0, &[3], &[0]), 4),
        pauli(5, &[3], &[3])
    );
    assert_eq!(
        run(&[row(A, 1, 2, 1)], &pauli(0, &[1, 0], &[0, 1]), 3),
        pauli(0, &[1, 1], &[2, 1])
    );
}

#[test]
fn examples_c6_to_c12() {
    let columns = |h, v, w, k, s, t| [pauli(h, &[v], &[w]), pauli(k, &[s], &[t])];
    assert_eq!(
        synthesis_number(&columns(0, 1, 1, 0, 0, 1), 2),
        calls::PARITY
    );
    let c7 = columns(1, 1, 1, 0, 0, 1);
    assert_eq!(synthesis_number(&c7, 2), 0);
    assert_eq!(tableau_of_list(&[row(S, 1, 0, 3)], 2, 1), c7);
    assert_eq!(synthesis_number(&columns(0, 2, 3, 0, 3, 2), 6), 0);
    assert_eq!(
        synthesis_number(&columns(0, 2, 0, 0, 0, 1), 4),
        calls::PAIRING
    );
    assert_eq!(
        synthesis_number(&columns(1, 1, 0, 0, 0, 1), 4),
        calls::PARITY
    );
    assert_eq!(synthesis_number(&columns(2, 1, 0, 0, 0, 1), 4), 0);
    assert_eq!(least_multiplier(2, 1, 6), 5);
    assert_eq!(
        calls::least_multiplier(6, 2, 1),
        calls::Answer {
            number: 0,
            value: 5
        }
    );
    assert_eq!(
        tableau_of_list(&[row(S, 1, 0, 4)], 4, 1),
        tableau_of_list(&[row(Z, 1, 0, 2)], 4, 1)
    );
}

#[test]
fn example_of_the_text_program() {
    let input = b"L,4,2\nF,1,0,1\nA,1,2,1\nZ,2,0,3\n";
    let printed = b"T,4,2\n0,0,0,1,0\n6,0,1,0,0\n2,3,3,0,0\n0,0,0,3,1\n";
    assert_eq!(text::convert(input), printed);
    let list = text::convert(printed);
    assert!(list.starts_with(b"L,4,2\n"));
    assert_eq!(text::convert(&list), printed);
    assert!(text::is_right(printed, &list) && text::is_right(printed, input));
    assert!(!text::is_right(printed, b"L,4,2\n") && !text::is_right(printed, b"R,7\n"));
}

/// The reduction row for row. The first tableau is c8; in the last one v of
/// column n + 1 is 0 at one later qudit and not at the other.
#[test]
fn lists_found_for_tableaus() {
    for (header, columns, rows) in [
        (
            "6,1",
            "0,2,3 0,3,2",
            "Z,1,0,3 F,1,0,1 S,1,0,11 F,1,0,3 S,1,0,2 F,1,0,3 S,1,0,11",
        ),
        (
            "6,2",
            "5,1,1,5,4 4,4,3,4,4 6,4,4,5,2 5,0,3,1,5",
            "X,2,0,5 X,1,0,2 Z,1,0,1 F,2,0,1 S,2,0,3 F,2,0,3 M,2,0,5 S,2,0,2 F,1,0,1 S,1,0,2 \
             F,1,0,3 A,2,1,2 A,1,2,1 S,2,0,10 S,1,0,11",
        ),
        (
            "4,3",
            "1,3,2,1,2,2,1 7,2,1,0,3,3,3 5,2,1,0,0,1,0 5,1,1,1,1,3,1 5,2,3,1,3,1,0 4,3,3,2,2,0,0",
            "X,3,0,3 Z,2,0,3 Z,1,0,3 F,3,0,1 S,3,0,7 F,3,0,3 S,3,0,2 F,3,0,1 F,2,0,1 S,2,0,1 \
             A,2,3,3 F,2,0,3 S,3,0,2 F,3,0,1 A,2,3,1 S,3,0,2 F,3,0,3 F,1,0,1 S,1,0,1 A,1,3,2 \
             A,1,2,1 F,1,0,3 A,1,3,1 A,1,2,2 M,1,0,3 S,3,0,1 S,2,0,7 S,1,0,2",
        ),
        (
            "12,2",
            "23,5,8,3,3 9,6,1,9,3 13,7,3,11,6 15,7,2,11,4",
            "X,2,0,11 X,1,0,11 Z,1,0,10 F,2,0,1 S,2,0,21 F,2,0,3 S,2,0,6 F,1,0,1 S,1,0,1 A,1,2,7 \
             F,1,0,3 S,2,0,20 F,2,0,3 S,2,0,23 A,1,2,1 M,1,0,5 S,2,0,20 F,2,0,3 S,2,0,23 S,1,0,3",
        ),
        (
            "6,3",
            "0,0,0,0,1,0,0 1,0,1,0,4,5,0 8,0,0,1,2,0,0 2,5,2,0,0,0,4 4,0,1,0,0,0,0 4,0,0,0,0,0,1",
            "X,3,0,4 Z,3,0,4 X,2,0,4 Z,2,0,4 X,1,0,5 F,3,0,1 F,2,0,1 S,2,0,11 F,2,0,3 S,2,0,11 \
             F,1,0,1 A,1,3,4 A,1,2,4 F,1,0,3 F,3,0,3 F,1,0,1",
        ),
    ] {
        let tableau = file(&format!("T,{header}"), columns);
        let list = file(&format!("L,{header}"), rows);
        assert_eq!(text::convert(&tableau), list, "{header}");
        assert_eq!(text::convert(&list), tableau, "{header}");
    }
}

#[test]
fn lists_found_for_lists() {
    for (header, rows, found) in [
        ("L,4,2", "A,1,2,1", "A,1,2,1"),
        ("L,4,2", "A,2,1,3", "A,2,1,3"),
        ("L,4,3", "A,3,1,1 A,2,1,3", "A,3,1,1 A,2,1,3"),
        ("L,6,2", "F,2,0,1", "F,2,0,1"),
        ("L,6,2", "F,2,0,3", "F,2,0,3"),
        ("L,2,2", "S,1,0,1", "S,1,0,1"),
        ("L,6,2", "M,1,0,5", "M,1,0,5"),
        ("L,3,2", "X,2,0,2", "X,2,0,2"),
        ("L,3,2", "Z,2,0,2", "Z,2,0,2"),
        (
            "L,4,2",
            "F,1,0,1 A,1,2,1 Z,2,0,3",
            "Z,2,0,3 X,1,0,3 F,1,0,1 A,1,2,1 F,1,0,3 F,1,0,1",
        ),
    ] {
        let tableau = text::convert(&file(header, rows));
        assert_eq!(text::convert(&tableau), file(header, found), "{rows}");
    }
}

#[test]
fn the_identity_has_the_empty_list() {
    for n in [1, 2, 3, 4, 8, 16] {
        for d in DIMENSIONS {
            assert_eq!(synthesis(&unit_tableau(n), d as i64), []);
        }
    }
}

/// The idle rows are those that keep every unit Pauli, and no others.
#[test]
fn idle_rows() {
    for d in 2..=12 {
        for kind in F..=W {
            for power in 1..2 * d as u16 {
                let row = row(kind, 1, if takes_two(kind) { 2 } else { 0 }, power);
                if row.is_legal(d, 2) {
                    let keeps_all = tableau_of_list(&[row], d, 2) == unit_tableau(2);
                    assert_eq!(row.is_idle(d), keeps_all, "d = {d}, {row:?}");
                }
            }
        }
    }
}

#[test]
fn unexpected_lists() {
    let found = |rows: &[Row], d, n| unexpected(rows, d, n).is_some();
    let (f, a) = (row(F, 1, 0, 1), row(A, 1, 2, 1));
    assert!(!found(&[f; 9], 6, 1) && found(&[f; 10], 6, 1));
    assert!(!found(&[f; 7], 5, 1) && found(&[f; 8], 5, 1));
    assert!(!found(&[f; 27], 4, 2) && found(&[f; 28], 4, 2));
    assert!(!found(&[f; 19], 2, 2) && found(&[f; 20], 2, 2));
    let back = row(A, 2, 1, 1);
    assert!(!found(&[a, back, a], 3, 2) && found(&[a, back, a, back], 3, 2));
    assert!(!found(&[[a; 3], [row(A, 3, 1, 1); 3]].concat(), 3, 3));
    assert!(found(&[f, row(M, 1, 0, 1)], 3, 1) && !found(&[row(M, 1, 0, 2)], 3, 1));
}

#[test]
fn support_by_hand() {
    let gives = |d, p: &Pauli, word, touched| {
        let given = calls::support(d, p.v.len() as u16, &calls::bytes_of_pauli(p));
        let wanted = calls::Support {
            number: 0,
            word,
            touched,
        };
        assert_eq!(given, wanted, "{p:?}");
    };
    gives(6, &pauli(0, &[2, 0, 0], &[0, 0, 3]), 5, 2);
    gives(6, &pauli(11, &[5, 0, 0], &[5, 0, 5]), 5, 2);
    gives(6, &pauli(11, &[0, 1, 0], &[0, 0, 0]), 2, 1);
    gives(6, &pauli(11, &[0, 0, 0], &[0, 1, 0]), 2, 1);
    gives(6, &pauli(11, &[0, 0, 0], &[0, 0, 0]), 0, 0);
    gives(2, &pauli(3, &[1], &[1]), 1, 1);
    gives(1024, &pauli(0, &[0; 16], &[256; 16]), 65_535, 16);
    for n in 1..=16 {
        gives(2, &Pauli::zero(n), 0, 0);
        for i in 0..n {
            gives(2, &Pauli::unit(n, i + 1), 1 << i, 1);
            gives(2, &Pauli::unit(n, n + i + 1), 1 << i, 1);
        }
    }
}

/// Each refusal, and of several the first in the order of the table.
#[test]
fn support_refusals() {
    for (faults, place) in (0..16).flat_map(|faults| (0..7).map(move |place| (faults, place))) {
        let [dimension, width, length, range] = [0, 1, 2, 3].map(|bit| faults >> bit & 1 == 1);
        let d = if dimension { 1025 } else { 6 };
        let n = if width { 17 } else { 3 };
        let mut numbers: [u16; 7] = [11, 5, 0, 0, 0, 0, 5];
        if range {
            numbers[place] = if place == 0 { 12 } else { 6 };
        }
        let mut p = calls::bytes(numbers);
        if length {
            p.push(0);
        }
        let (number, word, touched) = match () {
            _ if dimension => (calls::DIMENSION, 0, 0),
            _ if width => (calls::WIDTH, 0, 0),
            _ if length => (calls::LENGTH, 0, 0),
            _ if range => (calls::RANGE, 0, 0),
            _ => (0, 5, 2),
        };
        let wanted = calls::Support {
            number,
            word,
            touched,
        };
        assert_eq!(calls::support(d, n, &p), wanted, "{numbers:?}");
    }
}

#[test]
fn paulis_touch_what_they_are_drawn_for() {
    let mut random = Random::new(6, 0);
    for _ in 0..2000 {
        let d = random.pick(&DIMENSIONS) as i64;
        let n = random.between(1, 16);
        let word = random.below(1 << n);
        let p = random.pauli_on(word, d, n);
        assert!(p.in_range(d));
        assert_eq!(p.support(), (word as i64, word.count_ones() as i64));
        let sparse = random.sparse_pauli(d, n);
        assert!(sparse.in_range(d) && sparse.support().1 <= 3);
    }
}

/// The number of a batch, and its output, which held 0xA5 in every byte.
fn images_given(d: u16, n: u16, tableau: &[u8], paulis: &[u8], room: usize) -> (u16, Vec<u8>) {
    let mut out = vec![0xA5; room];
    let number = calls::images(d, n, tableau, paulis, &mut out);
    (number, out)
}

#[test]
fn images_by_hand() {
    let rows = [row(F, 1, 0, 1), row(A, 1, 2, 1), row(Z, 2, 0, 3)];
    let tableau = calls::bytes_of_tableau(&tableau_of_list(&rows, 4, 2));
    let paulis = calls::bytes([7, 1, 2, 3, 0, 1, 3, 3, 0, 2]);
    let wanted = calls::bytes([3, 1, 3, 1, 0, 3, 0, 3, 1, 2]);
    let (number, out) = images_given(4, 2, &tableau, &paulis, 23);
    assert_eq!(
        (number, &out[..20], &out[20..]),
        (0, &wanted[..], &[0xA5; 3][..])
    );
    assert_eq!(images_given(4, 2, &tableau, &[], 0), (0, vec![]));
    let most = paulis.repeat(256);
    assert_eq!(
        images_given(4, 2, &tableau, &most, 5120),
        (0, wanted.repeat(256))
    );
}

/// The first Pauli is tested before the tableau is tested for soundness, later
/// ones after that; lengths and room before either.
#[test]
fn images_refusals() {
    let (d, n, pauli) = (6, 1, 6);
    let fits = [11, 5, 5];
    for (columns, refusal) in [
        ([0, 1, 0, 0, 0, 1], 0),
        ([0, 1, 6, 0, 0, 1], calls::RANGE),
        ([0, 0, 0, 0, 0, 1], calls::PAIRING),
        ([1, 1, 0, 0, 0, 1], calls::PARITY),
    ] {
        let tableau = calls::bytes(columns);
        let given = |d, n, tableau: &[u8], paulis: &[u8], room| {
            let (number, out) = images_given(d, n, tableau, paulis, room);
            let written = out.iter().any(|&byte| byte != 0xA5);
            assert_eq!(
                written,
                number == 0 && !paulis.is_empty(),
                "{columns:?} {paulis:?}"
            );
            number
        };
        for large in [[12, 5, 5], [11, 6, 5], [11, 5, 6]] {
            let later = if refusal == 0 { calls::RANGE } else { refusal };
            for (batch, wanted) in [
                (vec![], refusal),
                (vec![fits], refusal),
                (vec![fits, fits, fits], refusal),
                (vec![large], calls::RANGE),
                (vec![large, fits, large], calls::RANGE),
                (vec![fits, large, fits], later),
                (vec![fits, fits, large], later),
            ] {
                let paulis = calls::bytes(batch.concat());
                let room = paulis.len();
                assert_eq!(
                    given(d, n, &tableau, &paulis, room),
                    wanted,
                    "{columns:?} {batch:?}"
                );
                let broken = [&paulis[..], &[0]].concat();
                assert_eq!(given(d, n, &tableau, &broken, room), calls::LENGTH);
                assert_eq!(given(d, n, &tableau[1..], &paulis, room), calls::LENGTH);
                assert_eq!(given(d, 17, &tableau[1..], &broken, room), calls::WIDTH);
                assert_eq!(
                    given(1025, 17, &tableau[1..], &broken, room),
                    calls::DIMENSION
                );
                if room > 0 {
                    assert_eq!(given(d, n, &tableau, &paulis, room - 1), calls::ROOM);
                    assert_eq!(given(d, n, &tableau, &broken, room - 1), calls::LENGTH);
                }
            }
        }
        let paulis = calls::bytes(fits).repeat(calls::MOST_PAULIS + 1);
        let (room, most) = (paulis.len(), paulis.len() - pauli);
        assert_eq!(given(d, n, &tableau, &paulis, room), calls::LENGTH);
        assert_eq!(
            given(d, n, &tableau, &paulis[..most + 1], room),
            calls::LENGTH
        );
        assert_eq!(given(d, n, &tableau, &paulis[..most], room), refusal);
        assert_eq!(given(d, n, &tableau, &paulis[..most], pauli), calls::ROOM);
    }
}

/// The kinds of two qudits.
const OF_TWO: [u16; 3] = [A, C, W];

#[test]
fn ticks_by_hand() {
    for (qudits, wanted) in [
        (&[][..], 0),
        (&[(1, 0)], 1),
        (&[(1, 0), (2, 0)], 1),
        (&[(1, 0), (1, 0)], 2),
        (&[(1, 2), (3, 4)], 1),
        (&[(1, 2), (2, 3)], 2),
        (&[(1, 2), (3, 2), (1, 4)], 2),
        (&[(1, 0), (1, 0), (2, 0)], 2),
        (&[(1, 0), (1, 2), (2, 0)], 3),
        (&[(1, 2), (2, 3), (3, 4), (1, 0)], 3),
    ] {
        for kind in OF_TWO {
            let row_on = |&(i, j): &(u16, u16)| row(if j == 0 { F } else { kind }, i, j, 1);
            let rows: Vec<Row> = qudits.iter().map(row_on).collect();
            assert_eq!(ticks(&rows, 4), wanted, "{rows:?}");
        }
    }
}

/// The fewest ticks of any schedule, by search: a row runs in any tick that is
/// later than those of the rows before it that share a qudit with it.
fn fewest_ticks(rows: &[Row], starts: &mut Vec<i64>) -> i64 {
    let place = starts.len();
    if place == rows.len() {
        return starts.iter().copied().max().unwrap_or(0);
    }
    let shares = |a: usize| {
        rows[a]
            .qudits()
            .any(|q| rows[place].qudits().any(|r| r == q))
    };
    let after = (0..place).filter(|&a| shares(a)).map(|a| starts[a]).max();
    (after.unwrap_or(0) + 1..=rows.len() as i64)
        .map(|tick| {
            starts.push(tick);
            let fewest = fewest_ticks(rows, starts);
            starts.pop();
            fewest
        })
        .min()
        .unwrap_or(i64::MAX)
}

#[test]
fn ticks_are_the_fewest() {
    for index in 0..400 {
        let random = &mut Random::new(7, index);
        let n = random.between(1, 4);
        let count = random.between(0, 5);
        let rows = random.rows(count, 3, n);
        assert_eq!(
            ticks(&rows, n),
            fewest_ticks(&rows, &mut vec![]),
            "{rows:?}"
        );
    }
}

/// The number of a load, and its output, which held 0xA5 in every byte.
fn load_given(d: u16, n: u16, seed: u64, count: u16, room: usize) -> (u16, Vec<u8>) {
    let mut out = vec![0xA5; room];
    let number = calls::load(d, n, seed, count, &mut out);
    (number, out)
}

/// Worked out with whole numbers of any size, modulo 2^64. The last seed and the
/// step make 0, whose draw is 0; its other draws are those of seed 0.
#[test]
fn draws_by_hand() {
    let of_0 = [
        0x460b_c56c_0b80_1029,
        0xac17_8adc_5f00_205b,
        0xa21c_5b2a_237e_76d8,
        0x582f_15ba_b600_40b7,
    ];
    for (seed, wanted) in [
        (0, of_0),
        (
            1,
            [
                0x460b_c56c_1380_102a,
                0xac17_8adc_5700_205a,
                0xa21c_5b29_db7e_76a0,
                0x582f_15ba_be00_40b6,
            ],
        ),
        (
            u64::MAX,
            [
                0x460b_c56c_0380_1028,
                0xac17_8adc_4700_2058,
                0xa21c_5b2a_2b7e_76d9,
                0x582f_15ba_8e00_40b0,
            ],
        ),
        (0x61c8_8646_80b5_83eb, [0, of_0[0], of_0[1], of_0[2]]),
    ] {
        let mut draws = load::Draws::new(seed);
        assert_eq!([(); 4].map(|_| draws.next()), wanted, "{seed}");
    }
}

/// The first rows of loads, worked out in the same way. In the first load M has
/// its power raised, from 2 to 5, and A its second qudit; the second load has F
/// in place of each A of the first.
#[test]
fn loads_by_hand() {
    let written = |row: &Row| {
        let letter = ["F", "S", "A", "M", "X", "Z"][row.kind as usize - 1];
        format!("{letter},{},{},{}", row.first, row.second, row.power)
    };
    for (d, n, seed, wanted) in [
        (6, 3, 0, "M,1,0,5 M,1,0,1 A,1,2,2 S,3,0,5 A,1,2,4 Z,2,0,2"),
        (6, 1, 0, "M,1,0,5 M,1,0,1 F,1,0,3 S,1,0,5 F,1,0,2 Z,1,0,2"),
        (2, 2, 1, "F,1,0,2 F,2,0,1 S,1,0,3 F,2,0,1 Z,1,0,1 A,2,1,1"),
        (
            30,
            4,
            0x0123_4567_89ab_cdef,
            "A,1,3,17 X,2,0,8 M,3,0,17 X,4,0,24 M,4,0,13 A,2,1,12",
        ),
        (
            1024,
            1,
            1 << 63,
            "M,1,0,569 S,1,0,1642 F,1,0,2 S,1,0,595 F,1,0,2 M,1,0,63",
        ),
        (
            1024,
            16,
            u64::MAX,
            "F,9,0,2 F,12,0,3 S,5,0,939 A,2,14,710 Z,3,0,58 F,12,0,2",
        ),
    ] {
        let wanted: Vec<String> = wanted.split(' ').map(String::from).collect();
        for count in 0..=wanted.len() {
            let end = calls::ROW_LEN * count;
            let (number, out) = load_given(d, n, seed, count as u16, end + 3);
            let rows = calls::rows_of_bytes(&out[..end]);
            let rows: Vec<String> = rows.iter().map(written).collect();
            assert_eq!((number, &rows[..]), (0, &wanted[..count]));
            assert_eq!(out[end..], [0xA5; 3]);
        }
    }
}

/// Each refusal, and of several the first in the order of the table.
#[test]
fn load_refusals() {
    for (d, n) in [0, 1, 2, 6, 1024, 1025, u16::MAX]
        .into_iter()
        .flat_map(|d| [0, 1, 3, 16, 17, u16::MAX].map(|n| (d, n)))
    {
        for count in [0, 1, 2, 4095, 4096, 4097, 8192, 8193, u16::MAX] {
            let needed = calls::ROW_LEN * count as usize;
            for room in [0, needed.saturating_sub(1), needed, needed + 9] {
                let wanted = match () {
                    _ if !(2..=1024).contains(&d) => calls::DIMENSION,
                    _ if !(1..=16).contains(&n) => calls::WIDTH,
                    _ if count > 4096 => calls::LENGTH,
                    _ if room < needed => calls::ROOM,
                    _ => 0,
                };
                let (number, out) = load_given(d, n, 5, count, room);
                assert_eq!(number, wanted, "{d} {n} {count} {room}");
                let written = if number == 0 { needed } else { 0 };
                assert!(out[written..].iter().all(|&byte| byte == 0xA5));
            }
        }
    }
}

/// Every row is legal. A row of a seed is the first one of another, four steps on
/// for each row before it; and its kind, but for A on one qudit, comes of the seed
/// alone.
#[test]
fn laws_of_loads() {
    const STEP: u64 = 0x9e37_79b9_7f4a_7c15;
    let mut random = Random::new(9, 0);
    let mut met = std::collections::HashSet::new();
    for d in DIMENSIONS.map(i64::from) {
        for n in 1..=16 {
            for seed in [0, 1, u64::MAX, random.next()] {
                let count = random.between(0, 60);
                let rows = load::rows(d, n, seed, count);
                assert_eq!(rows.len(), count);
                let wide = load::rows(1024, 16, seed, count);
                for (place, row) in rows.iter().enumerate() {
                    assert!(row.is_legal(d, n), "d = {d}, n = {n}, {row:?}");
                    let later = seed.wrapping_add(STEP.wrapping_mul(4 * place as u64));
                    assert_eq!(load::rows(d, n, later, 1), [*row]);
                    let one_for_a = n == 1 && wide[place].kind == A;
                    assert_eq!(row.kind, if one_for_a { F } else { wide[place].kind });
                    met.insert((d, row.kind, row.power));
                }
            }
        }
    }
    // Each legal power of the first dimensions comes up.
    for (d, kind, power) in (2..=6).flat_map(|d| {
        (F..=Z).flat_map(move |kind| (1..2 * d as u16).map(move |power| (d, kind, power)))
    }) {
        let second = if takes_two(kind) { 2 } else { 0 };
        let is_legal = row(kind, 1, second, power).is_legal(d, 2);
        assert_eq!(
            met.contains(&(d, kind, power)),
            is_legal,
            "{d} {kind} {power}"
        );
    }
}

#[test]
fn limits_of_d_and_n() {
    for d in [0, 1, 2, 1024, 1025, u16::MAX] {
        for n in [0, 1, 16, 17, u16::MAX] {
            let wanted = match () {
                _ if !(2..=1024).contains(&d) => calls::DIMENSION,
                _ if !(1..=16).contains(&n) => calls::WIDTH,
                _ => 0,
            };
            assert_eq!(calls::ticks(d, n, &[]).number, wanted);
        }
    }
}

#[test]
fn text_refusals() {
    for (input, number) in [
        ("", 9),
        ("T,4,1", 9),
        ("T,4,1\n", 3),
        ("T,1,0\n", 1),
        ("T,2,0\n", 2),
        ("T,4,1\n0,1,0\n0,0,1\n\n", 9),
        ("T,4,1\n0,1,0\n0,0\n", 3),
        ("T,4,1\n0,1,4\n0,0,1\n", 5),
        ("T,4,1\n0,2,0\n0,0,1\n", 7),
        ("T,4,1\n1,1,0\n0,0,1\n", 8),
        ("L,4,1\nF,1,0,4\n", 6),
        ("L,4,1\nF,1,0,04\n", 9),
        ("L,4,1\nF,1,0,65536\n", 9),
        ("L,4,1\r\n", 9),
        ("L,4,2\nC,1,2,0\n", 6),
        ("L,4,2\nC,1,2,4\n", 6),
        ("L,4,2\nC,1,1,1\n", 6),
        ("L,4,2\nW,1,2,0\n", 6),
        ("L,4,2\nW,1,2,2\n", 6),
        ("L,4,2\nW,1,0,1\n", 6),
        ("L,4,1\nW,1,2,1\n", 6),
        ("L,4,2\nE,1,2,1\n", 9),
        ("G,4,2\nE,1,2,1\n", 9),
        ("g,4,2\n", 9),
        ("H,4,2\n", 9),
        ("G,4\n", 9),
        ("G,4,2", 9),
        ("G,1,0\nS,1,0,1\n", 1),
        ("G,1025,2\nS,1,0,1\n", 1),
        ("G,4,0\nS,1,0,1\n", 2),
        ("G,4,17\nS,1,0,1\n", 2),
        ("G,4,2\nS,1,0,1\n", 6),
        ("G,4,2\nF,1,0,1\nS,2,0,7\n", 6),
        ("G,4,2\nS,1,0,1\nF,1,0\n", 9),
        ("G,4,2\nA,1,2,0\n", 6),
        ("G,4,2\nA,1,2,4\n", 6),
        ("G,4,2\nA,1,2,5\n", 6),
        ("G,4,2\nX,1,0,5\n", 6),
        ("G,4,2\nX,1,0,0\n", 6),
        ("G,4,2\nX,1,0,4\n", 6),
        ("G,4,2\nM,1,0,2\n", 6),
        ("G,4,2\nM,1,0,0\n", 6),
        ("G,4,2\nM,1,0,5\n", 6),
        ("G,4,2\nW,1,2,2\n", 6),
        ("G,4,2\nC,1,2,4\n", 6),
        ("G,4,1\nC,1,2,1\n", 6),
    ] {
        assert_eq!(
            text::convert(input.as_bytes()),
            format!("R,{number}\n").as_bytes(),
            "{input}"
        );
    }
    assert_eq!(text::convert(b"L,4,1\n"), b"T,4,1\n0,1,0\n0,0,1\n");
    assert_eq!(text::convert(b"G,4,1\n"), b"T,4,1\n0,1,0\n0,0,1\n");
    for (rows, printed) in [
        ("S,1,0,1\n", "R,3\n"),
        ("F,1,0,1\n", "R,3\n"),
        ("", "R,6\n"),
    ] {
        let list = format!("G,4,1\n{}S,1,0,1\n", "F,1,0,1\n".repeat(4095) + rows);
        assert_eq!(text::convert(list.as_bytes()), printed.as_bytes());
    }
}

#[test]
fn arithmetic_by_search() {
    assert_eq!((gcd(0, 6), gcd(6, 0), gcd(0, 0)), (6, 6, 0));
    assert_eq!(least_multiplier(6, 1, 840), 5);
    assert_eq!(least_multiplier(5, 1, 840), 836);
    assert_eq!(least_multiplier(0, 1008, 1009), 1);
    assert_eq!(least_multiplier(0, 1, 2), 1);
    for d in 2..=60 {
        for q in 0..d {
            let found = (0..d).find(|r| q * r % d == 1);
            assert_eq!(is_unit(q, d), found.is_some());
            if let Some(r) = found {
                assert_eq!(inverse_of_unit(q, d), r);
            }
            for b in 0..d {
                // of the residues that fit, the nearest to zero; of two, the positive one
                let nearest = (0..d)
                    .filter(|m| gcd((q + m * b) % d, d) == gcd(gcd(q, b), d))
                    .min_by_key(|&m| (m.min(d - m), m));
                assert_eq!(Some(least_multiplier(q, b, d)), nearest);
                let found = (0..d).find(|c| (c * q - b) % d == 0);
                assert_eq!(b % gcd(q, d) == 0, found.is_some());
                if let Some(c) = found {
                    assert_eq!((quotient(q, b, d), quotient(q, b - d, d)), (c, c));
                }
            }
        }
    }
}

#[test]
fn power_is_the_product_of_copies() {
    let mut random = Random::new(1, 0);
    for _ in 0..40 {
        let d = random.pick(&DIMENSIONS) as i64;
        let n = random.between(1, 4);
        let p = random.pauli(d, n);
        let mut copies = Pauli::zero(n);
        for k in 0..=65_535 {
            if k < 50 || k % 4097 == 0 || k == 65_535 {
                assert_eq!(p.power(k, d), copies, "d = {d}, k = {k}, {p:?}");
            }
            copies = copies.product(&p, d);
        }
    }
}

#[test]
fn rows_are_undone_and_keep_products_and_commutation() {
    let mut random = Random::new(2, 0);
    let mut drawn = [0; W as usize + 1];
    for _ in 0..20_000 {
        let d = random.pick(&DIMENSIONS) as i64;
        let n = random.between(1, 4);
        let (p, q, row) = (random.pauli(d, n), random.pauli(d, n), random.row(d, n));
        drawn[row.kind as usize] += 1;
        assert!(row.is_legal(d, n) && row.undo(d).is_legal(d, n));
        assert_eq!(run(&[row, row.undo(d)], &p, d), p);
        assert_eq!(run(&[row.undo(d), row], &p, d), p);
        let (image, other) = (run(&[row], &p, d), run(&[row], &q, d));
        assert_eq!(run(&[row], &p.product(&q, d), d), image.product(&other, d));
        assert_eq!(p.commutation(&q, d), image.commutation(&other, d));
        // A power is one row: it does what so many rows of power 1 would do.
        if row.kind != M {
            let ones = vec![Row { power: 1, ..row }; row.power as usize];
            assert_eq!(run(&[row], &p, d), run(&ones, &p, d));
        }
    }
    assert!(drawn[1..].iter().all(|&rows| rows > 1000), "{drawn:?}");
}

/// C and W need a second qudit as A does; the power of C is 1 to d − 1, that of W
/// is 1. No other kind is legal.
#[test]
fn legal_rows_of_two_qudits() {
    let edges = |limit: u16| [0, 1, 2, limit - 1, limit, limit + 1, 256 + 1, u16::MAX];
    for d in [2, 3, 4, 6, 1024] {
        for n in [1, 2, 3, 16] {
            for (first, second) in edges(n)
                .iter()
                .flat_map(|&first| edges(n).map(|second| (first, second)))
            {
                let is_qudit = |q: u16| 1 <= q && q <= n;
                let of_two = is_qudit(first) && is_qudit(second) && first != second;
                for power in edges(d) {
                    let legal =
                        |kind| row(kind, first, second, power).is_legal(d as i64, n as usize);
                    let in_range = 1 <= power && power < d;
                    assert_eq!(legal(A), of_two && in_range);
                    assert_eq!(legal(C), of_two && in_range);
                    assert_eq!(legal(W), of_two && power == 1);
                    for kind in [0, 9, 10, 256 + A, 256 + C, 256 + W, u16::MAX] {
                        assert!(!legal(kind), "{kind}");
                    }
                }
            }
        }
    }
}

/// Paulis as phase, v, w.
#[test]
fn rows_of_two_qudits_by_hand() {
    let of = |x: &[i64]| pauli(x[0], &x[1..=x.len() / 2], &x[x.len() / 2 + 1..]);
    for (d, row, p, wanted) in [
        (
            4,
            row(C, 1, 2, 1),
            &[0, 1, 1, 0, 0][..],
            &[2, 1, 1, 1, 1][..],
        ),
        (4, row(C, 1, 2, 3), &[5, 2, 3, 1, 0], &[1, 2, 3, 2, 2]),
        (4, row(C, 2, 1, 3), &[5, 2, 3, 1, 0], &[1, 2, 3, 2, 2]),
        (2, row(C, 1, 2, 1), &[3, 1, 1, 1, 1], &[1, 1, 1, 0, 0]),
        (
            3,
            row(C, 3, 1, 2),
            &[1, 1, 2, 0, 0, 1, 1],
            &[1, 1, 2, 0, 0, 1, 0],
        ),
        (4, row(W, 1, 2, 1), &[3, 1, 2, 3, 0], &[3, 2, 1, 0, 3]),
        (
            4,
            row(W, 3, 1, 1),
            &[7, 1, 2, 0, 0, 1, 3],
            &[7, 0, 2, 1, 3, 1, 0],
        ),
    ] {
        assert_eq!(run(&[row], &of(p), d), of(wanted), "{row:?} {p:?}");
    }
}

/// Document 002's (12) and (9), by which C and W are rows of the six kinds; and
/// which of the two qudits of C and W is the first makes no difference.
#[test]
fn rows_of_two_qudits_by_other_rows() {
    let mut random = Random::new(8, 0);
    for _ in 0..4000 {
        let d = random.pick(&DIMENSIONS) as i64;
        let n = random.between(2, 5);
        let p = random.pauli(d, n);
        let (i, j) = loop {
            let pair = (random.between(1, n) as u16, random.between(1, n) as u16);
            if pair.0 != pair.1 {
                break pair;
            }
        };
        let power = random.between(1, d as usize - 1) as u16;
        let (most, left) = (d as u16 - 1, d as u16 - power);
        let gives = |rows: &[Row]| {
            assert!(rows.iter().all(|row| row.is_legal(d, n)));
            run(rows, &p, d)
        };
        let by_c = gives(&[row(C, i, j, power)]);
        let twelve = [row(F, j, 0, 1), row(A, i, j, left), row(F, j, 0, 3)];
        assert_eq!(by_c, gives(&twelve), "{d} {i} {j} {power} {p:?}");
        assert_eq!(by_c, gives(&[row(C, j, i, power)]));

        let by_w = gives(&[row(W, i, j, 1)]);
        let nine = [
            row(F, i, 0, 2),
            row(A, i, j, most),
            row(A, j, i, 1),
            row(A, i, j, most),
        ];
        assert_eq!(by_w, gives(&nine), "{d} {i} {j} {p:?}");
        assert_eq!(by_w, gives(&[row(W, j, i, 1)]));
        assert_eq!(gives(&[row(W, i, j, 1); 2]), p);
        let (image, other) = (by_w.support().0, p.support().0);
        assert_eq!(image.count_ones(), other.count_ones());
    }
}

/// The tableau that is printed for an L file, and for a G file.
fn of_rows(header: &str, rows: &str) -> String {
    let printed = text::convert(&file(header, rows));
    String::from_utf8(printed).unwrap()
}

/// What each letter of a G file stands for.
#[test]
fn rows_by_002() {
    for (size, written, meant) in [
        ("5,2", "F,1,0,1", "F,1,0,1"),
        ("5,2", "F,2,0,3", "F,2,0,3"),
        ("5,2", "A,1,2,1", "A,1,2,4"),
        ("5,2", "A,2,1,3", "A,2,1,2"),
        ("4,2", "A,2,1,2", "A,2,1,2"),
        ("2,2", "A,2,1,1", "A,2,1,1"),
        ("5,2", "M,1,0,2", "M,1,0,3"),
        ("9,1", "M,1,0,4", "M,1,0,7"),
        ("8,1", "M,1,0,5", "M,1,0,5"),
        ("5,2", "X,2,0,1", "X,2,0,4"),
        ("1024,1", "X,1,0,1000", "X,1,0,24"),
        ("5,2", "Z,2,0,1", "Z,2,0,1"),
        ("5,2", "C,1,2,3", "C,1,2,3"),
        ("5,2", "W,1,2,1", "W,1,2,1"),
        ("5,2", "", ""),
        (
            "5,2",
            "F,1,0,1 A,1,2,1 X,2,0,1 M,1,0,2 C,2,1,3 W,2,1,1 Z,1,0,4",
            "F,1,0,1 A,1,2,4 X,2,0,4 M,1,0,3 C,2,1,3 W,2,1,1 Z,1,0,4",
        ),
    ] {
        let given = of_rows(&format!("G,{size}"), written);
        assert!(given.starts_with(&format!("T,{size}\n")), "{given}");
        assert_eq!(given, of_rows(&format!("L,{size}"), meant), "{written}");
    }
    // The other convention is another one: these differ as rows of an L file.
    for (size, row) in [("5,2", "A,1,2,1"), ("5,1", "M,1,0,2"), ("5,1", "X,1,0,1")] {
        let [g, l] = ["G", "L"].map(|letter| of_rows(&format!("{letter},{size}"), row));
        assert_ne!(g, l, "{row}");
    }
}

/// 002's (9), (10) and (12) as lists of the partner, the first row first.
#[test]
fn relations_of_002() {
    for d in [2, 3, 4, 6, 9, 1024] {
        let (header, most) = (format!("G,{d},2"), d - 1);
        let same = |rows: &str, others: &str| {
            assert_eq!(of_rows(&header, rows), of_rows(&header, others), "{rows}");
        };
        let nine = format!("F,1,0,2 A,1,2,1 A,2,1,{most} A,1,2,1");
        same("W,1,2,1", &nine);
        same(&format!("A,2,1,{most}"), "F,2,0,2 A,2,1,1 F,2,0,2");
        for k in [1, most] {
            same(&format!("A,1,2,{k}"), &format!("F,2,0,3 C,1,2,{k} F,2,0,1"));
        }
    }
}

/// A T file is printed as an L file, though a list of a G file would do it too.
#[test]
fn no_list_is_printed_by_002() {
    let rows = "F,1,0,1 A,1,2,1 X,2,0,1";
    let (written, tableau) = (file("G,4,2", rows), of_rows("G,4,2", rows));
    let printed = text::convert(tableau.as_bytes());
    assert!(printed.starts_with(b"L,4,2\n"));
    assert!(text::is_right(tableau.as_bytes(), &printed));
    assert!(!text::is_right(tableau.as_bytes(), &written));
    assert!(text::is_right(&written, tableau.as_bytes()));
    assert!(!text::is_right(&written, of_rows("L,4,2", rows).as_bytes()));
}

/// Every tableau for n = 1 and small d: those that lists reach, found by
/// trying lists, are exactly the sound ones, and synthesis reaches each.
#[test]
fn every_tableau_of_one_qudit() {
    for d in 2..=5 {
        let generators: Vec<Row> = [F, S, X, Z]
            .iter()
            .map(|&kind| row(kind, 1, 0, 1))
            .collect();
        let mut reached = std::collections::HashSet::new();
        let mut waiting = vec![unit_tableau(1)];
        while let Some(tableau) = waiting.pop() {
            if reached.insert(calls::bytes_of_tableau(&tableau)) {
                for &generator in &generators {
                    waiting.push(tableau.iter().map(|c| run(&[generator], c, d)).collect());
                }
            }
        }
        let mut sound = 0;
        for code in 0..4 * d.pow(6) {
            let entry = |place: u32| code / d.pow(place) % d;
            let phases = code / d.pow(4);
            let tableau = [
                pauli(phases % (2 * d), &[entry(0)], &[entry(1)]),
                pauli(phases / (2 * d), &[entry(2)], &[entry(3)]),
            ];
            let is_sound = pairing_holds(&tableau, d) && parity_holds(&tableau, d);
            assert_eq!(
                is_sound,
                reached.contains(&calls::bytes_of_tableau(&tableau))
            );
            if is_sound {
                sound += 1;
                judged_synthesis(&tableau, d);
            }
        }
        assert_eq!(sound, reached.len());
    }
}

#[test]
fn lists_and_tableaus_agree() {
    let mut random = Random::new(3, 0);
    for _ in 0..400 {
        let d = random.pick(&DIMENSIONS) as i64;
        let n = random.pick(&[1, 1, 2, 3, 4, 16]);
        let count = random.between(0, 60);
        let rows = random.rows(count, d, n);
        let tableau = tableau_of_list(&rows, d, n);
        assert!(pairing_holds(&tableau, d) && parity_holds(&tableau, d));

        let found = judged_synthesis(&tableau, d);
        let (p, q) = (random.pauli(d, n), random.pauli(d, n));
        assert_eq!(image(&tableau, &p, d), run(&rows, &p, d));
        assert_eq!(image(&tableau, &p, d), run(&found, &p, d));
        let images = image(&tableau, &p, d).product(&image(&tableau, &q, d), d);
        assert_eq!(image(&tableau, &p.product(&q, d), d), images);

        let undone = inverse(&tableau, d);
        assert_eq!(compose(&tableau, &undone, d), unit_tableau(n));
        assert_eq!(compose(&undone, &tableau, d), unit_tableau(n));

        let more = random.rows(20, d, n);
        let both = [rows, more.clone()].concat();
        let composed = compose(&tableau, &tableau_of_list(&more, d, n), d);
        assert_eq!(composed, tableau_of_list(&both, d, n));
    }
}

/// After a few rows many columns are still units, so the cases in which a step
/// makes no row are tried.
#[test]
fn sparse_tableaus_are_reached() {
    let mut random = Random::new(5, 0);
    for _ in 0..2000 {
        let d = random.pick(&DIMENSIONS) as i64;
        let n = random.between(1, 5);
        let count = random.between(0, 8);
        judged_synthesis(&random.sound_tableau(count, d, n), d);
    }
}

#[test]
fn dense_tableaus_are_reached() {
    let mut random = Random::new(4, 0);
    for _ in 0..60 {
        let d = random.between(2, 1024) as i64;
        let n = random.pick(&[1, 2, 4, 8]);
        judged_synthesis(&random.dense_tableau(d, n), d);
    }
}
