//! Batches of Paulis: all images in one call, against the reference, against
//! single calls of the library, and against the numbers that the rules give.

use super::{batch_bytes, damage_parity, damage_range, dimension, put, valid_input, Case, Host};
use library::{library, Layout, Lent, Name};
use reference::calls;
use reference::random::Random;

const MOST: usize = calls::MOST_PAULIS;

fn dimensions(random: &mut Random) -> [u16; 6] {
    [2, 3, 6, 257, 1024, dimension(random)]
}

/// Zeros a column, so that it commutes with its partner, and pairing fails.
fn break_pairing(tableau: &mut [u8], n: usize, random: &mut Random) {
    let pauli = calls::pauli_len(n);
    let start = pauli * random.below(2 * n);
    tableau[start..start + pauli].fill(0);
}

/// Makes a sound tableau one that is refused with this number; 0 leaves it.
fn damage_tableau(tableau: &mut Vec<u8>, number: u16, d: u16, n: usize, random: &mut Random) {
    match number {
        calls::RANGE => damage_range(tableau, d, n, random),
        calls::PAIRING => break_pairing(tableau, n, random),
        calls::PARITY => damage_parity(tableau, d, n, random),
        _ => {}
    }
}

/// A batch of so many Paulis in range, and a tableau that is refused with this
/// number, or a sound one for 0.
fn case_of(count: usize, number: u16, d: u16, n: u16, random: &mut Random) -> Case {
    let (dim, wide) = (d as i64, n as usize);
    let mut tableau = valid_input(Layout::Tableau, dim, wide, random);
    damage_tableau(&mut tableau, number, d, wide, random);
    let paulis = batch_bytes(count, dim, wide, random);
    Case::new(Name::Images, d, n, tableau, paulis).filled(random)
}

/// Compares with the reference, and the number with the one that the rules give.
fn expect(host: &mut Host, case: &Case, number: u16) -> Vec<u8> {
    let (given, out) = host.compare(case);
    assert_eq!(given.number, number, "the rules\n{}", case.describe());
    out
}

/// The same, and compares with what single calls of the library give in order:
/// the first refusal, or all images.
fn expect_single_calls(host: &mut Host, case: &Case, number: u16) {
    let out = expect(host, case, number);
    let pauli = calls::pauli_len(case.numbers.n as usize);
    let mut images = vec![0; case.second.len()];
    let first_refusal = case
        .second
        .chunks(pauli)
        .zip(images.chunks_mut(pauli))
        .map(|(p, image)| {
            let (tableau, p) = (Lent::input(&case.first), Lent::input(p));
            unsafe { library(Name::Image, case.numbers, tableau, p, Lent::output(image)) }.number
        })
        .find(|&number| number != 0);
    let single = first_refusal.unwrap_or(0);
    assert_eq!(number, single, "single calls\n{}", case.describe());
    if number == 0 {
        let same = out.starts_with(&images);
        assert!(same, "single calls give others\n{}", case.describe());
    }
}

/// Batches of many sizes under sound tableaus, with room for more.
pub fn random_batches(host: &mut Host, seed: u64) {
    let (mut batches, mut paulis) = (0, 0);
    for n in 1..=16_u16 {
        let random = &mut Random::new(seed, n as u64);
        for d in dimensions(random) {
            for count in [0, 1, 2, 3, 7, MOST - 1, MOST] {
                let mut case = case_of(count, 0, d, n, random);
                case.room += random.pick(&[0, 1, 8, 100]);
                expect_single_calls(host, &case, 0);
                batches += 1;
                paulis += count;
            }
        }
    }
    println!(
        "\nimages: {batches} batches of 0 to {MOST} Paulis, {paulis} in all, and single calls"
    );
}

/// The columns of a tableau as a batch under another one give the composition.
/// Where it is the same one, the batch and the tableau are the same bytes.
pub fn batches_of_columns(host: &mut Host, seed: u64) {
    let mut batches = 0;
    for (n, index) in (1..=16_u16).flat_map(|n| (0..10_u64).map(move |i| (n, i))) {
        let random = &mut Random::new(seed, (n as u64) << 16 | index);
        let d = dimension(random);
        let second = valid_input(Layout::Tableau, d as i64, n as usize, random);
        let first = match index {
            0 => second.clone(),
            _ => valid_input(Layout::Tableau, d as i64, n as usize, random),
        };
        let composition = Case::new(Name::Compose, d, n, first.clone(), second.clone());
        let images = Case::new(Name::Images, d, n, second, first).filled(random);
        let composed = host.compare(&composition.filled(random)).1;
        let out = expect(host, &images, 0);
        assert_eq!(out, composed, "composition differs\n{}", images.describe());
        batches += 1;
    }
    println!("images: {batches} batches of the columns of a tableau, and composition");
}

/// A number that is just out of range in one Pauli of a batch: at every place of
/// 6 Paulis, and of 512 on one and two qudits; at some of 512 on 16. Under an
/// unsound tableau it makes a difference in the first Pauli alone.
pub fn refused_at_each_place(host: &mut Host, seed: u64) {
    let mut batches = 0;
    let mut at_places = |count: usize, n: u16, places: &[usize], random: &mut Random| {
        let wide = n as usize;
        // The phase, the first and the last v, the first and the last w.
        let mut indices = vec![0, 1, wide, wide + 1, 2 * wide];
        indices.dedup();
        for tableau_number in [0, calls::RANGE, calls::PAIRING, calls::PARITY] {
            let d = dimension(random);
            let mut case = case_of(count, tableau_number, d, n, random);
            for &place in places {
                let wanted = match tableau_number {
                    calls::PAIRING | calls::PARITY if place > 0 => tableau_number,
                    _ => calls::RANGE,
                };
                for &index in &indices {
                    let right = case.second.clone();
                    let limit = if index == 0 { 2 * d } else { d };
                    put(&mut case.second, place * (1 + 2 * wide) + index, limit);
                    case.fill = random.next();
                    expect_single_calls(host, &case, wanted);
                    case.second = right;
                    batches += 1;
                }
            }
        }
    };
    let all: Vec<usize> = (0..MOST).collect();
    for n in 1..=16 {
        let random = &mut Random::new(seed, n as u64);
        for _ in 0..4 {
            at_places(6, n, &all[..6], random);
        }
        match n {
            1 | 2 => at_places(MOST, n, &all, random),
            16 => at_places(MOST, n, &[0, 1, 255, 256, MOST - 2, MOST - 1], random),
            _ => {}
        }
    }
    println!("images: {batches} batches with a number out of range in one Pauli");
}

/// The lowest bits of a number.
fn bits(number: usize) -> [bool; 5] {
    std::array::from_fn(|bit| number >> bit & 1 == 1)
}

/// A case with a choice of faults, and the number of the first that applies. None
/// where a batch of so many Paulis can't have them.
fn case_with_faults(count: usize, faults: usize, random: &mut Random) -> Option<(Case, u16)> {
    let [no_dimension, no_width, tableau_length, batch_length, room] = bits(faults);
    let [tableau_range, first_range, later_range, pairing, parity] = bits(faults >> 5);
    // An empty batch needs no room and has no Pauli, and one Pauli has no later one.
    if count == 0 && (room || first_range) || count < 2 && later_range {
        return None;
    }
    let (d, n) = (dimension(random), random.pick(&[1, 2, 3, 16]));
    let wide = n as usize;
    let pauli = calls::pauli_len(wide);
    let mut case = case_of(count, 0, d, n, random);
    for (fault, number) in [
        (pairing, calls::PAIRING),
        (parity, calls::PARITY),
        (tableau_range, calls::RANGE),
    ] {
        if fault {
            damage_tableau(&mut case.first, number, d, wide, random);
        }
    }
    if first_range {
        damage_range(&mut case.second[..pauli], d, wide, random);
    }
    if later_range {
        let start = pauli * random.between(1, count - 1);
        damage_range(&mut case.second[start..start + pauli], d, wide, random);
    }
    if room {
        case.room = random.pick(&[case.room - 1, case.room - pauli, pauli - 1, 0]);
    }
    if batch_length {
        let right = case.second.len();
        let length = random.pick(&[right.max(2) - 1, right + 1, pauli * (MOST + 1)]);
        case.second.resize(length, 0);
    }
    if tableau_length {
        let right = case.first.len();
        let length = random.pick(&[0, right - 1, right + 1, right - pauli, right + pauli]);
        case.first.resize(length, 0);
    }
    if no_width {
        case.numbers.n = random.pick(&[0, 17]);
    }
    if no_dimension {
        case.numbers.d = random.pick(&[0, 1, 1025]);
    }
    let number = match () {
        _ if no_dimension => calls::DIMENSION,
        _ if no_width => calls::WIDTH,
        _ if tableau_length || batch_length => calls::LENGTH,
        _ if room => calls::ROOM,
        _ if tableau_range || first_range => calls::RANGE,
        _ if pairing => calls::PAIRING,
        _ if parity => calls::PARITY,
        _ if later_range => calls::RANGE,
        _ => 0,
    };
    Some((case, number))
}

/// Every choice of faults, for batches of several sizes.
pub fn fault_by_fault(host: &mut Host, seed: u64) {
    let mut batches = 0;
    let sizes = [0, 1, 2, 5, MOST];
    for count in sizes {
        for faults in 0..1 << 10 {
            let random = &mut Random::new(seed, (count << 10 | faults) as u64);
            if let Some((case, number)) = case_with_faults(count, faults, random) {
                expect(host, &case, number);
                batches += 1;
            }
        }
    }
    println!("images: {batches} batches, all choices of faults for each of {sizes:?} Paulis");
}

/// Every length up to four Paulis, and those about 512 Paulis, 513, and the right
/// ones modulo 65,536, with all numbers in range or none; room for all images,
/// for more, for one byte less, for one image, and none.
pub fn every_length(host: &mut Host, seed: u64) {
    let mut batches = 0;
    for n in 1..=16_u16 {
        let random = &mut Random::new(seed, n as u64);
        let pauli = calls::pauli_len(n as usize);
        let mut lengths: Vec<usize> = (0..=4 * pauli).collect();
        for length in [MOST, MOST + 1].map(|count| count * pauli) {
            lengths.extend(length - 3..=length + 3);
            lengths.push(65_536 + length);
        }
        lengths.push(65_536 + pauli);
        if n == 1 {
            lengths.push(65_536 * pauli); // more is not lent
        }
        for (length, byte) in lengths.into_iter().flat_map(|l| [(l, 0), (l, 0xFF)]) {
            let mut case = case_of(0, 0, dimension(random), n, random);
            case.second = vec![byte; length];
            for room in [length, length + 5, length.saturating_sub(1), pauli, 0] {
                case.room = room;
                case.fill = random.next();
                let wanted = match () {
                    _ if length % pauli != 0 || length / pauli > MOST => calls::LENGTH,
                    _ if room < length => calls::ROOM,
                    _ if length > 0 && byte != 0 => calls::RANGE,
                    _ => 0,
                };
                expect(host, &case, wanted);
                batches += 1;
            }
        }
    }
    println!("images: {batches} batches, each length with each room");
}

/// The empty batch under tableaus of every kind, with null pointers too.
pub fn empty_batches(host: &mut Host, seed: u64) {
    let mut batches = 0;
    for n in 1..=16_u16 {
        let random = &mut Random::new(seed, n as u64);
        for number in [0, calls::RANGE, calls::PAIRING, calls::PARITY] {
            for d in dimensions(random) {
                let mut case = case_of(0, number, d, n, random);
                for room in [0, 1, calls::pauli_len(n as usize), 100] {
                    case.room = room;
                    case.fill = random.next();
                    expect(host, &case, number);
                    batches += 1;
                }
                let (tableau, nothing) = (Lent::input(&case.first), Lent::NOTHING);
                let given =
                    unsafe { library(Name::Images, case.numbers, tableau, nothing, nothing) };
                assert_eq!(given.number, number, "null pointers\n{}", case.describe());
            }
        }
    }
    println!("images: {batches} empty batches");
}
