//! Loads: known ones, those at the limits, and the laws of the rule.

use super::{dimension, load_count, load_seed, Case, Host};
use library::Name;
use reference::calls;
use reference::random::Random;

/// What each draw adds to the seed.
const STEP: u64 = 0x9e37_79b9_7f4a_7c15;

/// d, n, seed, the number of rows, the first row, and FNV-1a, in 64 bits, of all
/// bytes of the list.
type Known = (u16, u16, u64, u16, [u16; 4], u64);

/// Worked out by a program that is neither of the two sides. The header has the
/// first rows of three of them. The first draw of the last seed but one is 0.
#[rustfmt::skip]
const KNOWN: [Known; 12] = [
    (2, 1, 0, 4096, [4, 1, 0, 1], 0xba79_aa2a_6c35_5ae0),
    (2, 2, 1, 4096, [1, 1, 0, 2], 0xbdf6_55fa_01d0_b571),
    (2, 16, u64::MAX, 4096, [1, 9, 0, 2], 0x3b27_1b15_9532_68f6),
    (6, 1, 0, 4096, [4, 1, 0, 5], 0xad98_a319_88a5_3516),
    (6, 2, 12345, 1000, [2, 1, 0, 7], 0xbfe4_f943_5371_481f),
    (6, 3, 0, 24, [4, 1, 0, 5], 0xaca4_59e8_2263_898e),
    (30, 4, 0x0123_4567_89ab_cdef, 4096, [3, 1, 3, 17], 0x7a74_4146_a40a_91b9),
    (840, 16, 0x9e37_79b9_7f4a_7c15, 4095, [4, 9, 0, 197], 0xac7b_a1a9_6fbe_ab49),
    (1021, 5, 0xffff_ffff, 1000, [3, 2, 5, 535], 0xfe76_6ea8_c998_b3f8),
    (1024, 1, 1 << 63, 4096, [4, 1, 0, 569], 0x8974_a90d_4eb2_db94),
    (1024, 2, 0x61c8_8646_80b5_83eb, 2, [1, 2, 0, 3], 0x60c6_f9cf_2c3c_60f1),
    (1024, 16, u64::MAX, 4096, [1, 9, 0, 2], 0x2b39_374c_f950_aca8),
];

fn fnv_1a(bytes: &[u8]) -> u64 {
    bytes.iter().fold(0xcbf2_9ce4_8422_2325, |hash, &byte| {
        (hash ^ byte as u64).wrapping_mul(0x0100_0000_01b3)
    })
}

/// The list of a load that isn't refused.
fn load(host: &mut Host, case: &Case) -> Vec<u8> {
    let (answer, out) = host.compare(case);
    assert_eq!(answer.number, 0, "{}", case.describe());
    out
}

/// Compares the load, then its tableau and its ticks: the library, too, takes the
/// list as legal.
fn legal_load(host: &mut Host, case: &Case) -> Vec<u8> {
    let list = load(host, case);
    for name in [Name::Tableau, Name::Ticks] {
        let of_list = Case::new(name, case.numbers.d, case.numbers.n, list.clone(), vec![]);
        let (answer, _) = host.compare(&of_list);
        assert_eq!(answer.number, 0, "{}", case.describe());
    }
    list
}

pub fn known_loads(host: &mut Host) {
    for (d, n, seed, count, first, hash) in KNOWN {
        let case = Case::of_load(d, n, seed, count);
        let list = legal_load(host, &case);
        let found = (calls::numbers(&list[..calls::ROW_LEN]), fnv_1a(&list));
        if found != (first.to_vec(), hash) {
            println!(
                "a known load differs: first row {:?}, {:#x}\n{}",
                found.0,
                found.1,
                case.describe()
            );
            std::process::exit(1);
        }
    }
    println!("loads: {} known ones", KNOWN.len());
}

/// A short load for every d and n.
pub fn every_size(host: &mut Host, seed: u64) {
    let random = &mut Random::new(seed, 0);
    for (d, n) in (2..=1024).flat_map(|d| (1..=16).map(move |n| (d, n))) {
        let case = Case::of_load(d, n, random.next(), 12).filled(random);
        legal_load(host, &case);
    }
    println!("loads: every d and n");
}

/// Seeds with one bit, and with all but one: each bit of a seed tells in its list.
pub fn every_bit_of_the_seed(host: &mut Host, seed: u64) {
    let random = &mut Random::new(seed, 0);
    for bit in 0..64 {
        for (few, most) in [(0, 1 << bit), (u64::MAX, !(1 << bit))] {
            let (d, n) = (dimension(random), random.between(1, 16) as u16);
            let [one, other] = [few, most].map(|seed| load(host, &Case::of_load(d, n, seed, 64)));
            assert_ne!(one, other, "bit {bit}, d = {d}, n = {n}");
        }
    }
    println!("loads: every bit of the seed");
}

/// A load begins as a shorter one does, and what follows is the load of another
/// seed, four steps on for each row before it.
pub fn laws_of_loads(host: &mut Host, seed: u64) {
    const LOADS: u64 = 2000;
    for index in 0..LOADS {
        let random = &mut Random::new(seed, index);
        let (d, n) = (dimension(random), random.between(1, 16) as u16);
        let (from, count) = (load_seed(random), load_count(random));
        let cut = random.between(0, count as usize) as u16;
        let later = from.wrapping_add(STEP.wrapping_mul(4 * cut as u64));
        let parts = [(from, count), (from, cut), (later, count - cut)];
        let [whole, front, back] = parts.map(|(seed, count)| {
            let case = Case::of_load(d, n, seed, count).filled(random);
            load(host, &case)
        });
        assert_eq!(
            whole,
            [front, back].concat(),
            "d = {d}, n = {n}, seed {from:#x}"
        );
    }
    println!("loads: {LOADS} by the laws");
}

/// As many rows as a load may have, for every n.
pub fn longest_loads(host: &mut Host, seed: u64) {
    let random = &mut Random::new(seed, 0);
    for (n, d) in (1..=16).flat_map(|n| [2, 3, 6, 210, 1021, 1024].map(|d| (n, d))) {
        for from in [0, u64::MAX, random.next()] {
            let case = Case::of_load(d, n, from, calls::MOST_ROWS as u16).filled(random);
            legal_load(host, &case);
        }
    }
    println!("loads: {} rows for n from 1 to 16", calls::MOST_ROWS);
}

/// Every choice of faults: d, n and the number of rows within their limits and
/// beyond, and room for all rows, for one byte less or more, for as many rows as a
/// load may have, and none. A room of 65,536 bytes is there for code that keeps
/// its length in 16 bits.
pub fn fault_by_fault(host: &mut Host, seed: u64) {
    let random = &mut Random::new(seed, 0);
    let most = calls::MOST_ROWS as u16;
    let counts = [0, 1, 2, most - 1, most, most + 1, 8192, 8193, u16::MAX];
    for (d, n) in [0, 1, 2, 6, 1024, 1025, u16::MAX]
        .into_iter()
        .flat_map(|d| [0, 1, 2, 16, 17, 256 + 1, u16::MAX].map(|n| (d, n)))
    {
        for count in counts {
            let needed = calls::ROW_LEN * count as usize;
            let most_needed = calls::ROW_LEN * calls::MOST_ROWS;
            let less = needed.saturating_sub(1);
            for room in [0, less, needed, needed + 1, most_needed, 65_536] {
                let wanted = match () {
                    _ if !(2..=1024).contains(&d) => calls::DIMENSION,
                    _ if !(1..=16).contains(&n) => calls::WIDTH,
                    _ if count > most => calls::LENGTH,
                    _ if room < needed => calls::ROOM,
                    _ => 0,
                };
                let mut case = Case::of_load(d, n, random.next(), count).filled(random);
                case.room = room;
                let (answer, _) = host.compare(&case);
                assert_eq!(answer.number, wanted, "the rules\n{}", case.describe());
            }
        }
    }
    println!("loads: all choices of faults in d, n, the number of rows and the room");
}
