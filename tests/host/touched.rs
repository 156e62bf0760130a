//! Which qudits a Pauli touches: the calls on it, on Paulis that touch few qudits
//! or lose some.

use super::{any_pauli, damage_range, dimension, put, Case, Host};
use library::Name;
use reference::calls;
use reference::random::{Random, WAYS};
use reference::{Pauli, Row};

/// Support for each n and each set of qudits, of a Pauli that touches these and
/// no others.
pub fn every_support_word(host: &mut Host, seed: u64) {
    for n in 1..=16_u16 {
        for word in 0..1_usize << n {
            let random = &mut Random::new(seed, (n as u64) << 16 | word as u64);
            let d = dimension(random);
            let p = random.pauli_on(word, d as i64, n as usize);
            host.compare(&Case::of_paulis(Name::Support, d, n, &[&p]).filled(random));
        }
    }
    println!("support: all words for n from 1 to 16");
}

/// Support with every choice of faults: d and n within their limits and beyond,
/// all lengths up to that of 18 qudits, all numbers in range or none. A length
/// that is right for n, and one that is so modulo 65,536, come with every n.
pub fn support_fault_by_fault(host: &mut Host, seed: u64) {
    let random = &mut Random::new(seed, 0);
    for d in [0, 1, 2, 6, 1024, 1025, u16::MAX] {
        for n in (0..=18).chain([256 + 1, 16_384 + 1, u16::MAX]) {
            let right = calls::pauli_len(n as usize);
            let lengths = (0..=calls::pauli_len(18)).chain([right, 65_536 + right]);
            for (length, byte) in lengths.flat_map(|length| [(length, 0), (length, 0xFF)]) {
                let case = Case::new(Name::Support, d, n, vec![byte; length], vec![]);
                host.compare(&case.filled(random));
            }
        }
    }
    println!("support: all choices of faults in d, n, length and range");
}

/// Support with each number in turn at its limits, beyond them and with a low
/// byte of 0, while the others are all 0, mostly 0 or mostly not.
pub fn support_number_by_number(host: &mut Host, seed: u64) {
    let dimensions = [2, 3, 6, 257, 1024];
    for d in dimensions {
        for n in 1..=16_u16 {
            let (dim, wide) = (d as i64, n as usize);
            let random = &mut Random::new(seed, (d as u64) << 16 | n as u64);
            for place in 0..=2 * wide {
                let limit = if place == 0 { 2 * d } else { d };
                for number in [0, 1, 256, limit - 1, limit, limit + 1, u16::MAX] {
                    let sparse = random.sparse_pauli(dim, wide);
                    for others in [Pauli::zero(wide), sparse, random.pauli(dim, wide)] {
                        let mut case = Case::of_paulis(Name::Support, d, n, &[&others]);
                        put(&mut case.first, place, number);
                        host.compare(&case.filled(random));
                    }
                }
            }
        }
    }
    println!("support: each number at its limits for n from 1 to 16, d in {dimensions:?}");
}

/// The product of a Pauli and one that has the negative of some of its entries,
/// or of all.
fn cancelling_product(d: u16, n: u16, random: &mut Random) -> Case {
    let (dim, wide) = (d as i64, n as usize);
    let (p, mut q) = (any_pauli(dim, wide, random), any_pauli(dim, wide, random));
    let all = random.one_in(4);
    for i in 0..wide {
        if all || random.one_in(2) {
            q.v[i] = (dim - p.v[i]) % dim;
        }
        if all || random.one_in(2) {
            q.w[i] = (dim - p.w[i]) % dim;
        }
    }
    Case::of_paulis(Name::Product, d, n, &[&p, &q])
}

/// The power of a Pauli by a k that shares a divisor with d, which makes 0 of
/// some of its entries.
fn cancelling_power(d: u16, n: u16, random: &mut Random) -> Case {
    let mut p = any_pauli(d as i64, n as usize, random);
    let divisors: Vec<u16> = (2..=d).filter(|g| d % g == 0).collect();
    let shared = random.pick(&divisors);
    for x in p.v.iter_mut().chain(&mut p.w) {
        if random.one_in(2) {
            *x = *x * (d / shared) as i64 % d as i64;
        }
    }
    let mut case = Case::of_paulis(Name::Power, d, n, &[&p]);
    case.numbers.a = shared * random.between(0, (u16::MAX / shared) as usize) as u16;
    case
}

/// A list that makes a Pauli that touches few qudits of one that touches more.
fn cancelling_run(d: u16, n: u16, random: &mut Random) -> Case {
    let (dim, wide) = (d as i64, n as usize);
    let count = random.between(0, 4 * wide);
    let rows = random.rows(count, dim, wide);
    let undone: Vec<Row> = rows.iter().rev().map(|row| row.undo(dim)).collect();
    let p = reference::run(&undone, &random.sparse_pauli(dim, wide), dim);
    let (list, p) = (calls::bytes_of_rows(&rows), calls::bytes_of_pauli(&p));
    Case::new(Name::Run, d, n, list, p)
}

/// Support of what the library wrote. A qudit is lost when the first Pauli of
/// the call touches it and the result doesn't.
pub fn support_of_results(host: &mut Host, seed: u64) {
    type Maker = fn(u16, u16, &mut Random) -> Case;
    let makers: [(Name, Maker); 3] = [
        (Name::Product, cancelling_product),
        (Name::Power, cancelling_power),
        (Name::Run, cancelling_run),
    ];
    println!("\n| support of a result of | compared | with a qudit lost |");
    println!("|---|---|---|");
    for (name, make) in makers {
        let (mut results, mut fewer) = (0, 0);
        for (n, index) in (1..=16_u16).flat_map(|n| (0..400_u64).map(move |i| (n, i))) {
            let random = &mut Random::new(seed, (n as u64) << 16 | index);
            let d = dimension(random);
            let case = make(d, n, random).filled(random);
            let (given, written) = host.compare(&case);
            assert_eq!(given.number, 0, "all inputs are right");
            let p = match name {
                Name::Run => &case.second,
                _ => &case.first,
            };
            let before = calls::pauli_of_bytes(p).support().0;
            let case = Case::new(Name::Support, d, n, written, vec![]).filled(random);
            let after = host.compare(&case).0.value as i64;
            results += 1;
            fewer += (before & !after != 0) as usize;
        }
        println!("| {} | {results} | {fewer} |", name.text());
    }
}

/// Commutation of Paulis that have no qudit in common, one, touched by each in
/// each way, or few. With none in common a number out of range is tried too.
pub fn commutation_of_few(host: &mut Host, seed: u64) {
    let kinds = ["none", "none, a number out of range", "one", "few"];
    let mut counts = [[0; 3]; 4];
    let mut pair = |kind: usize, case: Case| {
        let given = host.compare(&case).0;
        let [pairs, apart, refused] = &mut counts[kind];
        *pairs += 1;
        *apart += (given.value != 0) as usize;
        *refused += (given.number != 0) as usize;
    };
    for (n, index) in (1..=16_u16).flat_map(|n| (0..400_u64).map(move |i| (n, i))) {
        let random = &mut Random::new(seed, (n as u64) << 16 | index);
        let d = dimension(random);
        let (dim, wide) = (d as i64, n as usize);
        let case = |p: &Pauli, q: &Pauli| Case::of_paulis(Name::Commutation, d, n, &[p, q]);
        let some = random.below(1 << n);
        let others = random.below(1 << n) & !some;

        let (p, q) = (
            random.pauli_on(some, dim, wide),
            random.pauli_on(others, dim, wide),
        );
        pair(0, case(&p, &q).filled(random));
        let mut damaged = case(&p, &q).filled(random);
        let input = if random.one_in(2) {
            &mut damaged.first
        } else {
            &mut damaged.second
        };
        damage_range(input, d, wide, random);
        pair(1, damaged);

        let i = random.below(wide);
        for (way, other_way) in WAYS.iter().flat_map(|&a| WAYS.map(|b| (a, b))) {
            let mut p = random.pauli_on(some | 1 << i, dim, wide);
            let mut q = random.pauli_on(others | 1 << i, dim, wide);
            random.touch(&mut p, i, way, dim);
            random.touch(&mut q, i, other_way, dim);
            pair(2, case(&p, &q).filled(random));
        }

        let (p, q) = (
            random.sparse_pauli(dim, wide),
            random.sparse_pauli(dim, wide),
        );
        pair(3, case(&p, &q).filled(random));
    }
    println!("\n| qudits in common | commutation compared | not 0 | refused |");
    println!("|---|---|---|---|");
    for (kind, [pairs, apart, refused]) in kinds.iter().zip(counts) {
        println!("| {kind} | {pairs} | {apart} | {refused} |");
    }
}
