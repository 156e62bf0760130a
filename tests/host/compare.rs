//! Calls the library and the reference with the same inputs and compares
//! number, values and every byte. The list of synthesis is free, so it is
//! judged by what it does instead, and by what is proved of its rows.
//!
//! CALLS is the number of seeded calls, SEED their seed. A difference prints
//! the call and both answers; ONLY=i makes the i-th seeded call alone.

mod batch;
mod comparing;
mod kinds;
mod loads;
mod overlap;
mod touched;

use library::{library, reference as reference_call, Layout, Lent, Name, Numbers, NAMES};
use library::{library_support, reference_support};
use reference::calls::{self, Answer};
use reference::random::{Random, DIMENSIONS};
use reference::{Pauli, Row};
use std::collections::HashSet;
use std::fmt::Write;
use std::sync::atomic::{AtomicPtr, Ordering};

// ------------------------------------------------------------------ one call

struct Case {
    /// Where the call comes from, for the report of a difference.
    origin: String,
    name: Name,
    numbers: Numbers,
    first: Vec<u8>,
    second: Vec<u8>,
    /// The length of the output, and the seed of what it holds before.
    room: usize,
    fill: u64,
}

impl Case {
    fn new(name: Name, d: u16, n: u16, first: Vec<u8>, second: Vec<u8>) -> Case {
        let numbers = Numbers::new(d, n);
        let room = name.room(numbers, second.len());
        Case {
            origin: String::new(),
            name,
            numbers,
            first,
            second,
            room,
            fill: 0,
        }
    }

    /// A case with one Pauli, or two.
    fn of_paulis(name: Name, d: u16, n: u16, paulis: &[&Pauli]) -> Case {
        let mut lent = paulis.iter().map(|p| calls::bytes_of_pauli(p));
        let first = lent.next().unwrap_or_default();
        let second = lent.next().unwrap_or_default();
        Case::new(name, d, n, first, second)
    }

    /// A load of so many rows, with the room that they need.
    fn of_load(d: u16, n: u16, seed: u64, count: u16) -> Case {
        let mut case = Case::new(Name::Load, d, n, vec![], vec![]);
        (case.numbers.seed, case.numbers.a) = (seed, count);
        case.room = Name::Load.room(case.numbers, 0);
        case
    }

    /// The same with a drawn seed for what the output holds before.
    fn filled(mut self, random: &mut Random) -> Case {
        self.fill = random.next();
        self
    }

    fn describe(&self) -> String {
        let Numbers { d, n, a, b, seed } = self.numbers;
        let mut text = format!("{}\ncall {} d={d} n={n}", self.origin, self.name.text());
        match self.name {
            Name::LeastMultiplier => write!(text, " a={a} b={b}").unwrap(),
            Name::Power => write!(text, " k={a}").unwrap(),
            Name::Load => write!(text, " seed={seed:#x} count={a}").unwrap(),
            _ => {}
        }
        for (input, layout) in [&self.first, &self.second]
            .into_iter()
            .zip(self.name.inputs())
        {
            write!(
                text,
                "\n{layout:?} of {} bytes: {}",
                input.len(),
                hex(input)
            )
            .unwrap();
        }
        write!(text, "\noutput of {} bytes", self.room).unwrap();
        text
    }
}

fn hex(bytes: &[u8]) -> String {
    bytes.iter().map(|byte| format!("{byte:02x}")).collect()
}

/// Memory between two pages that may not be touched, so that reading or
/// writing one byte beyond what is lent ends the program.
struct Region {
    start: *mut u8,
    len: usize,
}

/// A multiple of the page of any machine.
const PAGE: usize = 65_536;

extern "C" {
    fn mmap(at: *mut u8, len: usize, protection: i32, flags: i32, file: i32, from: i64) -> *mut u8;
    fn mprotect(at: *mut u8, len: usize, protection: i32) -> i32;
    fn signal(number: i32, handler: usize) -> usize;
    fn alarm(seconds: u32) -> u32;
}

impl Region {
    fn new(len: usize) -> Region {
        const READ_WRITE: i32 = 3;
        const PRIVATE_ANONYMOUS: i32 = 0x22;
        let whole = len + 2 * PAGE;
        unsafe {
            let at = mmap(
                std::ptr::null_mut(),
                whole,
                READ_WRITE,
                PRIVATE_ANONYMOUS,
                -1,
                0,
            );
            assert!(at as isize != -1, "no memory");
            assert_eq!(mprotect(at, PAGE, 0), 0);
            assert_eq!(mprotect(at.add(PAGE + len), PAGE, 0), 0);
            Region {
                start: at.add(PAGE),
                len,
            }
        }
    }

    /// Lends a copy of the bytes that ends, or else starts, at the page that
    /// may not be touched.
    fn lend(&self, bytes: &[u8], at_end: bool) -> Lent {
        assert!(bytes.len() <= self.len);
        let offset = if at_end { self.len - bytes.len() } else { 0 };
        unsafe {
            let at = self.start.add(offset);
            std::ptr::copy_nonoverlapping(bytes.as_ptr(), at, bytes.len());
            Lent {
                at,
                len: bytes.len(),
            }
        }
    }
}

fn bytes_at(lent: Lent) -> &'static [u8] {
    if lent.len == 0 {
        return &[];
    }
    unsafe { std::slice::from_raw_parts(lent.at, lent.len) }
}

struct Host {
    regions: [Region; 3],
    calls: u64,
    /// How often each number was seen for each call.
    seen: [[u64; 10]; NAMES.len()],
}

const GUARD: usize = 64;

/// The call under way, for the report when it doesn't come back.
static UNDER_WAY: AtomicPtr<Case> = AtomicPtr::new(std::ptr::null_mut());

extern "C" fn on_signal(number: i32) {
    let case = UNDER_WAY.load(Ordering::SeqCst);
    let what = match number {
        7 | 11 => "touched what it was not lent",
        14 => "has not ended",
        _ => "broke off",
    };
    match unsafe { case.as_ref() } {
        Some(case) => eprintln!("signal {number}: the call {what}\n{}", case.describe()),
        None => eprintln!("signal {number} outside a call"),
    }
    std::process::exit(1);
}

impl Host {
    fn new() -> Host {
        for number in [4, 6, 7, 8, 11, 14] {
            unsafe { signal(number, on_signal as extern "C" fn(i32) as usize) };
        }
        Host {
            regions: [(); 3].map(|_| Region::new(10 * PAGE)),
            calls: 0,
            seen: [[0; 10]; NAMES.len()],
        }
    }

    /// Makes the call on both sides and compares. Gives the library's answer
    /// and output, and ends the program at the first difference.
    fn compare(&mut self, case: &Case) -> (Answer, Vec<u8>) {
        match self.difference(case) {
            Ok(given) => given,
            Err(report) => {
                println!("difference: {report}");
                std::process::exit(1);
            }
        }
    }

    fn difference(&mut self, case: &Case) -> Result<(Answer, Vec<u8>), String> {
        let mut random = Random::new(case.fill, 0);

        // The inputs, sometimes one and the same, and null when empty.
        let first = match case.first.len() {
            0 if random.one_in(2) => Lent::NOTHING,
            _ => self.regions[0].lend(&case.first, !random.one_in(4)),
        };
        let second = match case.second.len() {
            0 if random.one_in(2) => Lent::NOTHING,
            _ if case.first == case.second => first,
            _ => self.regions[1].lend(&case.second, !random.one_in(4)),
        };

        // The output holds random bytes, with guard bytes before it, and after
        // it guard bytes or the page that may not be touched.
        let after = if random.one_in(4) { 0 } else { GUARD };
        let before = random.bytes(GUARD + case.room + after);
        let window = self.regions[2].lend(&before, true);
        let out = match case.room {
            0 if random.one_in(2) => Lent::NOTHING,
            _ => Lent {
                at: unsafe { window.at.add(GUARD) },
                len: case.room,
            },
        };

        UNDER_WAY.store(case as *const Case as *mut Case, Ordering::SeqCst);
        let (given, touched) = unsafe {
            alarm(30);
            match case.name {
                Name::Support => library_support(case.numbers, first),
                name => (library(name, case.numbers, first, second, out), 0),
            }
        };
        UNDER_WAY.store(std::ptr::null_mut(), Ordering::SeqCst);
        self.calls += 1;

        let window = bytes_at(window);
        let left = &before[GUARD..GUARD + case.room];
        let mut wanted_out = left.to_vec();
        let (wanted, wanted_touched) = match case.name {
            Name::Support => reference_support(case.numbers, &case.first),
            name => {
                let (first, second) = (&case.first, &case.second);
                let wanted = reference_call(name, case.numbers, first, second, &mut wanted_out);
                (wanted, 0)
            }
        };
        let given_out = &window[GUARD..GUARD + case.room];
        let report = |what: &str| {
            format!(
                "{what}\n{}\nlibrary   number={} value={} touched={touched} output={}\n\
                 reference number={} value={} touched={wanted_touched} output={}",
                case.describe(),
                given.number,
                given.value,
                hex(given_out),
                wanted.number,
                wanted.value,
                hex(&wanted_out),
            )
        };

        if window[..GUARD] != before[..GUARD] {
            return Err(report("bytes before the output were written"));
        }
        if window[GUARD + case.room..] != before[GUARD + case.room..] {
            return Err(report("bytes after the output were written"));
        }
        if bytes_at(first) != case.first || bytes_at(second) != case.second {
            return Err(report("an input was written"));
        }
        if given.number != wanted.number {
            return Err(report("the numbers differ"));
        }
        self.seen[case.name as usize][given.number as usize] += 1;
        if case.name == Name::Synthesis && given.number == 0 {
            judge_list(case, given.value as usize, left, given_out, &mut random)
                .map_err(|what| report(&what))?;
        } else {
            if (given.value, touched) != (wanted.value, wanted_touched) {
                return Err(report("the values differ"));
            }
            if given_out != wanted_out {
                return Err(report("the outputs differ"));
            }
        }
        Ok((given, given_out.to_vec()))
    }
}

/// Says what is wrong with a list that synthesis handed back, if anything.
fn judge_list(
    case: &Case,
    count: usize,
    left: &[u8],
    out: &[u8],
    random: &mut Random,
) -> Result<(), String> {
    let (d, n) = (case.numbers.d as i64, case.numbers.n as usize);
    if count > 5 * n * n + 6 * n {
        return Err(format!("{count} rows are more than 5n² + 6n"));
    }
    let end = calls::ROW_LEN * count;
    if out[end..] != left[end..] {
        return Err("bytes after the last row were written".into());
    }
    let rows: Vec<Row> = calls::rows_of_bytes(&out[..end]);
    if let Some(place) = rows.iter().position(|row| !row.is_legal(d, n)) {
        return Err(format!("row {} is not legal", place + 1));
    }
    if let Some(what) = reference::unexpected(&rows, d, n) {
        return Err(what);
    }
    let tableau = calls::tableau_of_bytes(&case.first, n);
    if count > 0 && tableau == reference::unit_tableau(n) {
        return Err(format!("{count} rows for the identity"));
    }
    for (j, column) in tableau.iter().enumerate() {
        if reference::run(&rows, &Pauli::unit(n, j + 1), d) != *column {
            return Err(format!(
                "the list does not carry unit Pauli {} to its column",
                j + 1
            ));
        }
    }
    for _ in 0..2 {
        let p = random.pauli(d, n);
        if reference::run(&rows, &p, d) != reference::image(&tableau, &p, d) {
            return Err(format!("the list does not carry {p:?} to its image"));
        }
    }
    Ok(())
}

// -------------------------------------------------------------- seeded calls

fn dimension(random: &mut Random) -> u16 {
    match random.below(4) {
        0 => random.pick(&DIMENSIONS),
        1 => random.pick(&[2, 3, 4, 6, 1024]),
        2 => random.between(2, 12) as u16,
        _ => random.between(2, 1024) as u16,
    }
}

fn width(random: &mut Random) -> u16 {
    let most = random.pick(&[1, 1, 2, 2, 3, 4, 4, 8, 16]);
    if random.one_in(12) {
        16
    } else {
        random.between(1, most) as u16
    }
}

/// One in three touches few qudits, or none.
/// A dimension, a width from `narrow` on, and `few` to `many` rows for them.
fn drawn_list(narrow: usize, few: usize, many: usize, random: &mut Random) -> (u16, u16, Vec<Row>) {
    let (d, n) = (dimension(random), random.between(narrow, 16));
    let count = random.between(few, many);
    let rows = random.rows(count, d as i64, n);
    (d, n as u16, rows)
}

fn any_pauli(d: i64, n: usize, random: &mut Random) -> Pauli {
    if random.one_in(3) {
        random.sparse_pauli(d, n)
    } else {
        random.pauli(d, n)
    }
}

fn batch_bytes(count: usize, d: i64, n: usize, random: &mut Random) -> Vec<u8> {
    (0..count)
        .flat_map(|_| calls::bytes_of_pauli(&any_pauli(d, n, random)))
        .collect()
}

fn valid_input(layout: Layout, d: i64, n: usize, random: &mut Random) -> Vec<u8> {
    match layout {
        Layout::Pauli => calls::bytes_of_pauli(&any_pauli(d, n, random)),
        Layout::Tableau => {
            let tableau = match random.below(6) {
                0 => random.dense_tableau(d, n),
                1 => reference::unit_tableau(n),
                _ => {
                    let count = random.between(0, 20 + 2 * n);
                    random.sound_tableau(count, d, n)
                }
            };
            calls::bytes_of_tableau(&tableau)
        }
        Layout::Batch => {
            let count = match random.below(100) {
                0 => calls::MOST_PAULIS,
                1..=9 => 0,
                10..=19 => 1,
                _ => random.between(2, 8),
            };
            batch_bytes(count, d, n, random)
        }
        Layout::List => {
            let count = match random.below(100) {
                0 => calls::MOST_ROWS,
                1..=9 => 0,
                10..=19 => 1,
                _ => random.between(2, 40),
            };
            random.list_bytes(count, d, n)
        }
    }
}

/// How many rows a load is to have.
fn load_count(random: &mut Random) -> u16 {
    let count = match random.below(20) {
        0 => calls::MOST_ROWS,
        1 => 0,
        2 => 1,
        3 => random.between(2, calls::MOST_ROWS),
        _ => random.between(2, 40),
    };
    count as u16
}

/// More rows than a load may have. 8,192 rows and a few are there for code that
/// keeps the length of the list in 16 bits.
fn long_count(random: &mut Random) -> u16 {
    let few = random.between(0, 40) as u16;
    let any = random.between(calls::MOST_ROWS + 1, 65_535) as u16;
    random.pick(&[4097, 4097, 4098, 8192 + few, any, u16::MAX])
}

/// One seed in two has no bit or one, or all bits or all but one.
fn load_seed(random: &mut Random) -> u64 {
    let bit = 1 << random.below(64);
    let any = random.next();
    random.pick(&[0, u64::MAX, bit, !bit, any, any, any, any])
}

fn length_of(layout: Layout, n: usize) -> usize {
    match layout {
        Layout::Pauli | Layout::Batch => calls::pauli_len(n),
        Layout::Tableau => calls::tableau_len(n),
        Layout::List => calls::ROW_LEN,
    }
}

fn length_of_last(inputs: &[Vec<u8>]) -> usize {
    inputs.last().map_or(0, Vec::len)
}

fn put(bytes: &mut [u8], index: usize, number: u16) {
    bytes[2 * index..2 * index + 2].copy_from_slice(&number.to_le_bytes());
}

/// A number that is `limit` or more.
fn too_large(limit: u16, random: &mut Random) -> u16 {
    let any = random.between(limit as usize, 65_535) as u16;
    random.pick(&[limit, limit, limit + 1, u16::MAX, any])
}

fn damage_range(input: &mut [u8], d: u16, n: usize, random: &mut Random) {
    if input.is_empty() {
        return; // a batch without a number
    }
    let last = input.len() / 2 - 1;
    let any = random.between(0, last);
    let index = random.pick(&[0, last, any, any]);
    let limit = if index % (1 + 2 * n) == 0 { 2 * d } else { d };
    put(input, index, too_large(limit, random));
}

fn damage_row(list: &mut Vec<u8>, d: u16, n: u16, random: &mut Random) {
    let mut rows = calls::rows_of_bytes(list);
    if rows.is_empty() {
        rows.push(random.row(d as i64, n as usize));
    }
    let any = random.below(rows.len());
    let last = rows.len() - 1;
    let row = &mut rows[random.pick(&[0, last, any])];
    let of_two = [reference::A, reference::C, reference::W];
    match random.below(10) {
        0 => row.kind = random.pick(&[0, 9, 10, 256 + row.kind, u16::MAX]),
        1 => row.power = 0,
        2 | 3 => {
            let limit = match row.kind {
                reference::F => 4,
                reference::S => 2 * d,
                reference::W => 2,
                _ => d,
            };
            row.power = too_large(limit, random);
        }
        4 => {
            // M with a power in range that is no unit, where there is one.
            let shared = (0..d).find(|&q| q > 0 && !reference::is_unit(q as i64, d as i64));
            *row = Row {
                kind: reference::M,
                second: 0,
                power: shared.unwrap_or(d),
                ..*row
            };
        }
        5 => row.first = random.pick(&[0, n + 1, 256 + row.first, u16::MAX]),
        6 => {
            row.second = match reference::takes_two(row.kind) {
                true => random.pick(&[0, n + 1, row.first, u16::MAX]),
                false => random.pick(&[1, n, row.first, 256, u16::MAX]),
            }
        }
        // Another kind, with the qudits and the power of this one.
        7 => row.kind = random.between(1, reference::W as usize) as u16,
        8 => {
            *row = Row {
                kind: reference::W,
                second: row.first % n + 1,
                power: random.pick(&[2, d - 1, d]),
                ..*row
            }
        }
        _ => {
            *row = Row {
                kind: random.pick(&of_two),
                second: row.first,
                power: 1,
                ..*row
            }
        }
    }
    *list = calls::bytes_of_rows(&rows);
}

/// Mostly breaks pairing.
fn damage_pairing(input: &mut Vec<u8>, d: u16, n: usize, random: &mut Random) {
    let mut tableau = calls::tableau_of_bytes(input, n);
    let (j, k, i) = (random.below(2 * n), random.below(2 * n), random.below(n));
    match random.below(8) {
        0 => tableau.swap(j, k),
        1 => tableau[j] = tableau[k].clone(),
        2 => tableau
            .iter_mut()
            .for_each(|column| *column = random.pauli(d as i64, n)),
        _ => {
            let column = &mut tableau[j];
            let entry = if random.one_in(2) {
                &mut column.v[i]
            } else {
                &mut column.w[i]
            };
            *entry = (*entry + random.between(1, d as usize - 1) as i64) % d as i64;
        }
    }
    *input = calls::bytes_of_tableau(&tableau);
}

fn damage_parity(input: &mut Vec<u8>, d: u16, n: usize, random: &mut Random) {
    let mut tableau = calls::tableau_of_bytes(input, n);
    let column = &mut tableau[random.below(2 * n)];
    column.phase = (column.phase + 1 + 2 * random.below(d as usize) as i64) % (2 * d as i64);
    *input = calls::bytes_of_tableau(&tableau);
}

/// The lengths that come out as right when reduced modulo 65,536 are there for
/// code that keeps a length in 16 bits.
fn damage_length(input: &mut Vec<u8>, layout: Layout, n: usize, random: &mut Random) {
    let old = input.len();
    let pauli = calls::pauli_len(n);
    let new = match (layout, random.below(12)) {
        (Layout::List, 0) => 8 * (calls::MOST_ROWS + 1),
        (Layout::List, 1) => 8 * calls::MOST_ROWS + random.between(1, 7),
        (Layout::List, 2) if random.one_in(20) => 8 * 65_536 + old.min(64),
        (Layout::Batch, 0) => pauli * (calls::MOST_PAULIS + 1),
        (Layout::Batch, 1) => pauli * calls::MOST_PAULIS + random.between(1, pauli - 1),
        (_, 3) if random.one_in(20) => 65_536 + old,
        (_, 4) => 0,
        (_, 5) => random.between(0, 2 * old),
        (_, 6) => old + 8,
        (_, 7) => old.saturating_sub(2),
        (_, 8 | 9) => old + 1,
        _ => old.saturating_sub(1),
    };
    // More rows have to be legal and more Paulis in range, so that only the
    // length is wrong.
    let legal = match layout {
        Layout::Batch => vec![0; pauli],
        _ => vec![1, 0, 1, 0, 0, 0, 1, 0],
    };
    let part = input.get(..legal.len()).unwrap_or(&legal).to_vec();
    let missing = new.saturating_sub(old);
    input.truncate(new);
    input.extend(part.iter().cycle().take(missing));
}

fn seeded_case(seed: u64, index: u64) -> Case {
    let random = &mut Random::new(seed, index);
    let name = random.pick(&NAMES);
    let (d, n) = (dimension(random), width(random));
    let wide = n as usize;
    let inputs = name.inputs();
    let mut lent: Vec<Vec<u8>> = inputs
        .iter()
        .map(|&layout| valid_input(layout, d as i64, wide, random))
        .collect();
    if inputs.len() == 2 && inputs[0] == inputs[1] && random.one_in(10) {
        lent[1] = lent[0].clone();
    }
    let mut x = Numbers::new(d, n);
    x.a = random.next() as u16;
    if name == Name::LeastMultiplier {
        (x.a, x.b) = (random.entry(d as i64) as u16, random.entry(d as i64) as u16);
    } else if name == Name::Load {
        (x.a, x.seed) = (load_count(random), load_seed(random));
    } else if random.one_in(2) {
        x.a = random.pick(&[0, 1, 2, d - 1, d, 2 * d, u16::MAX]);
    }
    let needed = name.room(x, length_of_last(&lent));
    let mut room = needed + random.pick(&[0, 0, 0, 1, 8, 64, 100]);

    // Half of all calls have no fault, the others one to three, so that the
    // order of the tests is tried as well. What the damage does is not assumed
    // anywhere: both sides judge it.
    let faults = random.pick(&[0, 0, 0, 0, 1, 1, 2, 3]);
    let mut faulty = [false; 10];
    for _ in 0..faults {
        faulty[random.pick(name.refusals()) as usize] = true;
    }
    let some = |layouts: &[Layout], random: &mut Random| {
        let places: Vec<usize> = (0..inputs.len())
            .filter(|&i| layouts.contains(&inputs[i]))
            .collect();
        random.pick(&places)
    };
    if faulty[calls::PAIRING as usize] {
        damage_pairing(&mut lent[some(&[Layout::Tableau], random)], d, wide, random);
    }
    if faulty[calls::PARITY as usize] {
        damage_parity(&mut lent[some(&[Layout::Tableau], random)], d, wide, random);
    }
    if faulty[calls::ROW as usize] {
        damage_row(&mut lent[some(&[Layout::List], random)], d, n, random);
    }
    if faulty[calls::RANGE as usize] {
        if name == Name::LeastMultiplier {
            let large = too_large(d, random);
            if random.one_in(2) {
                x.a = large
            } else {
                x.b = large
            }
        } else {
            let place = some(&[Layout::Pauli, Layout::Tableau, Layout::Batch], random);
            damage_range(&mut lent[place], d, wide, random);
        }
    }
    if faulty[calls::ROOM as usize] && needed > 0 {
        let any = random.below(needed);
        room = random.pick(&[needed - 1, needed - 1, needed - 2, any, 0]);
    }
    if faulty[calls::LENGTH as usize] && name == Name::Load {
        x.a = long_count(random);
        if random.one_in(2) {
            room = name.room(x, 0);
        }
    } else if faulty[calls::LENGTH as usize] {
        let place = random.below(lent.len());
        damage_length(&mut lent[place], inputs[place], wide, random);
    }
    if faulty[calls::WIDTH as usize] {
        x.n = random.pick(&[0, 0, 17, 17, 18, 256 + n, 65_535]);
        if x.n < 20 && random.one_in(2) {
            // Lengths that would be right for this n.
            for (input, &layout) in lent.iter_mut().zip(inputs) {
                input.resize(length_of(layout, x.n as usize), 0);
            }
            room = name.room(x, length_of_last(&lent));
        }
    }
    if faulty[calls::DIMENSION as usize] {
        x.d = random.pick(&[0, 1, 1025, 1026, 32_768, 65_535]);
    }

    // Now and then another d or n than the inputs were made for, or no sense.
    match random.below(60) {
        0 => x.d = dimension(random),
        1 => x.n = width(random),
        2 => lent
            .iter_mut()
            .for_each(|input| *input = random.bytes(input.len())),
        3 => {
            for input in &mut lent {
                let length = random.below(3000);
                *input = random.bytes(length);
            }
        }
        _ => {}
    }

    let mut lent = lent.into_iter();
    Case {
        origin: format!("seeded call {index}: SEED={seed} ONLY={index} makes it again"),
        name,
        numbers: x,
        first: lent.next().unwrap_or_default(),
        second: lent.next().unwrap_or_default(),
        room,
        fill: random.next(),
    }
}

// ------------------------------------------------------ the document's examples

/// c1 to c12 on the library, with the answers written in the document.
fn examples(host: &mut Host) {
    let pauli = |numbers: &[u16]| calls::bytes(numbers.iter().copied());
    let fail = |example: &str, case: &Case, answer: Answer, out: &[u8]| {
        println!(
            "{example} does not hold: {answer:?} {}\n{}",
            hex(out),
            case.describe()
        );
        std::process::exit(1);
    };
    let mut gives = |example: &str, case: Case, wanted: &[u16]| {
        let (answer, out) = host.compare(&case);
        if answer.number != 0 || out != pauli(wanted) {
            fail(example, &case, answer, &out);
        }
    };
    let product = Case::new(Name::Product, 4, 1, pauli(&[0, 0, 1]), pauli(&[0, 1, 0]));
    gives("c1", product, &[2, 1, 1]);
    let mut power = Case::new(Name::Power, 4, 1, pauli(&[0, 1, 1]), vec![]);
    power.numbers.a = 4;
    gives("c2", power, &[4, 0, 0]);
    let run = |d, n, row: [u16; 4], p: &[u16]| Case::new(Name::Run, d, n, pauli(&row), pauli(p));
    gives("c3", run(4, 1, [1, 1, 0, 1], &[0, 1, 1]), &[6, 3, 1]);
    gives("c4", run(4, 1, [2, 1, 0, 1], &[0, 3, 0]), &[5, 3, 3]);
    gives(
        "c5",
        run(3, 2, [3, 1, 2, 1], &[0, 1, 0, 0, 1]),
        &[0, 1, 1, 2, 1],
    );
    let list = |d, row: [u16; 4]| Case::new(Name::Tableau, d, 1, pauli(&row), vec![]);
    gives("c7, the list", list(2, [2, 1, 0, 3]), &[1, 1, 1, 0, 0, 1]);
    gives("c12, S", list(4, [2, 1, 0, 4]), &[4, 1, 0, 0, 0, 1]);
    gives("c12, Z", list(4, [6, 1, 0, 2]), &[4, 1, 0, 0, 0, 1]);

    let mut answers = |example: &str, case: Case, number: u16, value: Option<u16>| {
        let (answer, out) = host.compare(&case);
        if answer.number != number || value.is_some_and(|value| value != answer.value) {
            fail(example, &case, answer, &out);
        }
    };
    let columns = |d, numbers: &[u16]| Case::new(Name::Synthesis, d, 1, pauli(numbers), vec![]);
    answers(
        "c6",
        columns(2, &[0, 1, 1, 0, 0, 1]),
        calls::PARITY,
        Some(0),
    );
    answers("c7", columns(2, &[1, 1, 1, 0, 0, 1]), 0, None);
    answers("c8", columns(6, &[0, 2, 3, 0, 3, 2]), 0, None);
    answers(
        "c9",
        columns(4, &[0, 2, 0, 0, 0, 1]),
        calls::PAIRING,
        Some(0),
    );
    answers(
        "c10, phase 1",
        columns(4, &[1, 1, 0, 0, 0, 1]),
        calls::PARITY,
        Some(0),
    );
    answers("c10, phase 2", columns(4, &[2, 1, 0, 0, 0, 1]), 0, None);
    let mut multiplier = Case::new(Name::LeastMultiplier, 6, 0, vec![], vec![]);
    (multiplier.numbers.a, multiplier.numbers.b) = (2, 1);
    answers("c11", multiplier, 0, Some(5));
    println!("c1 to c12 hold");
}

// ------------------------------------------------------------ exhaustive parts

/// The least multiplier for all a and b: for small d, for two primes and a
/// power of two near the limit, and for 840 and 1,020, where it is as far from
/// zero as at any d.
fn every_multiplier(host: &mut Host) {
    let large = [840, 1009, 1020, 1021, 1024];
    for d in (2..=24).chain(large) {
        for (a, b) in (0..d).flat_map(|a| (0..d).map(move |b| (a, b))) {
            let mut case = Case::new(Name::LeastMultiplier, d, 0, vec![], vec![]);
            (case.numbers.a, case.numbers.b) = (a, b);
            host.compare(&case);
        }
    }
    println!("least multiplier: all a and b for d from 2 to 24, and d in {large:?}");
}

/// Synthesis on every tableau for n = 1 that keeps pairing, with all phases,
/// and on one with each other choice of entries. The judgement allows 9 rows,
/// and 7 for prime d.
fn every_tableau_of_one_qudit(host: &mut Host) {
    let (mut sound, mut worst) = (0, 0);
    for d in 2..=9_u16 {
        for code in 0..d.pow(4) {
            let [v, w, s, t] = [0, 1, 2, 3].map(|place| code / d.pow(place) % d);
            let commutation = (w * s + d * d - v * t) % d;
            let phases = if commutation == d - 1 { 4 * d * d } else { 1 };
            for phase in 0..phases {
                let (h, k) = (phase / (2 * d), phase % (2 * d));
                let tableau = calls::bytes([h, v, w, k, s, t]);
                let mut case = Case::new(Name::Synthesis, d, 1, tableau, vec![]);
                case.fill = phase as u64;
                let (answer, _) = host.compare(&case);
                if answer.number == 0 {
                    sound += 1;
                    worst = worst.max(answer.value);
                }
            }
        }
    }
    println!(
        "synthesis: all {sound} sound tableaus for n = 1, d from 2 to 9; at most {worst} rows"
    );
}

/// Synthesis on every sound tableau for n = 2, d = 2: all that lists reach,
/// found from the identity by putting each legal row behind each of them.
fn every_tableau_of_two_qubits(host: &mut Host) {
    const SOUND: usize = 11_520;
    let (d, n) = (2_u16, 2_u16);
    let (dim, wide) = (d as i64, n as usize);
    let mut legal = Vec::new();
    for kind in reference::F..=reference::W {
        for code in 0..n * (n + 1) * 2 * d {
            let row = Row {
                kind,
                first: 1 + code % n,
                second: code / n % (n + 1),
                power: code / n / (n + 1),
            };
            if row.is_legal(dim, wide) {
                legal.push(row);
            }
        }
    }
    let mut reached = vec![reference::unit_tableau(wide)];
    let mut known: HashSet<Vec<u8>> = reached.iter().map(|t| calls::bytes_of_tableau(t)).collect();
    let (mut next, mut worst) = (0, 0);
    while next < reached.len() {
        let bytes = calls::bytes_of_tableau(&reached[next]);
        let mut case = Case::new(Name::Synthesis, d, n, bytes, vec![]);
        case.fill = next as u64;
        let (answer, _) = host.compare(&case);
        assert_eq!(answer.number, 0, "a list's tableau is sound");
        worst = worst.max(answer.value);
        for row in &legal {
            let mut tableau = reached[next].clone();
            for column in &mut tableau {
                row.apply(column, dim);
            }
            if known.insert(calls::bytes_of_tableau(&tableau)) {
                reached.push(tableau);
            }
        }
        next += 1;
    }
    assert_eq!(reached.len(), SOUND);
    println!("synthesis: all {SOUND} sound tableaus for n = 2, d = 2; at most {worst} rows");
}

/// How many rows synthesis uses on random sound tableaus without many zeros.
fn rows_used(host: &mut Host, seed: u64) {
    println!("\n| n | tableaus | rows, mean | rows, worst | (9n² + 9n) / 2 | 5n² + 6n |");
    println!("|---|---|---|---|---|---|");
    for (n, tableaus) in [(1_u16, 2000), (2, 1000), (4, 500), (8, 200), (16, 60)] {
        let wide = n as usize;
        let (mut all, mut worst) = (0_usize, 0);
        for index in 0..tableaus {
            let mut random = Random::new(seed, index);
            let d = dimension(&mut random);
            let tableau = calls::bytes_of_tableau(&random.dense_tableau(d as i64, wide));
            let case = Case::new(Name::Synthesis, d, n, tableau, vec![]);
            let count = host.compare(&case).0.value as usize;
            all += count;
            worst = worst.max(count);
        }
        let mean = all as f64 / tableaus as f64;
        let most = (9 * wide * wide + 9 * wide) / 2;
        println!(
            "| {n} | {tableaus} | {mean:.1} | {worst} | {most} | {} |",
            5 * wide * wide + 6 * wide
        );
    }
}

// ----------------------------------------------------------------------- main

fn setting(name: &str) -> Option<u64> {
    let text = std::env::var(name).ok()?;
    Some(
        text.parse()
            .unwrap_or_else(|_| panic!("{name} is no number: {text}")),
    )
}

/// The counts as a table. Says whether each call gave each of its numbers.
fn print_numbers(host: &Host) -> bool {
    println!("\n| call | 0 | 1 | 2 | 3 | 4 | 5 | 6 | 7 | 8 |");
    println!("|---|---|---|---|---|---|---|---|---|---|");
    let mut all_seen = true;
    for name in NAMES {
        let mut line = format!("| {} |", name.text());
        for number in 0..=8_u16 {
            let count = host.seen[name as usize][number as usize];
            let possible = number == 0 || name.refusals().contains(&number);
            all_seen &= !possible || count > 0;
            let cell = if possible {
                count.to_string()
            } else {
                "-".into()
            };
            write!(line, " {cell} |").unwrap();
        }
        println!("{line}");
    }
    all_seen
}

fn main() {
    let seed = setting("SEED").unwrap_or(1);
    let calls = setting("CALLS").unwrap_or(100_000);
    let mut host = Host::new();
    if let Some(index) = setting("ONLY") {
        let case = seeded_case(seed, index);
        println!("{}", case.describe());
        let (answer, out) = host.compare(&case);
        println!("both sides agree: {answer:?} {}", hex(&out));
        return;
    }
    examples(&mut host);
    every_multiplier(&mut host);
    every_tableau_of_one_qudit(&mut host);
    every_tableau_of_two_qubits(&mut host);
    touched::every_support_word(&mut host, seed);
    touched::support_fault_by_fault(&mut host, seed);
    touched::support_number_by_number(&mut host, seed);
    touched::support_of_results(&mut host, seed);
    touched::commutation_of_few(&mut host, seed);
    batch::random_batches(&mut host, seed);
    batch::batches_of_columns(&mut host, seed);
    batch::refused_at_each_place(&mut host, seed);
    batch::fault_by_fault(&mut host, seed);
    batch::every_length(&mut host, seed);
    batch::empty_batches(&mut host, seed);
    overlap::every_short_list(&mut host);
    overlap::laws_of_ticks(&mut host, seed);
    overlap::longest_lists(&mut host, seed);
    kinds::every_edge(&mut host, seed);
    kinds::every_legal_row(&mut host, seed);
    kinds::rows_by_other_rows(&mut host, seed);
    kinds::laws_of_lists(&mut host, seed);
    kinds::units_between(&mut host);
    loads::known_loads(&mut host);
    loads::every_size(&mut host, seed);
    loads::every_bit_of_the_seed(&mut host, seed);
    loads::laws_of_loads(&mut host, seed);
    loads::longest_loads(&mut host, seed);
    loads::fault_by_fault(&mut host, seed);
    comparing::every_short_list(&mut host);
    comparing::lists_apart(&mut host, seed);
    comparing::lists_restored(&mut host, seed);
    rows_used(&mut host, seed);

    host.seen = [[0; 10]; NAMES.len()];
    for index in 0..calls {
        host.compare(&seeded_case(seed, index));
    }
    println!("\n{calls} seeded calls, SEED={seed}; how often each number was given:");
    let all_seen = print_numbers(&host);
    if !all_seen && calls >= 10_000 {
        println!("a number of a call's table was never given");
        std::process::exit(1);
    }
    println!("\n{} calls compared, 0 differences", host.calls);
}
