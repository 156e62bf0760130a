//! Calls per second of the library and of the reference on the same inputs,
//! the stack that each call of the library uses, and the rows of synthesis, as
//! one Markdown table. BENCH_MS is the least time of a round.
//!
//! Then, in tables of their own, a batch of Paulis against single calls, the
//! least multiplier where its search is longest, how long the lists of the
//! library's synthesis are, and what time it takes on 16 qudits. The lists are
//! counted without a clock, so those figures are the same in every run.
//!
//! Calls that take a list have lines with rows of the first six kinds, as before
//! there were C and W, and lines with rows of all eight; BENCH_KINDS=6 leaves the
//! latter out, for a library that has no C and W. Each line is there for few
//! lists, which come back soon, and for many. Random tableaus are those of rows
//! of the first six.

use library::{library, reference as reference_call, Layout, Lent, Name, Numbers, NAMES};
use reference::random::Random;
use reference::{calls, Row};
use std::hint::black_box;

/// Different inputs for each line of the table, used in turn.
const INPUTS: usize = 16;
/// Fewer where each is a batch, which takes long.
const BATCHES: usize = 2;
/// Few lists and many: figures by lists that come back soon differ from those by
/// lists that don't, most likely since the processor learns the kinds.
const LISTS: [usize; 2] = [16, 512];
const LIST_ROWS: usize = 64;
const MOST_QUDITS: u16 = 16;
const WIDTHS: [u16; 3] = [1, 4, MOST_QUDITS];
const DIMENSIONS: [u16; 3] = [2, 6, 1024];
const ROUNDS: u32 = 15;

struct Input {
    name: Name,
    numbers: Numbers,
    first: Vec<u8>,
    second: Vec<u8>,
}

impl Input {
    fn room(&self) -> usize {
        self.name.room(self.numbers, self.second.len())
    }
}

type Rows = fn(&mut Random, usize, i64, usize) -> Vec<Row>;

/// A drawn input; `rows` draws its list, if it has one.
fn input_with(rows: Rows, name: Name, d: u16, n: u16, random: &mut Random) -> Input {
    let (dim, wide) = (d as i64, n as usize);
    let mut lent = name.inputs().iter().map(|layout| match layout {
        Layout::Pauli => calls::bytes_of_pauli(&random.pauli(dim, wide)),
        Layout::Tableau => calls::bytes_of_tableau(&random.dense_tableau_of_six(dim, wide)),
        Layout::Batch => (0..calls::MOST_PAULIS)
            .flat_map(|_| calls::bytes_of_pauli(&random.pauli(dim, wide)))
            .collect(),
        Layout::List => calls::bytes_of_rows(&rows(random, LIST_ROWS, dim, wide)),
    });
    let first = lent.next().unwrap_or_default();
    let second = lent.next().unwrap_or_default();
    let mut numbers = Numbers::new(d, n);
    match name {
        Name::LeastMultiplier => {
            (numbers.a, numbers.b) = (random.entry(dim) as u16, random.entry(dim) as u16)
        }
        Name::Load => (numbers.a, numbers.seed) = (calls::MOST_ROWS as u16, random.next()),
        _ => numbers.a = random.next() as u16,
    }
    Input {
        name,
        numbers,
        first,
        second,
    }
}

/// Lists have rows of the first six kinds.
fn input(name: Name, d: u16, n: u16, random: &mut Random) -> Input {
    input_with(Random::rows_of_six, name, d, n, random)
}

/// Lists have rows of all eight kinds.
fn input_of_eight(name: Name, d: u16, n: u16, random: &mut Random) -> Input {
    input_with(Random::rows, name, d, n, random)
}

/// Two Paulis that touch no qudit in common: one touches some, the other all the
/// others.
fn disjoint_paulis(name: Name, d: u16, n: u16, random: &mut Random) -> Input {
    let (dim, wide) = (d as i64, n as usize);
    let word = random.below(1 << n);
    let mut on = |word| calls::bytes_of_pauli(&random.pauli_on(word, dim, wide));
    Input {
        name,
        numbers: Numbers::new(d, n),
        first: on(word),
        second: on(!word),
    }
}

fn call_library(input: &Input, out: &mut [u8]) -> calls::Answer {
    let (first, second) = (Lent::input(&input.first), Lent::input(&input.second));
    unsafe { library(input.name, input.numbers, first, second, Lent::output(out)) }
}

fn call_reference(input: &Input, out: &mut [u8]) -> calls::Answer {
    reference_call(input.name, input.numbers, &input.first, &input.second, out)
}

/// A single call of the library for each Pauli of a batch, in order.
fn call_library_singly(batch: &Input, out: &mut [u8]) -> calls::Answer {
    let pauli = calls::pauli_len(batch.numbers.n as usize);
    let tableau = Lent::input(&batch.first);
    let mut last = calls::Answer {
        number: 0,
        value: 0,
    };
    for (p, image) in batch.second.chunks(pauli).zip(out.chunks_mut(pauli)) {
        let (p, image) = (Lent::input(p), Lent::output(image));
        last = unsafe { library(Name::Image, batch.numbers, tableau, p, image) };
        assert_eq!(last.number, 0, "a bench call was refused");
    }
    last
}

type Call = fn(&Input, &mut [u8]) -> calls::Answer;

/// Processor time of this thread: what else runs on the machine counts less
/// than it would by the clock.
fn seconds() -> f64 {
    const THREAD_CPU_TIME: i32 = 3;
    let mut time = [0_i64; 2];
    assert_eq!(unsafe { clock_gettime(THREAD_CPU_TIME, &mut time) }, 0);
    time[0] as f64 + time[1] as f64 * 1e-9
}

/// Makes the calls in turn, twice as often each time until they take long
/// enough. The output is not cleared between calls.
fn calls_per_second(call: Call, inputs: &[Input], out: &mut [u8], time: f64) -> f64 {
    let mut turns = 1;
    loop {
        let start = seconds();
        for _ in 0..turns {
            for input in inputs {
                let answer = call(black_box(input), black_box(&mut *out));
                assert_eq!(black_box(answer).number, 0, "a bench call was refused");
            }
        }
        let taken = seconds() - start;
        if taken >= time {
            return (turns * inputs.len()) as f64 / taken;
        }
        turns *= 2;
    }
}

/// Two sides in turn, several times; the best of each.
fn best_of(sides: [Call; 2], inputs: &[Input], out: &mut [u8], time: f64) -> (f64, f64) {
    let mut best = (0.0_f64, 0.0_f64);
    for _ in 0..ROUNDS {
        best.0 = best.0.max(calls_per_second(sides[0], inputs, out, time));
        best.1 = best.1.max(calls_per_second(sides[1], inputs, out, time));
    }
    best
}

/// The library and the reference.
fn both(inputs: &[Input], out: &mut [u8], time: f64) -> (f64, f64) {
    best_of([call_library, call_reference], inputs, out, time)
}

// ---------------------------------------------------------------------- stack

#[repr(C, align(16))]
struct ThreadAttributes([u8; 128]);

extern "C" {
    fn clock_gettime(clock: i32, time: *mut [i64; 2]) -> i32;
    fn pthread_attr_init(attributes: *mut ThreadAttributes) -> i32;
    fn pthread_attr_setstack(attributes: *mut ThreadAttributes, at: *mut u8, len: usize) -> i32;
    fn pthread_create(
        thread: *mut usize,
        attributes: *const ThreadAttributes,
        start: extern "C" fn(*mut u8) -> *mut u8,
        job: *mut u8,
    ) -> i32;
    fn pthread_join(thread: usize, result: *mut *mut u8) -> i32;
}

const STACK: usize = 1 << 20;
const PAINT: u8 = 0xC3;

struct Job<'a> {
    input: &'a Input,
    out: &'a mut [u8],
    caller: usize,
}

/// Notes where its own frame is and makes the call.
extern "C" fn on_painted_stack(job: *mut u8) -> *mut u8 {
    let here = 0_u8;
    let job = unsafe { &mut *(job as *mut Job) };
    job.caller = black_box(&here) as *const u8 as usize;
    black_box(call_library(job.input, job.out));
    std::ptr::null_mut()
}

/// Makes the call on a stack that was painted all over, and looks for the
/// lowest byte that is no longer paint. The frame of the caller counts too,
/// some hundred bytes at most.
fn stack_used(input: &Input, out: &mut [u8]) -> usize {
    let mut memory = vec![PAINT; STACK + 4096];
    let offset = memory.as_ptr().align_offset(4096);
    let stack = &mut memory[offset..offset + STACK];
    let mut job = Job {
        input,
        out,
        caller: 0,
    };
    let mut attributes = ThreadAttributes([0; 128]);
    let mut thread = 0;
    unsafe {
        assert_eq!(pthread_attr_init(&mut attributes), 0);
        assert_eq!(
            pthread_attr_setstack(&mut attributes, stack.as_mut_ptr(), STACK),
            0
        );
        let lent = &mut job as *mut Job as *mut u8;
        assert_eq!(
            pthread_create(&mut thread, &attributes, on_painted_stack, lent),
            0
        );
        assert_eq!(pthread_join(thread, std::ptr::null_mut()), 0);
    }
    let untouched = black_box(&*stack)
        .iter()
        .take_while(|&&byte| byte == PAINT)
        .count();
    assert!(untouched > 0, "the call used the whole stack");
    job.caller - (stack.as_ptr() as usize + untouched)
}

// ---------------------------------------------------------------------- calls

type Draw = fn(Name, u16, u16, &mut Random) -> Input;

/// What a line of the table is for: drawn inputs of a call, so many of them.
struct Line<'a> {
    what: &'a str,
    name: Name,
    draw: Draw,
    count: usize,
}

fn print_line(line: &Line, d: u16, n: u16, time: f64) {
    let Line { what, name, .. } = *line;
    let mut random = Random::new(1, (d as u64) << 16 | n as u64);
    let inputs: Vec<Input> = (0..line.count)
        .map(|_| (line.draw)(name, d, n, &mut random))
        .collect();
    let mut out = vec![0; inputs[0].room()];
    let (own, other) = both(&inputs, &mut out, time);
    let stack = inputs
        .iter()
        .map(|input| stack_used(input, &mut out))
        .max()
        .unwrap();
    let rows = if name == Name::Synthesis {
        let counts: Vec<usize> = inputs
            .iter()
            .map(|input| call_library(input, &mut out).value as usize)
            .collect();
        let mean = counts.iter().sum::<usize>() as f64 / counts.len() as f64;
        format!("{mean:.1} | {}", counts.iter().max().unwrap())
    } else {
        "- | -".into()
    };
    let width = if name == Name::LeastMultiplier {
        "-".into()
    } else {
        n.to_string()
    };
    println!(
        "| {what} | {width} | {d} | {own:.0} | {other:.0} | {:.2} | {stack} | {rows} |",
        own / other
    );
}

fn print_calls(milliseconds: u32) {
    println!(
        "Lists have {LIST_ROWS} rows, of the six kinds F, S, A, M, X and Z, or of all eight, with \
         C and W; for n = 1 there is no A, C or W. Batches have {} Paulis, tableaus few zeros. \
         Disjoint Paulis touch no qudit in common. A load makes {} rows. Outputs are not cleared \
         between calls. Both sides are built for release; best of {ROUNDS} rounds of at least \
         {milliseconds} ms of processor time.\n",
        calls::MOST_PAULIS,
        calls::MOST_ROWS
    );
    println!(
        "| call | n | d | library, calls/s | reference, calls/s | ratio | stack, bytes \
         | rows, mean | rows, worst |"
    );
    println!("|---|---|---|---|---|---|---|---|---|");
    let time = milliseconds as f64 / 1000.0;
    for name in NAMES {
        if name.inputs().contains(&Layout::List) {
            print_list_call(name, time);
            continue;
        }
        let line = Line {
            what: name.text(),
            name,
            draw: input,
            count: if name == Name::Images {
                BATCHES
            } else {
                INPUTS
            },
        };
        for n in WIDTHS {
            if name == Name::LeastMultiplier && n > 1 {
                continue; // it takes no n
            }
            for d in DIMENSIONS {
                print_line(&line, d, n, time);
            }
        }
        if name == Name::Commutation {
            let what = format!("{}, disjoint", name.text());
            let draw = disjoint_paulis;
            for d in DIMENSIONS {
                let what = &what;
                print_line(&Line { what, draw, ..line }, d, MOST_QUDITS, time);
            }
        }
    }
}

/// The lines of a call that takes a list. One qudit has no row of C or W.
fn print_list_call(name: Name, time: f64) {
    let kinds: [(&str, Draw, u16); 2] = [("six", input, 1), ("eight", input_of_eight, 2)];
    let kinds = &kinds[..if setting("BENCH_KINDS", 8) == 8 { 2 } else { 1 }];
    for (&(of, draw, least), count) in kinds.iter().flat_map(|of| LISTS.map(|c| (of, c))) {
        let what = &format!("{}, {of} kinds, {count} lists", name.text());
        for n in WIDTHS.into_iter().filter(|&n| n >= least) {
            for d in DIMENSIONS {
                let line = Line {
                    what,
                    name,
                    draw,
                    count,
                };
                print_line(&line, d, n, time);
            }
        }
    }
}

// -------------------------------------------------------------------- batches

fn print_batches(time: f64) {
    println!("\n## A batch against single calls\n");
    println!(
        "Microseconds for the images of {} Paulis under one tableau, by one call of \
         `clifford_images` and by a call of `clifford_image` for each, both of the library; the \
         mean over {BATCHES} tableaus, best of {ROUNDS} rounds of processor time.\n",
        calls::MOST_PAULIS
    );
    println!("| n | d | a batch, µs | single calls, µs | ratio |");
    println!("|---|---|---|---|---|");
    for (n, d) in WIDTHS.iter().flat_map(|&n| DIMENSIONS.map(|d| (n, d))) {
        let mut random = Random::new(5, (d as u64) << 16 | n as u64);
        let batches: Vec<Input> = (0..BATCHES)
            .map(|_| input(Name::Images, d, n, &mut random))
            .collect();
        let mut out = vec![0; batches[0].room()];
        let (own, single) = best_of(
            [call_library, call_library_singly],
            &batches,
            &mut out,
            time,
        );
        println!(
            "| {n} | {d} | {:.1} | {:.1} | {:.2} |",
            1e6 / own,
            1e6 / single,
            own / single
        );
    }
}

// ------------------------------------------------------------------- searches

/// Two primes and a power of two near the limit, where no least multiplier is
/// farther from zero than 1. Then two d at which one is as far as at any d, 5:
/// 840, at which the most pairs have such a one, and 1,020, the largest such d.
const SEARCH_DIMENSIONS: [u16; 5] = [1009, 1021, 1024, 840, 1020];
const MOST_SEARCHES: usize = 256;

/// A residue's, or a power's, distance from zero modulo m.
fn distance(x: u16, m: u16) -> usize {
    x.min(m - x) as usize
}

/// The largest distance of a least multiplier from zero, and the pairs a, b that
/// have it.
fn longest_searches(d: u16) -> (usize, Vec<(u16, u16)>) {
    let mut longest = (0, vec![]);
    for (a, b) in (0..d).flat_map(|a| (0..d).map(move |b| (a, b))) {
        let m = reference::least_multiplier(a as i64, b as i64, d as i64);
        let far = distance(m as u16, d);
        if far > longest.0 {
            longest = (far, vec![]);
        }
        if far == longest.0 {
            longest.1.push((a, b));
        }
    }
    longest
}

fn print_longest_searches(time: f64) {
    println!("\n## Longest searches for the least multiplier\n");
    println!(
        "The largest distance of a least multiplier from zero at d, how many pairs a, b have it, \
         and nanoseconds for a call, the mean over {MOST_SEARCHES} of those pairs, evenly spaced; \
         best of {ROUNDS} rounds of processor time.\n"
    );
    println!("| d | distance | pairs | library, ns | reference, ns | ratio |");
    println!("|---|---|---|---|---|---|");
    for d in SEARCH_DIMENSIONS {
        let (far, pairs) = longest_searches(d);
        let inputs: Vec<Input> = (0..MOST_SEARCHES)
            .map(|i| pairs[i * pairs.len() / MOST_SEARCHES])
            .map(|(a, b)| Input {
                name: Name::LeastMultiplier,
                numbers: Numbers {
                    a,
                    b,
                    ..Numbers::new(d, 0)
                },
                first: vec![],
                second: vec![],
            })
            .collect();
        let (own, other) = both(&inputs, &mut [], time);
        println!(
            "| {d} | {far} | {} | {:.1} | {:.1} | {:.2} |",
            pairs.len(),
            1e9 / own,
            1e9 / other,
            own / other
        );
    }
}

// ---------------------------------------------------------------------- lists

const RANDOM_DIMENSIONS: [u16; 6] = [2, 3, 6, 97, 840, 1024];
const SPARSE_DIMENSIONS: [u16; 4] = [2, 6, 97, 1024];
const SINGLE_ROWS: usize = 300;
const SHORT_LISTS: usize = 200;
const SHORT_LIST_ROWS: usize = 10;

/// The same tableaus are counted and timed.
fn random_tableaus(d: u16, n: u16) -> Vec<Input> {
    let mut random = Random::new(2, (d as u64) << 16 | n as u64);
    (0..if n <= 8 { 100 } else { 40 })
        .map(|_| input(Name::Synthesis, d, n, &mut random))
        .collect()
}

/// The tableaus of given lists.
fn tableaus_of(lists: &[Vec<Row>], d: u16, n: u16) -> Vec<Input> {
    let (dim, wide) = (d as i64, n as usize);
    lists
        .iter()
        .map(|rows| Input {
            name: Name::Synthesis,
            numbers: Numbers::new(d, n),
            first: calls::bytes_of_tableau(&reference::tableau_of_list(rows, dim, wide)),
            second: vec![],
        })
        .collect()
}

/// The ticks of a list, by the library.
fn ticks(list: &[u8], numbers: Numbers) -> usize {
    let input = Input {
        name: Name::Ticks,
        numbers,
        first: list.to_vec(),
        second: vec![],
    };
    let answer = call_library(&input, &mut []);
    assert_eq!(answer.number, 0, "a bench call was refused");
    answer.value as usize
}

/// The sum of the powers' distances from zero, F's modulo 4, S's modulo 2d and
/// the others' modulo d: what the drives of a list take.
fn drive(rows: &[Row], d: u16) -> usize {
    let modulus = |row: &Row| match row.kind {
        reference::F => 4,
        reference::S => 2 * d,
        _ => d,
    };
    rows.iter()
        .map(|row| distance(row.power, modulus(row)))
        .sum()
}

/// Mean and worst number of rows, A rows and ticks of the library's lists, and
/// of their drives, as the cells of a line.
fn list_cells(inputs: &[Input]) -> String {
    let counts: Vec<[usize; 4]> = inputs
        .iter()
        .map(|input| {
            let mut out = vec![0; input.room()];
            let answer = call_library(input, &mut out);
            assert_eq!(answer.number, 0, "a bench call was refused");
            let list = &out[..calls::ROW_LEN * answer.value as usize];
            let rows = calls::rows_of_bytes(list);
            let a_rows = rows.iter().filter(|row| row.kind == reference::A).count();
            [
                rows.len(),
                a_rows,
                ticks(list, input.numbers),
                drive(&rows, input.numbers.d),
            ]
        })
        .collect();
    let cells = [0, 1, 2, 3].map(|what| {
        let all = counts.iter().map(|count| count[what]);
        let mean = all.clone().sum::<usize>() as f64 / counts.len() as f64;
        format!("{mean:.1} | {}", all.max().unwrap())
    });
    cells.join(" | ")
}

const LIST_COLUMNS: &str = "rows, mean | rows, worst | A rows, mean | A rows, worst \
                            | ticks, mean | ticks, worst | drive, mean | drive, worst |\n\
                            |---|---|---|---|---|---|---|---|---|---|";

fn print_lists_of_random_tableaus() {
    println!("\n## Lists of random tableaus\n");
    println!(
        "The lists of the library for 100 random tableaus with few zeros, 40 for n = 16. Ticks: \
         what `clifford_ticks` answers. Drive: the sum of the powers' distances from zero, F's \
         modulo 4, S's modulo 2d, the others' modulo d.\n"
    );
    println!("| n | d | {LIST_COLUMNS}");
    for n in [1, 2, 4, 8, MOST_QUDITS] {
        for d in RANDOM_DIMENSIONS {
            println!("| {n} | {d} | {} |", list_cells(&random_tableaus(d, n)));
        }
    }
}

fn print_lists_of_sparse_operations() {
    let n = MOST_QUDITS;
    println!("\n## Lists of sparse operations\n");
    println!(
        "The lists of the library for operations on {n} qudits: the identity, {SINGLE_ROWS} single \
         rows of each kind, and {SHORT_LISTS} lists of {SHORT_LIST_ROWS} rows of the six kinds F, \
         S, A, M, X and Z, and of all eight; all random and legal.\n"
    );
    println!("| operation | d | {LIST_COLUMNS}");
    let line = |what: &str, d: u16, lists: &[Vec<Row>]| {
        println!(
            "| {what} | {d} | {} |",
            list_cells(&tableaus_of(lists, d, n))
        );
    };
    for d in SPARSE_DIMENSIONS {
        line("identity", d, &[vec![]]);
    }
    let letters = ["F", "S", "A", "M", "X", "Z", "C", "W"];
    for (kind, letter) in (reference::F..=reference::W).zip(letters) {
        for d in SPARSE_DIMENSIONS {
            let mut random = Random::new(3, (d as u64) << 16 | kind as u64);
            let (dim, wide) = (d as i64, n as usize);
            let mut any_row = || match kind > reference::Z {
                true => random.row(dim, wide),
                false => random.row_of_six(dim, wide),
            };
            let lists: Vec<Vec<Row>> = std::iter::repeat_with(|| vec![any_row()])
                .filter(|rows| rows[0].kind == kind)
                .take(SINGLE_ROWS)
                .collect();
            line(&format!("one {letter} row"), d, &lists);
        }
    }
    let kinds: [(&str, Rows); 2] = [("six", Random::rows_of_six), ("eight", Random::rows)];
    for (of, rows) in kinds {
        for d in SPARSE_DIMENSIONS {
            let mut random = Random::new(4, d as u64);
            let lists: Vec<Vec<Row>> = (0..SHORT_LISTS)
                .map(|_| rows(&mut random, SHORT_LIST_ROWS, d as i64, n as usize))
                .collect();
            let what = format!("{SHORT_LIST_ROWS} random rows, {of} kinds");
            line(&what, d, &lists);
        }
    }
}

fn print_time_of_synthesis(time: f64) {
    let n = MOST_QUDITS;
    println!("\n## Time of synthesis on {n} qudits\n");
    println!(
        "Microseconds for a call, the mean over the random tableaus counted above for n = {n}; \
         best of {ROUNDS} rounds of processor time.\n"
    );
    println!("| d | library, µs | reference, µs | ratio |");
    println!("|---|---|---|---|");
    let mut out = vec![0; calls::synthesis_room(n as usize)];
    for d in RANDOM_DIMENSIONS {
        let (own, other) = both(&random_tableaus(d, n), &mut out, time);
        println!(
            "| {d} | {:.1} | {:.1} | {:.2} |",
            1e6 / own,
            1e6 / other,
            own / other
        );
    }
}

// ----------------------------------------------------------------------- main

/// A number of the environment, or what it is where it isn't set.
fn setting(name: &str, otherwise: u32) -> u32 {
    std::env::var(name).map_or(otherwise, |text| {
        text.parse()
            .unwrap_or_else(|_| panic!("{name} is no number: {text}"))
    })
}

fn main() {
    let milliseconds = setting("BENCH_MS", 2);
    let time = milliseconds as f64 / 1000.0;
    print_calls(milliseconds);
    print_batches(time);
    print_longest_searches(time);
    print_lists_of_random_tableaus();
    print_lists_of_sparse_operations();
    print_time_of_synthesis(time);
}
