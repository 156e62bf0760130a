//! The library as include/clifford.h declares it, beside the reference, and
//! one form for a call to either.

use reference::calls::{self, Answer};

#[rustfmt::skip]
extern "C" {
    fn clifford_least_multiplier(d: u16, a: u16, b: u16) -> Answer;
    fn clifford_product(
        d: u16, n: u16, p: *const u8, p_len: usize, q: *const u8, q_len: usize,
        out: *mut u8, out_len: usize,
    ) -> u16;
    fn clifford_power(
        d: u16, n: u16, p: *const u8, p_len: usize, k: u16, out: *mut u8, out_len: usize,
    ) -> u16;
    fn clifford_commutation(
        d: u16, n: u16, p: *const u8, p_len: usize, q: *const u8, q_len: usize,
    ) -> Answer;
    fn clifford_support(d: u16, n: u16, p: *const u8, p_len: usize) -> calls::Support;
    fn clifford_run(
        d: u16, n: u16, list: *const u8, list_len: usize, p: *const u8, p_len: usize,
        out: *mut u8, out_len: usize,
    ) -> u16;
    fn clifford_tableau(
        d: u16, n: u16, list: *const u8, list_len: usize, out: *mut u8, out_len: usize,
    ) -> u16;
    fn clifford_synthesis(
        d: u16, n: u16, tableau: *const u8, tableau_len: usize, out: *mut u8, out_len: usize,
    ) -> Answer;
    fn clifford_image(
        d: u16, n: u16, tableau: *const u8, tableau_len: usize, p: *const u8, p_len: usize,
        out: *mut u8, out_len: usize,
    ) -> u16;
    fn clifford_images(
        d: u16, n: u16, tableau: *const u8, tableau_len: usize, paulis: *const u8,
        paulis_len: usize, out: *mut u8, out_len: usize,
    ) -> u16;
    fn clifford_compose(
        d: u16, n: u16, first: *const u8, first_len: usize, second: *const u8,
        second_len: usize, out: *mut u8, out_len: usize,
    ) -> u16;
    fn clifford_inverse(
        d: u16, n: u16, tableau: *const u8, tableau_len: usize, out: *mut u8, out_len: usize,
    ) -> u16;
    fn clifford_ticks(d: u16, n: u16, list: *const u8, list_len: usize) -> Answer;
    fn clifford_load(
        d: u16, n: u16, seed: u64, count: u16, out: *mut u8, out_len: usize,
    ) -> u16;
}

#[derive(Clone, Copy, Debug, PartialEq, Eq)]
pub enum Name {
    LeastMultiplier,
    Product,
    Power,
    Commutation,
    Support,
    Run,
    Tableau,
    Synthesis,
    Image,
    Images,
    Compose,
    Inverse,
    Ticks,
    Load,
}

use Name::*;

pub const NAMES: [Name; 14] = [
    LeastMultiplier,
    Product,
    Power,
    Commutation,
    Support,
    Run,
    Tableau,
    Synthesis,
    Image,
    Images,
    Compose,
    Inverse,
    Ticks,
    Load,
];

/// What the bytes of an input are.
#[derive(Clone, Copy, Debug, PartialEq, Eq)]
pub enum Layout {
    Pauli,
    Tableau,
    Batch,
    List,
}

impl Name {
    pub fn text(self) -> &'static str {
        match self {
            LeastMultiplier => "clifford_least_multiplier",
            Product => "clifford_product",
            Power => "clifford_power",
            Commutation => "clifford_commutation",
            Support => "clifford_support",
            Run => "clifford_run",
            Tableau => "clifford_tableau",
            Synthesis => "clifford_synthesis",
            Image => "clifford_image",
            Images => "clifford_images",
            Compose => "clifford_compose",
            Inverse => "clifford_inverse",
            Ticks => "clifford_ticks",
            Load => "clifford_load",
        }
    }

    /// The refusals that the call can give.
    pub fn refusals(self) -> &'static [u16] {
        match self {
            LeastMultiplier => &[1, 5],
            Product | Power => &[1, 2, 3, 4, 5],
            Commutation | Support => &[1, 2, 3, 5],
            Run => &[1, 2, 3, 4, 5, 6],
            Tableau => &[1, 2, 3, 4, 6],
            Synthesis | Image | Images | Compose | Inverse => &[1, 2, 3, 4, 5, 7, 8],
            Ticks => &[1, 2, 3, 6],
            Load => &[1, 2, 3, 4],
        }
    }

    pub fn inputs(self) -> &'static [Layout] {
        match self {
            LeastMultiplier | Load => &[],
            Product | Commutation => &[Layout::Pauli, Layout::Pauli],
            Power | Support => &[Layout::Pauli],
            Run => &[Layout::List, Layout::Pauli],
            Tableau | Ticks => &[Layout::List],
            Synthesis | Inverse => &[Layout::Tableau],
            Image => &[Layout::Tableau, Layout::Pauli],
            Images => &[Layout::Tableau, Layout::Batch],
            Compose => &[Layout::Tableau, Layout::Tableau],
        }
    }

    /// The room that the call asks for. Images are as long as their Paulis, so
    /// it depends on the length of the second input there, and nowhere else. A
    /// load's depends on its number of rows.
    pub fn room(self, x: Numbers, second_len: usize) -> usize {
        let n = x.n as usize;
        match self {
            LeastMultiplier | Commutation | Support | Ticks => 0,
            Product | Power | Run | Image => calls::pauli_len(n),
            Images => second_len,
            Tableau | Compose | Inverse => calls::tableau_len(n),
            Synthesis => calls::synthesis_room(n),
            Load => calls::ROW_LEN * x.a as usize,
        }
    }
}

/// Bytes lent as a pointer and a length: the pointer may be null when the
/// length is 0, which a Rust slice can't say.
#[derive(Clone, Copy)]
pub struct Lent {
    pub at: *mut u8,
    pub len: usize,
}

impl Lent {
    pub const NOTHING: Lent = Lent {
        at: std::ptr::null_mut(),
        len: 0,
    };

    pub fn input(bytes: &[u8]) -> Lent {
        Lent {
            at: bytes.as_ptr() as *mut u8,
            len: bytes.len(),
        }
    }

    pub fn output(bytes: &mut [u8]) -> Lent {
        Lent {
            at: bytes.as_mut_ptr(),
            len: bytes.len(),
        }
    }
}

/// The numbers of a call: `a` is also the power k, and a load's number of rows;
/// `seed` is a load's alone.
#[derive(Clone, Copy)]
pub struct Numbers {
    pub d: u16,
    pub n: u16,
    pub a: u16,
    pub b: u16,
    pub seed: u64,
}

impl Numbers {
    /// d and n; the others are 0.
    pub fn new(d: u16, n: u16) -> Numbers {
        Numbers {
            d,
            n,
            a: 0,
            b: 0,
            seed: 0,
        }
    }
}

/// Support's word as the value of an answer, and the number of qudits touched.
fn parted(support: calls::Support) -> (Answer, u16) {
    let answer = Answer {
        number: support.number,
        value: support.word,
    };
    (answer, support.touched)
}

/// Calls the library. Of support the value is the word; `library_support` has
/// the number of qudits touched as well.
///
/// # Safety
/// Each `Lent` is null with length 0, or so many bytes that stay valid during
/// the call; the output shares none with an input.
pub unsafe fn library(name: Name, x: Numbers, first: Lent, second: Lent, out: Lent) -> Answer {
    let Numbers { d, n, a, b, seed } = x;
    let plain = |number| Answer { number, value: 0 };
    let (f, f_len) = (first.at as *const u8, first.len);
    let (s, s_len) = (second.at as *const u8, second.len);
    let (o, o_len) = (out.at, out.len);
    match name {
        LeastMultiplier => clifford_least_multiplier(d, a, b),
        Product => plain(clifford_product(d, n, f, f_len, s, s_len, o, o_len)),
        Power => plain(clifford_power(d, n, f, f_len, a, o, o_len)),
        Commutation => clifford_commutation(d, n, f, f_len, s, s_len),
        Support => library_support(x, first).0,
        Run => plain(clifford_run(d, n, f, f_len, s, s_len, o, o_len)),
        Tableau => plain(clifford_tableau(d, n, f, f_len, o, o_len)),
        Synthesis => clifford_synthesis(d, n, f, f_len, o, o_len),
        Image => plain(clifford_image(d, n, f, f_len, s, s_len, o, o_len)),
        Images => plain(clifford_images(d, n, f, f_len, s, s_len, o, o_len)),
        Compose => plain(clifford_compose(d, n, f, f_len, s, s_len, o, o_len)),
        Inverse => plain(clifford_inverse(d, n, f, f_len, o, o_len)),
        Ticks => clifford_ticks(d, n, f, f_len),
        Load => plain(clifford_load(d, n, seed, a, o, o_len)),
    }
}

/// Calls the library's support.
///
/// # Safety
/// As for `library`.
pub unsafe fn library_support(x: Numbers, p: Lent) -> (Answer, u16) {
    parted(clifford_support(x.d, x.n, p.at, p.len))
}

/// Makes the same call to the reference.
pub fn reference(name: Name, x: Numbers, first: &[u8], second: &[u8], out: &mut [u8]) -> Answer {
    let Numbers { d, n, a, b, seed } = x;
    let plain = |number| Answer { number, value: 0 };
    match name {
        LeastMultiplier => calls::least_multiplier(d, a, b),
        Product => plain(calls::product(d, n, first, second, out)),
        Power => plain(calls::power(d, n, first, a, out)),
        Commutation => calls::commutation(d, n, first, second),
        Support => reference_support(x, first).0,
        Run => plain(calls::run(d, n, first, second, out)),
        Tableau => plain(calls::tableau(d, n, first, out)),
        Synthesis => calls::synthesis(d, n, first, out),
        Image => plain(calls::image(d, n, first, second, out)),
        Images => plain(calls::images(d, n, first, second, out)),
        Compose => plain(calls::compose(d, n, first, second, out)),
        Inverse => plain(calls::inverse(d, n, first, out)),
        Ticks => calls::ticks(d, n, first),
        Load => plain(calls::load(d, n, seed, a, out)),
    }
}

/// Makes the same call to the reference.
pub fn reference_support(x: Numbers, p: &[u8]) -> (Answer, u16) {
    parted(calls::support(x.d, x.n, p))
}
