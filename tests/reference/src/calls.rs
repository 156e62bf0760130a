//! The fourteen public calls on bytes. Each runs its tests in the order of the
//! table over all its inputs and answers with the first that fails; it writes
//! to the output only after all of them hold. (Images tests the Paulis after its
//! first last, one by one.)

use crate::{Pauli, Row, Tableau};

pub const DIMENSION: u16 = 1;
pub const WIDTH: u16 = 2;
pub const LENGTH: u16 = 3;
pub const ROOM: u16 = 4;
pub const RANGE: u16 = 5;
pub const ROW: u16 = 6;
pub const PAIRING: u16 = 7;
pub const PARITY: u16 = 8;
pub const TEXT: u16 = 9;

/// A number of the table, or 0, and the call's value, 0 on refusal.
#[derive(Clone, Copy, Debug, PartialEq, Eq)]
#[repr(C)]
pub struct Answer {
    pub number: u16,
    pub value: u16,
}

/// What support gives: a number of the table, or 0, and two values, 0 on
/// refusal.
#[derive(Clone, Copy, Debug, PartialEq, Eq)]
#[repr(C)]
pub struct Support {
    pub number: u16,
    pub word: u16,
    pub touched: u16,
}

type Checked<T> = Result<T, u16>;

fn answer(result: Checked<i64>) -> Answer {
    match result {
        Ok(value) => Answer {
            number: 0,
            value: value as u16,
        },
        Err(number) => Answer { number, value: 0 },
    }
}

fn number(result: Checked<()>) -> u16 {
    result.err().unwrap_or(0)
}

// -------------------------------------------------------------------- layout

pub const ROW_LEN: usize = 8;
pub const MOST_ROWS: usize = 4096;
pub const MOST_PAULIS: usize = 512;

pub fn pauli_len(n: usize) -> usize {
    2 * (1 + 2 * n)
}

pub fn tableau_len(n: usize) -> usize {
    2 * n * pauli_len(n)
}

/// The room that synthesis asks for: 5n² + 6n rows.
pub fn synthesis_room(n: usize) -> usize {
    40 * n * n + 48 * n
}

/// The numbers in some bytes, low byte first.
pub fn numbers(bytes: &[u8]) -> Vec<u16> {
    bytes
        .chunks_exact(2)
        .map(|pair| u16::from_le_bytes([pair[0], pair[1]]))
        .collect()
}

pub fn bytes(numbers: impl IntoIterator<Item = u16>) -> Vec<u8> {
    numbers.into_iter().flat_map(u16::to_le_bytes).collect()
}

pub fn pauli_of_bytes(bytes: &[u8]) -> Pauli {
    let all: Vec<i64> = numbers(bytes).iter().map(|&x| x as i64).collect();
    let n = all.len() / 2;
    Pauli {
        phase: all[0],
        v: all[1..=n].to_vec(),
        w: all[n + 1..].to_vec(),
    }
}

pub fn bytes_of_pauli(p: &Pauli) -> Vec<u8> {
    bytes(
        std::iter::once(p.phase)
            .chain(p.entries())
            .map(|x| x as u16),
    )
}

pub fn tableau_of_bytes(bytes: &[u8], n: usize) -> Tableau {
    bytes
        .chunks_exact(pauli_len(n))
        .map(pauli_of_bytes)
        .collect()
}

pub fn bytes_of_tableau(tableau: &[Pauli]) -> Vec<u8> {
    tableau.iter().flat_map(bytes_of_pauli).collect()
}

pub fn rows_of_bytes(bytes: &[u8]) -> Vec<Row> {
    numbers(bytes)
        .chunks_exact(4)
        .map(|x| Row {
            kind: x[0],
            first: x[1],
            second: x[2],
            power: x[3],
        })
        .collect()
}

pub fn bytes_of_rows(rows: &[Row]) -> Vec<u8> {
    bytes(
        rows.iter()
            .flat_map(|r| [r.kind, r.first, r.second, r.power]),
    )
}

/// Writes the answer; the bytes after it don't change.
fn write(out: &mut [u8], bytes: &[u8]) {
    out[..bytes.len()].copy_from_slice(bytes);
}

// --------------------------------------------------------------------- tests

fn refuse_unless(holds: bool, number: u16) -> Checked<()> {
    if holds {
        Ok(())
    } else {
        Err(number)
    }
}

pub fn dimension(d: u16) -> Checked<i64> {
    refuse_unless((2..=1024).contains(&d), DIMENSION)?;
    Ok(d as i64)
}

pub fn width(n: u16) -> Checked<usize> {
    refuse_unless((1..=16).contains(&n), WIDTH)?;
    Ok(n as usize)
}

fn length(input: &[u8], wanted: usize) -> Checked<()> {
    refuse_unless(input.len() == wanted, LENGTH)
}

fn list_length(list: &[u8]) -> Checked<()> {
    refuse_unless(
        list.len() % ROW_LEN == 0 && list.len() / ROW_LEN <= MOST_ROWS,
        LENGTH,
    )
}

fn batch_length(paulis: &[u8], n: usize) -> Checked<()> {
    refuse_unless(
        paulis.len() % pauli_len(n) == 0 && paulis.len() / pauli_len(n) <= MOST_PAULIS,
        LENGTH,
    )
}

fn room(out: &[u8], needed: usize) -> Checked<()> {
    refuse_unless(out.len() >= needed, ROOM)
}

fn pauli_in_range(bytes: &[u8], d: i64) -> Checked<Pauli> {
    let p = pauli_of_bytes(bytes);
    refuse_unless(p.in_range(d), RANGE)?;
    Ok(p)
}

fn tableau_in_range(bytes: &[u8], d: i64, n: usize) -> Checked<Tableau> {
    let tableau = tableau_of_bytes(bytes, n);
    refuse_unless(tableau.iter().all(|column| column.in_range(d)), RANGE)?;
    Ok(tableau)
}

fn legal_rows(list: &[u8], d: i64, n: usize) -> Checked<Vec<Row>> {
    let rows = rows_of_bytes(list);
    refuse_unless(rows.iter().all(|row| row.is_legal(d, n)), ROW)?;
    Ok(rows)
}

fn pairing(tableau: &[Pauli], d: i64) -> Checked<()> {
    refuse_unless(crate::pairing_holds(tableau, d), PAIRING)
}

fn parity(tableau: &[Pauli], d: i64) -> Checked<()> {
    refuse_unless(crate::parity_holds(tableau, d), PARITY)
}

fn sound_tableau(bytes: &[u8], d: i64, n: usize) -> Checked<Tableau> {
    let tableau = tableau_in_range(bytes, d, n)?;
    pairing(&tableau, d)?;
    parity(&tableau, d)?;
    Ok(tableau)
}

// --------------------------------------------------------------------- calls

pub fn least_multiplier(d: u16, a: u16, b: u16) -> Answer {
    answer((|| {
        let d = dimension(d)?;
        let (a, b) = (a as i64, b as i64);
        refuse_unless(a < d && b < d, RANGE)?;
        Ok(crate::least_multiplier(a, b, d))
    })())
}

pub fn product(d: u16, n: u16, p: &[u8], q: &[u8], out: &mut [u8]) -> u16 {
    number((|| {
        let d = dimension(d)?;
        let n = width(n)?;
        length(p, pauli_len(n))?;
        length(q, pauli_len(n))?;
        room(out, pauli_len(n))?;
        let p = pauli_in_range(p, d)?;
        let q = pauli_in_range(q, d)?;
        write(out, &bytes_of_pauli(&p.product(&q, d)));
        Ok(())
    })())
}

pub fn power(d: u16, n: u16, p: &[u8], k: u16, out: &mut [u8]) -> u16 {
    number((|| {
        let d = dimension(d)?;
        let n = width(n)?;
        length(p, pauli_len(n))?;
        room(out, pauli_len(n))?;
        let p = pauli_in_range(p, d)?;
        write(out, &bytes_of_pauli(&p.power(k as i64, d)));
        Ok(())
    })())
}

pub fn commutation(d: u16, n: u16, p: &[u8], q: &[u8]) -> Answer {
    answer((|| {
        let d = dimension(d)?;
        let n = width(n)?;
        length(p, pauli_len(n))?;
        length(q, pauli_len(n))?;
        let p = pauli_in_range(p, d)?;
        let q = pauli_in_range(q, d)?;
        Ok(p.commutation(&q, d))
    })())
}

pub fn support(d: u16, n: u16, p: &[u8]) -> Support {
    let result = (|| {
        let d = dimension(d)?;
        let n = width(n)?;
        length(p, pauli_len(n))?;
        let p = pauli_in_range(p, d)?;
        Ok(p.support())
    })();
    match result {
        Ok((word, touched)) => Support {
            number: 0,
            word: word as u16,
            touched: touched as u16,
        },
        Err(number) => Support {
            number,
            word: 0,
            touched: 0,
        },
    }
}

pub fn run(d: u16, n: u16, list: &[u8], p: &[u8], out: &mut [u8]) -> u16 {
    number((|| {
        let d = dimension(d)?;
        let n = width(n)?;
        list_length(list)?;
        length(p, pauli_len(n))?;
        room(out, pauli_len(n))?;
        let p = pauli_in_range(p, d)?;
        let rows = legal_rows(list, d, n)?;
        write(out, &bytes_of_pauli(&crate::run(&rows, &p, d)));
        Ok(())
    })())
}

pub fn tableau(d: u16, n: u16, list: &[u8], out: &mut [u8]) -> u16 {
    number((|| {
        let d = dimension(d)?;
        let n = width(n)?;
        list_length(list)?;
        room(out, tableau_len(n))?;
        let rows = legal_rows(list, d, n)?;
        write(out, &bytes_of_tableau(&crate::tableau_of_list(&rows, d, n)));
        Ok(())
    })())
}

pub fn synthesis(d: u16, n: u16, tableau: &[u8], out: &mut [u8]) -> Answer {
    answer((|| {
        let d = dimension(d)?;
        let n = width(n)?;
        length(tableau, tableau_len(n))?;
        room(out, synthesis_room(n))?;
        let tableau = sound_tableau(tableau, d, n)?;
        let rows = crate::synthesis(&tableau, d);
        write(out, &bytes_of_rows(&rows));
        Ok(rows.len() as i64)
    })())
}

pub fn image(d: u16, n: u16, tableau: &[u8], p: &[u8], out: &mut [u8]) -> u16 {
    number((|| {
        let d = dimension(d)?;
        let n = width(n)?;
        length(tableau, tableau_len(n))?;
        length(p, pauli_len(n))?;
        room(out, pauli_len(n))?;
        let tableau = tableau_in_range(tableau, d, n)?;
        let p = pauli_in_range(p, d)?;
        pairing(&tableau, d)?;
        parity(&tableau, d)?;
        write(out, &bytes_of_pauli(&crate::image(&tableau, &p, d)));
        Ok(())
    })())
}

/// What single calls of `image` give, made in order: the images end to end, or
/// the first refusal.
pub fn images(d: u16, n: u16, tableau: &[u8], paulis: &[u8], out: &mut [u8]) -> u16 {
    number((|| {
        let (dim, wide) = (dimension(d)?, width(n)?);
        length(tableau, tableau_len(wide))?;
        batch_length(paulis, wide)?;
        room(out, paulis.len())?;
        // No single call is made for the empty batch, so none tests the tableau.
        if paulis.is_empty() {
            sound_tableau(tableau, dim, wide)?;
        }
        let mut images = Vec::new();
        for p in paulis.chunks_exact(pauli_len(wide)) {
            let mut one = vec![0; pauli_len(wide)];
            let refusal = image(d, n, tableau, p, &mut one);
            refuse_unless(refusal == 0, refusal)?;
            images.extend(one);
        }
        write(out, &images);
        Ok(())
    })())
}

pub fn compose(d: u16, n: u16, first: &[u8], second: &[u8], out: &mut [u8]) -> u16 {
    number((|| {
        let d = dimension(d)?;
        let n = width(n)?;
        length(first, tableau_len(n))?;
        length(second, tableau_len(n))?;
        room(out, tableau_len(n))?;
        let first = tableau_in_range(first, d, n)?;
        let second = tableau_in_range(second, d, n)?;
        pairing(&first, d)?;
        pairing(&second, d)?;
        parity(&first, d)?;
        parity(&second, d)?;
        write(out, &bytes_of_tableau(&crate::compose(&first, &second, d)));
        Ok(())
    })())
}

pub fn inverse(d: u16, n: u16, tableau: &[u8], out: &mut [u8]) -> u16 {
    number((|| {
        let d = dimension(d)?;
        let n = width(n)?;
        length(tableau, tableau_len(n))?;
        room(out, tableau_len(n))?;
        let tableau = sound_tableau(tableau, d, n)?;
        write(out, &bytes_of_tableau(&crate::inverse(&tableau, d)));
        Ok(())
    })())
}

pub fn ticks(d: u16, n: u16, list: &[u8]) -> Answer {
    answer((|| {
        let d = dimension(d)?;
        let n = width(n)?;
        list_length(list)?;
        let rows = legal_rows(list, d, n)?;
        Ok(crate::ticks(&rows, n))
    })())
}

pub fn load(d: u16, n: u16, seed: u64, count: u16, out: &mut [u8]) -> u16 {
    number((|| {
        let d = dimension(d)?;
        let n = width(n)?;
        let count = count as usize;
        refuse_unless(count <= MOST_ROWS, LENGTH)?;
        room(out, ROW_LEN * count)?;
        write(out, &bytes_of_rows(&crate::load::rows(d, n, seed, count)));
        Ok(())
    })())
}
