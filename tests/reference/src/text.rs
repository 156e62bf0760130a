//! The text program, as a function from its standard input to its standard
//! output.

use crate::{calls, Row};

const LETTERS: &[u8] = b"FSAMXZCW";
const MOST_BYTES: usize = 65_536;

/// The input, once its layout is known to hold. Its numbers are not judged yet.
enum File {
    Tableau {
        d: u16,
        n: u16,
        columns: Vec<Vec<u16>>,
    },
    List {
        d: u16,
        n: u16,
        rows: Vec<Row>,
        /// Its rows are written by document 002.
        by_002: bool,
    },
}

/// No sign, no space, no leading zero, at most 65,535. `None` breaks the layout.
fn number(field: &[u8]) -> Option<u16> {
    let digits_alone = !field.is_empty() && field.iter().all(u8::is_ascii_digit);
    let leading_zero = field.len() > 1 && field[0] == b'0';
    if !digits_alone || leading_zero {
        return None;
    }
    std::str::from_utf8(field).ok()?.parse().ok()
}

fn row(fields: &[&[u8]]) -> Option<Row> {
    let [letter, first, second, power] = fields else {
        return None;
    };
    let [letter] = letter else { return None };
    let kind = LETTERS.iter().position(|known| known == letter)? as u16 + 1;
    Some(Row {
        kind,
        first: number(first)?,
        second: number(second)?,
        power: number(power)?,
    })
}

fn file(input: &[u8]) -> Option<File> {
    if input.len() > MOST_BYTES {
        return None;
    }
    // Each line is ended by a line feed, so what follows the last is nothing.
    let lines: Vec<Vec<&[u8]>> = input
        .strip_suffix(b"\n")?
        .split(|&byte| byte == b'\n')
        .map(|line| line.split(|&byte| byte == b',').collect())
        .collect();
    let (header, rest) = lines.split_first()?;
    let [letter, d, n] = header[..] else {
        return None;
    };
    let (d, n) = (number(d)?, number(n)?);
    match letter {
        b"T" => {
            let column = |line: &Vec<&[u8]>| line.iter().map(|field| number(field)).collect();
            Some(File::Tableau {
                d,
                n,
                columns: rest.iter().map(column).collect::<Option<_>>()?,
            })
        }
        b"L" | b"G" => {
            let rows = rest.iter().map(|line| row(line)).collect::<Option<_>>()?;
            Some(File::List {
                d,
                n,
                rows,
                by_002: letter == b"G",
            })
        }
        _ => None,
    }
}

fn answer(input: &[u8]) -> Result<String, u16> {
    match file(input).ok_or(calls::TEXT)? {
        File::Tableau { d, n, columns } => {
            calls::dimension(d)?;
            let width = calls::width(n)?;
            if columns.len() != 2 * width || columns.iter().any(|c| c.len() != 1 + 2 * width) {
                return Err(calls::LENGTH);
            }
            let mut out = vec![0; calls::synthesis_room(width)];
            let tableau = calls::bytes(columns.into_iter().flatten());
            let given = calls::synthesis(d, n, &tableau, &mut out);
            if given.number != 0 {
                return Err(given.number);
            }
            let mut printed = format!("L,{d},{n}\n");
            for row in calls::rows_of_bytes(&out[..calls::ROW_LEN * given.value as usize]) {
                let letter = LETTERS[row.kind as usize - 1] as char;
                printed += &format!("{letter},{},{},{}\n", row.first, row.second, row.power);
            }
            Ok(printed)
        }
        File::List {
            d,
            n,
            mut rows,
            by_002,
        } => {
            let dim = calls::dimension(d)?;
            let width = calls::width(n)?;
            if rows.len() > calls::MOST_ROWS {
                return Err(calls::LENGTH);
            }
            if by_002 {
                if !rows.iter().all(|row| row.is_legal_by_002(dim, width)) {
                    return Err(calls::ROW);
                }
                rows = rows.iter().map(|row| row.from_002(dim)).collect();
            }
            let mut out = vec![0; calls::tableau_len(width)];
            let number = calls::tableau(d, n, &calls::bytes_of_rows(&rows), &mut out);
            if number != 0 {
                return Err(number);
            }
            let mut printed = format!("T,{d},{n}\n");
            for column in out.chunks(calls::pauli_len(width)) {
                let column: Vec<String> =
                    calls::numbers(column).iter().map(u16::to_string).collect();
                printed += &(column.join(",") + "\n");
            }
            Ok(printed)
        }
    }
}

/// All that the text program prints for an input.
pub fn convert(input: &[u8]) -> Vec<u8> {
    match answer(input) {
        Ok(printed) => printed.into_bytes(),
        Err(number) => format!("R,{number}\n").into_bytes(),
    }
}

/// Says whether `printed` is a right output of a text program for `input`.
/// Only a list may differ from the one printed here. It must be an L file of
/// at most 5n² + 6n legal rows whose tableau is the input; a tableau has one
/// written form, so that is a comparison of bytes.
pub fn is_right(input: &[u8], printed: &[u8]) -> bool {
    let own = convert(input);
    if !own.starts_with(b"L") {
        return printed == own;
    }
    let Some(File::Tableau { d, n, .. }) = file(input) else {
        return false;
    };
    let Some(File::List {
        d: list_d,
        n: list_n,
        rows,
        by_002: false,
    }) = file(printed)
    else {
        return false;
    };
    let most = calls::synthesis_room(n as usize) / calls::ROW_LEN;
    (list_d, list_n) == (d, n) && rows.len() <= most && convert(printed) == input
}
