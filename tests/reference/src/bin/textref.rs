//! The text program over the reference: standard input to standard output.
//! With two file names, `textref INPUT PRINTED` says instead whether PRINTED
//! is a right output for INPUT, by its exit status.

use std::io::{Read, Write};

fn main() -> std::io::Result<()> {
    let arguments: Vec<String> = std::env::args().skip(1).collect();
    if let [input, printed] = &arguments[..] {
        let right = reference::text::is_right(&std::fs::read(input)?, &std::fs::read(printed)?);
        std::process::exit(if right { 0 } else { 1 });
    }
    let mut input = Vec::new();
    std::io::stdin().read_to_end(&mut input)?;
    std::io::stdout().write_all(&reference::text::convert(&input))
}
