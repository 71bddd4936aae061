//! Reads a chart on standard input and prints what the changed Rust answers.
//!
//! `oracle [--rows N] [--links N] [--wide] [--stream] [METHOD ..]`, all methods if none is named.
//! With `--stream`, standard input has any number of charts, each after its length (four bytes,
//! the least first), and a blank line follows the lines of each. With `--wide`, no sum, row or
//! link is refused.

use oracle::lines::{all_lines, methods};
use oracle::watch::PROGRAM;
use std::io::{self, BufWriter, Read, Write};
use std::process::ExitCode;

fn run() -> Result<(), String> {
    let mut limits = PROGRAM;
    let mut stream = false;
    let mut names = vec![];
    let mut args = std::env::args().skip(1);
    while let Some(arg) = args.next() {
        let mut number = || {
            let text = args.next().unwrap_or_default();
            text.parse().map_err(|_| format!("{arg} needs a number"))
        };
        match arg.as_str() {
            "--rows" => limits.rows = number()?,
            "--links" => limits.links = number()?,
            "--wide" => {
                limits.sums = false;
                limits.rows = usize::MAX;
                limits.links = usize::MAX;
            }
            "--stream" => stream = true,
            _ => names.push(arg),
        }
    }
    let methods = methods(&names)?;
    let mut input = vec![];
    io::stdin()
        .read_to_end(&mut input)
        .map_err(|e| e.to_string())?;
    let mut out = BufWriter::new(io::stdout().lock());
    let mut print = |bytes: &[u8]| -> io::Result<()> {
        for line in all_lines(bytes, &methods, limits) {
            writeln!(out, "{line}")?;
        }
        if stream {
            writeln!(out)?;
        }
        Ok(())
    };
    if !stream {
        return print(&input).map_err(|e| e.to_string());
    }
    let mut rest = input.as_slice();
    while let Some((length, after)) = rest.split_first_chunk::<4>() {
        let length = u32::from_le_bytes(*length) as usize;
        let bytes = after
            .get(..length)
            .ok_or("the stream ends inside a chart")?;
        print(bytes).map_err(|e| e.to_string())?;
        rest = &after[length..];
    }
    Ok(())
}

fn main() -> ExitCode {
    match run() {
        Ok(()) => ExitCode::SUCCESS,
        Err(message) => {
            eprintln!("oracle: {message}");
            ExitCode::FAILURE
        }
    }
}
