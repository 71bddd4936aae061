//! Reads a chart on standard input and prints what the definition says, as the program would.
//!
//! `reference [--values] [--rows N] [--links N] [METHOD ..]`; with values, refusals say row and
//! rank too.

use oracle::chart::Chart;
use oracle::definition::{lines, outcome};
use oracle::lines::methods;
use oracle::watch::PROGRAM;
use std::io::{self, Read};
use std::process::ExitCode;

fn main() -> ExitCode {
    let mut limits = PROGRAM;
    let mut values = false;
    let mut names = vec![];
    let mut args = std::env::args().skip(1);
    while let Some(arg) = args.next() {
        match arg.as_str() {
            "--values" => values = true,
            "--rows" => limits.rows = args.next().and_then(|n| n.parse().ok()).unwrap_or(0),
            "--links" => limits.links = args.next().and_then(|n| n.parse().ok()).unwrap_or(0),
            _ => names.push(arg),
        }
    }
    let methods = match methods(&names) {
        Ok(methods) => methods,
        Err(message) => {
            eprintln!("reference: {message}");
            return ExitCode::FAILURE;
        }
    };
    let mut input = vec![];
    if io::stdin().read_to_end(&mut input).is_err() {
        return ExitCode::FAILURE;
    }
    match Chart::read(&input) {
        Err(number) => println!("chart refused {number}"),
        Ok(chart) => {
            for method in methods {
                for line in lines(method, &outcome(method, &chart, limits), values) {
                    println!("{line}");
                }
            }
        }
    }
    ExitCode::SUCCESS
}
