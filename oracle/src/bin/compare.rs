//! Compares the program `route` with the changed Rust, chart by chart and line by line.
//!
//! `compare N SEED DIFFERENT`, with the program's path in ROUTE and the methods in METHODS. The
//! first chart on which they differ is kept in the file DIFFERENT. With ROUTE empty, the
//! definition written down in this crate stands in for the program.

use oracle::chart::Chart;
use oracle::lines::{all_lines, methods, Method};
use oracle::watch::{Limits, PROGRAM};
use oracle::{charts, definition};
use std::collections::BTreeMap;
use std::io::{ErrorKind, Write};
use std::process::{Command, ExitCode, Stdio};

/// What the program prints for a chart.
fn program(route: &str, bytes: &[u8], methods: &[Method]) -> Result<Vec<String>, String> {
    let mut child = Command::new(route)
        .args(methods.iter().map(|m| m.name()))
        .stdin(Stdio::piped())
        .stdout(Stdio::piped())
        .spawn()
        .map_err(|e| format!("{route} does not start: {e}"))?;
    let mut stdin = child.stdin.take().ok_or("no standard input")?;
    // a chart is too long for the pipe's buffer only beyond 64 KiB, and the program reads it all
    // before it prints; one that stops reading early is no failure by itself
    match stdin.write_all(bytes) {
        Err(e) if e.kind() != ErrorKind::BrokenPipe => return Err(e.to_string()),
        _ => drop(stdin),
    }
    let output = child.wait_with_output().map_err(|e| e.to_string())?;
    if output.status.code().is_none() {
        return Err(format!("{route} was ended by {}", output.status));
    }
    let text = String::from_utf8_lossy(&output.stdout);
    Ok(text.lines().map(str::to_string).collect())
}

/// What the definition in this crate says for a chart.
fn stand_in(bytes: &[u8], methods: &[Method]) -> Vec<String> {
    match Chart::read(bytes) {
        Err(number) => vec![format!("chart refused {number}")],
        Ok(chart) => methods
            .iter()
            .flat_map(|&m| definition::lines(m, &definition::outcome(m, &chart, PROGRAM), false))
            .collect(),
    }
}

fn run() -> Result<bool, String> {
    let args: Vec<String> = std::env::args().skip(1).collect();
    let number = |at: usize, default: u64| match args.get(at) {
        None => Ok(default),
        Some(text) => text.parse().map_err(|_| format!("{text} is no number")),
    };
    let (n, seed) = (number(0, 20000)?, number(1, 1)?);
    let different = args
        .get(2)
        .cloned()
        .unwrap_or("different.chart".to_string());
    let route = std::env::var("ROUTE").unwrap_or_default();
    let names: Vec<String> = std::env::var("METHODS")
        .unwrap_or_default()
        .split_whitespace()
        .map(str::to_string)
        .collect();
    let chosen = methods(&names)?;
    let limits = Limits {
        steps: 150_000,
        ..PROGRAM
    };
    let mut agree = 0;
    let mut kinds: BTreeMap<String, u64> = BTreeMap::new();
    let mut first: Option<u64> = None;
    for i in 0..n {
        let bytes = charts::chart(i, n, seed);
        let mut expected = vec![];
        let mut asked = vec![];
        for &method in &chosen {
            let lines = all_lines(&bytes, &[method], limits);
            let kind = match lines[0].split(' ').collect::<Vec<_>>().as_slice() {
                ["chart", ..] => lines[0].clone(),
                [_, "none"] | [_, "too", _] | [_, "refused", _] => lines[0].clone(),
                [name, ..] => format!("{name} found"),
                [] => String::new(),
            };
            if !kind.starts_with("chart") || asked.is_empty() {
                *kinds.entry(kind).or_default() += 1;
            }
            if lines[0].ends_with(" too long") {
                continue;
            }
            asked.push(method);
            if lines[0].starts_with("chart") {
                expected = lines;
            } else {
                expected.extend(lines);
            }
        }
        if asked.is_empty() {
            agree += 1;
            continue;
        }
        let printed = if route.is_empty() {
            stand_in(&bytes, &asked)
        } else {
            program(&route, &bytes, &asked)?
        };
        if printed == expected {
            agree += 1;
        } else if first.is_none() {
            first = Some(i);
            std::fs::write(&different, &bytes).map_err(|e| format!("{different}: {e}"))?;
            println!("chart {i} of seed {seed} differs, and is kept in {different}");
            for line in &expected {
                println!("  the Rust: {line}");
            }
            for line in &printed {
                println!("  route:    {line}");
            }
        }
    }
    for (kind, count) in kinds {
        println!("{count:8} {kind}");
    }
    println!("agree {agree} of {n}");
    Ok(agree == n)
}

fn main() -> ExitCode {
    match run() {
        Ok(true) => ExitCode::SUCCESS,
        Ok(false) => ExitCode::FAILURE,
        Err(message) => {
            eprintln!("compare: {message}");
            ExitCode::from(2)
        }
    }
}
