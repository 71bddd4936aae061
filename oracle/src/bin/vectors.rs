//! Prints a sample of small charts with the answers of the changed Rust, to be replayed.
//!
//! `vectors COUNT SEED`, with the methods in METHODS. For each chart there is a line of its bytes
//! as hexadecimal digits, then the lines expected, then a blank line. First come charts drawn by
//! hand, then charts by seed, no sort of answer taking too great a part.

use oracle::chart::{to_hex, Chart, Road, Station};
use oracle::charts::little;
use oracle::lines::{all_lines, methods, Method};
use oracle::watch::PROGRAM;
use std::collections::BTreeMap;
use std::io::{self, BufWriter, Write};
use std::process::ExitCode;

type Cost = (u32, u32);

/// A chart of n stations with roads (from, to, cost), goals and guesses.
fn chart(n: u32, roads: &[(u32, u32, Cost)], goals: &[u32], guesses: &[(u32, Cost)]) -> Vec<u8> {
    let mut stations = vec![];
    let mut all = vec![];
    for i in 0..n {
        stations.push(Station {
            first: all.len() as u32,
            guess: guesses.iter().find(|g| g.0 == i).map_or((0, 0), |g| g.1),
            marks: if goals.contains(&i) { 256 } else { 0 },
        });
        for &(_, target, cost) in roads.iter().filter(|road| road.0 == i) {
            all.push(Road { target, cost });
        }
    }
    Chart {
        stations,
        roads: all,
    }
    .write()
}

fn with_word(mut bytes: Vec<u8>, at: usize, word: u32) -> Vec<u8> {
    bytes[at..at + 4].copy_from_slice(&word.to_le_bytes());
    bytes
}

/// The charts drawn by hand.
fn drawn() -> Vec<Vec<u8>> {
    let ms = |n: u32| (0, n);
    let top = u32::MAX;
    let one = chart(1, &[], &[], &[]);
    let pair = chart(2, &[(0, 1, ms(1)), (1, 0, ms(1))], &[1], &[]);
    let star = |n: u32| {
        let spokes: Vec<_> = (1..n).map(|i| (0, i, ms(1))).collect();
        chart(n, &spokes, &[n - 1], &[])
    };
    let diamond = [(0, 1, ms(1)), (0, 2, ms(1)), (1, 3, ms(1)), (2, 3, ms(1))];
    let reopened = [(0, 1, ms(3)), (0, 2, ms(1)), (2, 1, ms(1)), (1, 3, ms(4))];
    let near = [(0, 1, ms(top)), (1, 2, ms(1))];
    let near_trims = [(0, 1, (top, 0)), (1, 2, (1, 0))];
    let thread = [(0, 2, (1, 10)), (0, 1, ms(4500)), (1, 2, ms(4500))];
    let anew = [(0, 1, ms(3)), (0, 2, ms(1)), (0, 3, ms(2)), (2, 1, ms(1))];
    let spokes = [(0, 1, ms(1)), (0, 2, ms(1)), (0, 3, ms(1)), (0, 4, ms(1))];
    vec![
        chart(4, &diamond, &[3], &[]),
        chart(4, &reopened, &[3], &[(2, ms(5))]),
        chart(2, &[(0, 1, ms(2))], &[1], &[(1, ms(3))]),
        chart(3, &near, &[2], &[]),
        chart(3, &near, &[1], &[]),
        chart(3, &near_trims, &[2], &[]),
        chart(3, &near_trims, &[1], &[]),
        chart(2, &[(0, 1, ms(top))], &[1], &[(1, ms(1))]),
        chart(2, &[(0, 1, ms(0))], &[1], &[]),
        chart(3, &thread, &[2], &[]),
        chart(1, &[], &[0], &[]),
        one.clone(),
        one[..31].to_vec(),
        one[..15].to_vec(),
        [one.clone(), vec![0]].concat(),
        with_word(one.clone(), 0, 0),
        with_word(one.clone(), 0, 1025),
        with_word(one.clone(), 4, 1),
        with_word(one.clone(), 8, 32),
        with_word(one.clone(), 12, 48),
        with_word(one.clone(), 16, 1),
        with_word(one.clone(), 28, 63),
        with_word(one.clone(), 28, 64),
        with_word(one.clone(), 28, 63 + 256),
        with_word(one, 28, 512),
        pair.clone(),
        with_word(pair.clone(), 16, 1),
        with_word(pair.clone(), 32, 2),
        with_word(pair.clone(), 32, 3),
        with_word(pair.clone(), 48, 2),
        with_word(pair, 60, 2),
        chart(5, &spokes, &[2, 3], &[]),
        chart(
            4,
            &[(0, 1, ms(2)), (0, 2, ms(2)), (0, 3, ms(1))],
            &[1, 2],
            &[],
        ),
        chart(4, &anew, &[1, 3], &[]),
        chart(3, &[(0, 1, ms(1)), (0, 2, ms(2))], &[1, 2], &[(1, ms(1))]),
        star(512),
        star(513),
    ]
}

/// A chart with one link more than there are.
fn linked() -> Vec<u8> {
    let mut roads: Vec<_> = (1..=23).map(|i| (0, i, (0, 1))).collect();
    roads.extend((1..=23).flat_map(|i| (24..=109).map(move |j| (i, j, (0, 1)))));
    chart(110, &roads, &[109], &[])
}

/// What sort of answers the lines are.
fn sort(lines: &[String]) -> (String, bool) {
    let mut sorts = vec![];
    let mut far = false;
    for line in lines {
        match line.split_once(": ") {
            None => sorts.push(line.clone()),
            Some((head, route)) => {
                far |= route.split(' ').count() > 2;
                sorts.push(head.split(' ').next().unwrap_or("").to_string());
            }
        }
    }
    sorts.dedup();
    (sorts.join(", "), far)
}

fn print(out: &mut impl Write, bytes: &[u8], lines: &[String]) -> io::Result<()> {
    writeln!(out, "{}", to_hex(bytes))?;
    for line in lines {
        writeln!(out, "{line}")?;
    }
    writeln!(out)
}

fn run() -> Result<(), String> {
    let args: Vec<String> = std::env::args().skip(1).collect();
    let number = |at: usize, default: u64| match args.get(at) {
        None => Ok(default),
        Some(text) => text.parse().map_err(|_| format!("{text} is no number")),
    };
    let (count, seed) = (number(0, 300)?, number(1, 1)?);
    let names: Vec<String> = std::env::var("METHODS")
        .unwrap_or_default()
        .split_whitespace()
        .map(str::to_string)
        .collect();
    let chosen: Vec<Method> = methods(&names)?;
    let mut out = BufWriter::new(io::stdout().lock());
    let mut drawn = drawn();
    if chosen.contains(&Method::AstarBag) {
        drawn.push(linked());
    }
    for bytes in &drawn {
        print(&mut out, bytes, &all_lines(bytes, &chosen, PROGRAM)).map_err(|e| e.to_string())?;
    }
    let rest = count.saturating_sub(drawn.len() as u64);
    let mut taken: BTreeMap<(String, bool), u64> = BTreeMap::new();
    let mut made = 0;
    let mut stream = 0;
    while made < rest {
        stream += 1;
        let bytes = little(seed, stream);
        let lines = all_lines(&bytes, &chosen, PROGRAM);
        let sort = sort(&lines);
        let most = if sort.1 { rest / 2 } else { rest / 12 };
        let so_far = taken.entry(sort).or_default();
        if *so_far > most {
            continue;
        }
        *so_far += 1;
        made += 1;
        print(&mut out, &bytes, &lines).map_err(|e| e.to_string())?;
    }
    Ok(())
}

fn main() -> ExitCode {
    match run() {
        Ok(()) => ExitCode::SUCCESS,
        Err(message) => {
            eprintln!("vectors: {message}");
            ExitCode::FAILURE
        }
    }
}
