//! Times the planner, through its C interface, against the searches as published: the same charts,
//! one process, both optimised. Before that it compares the answers on many charts by seed.

use oracle::chart::{Chart, Road, Station};
use oracle::charts;
use oracle::lines::{answer, Method};
use oracle::published::{astar, dijkstra};
use oracle::random::Random;
use oracle::watch::{Ended, Limits, PROGRAM};
use std::hint::black_box;
use std::process::ExitCode;
use std::time::Instant;

/// What the planner tells.
#[repr(C)]
#[derive(Clone, Copy, Debug, PartialEq, Eq)]
struct Told {
    code: u32,
    trims: u32,
    millis: u32,
    length: usize,
}

extern "C" {
    fn capi_seek(
        method: u32,
        bytes: *const u8,
        count: usize,
        rows: u32,
        links: u32,
        times: u32,
        out: *mut u32,
        room: usize,
    ) -> Told;

    fn clock_gettime(clock: i32, time: *mut i64) -> i32;
}

const THREAD_TIME: i32 = 3;

const NO_ROUTE: u32 = 100;
const METHODS: [Method; 2] = [Method::Dijkstra, Method::Astar];

/// Runs the planner's search so many times; the last answer, with the route in the first entries.
fn ours(method: usize, bytes: &[u8], rows: u32, times: u32, out: &mut [u32]) -> Told {
    // SAFETY: both slices are passed as pointer and length, and the call keeps neither.
    unsafe {
        capi_seek(
            method as u32,
            bytes.as_ptr(),
            bytes.len(),
            rows,
            0,
            times,
            out.as_mut_ptr(),
            out.len(),
        )
    }
}

/// The code, cost and route that the changed Rust says the planner must tell.
fn due(method: usize, bytes: &[u8], limits: Limits) -> (u32, u64, u64, Vec<u32>) {
    let bare = |code: u32| (code, 0, 0, vec![]);
    match Chart::read(bytes) {
        Err(number) => bare(number.into()),
        Ok(chart) => match answer(METHODS[method], &chart, limits) {
            Err(Ended::Refused(number)) => bare(number.into()),
            Err(Ended::TooLong) => unreachable!("no limit is set"),
            Ok(None) => bare(NO_ROUTE),
            Ok(Some((cost, routes))) => (0, cost.trims, cost.millis, routes[0].clone()),
        },
    }
}

/// Compares code, cost and route on many charts; how many differ.
fn compare(count: u64, seed: u64) -> u64 {
    let mut out = [0; 1024];
    let mut different = 0;
    for i in 0..count {
        let bytes = charts::chart(i, count, seed);
        for method in 0..METHODS.len() {
            let told = ours(method, &bytes, PROGRAM.rows as u32, 1, &mut out);
            let route = out[..told.length].to_vec();
            let here = (told.code, told.trims.into(), told.millis.into(), route);
            if here != due(method, &bytes, PROGRAM) {
                different += 1;
                println!("{} differs on chart {i}: {here:?}", METHODS[method].name());
            }
        }
    }
    different
}

/// A chart with its costs as one number, trims above and milliseconds below: what the Rust
/// compares and adds fastest.
struct Unpacked {
    first: Vec<usize>,
    roads: Vec<(u32, u64)>,
    guess: Vec<u64>,
    goal: Vec<bool>,
}

fn one_number((trims, millis): (u32, u32)) -> u64 {
    (u64::from(trims) << 32) + u64::from(millis)
}

impl Unpacked {
    fn new(chart: &Chart) -> Unpacked {
        let mut first: Vec<usize> = chart.stations.iter().map(|s| s.first as usize).collect();
        first.push(chart.roads.len());
        Unpacked {
            first,
            roads: chart
                .roads
                .iter()
                .map(|r| (r.target, one_number(r.cost)))
                .collect(),
            guess: chart.stations.iter().map(|s| one_number(s.guess)).collect(),
            goal: (0..chart.stations.len() as u32)
                .map(|s| chart.goal(s))
                .collect(),
        }
    }

    /// The search as published.
    fn seek(&self, method: usize) -> Option<(Vec<u32>, u64)> {
        let roads = |&s: &u32| {
            let s = s as usize;
            self.roads[self.first[s]..self.first[s + 1]].iter().copied()
        };
        let goal = |&s: &u32| self.goal[s as usize];
        match METHODS[method] {
            Method::Dijkstra => dijkstra::dijkstra(&0, roads, goal),
            _ => astar::astar(&0, roads, |&s| self.guess[s as usize], goal),
        }
    }
}

fn word(bytes: &[u8], at: usize) -> u32 {
    u32::from_le_bytes(bytes[at..at + 4].try_into().unwrap())
}

/// The search as published, over the bytes of the chart.
fn seek_in_bytes(method: usize, bytes: &[u8]) -> Option<(Vec<u32>, u64)> {
    let n = word(bytes, 0) as usize;
    let station = |s: u32| 16 + 16 * s as usize;
    let cost = |at: usize| one_number((word(bytes, at), word(bytes, at + 4)));
    let roads = |&s: &u32| {
        let first = word(bytes, station(s));
        let end = if (s as usize) + 1 < n {
            word(bytes, station(s + 1))
        } else {
            word(bytes, 4)
        };
        (first..end)
            .map(|road| station(n as u32) + 12 * road as usize)
            .map(|at| (word(bytes, at), cost(at + 4)))
    };
    let goal = |&s: &u32| word(bytes, station(s) + 12) >= 256;
    match METHODS[method] {
        Method::Dijkstra => dijkstra::dijkstra(&0, roads, goal),
        _ => astar::astar(&0, roads, |&s| cost(station(s) + 4), goal),
    }
}

/// A chart from the roads (from, to, cost) in order of their stations; the last station is the goal.
fn drawn(n: usize, roads: &[(usize, usize, (u32, u32))], guess: impl Fn(usize) -> u32) -> Chart {
    let mut chart = Chart {
        stations: vec![],
        roads: vec![],
    };
    for s in 0..n {
        chart.stations.push(Station {
            first: chart.roads.len() as u32,
            guess: (0, guess(s)),
            marks: if s + 1 == n { 256 } else { 0 },
        });
        let own = roads.iter().filter(|road| road.0 == s);
        chart.roads.extend(own.map(|&(_, to, cost)| Road {
            target: to as u32,
            cost,
        }));
    }
    chart
}

/// A square of stations with roads to all four neighbours; the guess is the distance in steps.
fn grid(side: usize, mut cost: impl FnMut() -> u32) -> Chart {
    let mut roads = vec![];
    for y in 0..side {
        for x in 0..side {
            let mut to = |x: usize, y: usize, from: usize| {
                if x < side && y < side {
                    roads.push((from, y * side + x, (0, cost())));
                }
            };
            let from = y * side + x;
            to(x, y.wrapping_sub(1), from);
            to(x + 1, y, from);
            to(x, y + 1, from);
            to(x.wrapping_sub(1), y, from);
        }
    }
    drawn(side * side, &roads, |s| {
        (2 * (side - 1) - s / side - s % side) as u32
    })
}

/// The least cost from one station to each other, by rounds over all roads (from, to, cost).
fn distances(n: usize, from: usize, roads: &[(usize, usize, u64)]) -> Vec<u64> {
    let mut least = vec![u64::MAX; n];
    least[from] = 0;
    loop {
        let mut changed = false;
        for &(a, b, cost) in roads {
            if least[a] != u64::MAX && least[a] + cost < least[b] {
                least[b] = least[a] + cost;
                changed = true;
            }
        }
        if !changed {
            return least;
        }
    }
}

/// Roads between stations drawn by lot, behind a chain that keeps every station within reach. The
/// goal is the station that costs most; the guess is half the cost to it, which is true.
fn by_lot(n: usize, m: usize, random: &mut Random, trims: bool) -> Chart {
    let mut roads: Vec<_> = (1..n).map(|s| (s - 1, s, (0, 100_000))).collect();
    while roads.len() < m {
        let from = random.below(n as u64) as usize;
        let to = random.below(n as u64) as usize;
        let some = u32::from(trims && random.one_in(4));
        roads.push((from, to, (some, random.between(1, 1000) as u32)));
    }
    let there: Vec<_> = roads.iter().map(|r| (r.0, r.1, one_number(r.2))).collect();
    let back: Vec<_> = roads.iter().map(|r| (r.1, r.0, one_number(r.2))).collect();
    let costs = distances(n, 0, &there);
    let goal = (0..n).max_by_key(|&s| costs[s]).unwrap();
    let rest = distances(n, goal, &back);
    let mut chart = drawn(n, &roads, |_| 0);
    for (s, station) in chart.stations.iter_mut().enumerate() {
        station.marks = if s == goal { 256 } else { 0 };
        let guess = if rest[s] == u64::MAX { 0 } else { rest[s] / 2 };
        station.guess = ((guess >> 32) as u32, guess as u32);
    }
    chart
}

fn families() -> Vec<(&'static str, Chart)> {
    let mut random = Random::new(7, 0);
    let diamond = [(0, 1), (0, 2), (1, 3), (2, 3)].map(|(a, b)| (a, b, (0, 1)));
    let chain: Vec<_> = (1..500).map(|s| (s - 1, s, (0, 5))).collect();
    let mut layers = vec![];
    for from in 0..380 {
        let next = from - from % 10 + 10;
        layers.extend((next..next + 10).map(|to| (from, to, (0, 1))));
    }
    vec![
        ("diamond", drawn(4, &diamond, |_| 0)),
        (
            "grid 20 × 20, costs 1 to 20",
            grid(20, || random.between(1, 20) as u32),
        ),
        ("grid 22 × 22, all costs 1 (ties)", grid(22, || 1)),
        (
            "sparse, with trims",
            by_lot(400, 1600, &mut Random::new(7, 1), true),
        ),
        ("dense", by_lot(60, 3500, &mut Random::new(7, 2), false)),
        ("chain", drawn(500, &chain, |s| 5 * (499 - s as u32))),
        (
            "layers of 10, all costs 1 (ties)",
            drawn(390, &layers, |s| (38 - s / 10) as u32),
        ),
    ]
}

/// The processor time of this thread, in seconds: what else runs on the machine does not count.
fn spent() -> f64 {
    let mut now = [0i64; 2];
    // SAFETY: the call writes two numbers, seconds and nanoseconds.
    unsafe { clock_gettime(THREAD_TIME, now.as_mut_ptr()) };
    now[0] as f64 + now[1] as f64 / 1e9
}

/// The least time of a run so far, in seconds for a seek.
struct Least(f64);

impl Least {
    fn run(&mut self, times: u32, work: impl FnOnce()) {
        let begin = spent();
        work();
        self.0 = self.0.min((spent() - begin) / f64::from(times));
    }
}

/// One row of the table; how many seeks each of the three took, or nothing where the answers differ.
fn row(name: &str, chart: &Chart, method: usize, seconds: f64) -> Option<u64> {
    let bytes = chart.write();
    let unpacked = Unpacked::new(chart);
    let mut out = [0; 1024];
    let told = ours(method, &bytes, 1024, 1, &mut out);
    let route = out[..told.length].to_vec();
    let cost = one_number((told.trims, told.millis));
    let (way, least) = unpacked.seek(method)?;
    if told.code != 0 || cost != least || seek_in_bytes(method, &bytes)? != (way.clone(), least) {
        return None;
    }
    let mut once = Least(f64::MAX);
    once.run(100, || {
        ours(method, &bytes, 1024, 100, &mut out);
    });
    let times = ((0.004 / once.0) as u32).max(20);
    let mut least = [Least(f64::MAX), Least(f64::MAX), Least(f64::MAX)];
    let mut seeks = 0;
    let begin = Instant::now();
    while begin.elapsed().as_secs_f64() < seconds || seeks == 0 {
        least[0].run(times, || {
            black_box(ours(method, black_box(&bytes), 1024, times, &mut out));
        });
        least[1].run(times, || {
            for _ in 0..times {
                black_box(black_box(&unpacked).seek(method));
            }
        });
        least[2].run(times, || {
            for _ in 0..times {
                black_box(seek_in_bytes(method, black_box(&bytes)));
            }
        });
        seeks += u64::from(times);
    }
    let [a, b, c] = least.map(|l| l.0 * 1e6);
    println!(
        "| {name} | {} | {} | {} | {a:.3} | {b:.3} | {:.2} | {c:.3} | {:.2} | {} |",
        chart.stations.len(),
        chart.roads.len(),
        METHODS[method].name(),
        b / a,
        c / a,
        if route == way { "same" } else { "same cost" },
    );
    Some(seeks)
}

fn main() -> ExitCode {
    let number = |i: usize| std::env::args().nth(i).and_then(|a| a.parse::<u64>().ok());
    let (Some(seconds), Some(count), Some(seed)) = (number(1), number(2), number(3)) else {
        eprintln!("usage: bench SECONDS CHARTS SEED");
        return ExitCode::from(2);
    };
    let different = compare(count, seed);
    println!(
        "{count} charts by seed {seed}, {} searches each: {different} answers differ",
        METHODS.len()
    );
    println!("| chart | stations | roads | search | planner, µs | Rust, µs | times as fast | Rust over the bytes, µs | times as fast | route |");
    println!("|---|---|---|---|---|---|---|---|---|---|");
    let mut seeks = 0;
    let mut wrong = different > 0;
    for (name, chart) in families() {
        for method in 0..METHODS.len() {
            match row(name, &chart, method, seconds as f64) {
                Some(more) => seeks += more,
                None => {
                    println!("{name}: the answers differ");
                    wrong = true;
                }
            }
        }
    }
    let compared = count * METHODS.len() as u64;
    println!(
        "{} seeks by the planner, {} by the Rust",
        compared + seeks,
        compared + 2 * seeks
    );
    ExitCode::from(u8::from(wrong))
}
