//! Runs the searches as published beside the definition on the smallest inputs that tell the two
//! apart, one for each intended difference.

use oracle::chart::{Chart, Road, Station};
use oracle::definition;
use oracle::lines::Method;
use oracle::published::{astar, dijkstra, idastar};
use oracle::watch::{Limits, PROGRAM};
use std::collections::BTreeMap;
use std::fmt::Debug;
use std::process::Command;

/// A chart of n stations: roads (from, to, milliseconds), goals, guesses in milliseconds.
fn chart(n: u32, roads: &[(u32, u32, u32)], goals: &[u32], guesses: &[(u32, u32)]) -> Chart {
    let mut stations = vec![];
    let mut all = vec![];
    for i in 0..n {
        let guess = guesses.iter().find(|g| g.0 == i).map_or(0, |g| g.1);
        stations.push(Station {
            first: all.len() as u32,
            guess: (0, guess),
            marks: if goals.contains(&i) { 256 } else { 0 },
        });
        for &(_, target, millis) in roads.iter().filter(|road| road.0 == i) {
            all.push(Road {
                target,
                cost: (0, millis),
            });
        }
    }
    Chart {
        stations,
        roads: all,
    }
}

fn roads(chart: &Chart) -> impl Fn(&u32) -> Vec<(u32, u32)> + '_ {
    |&s| {
        chart
            .roads(s)
            .iter()
            .map(|r| (r.target, r.cost.1))
            .collect()
    }
}

fn guess(chart: &Chart) -> impl Fn(&u32) -> u32 + '_ {
    |&s| chart.stations[s as usize].guess.1
}

fn goal(chart: &Chart) -> impl Fn(&u32) -> bool + '_ {
    |&s| chart.goal(s)
}

fn title(text: &str) {
    println!("{text}");
}

fn published(answer: impl Debug) {
    println!("  published:  {answer:?}");
}

fn here(method: Method, chart: &Chart, limits: Limits) {
    let outcome = definition::outcome(method, chart, limits);
    for line in definition::lines(method, &outcome, true) {
        println!("  definition: {line}");
    }
}

/// The routes of the bag as published, in the order in which they come.
fn bag(chart: &Chart) -> Option<(Vec<Vec<u32>>, u32)> {
    astar::astar_bag(&0, roads(chart), guess(chart), goal(chart))
        .map(|(routes, cost)| (routes.collect(), cost))
}

fn main() {
    std::panic::set_hook(Box::new(|_| ()));
    let endless = chart(1, &[(0, 0, 0)], &[0], &[]);
    if std::env::args().nth(1).as_deref() == Some("endless") {
        println!("{:?}", bag(&endless));
        return;
    }
    let diamond = chart(4, &[(0, 1, 1), (0, 2, 1), (1, 3, 1), (2, 3, 1)], &[3], &[]);

    title("A sum that does not fit: 0→1 of 4294967295, 1→2 of 1, goal 2");
    let c = chart(3, &[(0, 1, u32::MAX), (1, 2, 1)], &[2], &[]);
    published(std::panic::catch_unwind(|| dijkstra::dijkstra(&0, roads(&c), goal(&c))).ok());
    here(Method::Dijkstra, &c, PROGRAM);

    title("An estimate that does not fit: 0→1 of 4294967295, goal 1 with guess 1");
    let c = chart(2, &[(0, 1, u32::MAX)], &[1], &[(1, 1)]);
    published(std::panic::catch_unwind(|| astar::astar(&0, roads(&c), guess(&c), goal(&c))).ok());
    here(Method::Astar, &c, PROGRAM);

    title("No row left: 0→1, 0→2, 1→3, 2→3 of 1, goal 3, with 3 rows");
    published(astar::astar(
        &0,
        roads(&diamond),
        guess(&diamond),
        goal(&diamond),
    ));
    here(Method::Astar, &diamond, Limits { rows: 3, ..PROGRAM });

    title("No row left in the program: 0→1 to 0→512 of 1, goal 512");
    let spokes: Vec<_> = (1..=512).map(|i| (0, i, 1)).collect();
    let c = chart(513, &spokes, &[512], &[]);
    published(dijkstra::dijkstra(&0, roads(&c), goal(&c)));
    here(Method::Dijkstra, &c, PROGRAM);

    title("No link left: 0→1, 0→2, 1→3, 2→3 of 1, goal 3, with 3 links");
    published(bag(&diamond).map(|(routes, cost)| (routes.len(), cost)));
    here(
        Method::AstarBag,
        &diamond,
        Limits {
            links: 3,
            ..PROGRAM
        },
    );

    title("No link left in the program: 0 to each of 23, each of these to each of 86, all of 1, the last a goal");
    let mut many: Vec<_> = (1..=23).map(|i| (0, i, 1)).collect();
    many.extend((1..=23).flat_map(|i| (24..=109).map(move |j| (i, j, 1))));
    let c = chart(110, &many, &[109], &[]);
    published(bag(&c).map(|(routes, cost)| (routes.len(), cost)));
    here(Method::AstarBag, &c, PROGRAM);

    title("Zero weight in the bag: 0→1 of 0, goal 1");
    let c = chart(2, &[(0, 1, 0)], &[1], &[]);
    published(bag(&c));
    here(Method::AstarBag, &c, PROGRAM);

    title("Why zero weight is refused there: 0→0 of 0, goal 0");
    let me = std::env::current_exe().unwrap();
    let run = Command::new("sh")
        .args(["-c", "ulimit -v 1000000; exec \"$0\" endless"])
        .arg(me)
        .output()
        .unwrap();
    let said = String::from_utf8_lossy(&run.stderr);
    println!(
        "  published:  within 1 GB of memory: {} ({})",
        said.lines().next().unwrap_or(""),
        run.status
    );
    here(Method::AstarBag, &endless, PROGRAM);

    title("idastar's cost: 0→1 of 2, goal 1 with guess 3");
    let c = chart(2, &[(0, 1, 2)], &[1], &[(1, 3)]);
    published(idastar::idastar(&0, roads(&c), guess(&c), goal(&c)));
    here(Method::Idastar, &c, PROGRAM);

    title("idastar's cost, nothing but a start: goal 0 with guess 1");
    let c = chart(1, &[], &[0], &[(0, 1)]);
    published(idastar::idastar(&0, roads(&c), guess(&c), goal(&c)));
    here(Method::Idastar, &c, PROGRAM);

    title("Equals in the heap: 0→1, 0→2 of 2, 0→3 of 1, goals 1 and 2");
    let c = chart(4, &[(0, 1, 2), (0, 2, 2), (0, 3, 1)], &[1, 2], &[]);
    published(dijkstra::dijkstra(&0, roads(&c), goal(&c)));
    here(Method::Dijkstra, &c, PROGRAM);
    published(astar::astar(&0, roads(&c), guess(&c), goal(&c)));
    here(Method::Astar, &c, PROGRAM);

    title("The order of the bag's routes: 0→1, 0→2, 1→3, 2→3 of 1, goal 3; 1000 runs");
    let mut orders: BTreeMap<String, u64> = BTreeMap::new();
    for _ in 0..1000 {
        *orders
            .entry(format!("{:?}", bag(&diamond).unwrap().0))
            .or_default() += 1;
    }
    for (order, times) in orders {
        println!("  published:  {times} times {order}");
    }
    here(Method::AstarBag, &diamond, PROGRAM);

    title("The order of the bag's sinks: 0→1, 0→2 of 1, goals 1 and 2; 1000 runs");
    let c = chart(3, &[(0, 1, 1), (0, 2, 1)], &[1, 2], &[]);
    let mut orders: BTreeMap<String, u64> = BTreeMap::new();
    for _ in 0..1000 {
        *orders
            .entry(format!("{:?}", bag(&c).unwrap().0))
            .or_default() += 1;
    }
    for (order, times) in orders {
        println!("  published:  {times} times {order}");
    }
    here(Method::AstarBag, &c, PROGRAM);

    title("Equal neighbours of idastar: 0→1 to 0→33 of 2, but 0→17 of 1, goals 1 and 29");
    let many: Vec<_> = (1..=33)
        .map(|i| (0, i, if i == 17 { 1 } else { 2 }))
        .collect();
    let c = chart(34, &many, &[1, 29], &[]);
    published(idastar::idastar(&0, roads(&c), guess(&c), goal(&c)));
    here(Method::Idastar, &c, PROGRAM);
}
