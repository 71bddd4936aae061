//! Compares the searches as published with all routes there are, on small charts with true
//! guesses: each must answer a route of the least weight, and the bag exactly all of them.
//!
//! `least N SEED`; the bag is left out where a road weighs nothing.

use oracle::chart::{to_hex, Chart};
use oracle::charts::little;
use oracle::lines::Method;
use oracle::published::{astar, dijkstra, fringe, idastar};
use oracle::random::Random;
use std::process::ExitCode;

fn roads(chart: &Chart) -> impl Fn(&u32) -> Vec<(u32, u128)> + '_ {
    |&station| {
        let weight = |(trims, millis): (u32, u32)| (u128::from(trims) << 32) + u128::from(millis);
        let roads = chart.roads(station).iter();
        roads.map(|road| (road.target, weight(road.cost))).collect()
    }
}

/// The answer as published: the weight and the routes, sorted.
fn published(method: Method, chart: &Chart) -> Option<(u128, Vec<Vec<u32>>)> {
    let next = roads(chart);
    let guess = |&s: &u32| chart.guess(s).weight();
    let goal = |&s: &u32| chart.goal(s);
    let one = |(path, weight): (Vec<u32>, u128)| (weight, vec![path]);
    match method {
        Method::Dijkstra => dijkstra::dijkstra(&0, next, goal).map(one),
        Method::Astar => astar::astar(&0, next, guess, goal).map(one),
        Method::Fringe => fringe::fringe(&0, next, guess, goal).map(one),
        Method::Idastar => idastar::idastar(&0, next, guess, goal).map(one),
        Method::AstarBag => astar::astar_bag(&0, next, guess, goal).map(|(routes, weight)| {
            let mut routes: Vec<_> = routes.collect();
            routes.sort();
            (weight, routes)
        }),
    }
}

/// All routes without a station twice, with their weights; nothing if they are too many.
fn routes(chart: &Chart) -> Option<Vec<(u128, Vec<u32>)>> {
    let next = roads(chart);
    let mut open = vec![(0, vec![0])];
    let mut found = vec![];
    while let Some((weight, path)) = open.pop() {
        let end = path[path.len() - 1];
        if chart.goal(end) {
            found.push((weight, path.clone()));
        }
        let all = next(&end);
        let mut targets: Vec<u32> = all.iter().map(|road| road.0).collect();
        targets.sort();
        targets.dedup();
        for target in targets.into_iter().filter(|target| !path.contains(target)) {
            let lightest = all
                .iter()
                .filter(|road| road.0 == target)
                .map(|road| road.1)
                .min();
            let longer = [path.clone(), vec![target]].concat();
            open.push((weight + lightest.unwrap_or(0), longer));
        }
        if open.len() + found.len() > 100_000 {
            return None;
        }
    }
    Some(found)
}

/// The least weight from each station to a goal.
fn to_goal(chart: &Chart) -> Vec<Option<u128>> {
    let next = roads(chart);
    let n = chart.stations.len() as u32;
    let mut least: Vec<Option<u128>> = (0..n).map(|s| chart.goal(s).then_some(0)).collect();
    for _ in 0..n {
        for from in 0..n {
            for (to, weight) in next(&from) {
                if let Some(rest) = least[to as usize] {
                    let sum = rest + weight;
                    if least[from as usize].is_none_or(|old| sum < old) {
                        least[from as usize] = Some(sum);
                    }
                }
            }
        }
    }
    least
}

/// Makes every guess that is too great some part of the way.
fn make_true(chart: &mut Chart, r: &mut Random) {
    for (station, least) in to_goal(chart).into_iter().enumerate() {
        let Some(least) = least else { continue };
        if chart.guess(station as u32).weight() > least {
            let part = u128::from(r.next()) % (least + 1);
            chart.stations[station].guess = ((part >> 32) as u32, part as u32);
        }
    }
}

fn main() -> ExitCode {
    let mut args = std::env::args()
        .skip(1)
        .map(|arg| arg.parse::<u64>().unwrap_or(0));
    let (n, seed) = (args.next().unwrap_or(100_000), args.next().unwrap_or(1));
    let mut answers = 0;
    for i in 0..n {
        let Ok(mut chart) = Chart::read(&little(seed, i)) else {
            continue;
        };
        make_true(&mut chart, &mut Random::new(seed, i));
        let Some(all) = routes(&chart) else { continue };
        let least = all.iter().map(|route| route.0).min();
        let mut lightest: Vec<Vec<u32>> = all
            .into_iter()
            .filter(|route| Some(route.0) == least)
            .map(|route| route.1)
            .collect();
        lightest.sort();
        for method in Method::ALL {
            let bag = method == Method::AstarBag;
            if bag && chart.roads.iter().any(|road| road.cost == (0, 0)) {
                continue;
            }
            answers += 1;
            let right = match published(method, &chart) {
                None => least.is_none(),
                Some((weight, routes)) if bag => Some(weight) == least && routes == lightest,
                Some((weight, routes)) => Some(weight) == least && lightest.contains(&routes[0]),
            };
            if !right {
                println!("{} departs on {}", method.name(), to_hex(&chart.write()));
                return ExitCode::FAILURE;
            }
        }
    }
    println!("{answers} answers on {n} charts, all of them least");
    ExitCode::SUCCESS
}
