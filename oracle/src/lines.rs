//! The lines of the program `route`, made by the changed Rust.

use crate::chart::Chart;
use crate::cost::Cost;
use crate::directed::{astar, dijkstra, fringe, idastar};
use crate::watch::{self, Ended, Limits};
use num_traits::Zero;

/// The five methods.
#[derive(Clone, Copy, Debug, PartialEq, Eq)]
pub enum Method {
    Dijkstra,
    Astar,
    AstarBag,
    Fringe,
    Idastar,
}

impl Method {
    /// All five, in the order of the program.
    pub const ALL: [Method; 5] = [
        Method::Dijkstra,
        Method::Astar,
        Method::AstarBag,
        Method::Fringe,
        Method::Idastar,
    ];

    /// The name that lines begin with.
    pub fn name(self) -> &'static str {
        match self {
            Method::Dijkstra => "dijkstra",
            Method::Astar => "astar",
            Method::AstarBag => "astar_bag",
            Method::Fringe => "fringe",
            Method::Idastar => "idastar",
        }
    }

    /// The method of a name.
    pub fn named(name: &str) -> Option<Method> {
        Method::ALL.into_iter().find(|m| m.name() == name)
    }
}

/// The methods of a list of names; all five for an empty list.
pub fn methods(names: &[String]) -> Result<Vec<Method>, String> {
    if names.is_empty() {
        return Ok(Method::ALL.to_vec());
    }
    names
        .iter()
        .map(|name| Method::named(name).ok_or_else(|| format!("no method is called {name}")))
        .collect()
}

/// How many routes of one seek are printed.
pub const MOST_ROUTES: usize = 100;

/// What a search answers: a cost with one or more routes, or no route.
pub type Answer = Option<(Cost, Vec<Vec<u32>>)>;

/// What the changed Rust answers from station 0, or why it ended before.
pub fn answer(method: Method, chart: &Chart, limits: Limits) -> Result<Answer, Ended> {
    let bag = method == Method::AstarBag;
    let successors = |&station: &u32| {
        watch::step();
        chart.roads(station).iter().map(move |road| {
            let cost = Cost::new(road.cost.0, road.cost.1);
            if bag && cost.is_zero() {
                watch::zero_weight();
            }
            (road.target, cost)
        })
    };
    let guess = |&station: &u32| chart.guess(station);
    let goal = |&station: &u32| chart.goal(station);
    let one = |(path, cost): (Vec<u32>, Cost)| (cost, vec![path]);
    watch::within(limits, || match method {
        Method::Dijkstra => dijkstra::dijkstra(&0, successors, goal).map(one),
        Method::Astar => astar::astar(&0, successors, guess, goal).map(one),
        Method::AstarBag => astar::astar_bag(&0, successors, guess, goal)
            .map(|(routes, cost)| (cost, routes.take(MOST_ROUTES).collect())),
        Method::Fringe => fringe::fringe(&0, successors, guess, goal).map(one),
        Method::Idastar => idastar::idastar(&0, successors, guess, goal).map(one),
    })
}

/// The lines of one answer.
pub fn lines(method: Method, answer: &Result<Answer, Ended>) -> Vec<String> {
    let name = method.name();
    match answer {
        Err(Ended::Refused(number)) => vec![format!("{name} refused {number}")],
        Err(Ended::TooLong) => vec![format!("{name} too long")],
        Ok(None) => vec![format!("{name} none")],
        Ok(Some((cost, routes))) => routes
            .iter()
            .map(|route| {
                let stations: Vec<String> = route.iter().map(u32::to_string).collect();
                format!(
                    "{name} {} {}: {}",
                    cost.trims,
                    cost.millis,
                    stations.join(" ")
                )
            })
            .collect(),
    }
}

/// All lines for the bytes of a chart.
pub fn all_lines(bytes: &[u8], methods: &[Method], limits: Limits) -> Vec<String> {
    match Chart::read(bytes) {
        Err(number) => vec![format!("chart refused {number}")],
        Ok(chart) => methods
            .iter()
            .flat_map(|&method| lines(method, &answer(method, &chart, limits)))
            .collect(),
    }
}
