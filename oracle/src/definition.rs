//! The definition of the five searches, written down a second time over plain lists and apart from
//! the Rust that is followed, with the values that refusals carry. It stands in for the program
//! where there is none, and tells whether the changed Rust is what the definition says.

use crate::chart::Chart;
use crate::lines::{Method, MOST_ROUTES};
use crate::watch::{Limits, NO_LINK, NO_ROW, NO_SUM, ZERO_WEIGHT};

/// A refusal: its number, the row whose road is followed, and the rank if it is about a road.
#[derive(Clone, Copy, Debug, PartialEq, Eq)]
pub struct Refusal {
    pub number: u8,
    pub row: usize,
    pub rank: Option<usize>,
}

/// What a search comes to.
#[derive(Clone, Debug, PartialEq, Eq)]
pub enum Outcome {
    Refused(Refusal),
    None,
    Found(u64, Vec<Vec<u32>>),
}

type Step<T> = Result<T, Refusal>;

fn refuse<T>(number: u8, row: usize, rank: Option<usize>) -> Step<T> {
    Err(Refusal { number, row, rank })
}

fn weight((trims, millis): (u32, u32)) -> u64 {
    (u64::from(trims) << 32) + u64::from(millis)
}

/// The sum of two weights, if both parts fit.
fn plus(a: u64, b: u64) -> Option<u64> {
    let low = 0xffff_ffff;
    let trims = (a >> 32) + (b >> 32);
    let millis = (a & low) + (b & low);
    (trims <= low && millis <= low).then_some(a.wrapping_add(b))
}

#[derive(Clone)]
struct Row {
    key: u32,
    cost: u64,
    parents: Vec<usize>,
}

#[derive(Clone, Copy)]
struct Entry {
    row: usize,
    estimate: u64,
    cost: u64,
}

struct Search<'a> {
    chart: &'a Chart,
    limits: Limits,
    guided: bool,
    rows: Vec<Row>,
}

/// What a road does to the rows.
enum Met {
    Nothing,
    Entered(usize, u64),
}

impl Search<'_> {
    fn guess(&self, key: u32) -> u64 {
        if self.guided {
            weight(self.chart.stations[key as usize].guess)
        } else {
            0
        }
    }

    fn goal(&self, row: usize) -> bool {
        self.chart.stations[self.rows[row].key as usize].marks & 256 != 0
    }

    fn roads(&self, row: usize) -> Vec<(u32, u64)> {
        self.chart
            .roads(self.rows[row].key)
            .iter()
            .map(|road| (road.target, weight(road.cost)))
            .collect()
    }

    fn links(&self) -> usize {
        self.rows.iter().map(|row| row.parents.len()).sum()
    }

    /// A road of row i: a new or cheapened row, if there is one.
    fn meet(&mut self, i: usize, rank: usize, key: u32, road: u64, bag: bool) -> Step<Met> {
        if bag && road == 0 {
            return refuse(ZERO_WEIGHT, i, Some(rank));
        }
        let Some(sum) = plus(self.rows[i].cost, road) else {
            return refuse(NO_SUM, i, Some(rank));
        };
        match self.rows.iter().position(|row| row.key == key) {
            None => {
                if self.rows.len() >= self.limits.rows {
                    return refuse(NO_ROW, i, Some(rank));
                }
                if bag && self.links() >= self.limits.links {
                    return refuse(NO_LINK, i, Some(rank));
                }
                self.rows.push(Row {
                    key,
                    cost: sum,
                    parents: vec![i],
                });
                Ok(Met::Entered(self.rows.len() - 1, sum))
            }
            Some(j) if sum < self.rows[j].cost => {
                self.rows[j].parents.clear();
                if bag && self.links() >= self.limits.links {
                    return refuse(NO_LINK, i, Some(rank));
                }
                self.rows[j] = Row {
                    key,
                    cost: sum,
                    parents: vec![i],
                };
                Ok(Met::Entered(j, sum))
            }
            Some(j) => {
                if bag && sum == self.rows[j].cost && !self.rows[j].parents.contains(&i) {
                    if self.links() >= self.limits.links {
                        return refuse(NO_LINK, i, Some(rank));
                    }
                    self.rows[j].parents.push(i);
                }
                Ok(Met::Nothing)
            }
        }
    }

    fn follow(&mut self, i: usize, bag: bool, heap: &mut Vec<Entry>) -> Step<()> {
        for (rank, (key, road)) in self.roads(i).into_iter().enumerate() {
            if let Met::Entered(j, sum) = self.meet(i, rank, key, road, bag)? {
                let Some(estimate) = plus(sum, self.guess(key)) else {
                    return refuse(NO_SUM, i, Some(rank));
                };
                heap.retain(|entry| entry.row != j);
                heap.push(Entry {
                    row: j,
                    estimate,
                    cost: sum,
                });
            }
        }
        Ok(())
    }

    fn best_first(&mut self) -> Step<Outcome> {
        let mut heap = vec![Entry {
            row: 0,
            estimate: 0,
            cost: 0,
        }];
        while let Some(first) = first_out(&heap) {
            let i = first.row;
            if self.goal(i) {
                return Ok(Outcome::Found(self.rows[i].cost, vec![self.back(i)]));
            }
            heap.retain(|entry| entry.row != i);
            self.follow(i, false, &mut heap)?;
        }
        Ok(Outcome::None)
    }

    fn bag(&mut self) -> Step<Outcome> {
        let mut heap = vec![Entry {
            row: 0,
            estimate: 0,
            cost: 0,
        }];
        let mut sinks: Vec<usize> = vec![];
        let mut cost: Option<u64> = None;
        while let Some(first) = first_out(&heap) {
            if cost.is_some_and(|cost| first.estimate > cost) {
                break;
            }
            let i = first.row;
            if self.goal(i) {
                cost = Some(self.rows[i].cost);
                if !sinks.contains(&i) {
                    sinks.push(i);
                }
            }
            heap.retain(|entry| entry.row != i);
            self.follow(i, true, &mut heap)?;
        }
        Ok(match cost {
            None => Outcome::None,
            Some(cost) => {
                let mut routes = vec![];
                for &sink in sinks.iter().rev() {
                    self.list(sink, &mut vec![], &mut routes);
                }
                Outcome::Found(cost, routes)
            }
        })
    }

    /// All routes that end with row i and what stands behind it, the latest parent first.
    fn list(&self, i: usize, behind: &mut Vec<u32>, routes: &mut Vec<Vec<u32>>) {
        if routes.len() >= MOST_ROUTES {
            return;
        }
        behind.push(self.rows[i].key);
        if self.rows[i].parents.is_empty() {
            routes.push(behind.iter().rev().copied().collect());
        }
        for &parent in self.rows[i].parents.iter().rev() {
            self.list(parent, behind, routes);
        }
        behind.pop();
    }

    fn back(&self, mut i: usize) -> Vec<u32> {
        let mut keys = vec![self.rows[i].key];
        while let Some(&parent) = self.rows[i].parents.first() {
            i = parent;
            keys.insert(0, self.rows[i].key);
        }
        keys
    }

    fn fringe(&mut self) -> Step<Outcome> {
        let mut now = vec![0];
        let mut later: Vec<usize> = vec![];
        let mut limit = self.guess(self.rows[0].key);
        loop {
            let mut least = u64::MAX;
            while !now.is_empty() {
                let i = now.remove(0);
                let Some(sum) = plus(self.rows[i].cost, self.guess(self.rows[i].key)) else {
                    return refuse(NO_SUM, i, None);
                };
                if sum > limit {
                    later.push(i);
                    least = least.min(sum);
                    continue;
                }
                if self.goal(i) {
                    return Ok(Outcome::Found(self.rows[i].cost, vec![self.back(i)]));
                }
                for (rank, (key, road)) in self.roads(i).into_iter().enumerate() {
                    if let Met::Entered(j, _) = self.meet(i, rank, key, road, false)? {
                        now.retain(|&row| row != j);
                        later.retain(|&row| row != j);
                        now.insert(0, j);
                    }
                }
            }
            if later.is_empty() {
                return Ok(Outcome::None);
            }
            now = std::mem::take(&mut later);
            limit = least;
        }
    }

    /// One visit of the end of the path: a route, or the least sum noted.
    fn visit(&mut self, bound: u64) -> Step<Result<Outcome, Option<u64>>> {
        let end = self.rows.len() - 1;
        let cost = self.rows[end].cost;
        let Some(sum) = plus(cost, self.guess(self.rows[end].key)) else {
            return refuse(NO_SUM, end, None);
        };
        if sum > bound {
            return Ok(Err(Some(sum)));
        }
        if self.goal(end) {
            let keys = self.rows.iter().map(|row| row.key).collect();
            return Ok(Ok(Outcome::Found(cost, vec![keys])));
        }
        let mut tries: Vec<(u64, usize, u32, u64)> = vec![];
        for (rank, (key, road)) in self.roads(end).into_iter().enumerate() {
            if self.rows.iter().any(|row| row.key == key) {
                continue;
            }
            match plus(road, self.guess(key)) {
                None => return refuse(NO_SUM, end, Some(rank)),
                Some(order) => tries.push((order, rank, key, road)),
            }
        }
        tries.sort();
        let mut noted: Option<u64> = None;
        for (_, rank, key, road) in tries {
            let Some(cost) = plus(cost, road) else {
                return refuse(NO_SUM, end, Some(rank));
            };
            if self.rows.len() >= self.limits.rows {
                return refuse(NO_ROW, end, Some(rank));
            }
            self.rows.push(Row {
                key,
                cost,
                parents: vec![end],
            });
            match self.visit(bound)? {
                Ok(found) => return Ok(Ok(found)),
                Err(Some(sum)) => noted = Some(noted.map_or(sum, |n| n.min(sum))),
                Err(None) => (),
            }
            self.rows.pop();
        }
        Ok(Err(noted))
    }

    fn deepening(&mut self) -> Step<Outcome> {
        let mut bound = self.guess(self.rows[0].key);
        loop {
            match self.visit(bound)? {
                Ok(found) => return Ok(found),
                Err(None) => return Ok(Outcome::None),
                Err(Some(sum)) => bound = sum,
            }
        }
    }
}

/// The first out: the least estimate, then the greatest cost, then the earliest push.
fn first_out(heap: &[Entry]) -> Option<Entry> {
    let mut first: Option<Entry> = None;
    for &entry in heap {
        let sooner = match first {
            None => true,
            Some(f) => {
                entry.estimate < f.estimate || (entry.estimate == f.estimate && entry.cost > f.cost)
            }
        };
        if sooner {
            first = Some(entry);
        }
    }
    first
}

/// What the definition says about a search from station 0.
pub fn outcome(method: Method, chart: &Chart, limits: Limits) -> Outcome {
    let mut search = Search {
        chart,
        limits,
        guided: method != Method::Dijkstra,
        rows: vec![Row {
            key: 0,
            cost: 0,
            parents: vec![],
        }],
    };
    let result = match method {
        Method::Dijkstra | Method::Astar => search.best_first(),
        Method::AstarBag => search.bag(),
        Method::Fringe => search.fringe(),
        Method::Idastar => search.deepening(),
    };
    result.unwrap_or_else(Outcome::Refused)
}

/// The lines of an outcome; with values, refusals say row and rank too.
pub fn lines(method: Method, outcome: &Outcome, values: bool) -> Vec<String> {
    let name = method.name();
    match outcome {
        Outcome::Refused(refusal) => {
            let mut line = format!("{name} refused {}", refusal.number);
            if values {
                line += &format!(" row {}", refusal.row);
                if let Some(rank) = refusal.rank {
                    line += &format!(" rank {rank}");
                }
            }
            vec![line]
        }
        Outcome::None => vec![format!("{name} none")],
        Outcome::Found(cost, routes) => routes
            .iter()
            .map(|route| {
                let stations: Vec<String> = route.iter().map(u32::to_string).collect();
                format!(
                    "{name} {} {}: {}",
                    cost >> 32,
                    cost & 0xffff_ffff,
                    stations.join(" ")
                )
            })
            .collect(),
    }
}
