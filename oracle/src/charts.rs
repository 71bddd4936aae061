//! Charts by number and seed: small ones exhaustively, then all sorts at random.

use crate::chart::{Chart, Road, Station};
use crate::random::Random;

const LIMIT: u32 = u32::MAX;

/// A chart being drawn: for each station its roads, guess, and marks.
struct Draft {
    roads: Vec<Vec<Road>>,
    guess: Vec<(u32, u32)>,
    marks: Vec<u32>,
}

impl Draft {
    fn new(n: usize) -> Draft {
        Draft {
            roads: vec![vec![]; n],
            guess: vec![(0, 0); n],
            marks: vec![0; n],
        }
    }

    fn len(&self) -> usize {
        self.roads.len()
    }

    fn count(&self) -> usize {
        self.roads.iter().map(Vec::len).sum()
    }

    fn road(&mut self, from: usize, to: usize, cost: (u32, u32)) {
        if self.count() < 4000 {
            self.roads[from].push(Road {
                target: to as u32,
                cost,
            });
        }
    }

    fn goal(&mut self, station: usize) {
        self.marks[station] |= 256;
    }

    fn chart(&self) -> Chart {
        let mut first = 0;
        let mut stations = vec![];
        for i in 0..self.len() {
            stations.push(Station {
                first,
                guess: self.guess[i],
                marks: self.marks[i],
            });
            first += self.roads[i].len() as u32;
        }
        Chart {
            stations,
            roads: self.roads.concat(),
        }
    }

    /// The least weight from each station to a goal, by rounds over all roads.
    fn to_goal(&self) -> Vec<Option<u128>> {
        let mut least: Vec<Option<u128>> = self
            .marks
            .iter()
            .map(|m| (m & 256 != 0).then_some(0))
            .collect();
        loop {
            let mut changed = false;
            for from in (0..self.len()).rev() {
                for road in &self.roads[from] {
                    let weight = (u128::from(road.cost.0) << 32) + u128::from(road.cost.1);
                    if let Some(rest) = least[road.target as usize] {
                        if least[from].is_none_or(|old| rest + weight < old) {
                            least[from] = Some(rest + weight);
                            changed = true;
                        }
                    }
                }
            }
            if !changed {
                return least;
            }
        }
    }
}

/// How many charts of one, two and three stations are made exhaustively.
pub const SMALL: u64 = ONE + TWO + THREE_GOALS + THREE_GUESSES;
const ONE: u64 = 3 * 2 * 2;
const TWO: u64 = 81 * 4 * 4;
const THREE_GOALS: u64 = 729 * 4;
const THREE_GUESSES: u64 = 729 * 9;

/// The i-th small chart, for i below `SMALL`.
fn small(mut i: u64) -> Draft {
    let digit = |base: u64, i: &mut u64| {
        let d = *i % base;
        *i /= base;
        d as u32
    };
    if i < ONE + TWO {
        let n = if i < ONE { 1 } else { 2 };
        if n == 2 {
            i -= ONE;
        }
        let mut draft = Draft::new(n);
        for from in 0..n {
            for to in 0..n {
                match digit(3, &mut i) {
                    0 => (),
                    w => draft.road(from, to, (0, w - 1)),
                }
            }
        }
        for s in 0..n {
            draft.marks[s] = 256 * digit(2, &mut i);
            draft.guess[s] = (0, digit(2, &mut i));
        }
        return draft;
    }
    i -= ONE + TWO;
    let goals = i < THREE_GOALS;
    if !goals {
        i -= THREE_GOALS;
    }
    let mut draft = Draft::new(3);
    for from in 0..3 {
        for to in 0..3 {
            if from != to {
                match digit(3, &mut i) {
                    0 => (),
                    w => draft.road(from, to, (0, w)),
                }
            }
        }
    }
    if goals {
        draft.marks[1] = 256 * digit(2, &mut i);
        draft.marks[2] = 256 * digit(2, &mut i);
    } else {
        draft.marks[2] = 256;
        draft.guess[1] = (0, [0, 1, 3][digit(3, &mut i) as usize]);
        draft.guess[2] = (0, [0, 1, 3][digit(3, &mut i) as usize]);
    }
    draft
}

/// How weights are drawn.
#[derive(Clone, Copy)]
enum Weights {
    Zero,
    Unit,
    Few(u32),
    WithZero(u32),
    Wide,
    Trims,
    NearLimit,
    Half,
}

impl Weights {
    fn draw(self, r: &mut Random) -> (u32, u32) {
        let below = |r: &mut Random, n: u32| r.below(n.into()) as u32;
        match self {
            Weights::Zero => (0, 0),
            Weights::Unit => (0, 1),
            Weights::Few(n) => (0, 1 + below(r, n)),
            Weights::WithZero(n) => (0, below(r, n + 1)),
            Weights::Wide => (0, 1 + below(r, 1_000_000)),
            Weights::Trims => (below(r, 3), r.pick(&[1, 10, 4500, 1_000_000_000])),
            Weights::NearLimit => (
                r.pick(&[0, 0, 0, 1, LIMIT / 2, LIMIT - 1, LIMIT]),
                r.pick(&[
                    0,
                    1,
                    2,
                    LIMIT / 2,
                    LIMIT / 2 + 1,
                    LIMIT - 2,
                    LIMIT - 1,
                    LIMIT,
                ]),
            ),
            Weights::Half => (r.pick(&[0, 1]), LIMIT / 3 - 1 + below(r, 3)),
        }
    }
}

fn weights(r: &mut Random) -> Weights {
    match r.below(17) {
        16 => Weights::Zero,
        0..=2 => Weights::Unit,
        3..=5 => Weights::Few(2),
        6..=7 => Weights::Few(9),
        8..=9 => Weights::WithZero(2),
        10 => Weights::Wide,
        11..=12 => Weights::Trims,
        13..=14 => Weights::NearLimit,
        _ => Weights::Half,
    }
}

fn grid(r: &mut Random, columns: usize, rows: usize, law: Weights) -> Draft {
    let mut draft = Draft::new(columns * rows);
    let solid: Vec<bool> = (0..columns * rows).map(|i| i > 0 && r.one_in(6)).collect();
    for y in 0..rows {
        for x in 0..columns {
            let here = y * columns + x;
            let mut to = vec![];
            if y > 0 {
                to.push(here - columns);
            }
            if x + 1 < columns {
                to.push(here + 1);
            }
            if y + 1 < rows {
                to.push(here + columns);
            }
            if x > 0 {
                to.push(here - 1);
            }
            for next in to {
                if !solid[here] && !solid[next] {
                    let cost = law.draw(r);
                    draft.road(here, next, cost);
                }
            }
        }
    }
    draft
}

fn random_roads(r: &mut Random, n: usize, m: usize, law: Weights) -> Draft {
    let mut draft = Draft::new(n);
    for _ in 0..m {
        let from = r.below(n as u64) as usize;
        let to = r.below(n as u64) as usize;
        let cost = law.draw(r);
        draft.road(from, to, cost);
    }
    draft
}

/// Every station leads to many that follow it, longer hops being dearer than the steps between,
/// so that costs fall again and again.
fn cheapening(r: &mut Random, n: usize) -> Draft {
    let mut draft = Draft::new(n);
    for from in 0..n {
        for to in (from + 1..n).rev() {
            if to - from < 3 || r.one_in(2) {
                let hop = (to - from) as u64;
                let cost = (0, (hop * hop + r.below(3)) as u32);
                draft.road(from, to, cost);
            }
        }
    }
    draft
}

/// Layers, each station joined to all of the next layer: many routes of one cost.
fn layers(r: &mut Random, widths: &[usize], law: Weights) -> Draft {
    let mut draft = Draft::new(widths.iter().sum());
    let mut start = 0;
    for pair in widths.windows(2) {
        for a in 0..pair[0] {
            for b in 0..pair[1] {
                let cost = law.draw(r);
                draft.road(start + a, start + pair[0] + b, cost);
            }
        }
        start += pair[0];
    }
    draft
}

/// All of a great many stations reached, from a tree and further roads.
fn great(r: &mut Random, law: Weights) -> Draft {
    let n = r.pick(&[500, 511, 512, 513, 514, 520, 600, 1000, 1024]);
    let mut draft = Draft::new(n);
    let kind = r.below(4);
    for to in 1..n {
        let from = match kind {
            0 => to - 1,
            1 => 0,
            2 => (to - 1) / 2,
            _ => r.below(to as u64) as usize,
        };
        let cost = law.draw(r);
        draft.road(from, to, cost);
    }
    for _ in 0..r.below(1500) {
        let from = r.below(n as u64) as usize;
        let to = r.below(n as u64) as usize;
        let cost = law.draw(r);
        draft.road(from, to, cost);
    }
    draft
}

/// Gives a draft its goals.
fn goals(r: &mut Random, draft: &mut Draft) {
    let n = draft.len() as u64;
    match r.below(8) {
        0 => (),
        1 => {
            // a goal that nothing leads to
            let goal = n as usize - 1;
            for roads in &mut draft.roads {
                roads.retain(|road| road.target as usize != goal);
            }
            draft.goal(goal);
        }
        2 | 3 => {
            for _ in 0..r.between(2, 4) {
                let goal = r.below(n) as usize;
                draft.goal(goal);
            }
        }
        4 | 5 => draft.goal(n as usize - 1),
        _ => {
            let goal = r.below(n) as usize;
            draft.goal(goal);
        }
    }
}

fn parts(weight: u128) -> (u32, u32) {
    let trims = weight >> 32;
    if trims > LIMIT.into() {
        (LIMIT, LIMIT)
    } else {
        (trims as u32, weight as u32)
    }
}

/// Gives a draft its guesses.
fn guesses(r: &mut Random, draft: &mut Draft) {
    let kind = r.below(10);
    if kind <= 1 {
        return;
    }
    let distance = draft.to_goal();
    for (i, distance) in distance.into_iter().enumerate() {
        let far = distance.unwrap_or(7);
        draft.guess[i] = match kind {
            // half the way: consistent where no trims are in play
            2 => parts(far / 2),
            // the whole way: consistent
            3 => parts(far),
            // some part of the way: true, and hardly ever consistent
            4 | 5 => parts(far * u128::from(r.below(5)) / 4),
            // the whole way or nothing: true
            6 => parts(if r.one_in(2) { far } else { 0 }),
            // more than the way, now and then: false
            7 => parts(far * u128::from(r.below(9)) / 4),
            // anything small, at the goal too
            8 => (0, r.below(6) as u32),
            // near the limits
            _ => (
                r.pick(&[0, 0, 0, 1, LIMIT]),
                r.pick(&[0, 0, 1, 5, LIMIT - 1, LIMIT]),
            ),
        };
        if kind <= 6 && distance.is_none() && r.one_in(2) {
            // no route begins here: any guess is true
            draft.guess[i] = (0, r.below(100) as u32);
        }
    }
    if r.one_in(6) {
        // a guess at the goals themselves
        for i in 0..draft.len() {
            if draft.marks[i] & 256 != 0 {
                draft.guess[i] = (0, 1 + r.below(4) as u32);
            }
        }
    }
}

/// Adds parallel roads, loops, roads back to the start, and zero weights.
fn trimmings(r: &mut Random, draft: &mut Draft, law: Weights) {
    let n = draft.len();
    if r.one_in(3) {
        for _ in 0..r.between(1, 4) {
            let from = r.below(n as u64) as usize;
            if let Some(&road) = draft.roads[from].first() {
                let cost = if r.one_in(2) { road.cost } else { law.draw(r) };
                draft.road(from, road.target as usize, cost);
            }
        }
    }
    if r.one_in(4) {
        let at = r.below(n as u64) as usize;
        let cost = law.draw(r);
        draft.road(at, at, cost);
    }
    if r.one_in(3) {
        for _ in 0..r.between(1, 3) {
            let from = r.below(n as u64) as usize;
            let cost = law.draw(r);
            draft.road(from, 0, cost);
        }
    }
    if r.one_in(8) {
        let from = r.below(n as u64) as usize;
        if let Some(road) = draft.roads[from].last_mut() {
            road.cost = (0, 0);
        }
    }
    for roads in &mut draft.roads {
        if roads.len() > 1 && r.one_in(2) {
            // the ranks in another order
            for i in (1..roads.len()).rev() {
                roads.swap(i, r.below(i as u64 + 1) as usize);
            }
        }
    }
    for marks in &mut draft.marks {
        *marks |= r.below(64) as u32;
    }
}

/// Spoils a chart in one place.
fn spoil(r: &mut Random, mut bytes: Vec<u8>) -> Vec<u8> {
    match r.below(5) {
        0 => bytes.truncate(r.below(bytes.len() as u64) as usize),
        1 => bytes.push(0),
        2 => {
            let at = r.below(16) as usize;
            bytes[at] ^= 1 << r.below(8);
        }
        _ => {
            let at = r.below(bytes.len() as u64) as usize;
            bytes[at] ^= 1 << r.below(8);
        }
    }
    bytes
}

/// A small chart of a few stations, for samples that stay readable.
pub fn little(seed: u64, stream: u64) -> Vec<u8> {
    let mut r = Random::new(seed, stream);
    let law = weights(&mut r);
    let mut draft = match r.below(5) {
        0 => {
            let (columns, rows) = (r.between(1, 4) as usize, r.between(1, 3) as usize);
            grid(&mut r, columns, rows, law)
        }
        1 => {
            let n = r.between(2, 7) as usize;
            cheapening(&mut r, n)
        }
        2 => {
            let widths = [1, r.between(1, 3) as usize, r.between(1, 3) as usize, 1];
            layers(&mut r, &widths, law)
        }
        _ => {
            let n = r.between(1, 9);
            let m = r.below(3 * n + 1) as usize;
            random_roads(&mut r, n as usize, m, law)
        }
    };
    goals(&mut r, &mut draft);
    trimmings(&mut r, &mut draft, law);
    guesses(&mut r, &mut draft);
    draft.chart().write()
}

/// A chart of any sort.
fn any(seed: u64, stream: u64) -> Vec<u8> {
    let mut r = Random::new(seed, stream);
    let law = weights(&mut r);
    let mut draft = match r.below(20) {
        0..=2 => {
            let (columns, rows) = (r.between(1, 12) as usize, r.between(1, 12) as usize);
            grid(&mut r, columns, rows, law)
        }
        3..=6 => {
            // dense
            let n = r.between(1, 14);
            let m = r.between(n * n / 2, n * n + n) as usize;
            random_roads(&mut r, n as usize, m, law)
        }
        7..=11 => {
            // sparse
            let n = r.between(2, 60);
            let m = r.between(n / 2, 3 * n) as usize;
            random_roads(&mut r, n as usize, m, law)
        }
        12..=13 => {
            let n = r.between(3, 40) as usize;
            cheapening(&mut r, n)
        }
        14..=16 => {
            let depth = r.between(1, 5);
            let mut widths = vec![1];
            for _ in 0..depth {
                widths.push(r.between(1, 6) as usize);
            }
            layers(&mut r, &widths, law)
        }
        17 => {
            // about as many links as there are
            let a = r.between(20, 26) as usize;
            let b = r.between(78, 92) as usize;
            let law = if r.one_in(3) { law } else { Weights::Unit };
            layers(&mut r, &[1, a, b, 1], law)
        }
        _ => great(&mut r, law),
    };
    goals(&mut r, &mut draft);
    trimmings(&mut r, &mut draft, law);
    guesses(&mut r, &mut draft);
    let bytes = draft.chart().write();
    if r.one_in(40) {
        spoil(&mut r, bytes)
    } else {
        bytes
    }
}

/// The i-th of n charts of a seed. The small ones come first, all of them if they are no more
/// than three fifths of n, else so many of them at even distances.
pub fn chart(i: u64, n: u64, seed: u64) -> Vec<u8> {
    let first = SMALL.min(n * 3 / 5);
    if i < first {
        small(i * SMALL / first).chart().write()
    } else {
        any(seed, i)
    }
}
