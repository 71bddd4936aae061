//! Where the planner must refuse: what the searches meet on their way is watched, and the first
//! thing that the planner has no room or no number for ends the run.

use std::cell::Cell;
use std::panic;

/// Sums that do not fit both parts.
pub const NO_SUM: u8 = 10;
/// A road of zero weight in `astar_bag`.
pub const ZERO_WEIGHT: u8 = 9;
/// A new node and no row left.
pub const NO_ROW: u8 = 11;
/// A link needed and all of them in lists.
pub const NO_LINK: u8 = 12;

/// How much the planner has been given.
#[derive(Clone, Copy, Debug)]
pub struct Limits {
    /// How many rows there are.
    pub rows: usize,
    /// How many links there are.
    pub links: usize,
    /// Whether sums must fit both parts.
    pub sums: bool,
    /// How many nodes may be followed before the run is given up.
    pub steps: u64,
}

/// The memory of the program `route`.
pub const PROGRAM: Limits = Limits {
    rows: 512,
    links: 2000,
    sums: true,
    steps: u64::MAX,
};

/// Why a run ended before its answer.
#[derive(Clone, Copy, Debug, PartialEq, Eq)]
pub enum Ended {
    /// The planner must refuse here, with this number.
    Refused(u8),
    /// The run took too many steps.
    TooLong,
}

thread_local! {
    static LIMITS: Cell<Limits> = const { Cell::new(PROGRAM) };
    static STEPS: Cell<u64> = const { Cell::new(0) };
}

fn end(why: Ended) -> ! {
    panic::resume_unwind(Box::new(why))
}

/// A sum was made, and both its parts fit or not.
pub fn sum(fits: bool) {
    if !fits && LIMITS.get().sums {
        end(Ended::Refused(NO_SUM));
    }
}

/// Row `n` is needed.
pub fn row(n: usize) {
    if n >= LIMITS.get().rows {
        end(Ended::Refused(NO_ROW));
    }
}

/// A link is needed while `n` are in lists.
pub fn link(n: usize) {
    if n >= LIMITS.get().links {
        end(Ended::Refused(NO_LINK));
    }
}

/// A road of zero weight is met where it is refused.
pub fn zero_weight() {
    end(Ended::Refused(ZERO_WEIGHT));
}

/// The roads of one more node are followed.
pub fn step() {
    let steps = STEPS.get() + 1;
    STEPS.set(steps);
    if steps > LIMITS.get().steps {
        end(Ended::TooLong);
    }
}

/// Runs a search within limits: its answer, or why it ended before.
pub fn within<T>(limits: Limits, run: impl FnOnce() -> T) -> Result<T, Ended> {
    LIMITS.set(limits);
    STEPS.set(0);
    panic::catch_unwind(panic::AssertUnwindSafe(run)).map_err(|thrown| {
        match thrown.downcast::<Ended>() {
            Ok(why) => *why,
            Err(other) => panic::resume_unwind(other),
        }
    })
}
