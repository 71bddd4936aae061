//! Trims with milliseconds, in numbers so wide that no sum on a chart overflows.

use crate::watch;
use num_traits::{Bounded, Zero};
use std::cmp::Ordering;
use std::ops::Add;

/// A cost: trims and milliseconds, each wider than the planner's 32 bits.
#[derive(Clone, Copy, Debug, PartialEq, Eq)]
pub struct Cost {
    pub trims: u64,
    pub millis: u64,
}

impl Cost {
    /// A cost of two 32-bit parts.
    pub fn new(trims: u32, millis: u32) -> Cost {
        Cost {
            trims: trims.into(),
            millis: millis.into(),
        }
    }

    /// The weight: trims × 2^32 + milliseconds.
    pub fn weight(self) -> u128 {
        (u128::from(self.trims) << 32) + u128::from(self.millis)
    }

    fn fits(self) -> bool {
        self.trims <= u32::MAX.into() && self.millis <= u32::MAX.into()
    }
}

impl PartialOrd for Cost {
    fn partial_cmp(&self, other: &Cost) -> Option<Ordering> {
        Some(self.cmp(other))
    }
}

impl Ord for Cost {
    fn cmp(&self, other: &Cost) -> Ordering {
        self.weight().cmp(&other.weight())
    }
}

impl Add for Cost {
    type Output = Cost;

    fn add(self, other: Cost) -> Cost {
        let sum = Cost {
            trims: self.trims + other.trims,
            millis: self.millis + other.millis,
        };
        watch::sum(sum.fits());
        sum
    }
}

impl Zero for Cost {
    fn zero() -> Cost {
        Cost::new(0, 0)
    }

    fn is_zero(&self) -> bool {
        self.weight() == 0
    }
}

impl Bounded for Cost {
    fn min_value() -> Cost {
        Cost::new(0, 0)
    }

    fn max_value() -> Cost {
        Cost {
            trims: u64::MAX,
            millis: u64::MAX,
        }
    }
}
