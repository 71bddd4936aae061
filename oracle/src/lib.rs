//! The searches of pathfinding 4.16.0 run on charts, beside the route planner.
//!
//! `published` has them as published, `directed` with the changes that the definition of the
//! planner's searches asks for, `definition` that definition written down a second time.

pub mod chart;
pub mod charts;
pub mod cost;
pub mod definition;
pub mod directed;
pub mod lines;
pub mod published;
pub mod random;
pub mod watch;

use indexmap::{IndexMap, IndexSet};
use rustc_hash::FxHasher;
use std::hash::BuildHasherDefault;

type FxIndexMap<K, V> = IndexMap<K, V, BuildHasherDefault<FxHasher>>;
type FxIndexSet<K> = IndexSet<K, BuildHasherDefault<FxHasher>>;
