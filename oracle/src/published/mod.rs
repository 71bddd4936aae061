//! The searches of pathfinding 4.16.0 as published, to run beside the changed ones.
// The function below is from src/directed/mod.rs of the crate pathfinding 4.16.0
// (https://github.com/evenfurther/pathfinding), by Samuel Tardieu <sam@rfc1149.net>,
// licensed "Apache-2.0/MIT"; used here under the Apache License, Version 2.0 (see
// LICENSE-APACHE). The list of modules is cut to those that are here.
#![allow(dead_code)]

use super::FxIndexMap;
use std::hash::Hash;

pub mod astar;
pub mod dijkstra;
pub mod fringe;
pub mod idastar;

fn reverse_path<N, V, F>(parents: &FxIndexMap<N, V>, mut parent: F, start: usize) -> Vec<N>
where
    N: Eq + Hash + Clone,
    F: FnMut(&V) -> usize,
{
    let mut path = Vec::new();
    let mut i = start;
    while let Some((node, value)) = parents.get_index(i) {
        path.push(node.clone());
        i = parent(value);
    }
    path.reverse();
    path
}
