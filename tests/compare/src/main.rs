//! Port and oracle in one process: the same questions, every bit of the answers compared.
//! compare [--seed N] [--scale N] [--share N] [--only LAYER]: another seed, N times as many questions, an N-th of them,
//! the questions of one layer alone.
mod bits;
mod calls;
mod cutting;
mod fusing;
mod mesh;
mod numbers;
mod report;
mod solids;
mod splitting;
mod vectors;

use report::Report;
use std::sync::atomic::{AtomicUsize, Ordering};
use std::thread;

fn option(name: &str, default: u64) -> u64 {
    let words: Vec<_> = std::env::args().collect();
    match words.iter().position(|w| w == name) {
        None => default,
        Some(i) => words
            .get(i + 1)
            .and_then(|w| w.parse().ok())
            .unwrap_or_else(|| {
                eprintln!("compare: {name} needs a whole number");
                std::process::exit(2)
            }),
    }
}

/// How many questions of those that are usual.
#[derive(Clone, Copy)]
pub struct Scale {
    times: usize,
    over: usize,
}

impl Scale {
    pub fn of(self, usual: usize) -> usize {
        (usual * self.times / self.over).max(1)
    }
}

type Layer = fn(&mut Report, u64, Scale);

/// Each layer's name, what it asks, and what is added to the seed.
const LAYERS: &[(&str, Layer, u64)] = &[
    ("numbers", numbers::compare, 0),
    ("vectors", vectors::compare, 100),
    ("cutting", cutting::compare, 200),
    ("mesh", mesh::compare, 300),
    ("solids", solids::compare, 400),
    ("splitting", splitting::compare, 425),
    ("fusing", fusing::compare, 450),
    ("cells", calls::cells, 500),
    ("offset", calls::offset, 600),
    ("hollow", calls::hollow, 700),
    ("fuse", calls::fuse, 800),
    ("mesh-call", calls::mesh, 900),
];

/// The layers of the library's calls, and the fewest calls of a run that is not of one layer.
const CALLS: [&str; 5] = ["fuse", "cells", "offset", "hollow", "mesh-call"];
const LEAST_CALLS: usize = 200_000;

/// The reports of these layers as one, in their order; as many layers at once as there are processors, the last begun first.
fn together(layers: &[(&str, Layer, u64)], seed: u64, scale: Scale) -> Report {
    let left = AtomicUsize::new(layers.len());
    let take = || {
        left.fetch_update(Ordering::Relaxed, Ordering::Relaxed, |n| n.checked_sub(1))
            .ok()
    };
    let work = || {
        let of = |at: usize| {
            let (_, compare, more) = layers[at - 1];
            let mut report = Report::default();
            compare(&mut report, seed + more, scale);
            (at, report)
        };
        std::iter::from_fn(take).map(of).collect::<Vec<_>>()
    };
    let mut reports = thread::scope(|scope| {
        let count = thread::available_parallelism().map_or(1, |n| n.get());
        let threads: Vec<_> = (0..count).map(|_| scope.spawn(work)).collect();
        let joined = threads.into_iter().map(|t| t.join().expect("a layer ends"));
        joined.flatten().collect::<Vec<_>>()
    });
    reports.sort_by_key(|r| r.0);
    let mut all = Report::default();
    reports.into_iter().for_each(|(_, report)| all.join(report));
    all
}

fn main() {
    let seed = option("--seed", 1);
    let scale = Scale {
        times: option("--scale", 1) as usize,
        over: option("--share", 1).max(1) as usize,
    };
    let words: Vec<_> = std::env::args().collect();
    let only = words.iter().position(|w| w == "--only");
    let only = only.and_then(|i| words.get(i + 1));
    let asked = |layer: &&(&str, Layer, u64)| only.is_none_or(|o| o == layer.0);
    let layers: Vec<_> = LAYERS.iter().filter(asked).copied().collect();
    let report = together(&layers, seed, scale);
    let calls = report.asked(&CALLS);
    let wanted = only.map_or(scale.of(LEAST_CALLS), |_| 0);
    println!("calls of the library: {calls}, at least {wanted}");
    if !report.finish() || calls < wanted {
        std::process::exit(1);
    }
}
