//! The walk finds every refusal of the oracle again: generated and damaged files of every call, and every number that a call gives.
use explain::{explained, Asked, UNKNOWN};
use gen::{cells, damage, facets, jobs, limits, pairs, Random};
use oracle::{CellFile, Job};
use std::collections::BTreeSet;

/// Jobs, cells and facets of each family, where they are quick.
const EACH: usize = 12;

/// More than 512 cells, more than 4,096 points.
const SLOW: [u32; 2] = [11, 14];

/// The numbers that the files of a test give.
#[derive(Default)]
struct Seen(BTreeSet<u32>);

impl Seen {
    fn ask(&mut self, bytes: &[u8], asked: Asked) {
        let (lines, number) = explained(bytes, asked);
        let known = !lines.iter().any(|line| line.contains(UNKNOWN));
        let all = lines.join("\n");
        assert!(known, "{asked:?} {}\n{all}", gen::calls::hex(bytes));
        assert!(lines[1].starts_with(&format!("answer {number}: ")), "{all}");
        assert!(number == 0 || lines.len() > 2, "{all}");
        self.0.insert(number);
    }

    fn job(&mut self, bytes: &[u8]) {
        self.ask(bytes, Asked::Fuse);
        self.ask(bytes, Asked::Cells);
    }

    fn has(&self, numbers: impl IntoIterator<Item = u32>) {
        for number in numbers {
            assert!(self.0.contains(&number), "{number} is none of {:?}", self.0);
        }
    }
}

#[test]
fn jobs_that_are_known() {
    let mut seen = Seen::default();
    let files = pairs::files().into_iter().map(|(_, job)| job);
    for job in files.chain(limits::all()) {
        seen.job(&job.bytes());
    }
    for (job, _) in jobs::rare().into_iter().filter(|(_, n)| !SLOW.contains(n)) {
        seen.ask(&job.bytes(), Asked::Fuse);
    }
    seen.has([5, 13, 15, 16, 17, 18, 19, 20, 21, 22]);
}

#[test]
#[ignore = "takes some ten seconds"]
fn jobs_that_take_long() {
    let mut seen = Seen::default();
    for (job, _) in jobs::rare().into_iter().filter(|(_, n)| SLOW.contains(n)) {
        seen.ask(&job.bytes(), Asked::Fuse);
    }
    seen.has(SLOW);
}

#[test]
fn jobs_of_every_family() {
    let (mut seen, mut random) = (Seen::default(), Random::new(1));
    for family in jobs::FAMILIES.iter().filter(|f| f.fewer < 10) {
        for _ in 0..EACH / family.fewer {
            let job: Job = (family.make)(&mut random);
            seen.job(&job.bytes());
            seen.job(&damage::any(&mut random, &job));
        }
    }
    for solid in damage::counts() {
        let job = Job::usual(solid.clone(), solid, oracle::Operation::Union);
        seen.job(&job.bytes());
    }
    seen.job(&damage::sized(&limits::off_plane(), 32_769));
    seen.has([0, 1, 2, 3, 4, 5, 6, 7, 10, 20]);
}

#[test]
fn cells_of_every_family() {
    let (mut seen, mut random) = (Seen::default(), Random::new(2));
    for family in &cells::FAMILIES {
        for i in 0..12 * EACH / family.fewer {
            let moved = (family.make)(&mut random);
            let wall = cells::wall(&mut random, moved.clone());
            let file: &CellFile = &moved.cell;
            let bytes = match i % 4 {
                0 => damage::any_cell(&mut random, file),
                _ => file.bytes(),
            };
            seen.ask(&bytes, Asked::Check);
            seen.ask(&bytes, Asked::Offset(moved.by));
            seen.ask(&bytes, Asked::Hollow(wall.by));
        }
    }
    seen.has([0, 1, 2, 4, 5, 7, 24, 25, 26, 27, 28]);
}

#[test]
fn facets_of_every_family() {
    let (mut seen, mut random) = (Seen::default(), Random::new(3));
    for _ in 0..60 * EACH {
        let facet = facets::any(&mut random);
        seen.ask(&facet.bytes(), Asked::Mesh);
        seen.ask(&damage::any_facet(&mut random, &facet), Asked::Mesh);
    }
    for facet in facets::counts() {
        seen.ask(&facet.bytes(), Asked::Mesh);
    }
    seen.has([0, 1, 3, 12, 30, 31, 33, 34]);
}
