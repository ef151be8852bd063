//! `unique`, `hull` and `clip`: the number, every bit of the answer, and that all else is as it was.
use crate::bits::bits;
use crate::report::{self, Report};
use crate::Scale;
use gen::cuts::{self, Cut};
use gen::jobs::tolerances;
use gen::{leaves as ask, Random};
use oracle::{leaf, Cell, Face, Outcome, Point, Tolerances};
use port::cutting::{Cutter, Given, Told, SHORT};

const POLYGONS: usize = 300_000;
const CLIPS: usize = 250_000;

/// The most corners that a face may have.
const CORNERS: usize = 128;

type Bits = Vec<[u64; 3]>;

fn points(list: &[Point]) -> Bits {
    list.iter().map(|q| q.map(bits)).collect()
}

/// The port's answer; a call that writes elsewhere shows as none.
fn ours<T, A>(told: Told<T>, bits: impl FnOnce(T) -> A) -> report::Told<A> {
    told.clean.then(|| told.answer.map(bits))
}

fn theirs<T, A>(told: Outcome<T>, bits: impl FnOnce(T) -> A) -> report::Told<A> {
    Some(told.map(bits).map_err(u64::from))
}

pub fn compare(report: &mut Report, seed: u64, scale: Scale) {
    let mut cutter = Cutter::new();
    cutter.soil(seed);
    uniques(report, &mut cutter, seed, scale);
    hulls(report, &mut cutter, seed + 1, scale);
    clips(report, &mut cutter, seed + 2, scale);
    // 8 is never answered: a Positive and a Negative corner are too far apart for it
    report.reached("unique", &[0, 6]);
    report.reached("hull", &[0, 6, 10, 12]);
    report.reached("clip", &[0, 6, 7, 9, 10, 12]);
}

fn uniques(report: &mut Report, cutter: &mut Cutter, seed: u64, scale: Scale) {
    let mut random = Random::new(seed);
    let given = (0..scale.of(POLYGONS)).map(|_| {
        let t = tolerances(&mut random);
        (t, cuts::close_points(&mut random, &t, CORNERS))
    });
    report.ask_call(
        ["unique", "near chains"],
        given,
        |(t, l)| ours(cutter.unique(l, t.local), |r| points(&r)),
        |(t, l)| theirs(leaf::unique(t, l), |r| points(&r)),
    );
    let counts = cuts::rows(&[0, 1, 127, 128, 129, 130]);
    report.ask_call(
        ["unique", "0 to 130 points"],
        counts,
        |l| ours(cutter.unique(l, Tolerances::USUAL.local), |r| points(&r)),
        |l| match l.len() > CORNERS {
            true => Some(Err(SHORT)),
            false => theirs(leaf::unique(&Tolerances::USUAL, l), |r| points(&r)),
        },
    );
}

/// The hull as a face: 12 where it would have more than 128 corners.
fn face(told: Outcome<Vec<Point>>) -> Outcome<Vec<Point>> {
    match told {
        Ok(l) if l.len() > CORNERS => Err(12),
        other => other,
    }
}

fn hulls(report: &mut Report, cutter: &mut Cutter, seed: u64, scale: Scale) {
    let mut random = Random::new(seed);
    let given = (0..scale.of(POLYGONS)).map(|_| {
        let t = tolerances(&mut random);
        let (plane, list) = match random.below(8) {
            0 => ask::hull_zeros(&mut random),
            1 => cuts::cap(&mut random, 40),
            _ => ask::hull(&mut random, &t),
        };
        (t, plane, list)
    });
    report.ask_call(
        ["hull", "caps"],
        given,
        |(t, w, l)| ours(cutter.hull(w, l, t.local), |r| points(&r)),
        |(t, w, l)| theirs(face(leaf::hull(t, w, l)), |r| points(&r)),
    );
    let many = cuts::great_caps();
    report.ask_call(
        ["hull", "many points"],
        many,
        |(w, l)| ours(cutter.hull(w, l, Tolerances::USUAL.local), |r| points(&r)),
        |(w, l)| theirs(face(leaf::hull(&Tolerances::USUAL, w, l)), |r| points(&r)),
    );
}

/// The face as a room holds it, with the mark of the plane that cuts.
fn stored(f: &Face) -> impl Iterator<Item = f64> + '_ {
    port::cutting::face(&f.plane, 0.0, &f.points)
}

/// The cell's floats with others before them, and the places behind others.
fn laid(random: &mut Random, cell: &Cell, limit: usize) -> Given {
    let [from, j, at, k] = [(); 4].map(|()| random.below(4));
    let mut floats: Vec<_> = (0..from).map(|_| ask::float(random)).collect();
    let mut sizes: Vec<_> = (0..j).map(|_| random.bits()).collect();
    for f in cell {
        floats.extend(stored(f));
        sizes.push(f.points.len() as u64);
    }
    Given {
        floats,
        sizes,
        from,
        j,
        faces: cell.len(),
        limit,
        at,
        k,
    }
}

type Part = Option<(Vec<u64>, Vec<u64>)>;

fn part(cell: Option<Cell>) -> Part {
    cell.map(|c| {
        let numbers = c.iter().flat_map(stored).map(bits).collect();
        (numbers, c.iter().map(|f| f.points.len() as u64).collect())
    })
}

/// A room as it comes, and one that the answer fills, or would overfill by a corner.
fn room(random: &mut Random, cut: &Cut) -> usize {
    let whole = leaf::clip(&cut.tolerances, None, &cut.cell, &cut.plane);
    let corners = match whole {
        Ok(Some(c)) => c.iter().map(|f| f.points.len()).sum(),
        _ => random.below(64),
    };
    match random.below(6) {
        0 => corners,
        1 => corners.saturating_sub(1),
        2 => random.between(0, corners),
        _ => 720,
    }
}

fn small(cell: &Cell) -> bool {
    cell.iter().all(|f| f.points.len() <= CORNERS)
}

fn clips(report: &mut Report, cutter: &mut Cutter, seed: u64, scale: Scale) {
    let mut random = Random::new(seed);
    let mut lay = |cut: Cut, limit: Option<usize>| {
        let limit = limit.unwrap_or_else(|| room(&mut random, &cut));
        let given = laid(&mut random, &cut.cell, limit);
        (cut, given)
    };
    let mut ask = |report: &mut Report, name: &str, given: Vec<(Cut, Given)>| {
        report.ask_call(
            ["clip", name],
            given,
            |(c, g)| {
                ours(cutter.clip(&c.plane, g, c.tolerances.local), |p| {
                    p.map(|(f, n)| (f.into_iter().map(bits).collect(), n))
                })
            },
            |(c, g)| match small(&c.cell) {
                false => Some(Err(SHORT)),
                true => theirs(
                    leaf::clip(&c.tolerances, Some(g.limit), &c.cell, &c.plane),
                    part,
                ),
            },
        );
    };
    let mut random = Random::new(seed + 10);
    for (name, make) in cuts::FAMILIES {
        let given = (0..scale.of(CLIPS / cuts::FAMILIES.len()))
            .map(|_| lay(make(&mut random), None))
            .collect();
        ask(report, name, given);
    }
    let limits = cuts::limits().into_iter().map(|c| lay(c, Some(8192)));
    ask(report, "at the limits", limits.collect());
    let given: Vec<_> = (0..1000).map(|_| cuts::convex(&mut random)).collect();
    let given: Vec<_> = given.into_iter().map(|c| lay(c, Some(100))).collect();
    report.ask(
        "clip, lent too little",
        given,
        |(c, g)| {
            cutter.give(&c.plane, g);
            let mut wrong = g.clone();
            wrong.faces += 1;
            [
                cutter.call(g, c.tolerances.local, 1),
                cutter.call(&wrong, c.tolerances.local, 0),
            ]
        },
        |_| [SHORT; 2],
    );
}
