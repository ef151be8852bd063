//! Damaged files: what 1, 2, 3 and 4 are given for, and what comes close to it.
use crate::dents;
use crate::random::Random;
use crate::solid::{add, cube, prism, scale};
use oracle::{join, CellFile, FacetFile, Job, Record, Solid, Tolerances};

/// A file cut short at every length, the whole file not included.
pub fn cut_short(bytes: &[u8]) -> impl Iterator<Item = &[u8]> {
    (0..bytes.len()).map(move |n| &bytes[..n])
}

/// One byte too many, of each kind.
pub fn too_long(bytes: &[u8]) -> impl Iterator<Item = Vec<u8>> + '_ {
    (0..=10).map(move |kind| [bytes, &[kind]].concat())
}

/// A record of a kind that there is not, or that may not stand there.
pub fn other_kind(random: &mut Random, records: &[Record]) -> Vec<u8> {
    let mut records = records.to_vec();
    let at = random.below(records.len());
    records[at].kind = match random.coin() {
        true => random.between(0, 10) as u8,
        false => random.bits() as u8,
    };
    join(&records)
}

/// A record left out, doubled, or exchanged with another.
pub fn misplaced(random: &mut Random, records: &[Record]) -> Vec<u8> {
    let mut records = records.to_vec();
    let (at, to) = (random.below(records.len()), random.below(records.len()));
    match random.below(3) {
        0 => drop(records.remove(at)),
        1 => records.insert(to, records[at].clone()),
        _ => records.swap(at, to),
    }
    join(&records)
}

/// Any byte replaced.
pub fn other_byte(random: &mut Random, bytes: &[u8]) -> Vec<u8> {
    let mut bytes = bytes.to_vec();
    let at = random.below(bytes.len());
    bytes[at] = random.bits() as u8;
    bytes
}

/// Numbers that no coordinate may be, or just may be.
pub const NUMBERS: [f64; 12] = [
    f64::NAN,
    f64::INFINITY,
    f64::NEG_INFINITY,
    1_048_576.0,
    -1_048_576.0,
    1_048_576.000_000_000_2,
    -1_048_576.000_000_000_2,
    f64::MAX,
    f64::MIN_POSITIVE,
    5e-324,
    0.0,
    -0.0,
];

/// A coordinate replaced by a number of `NUMBERS`.
pub fn other_number(random: &mut Random, solid: &Solid) -> Solid {
    let mut solid = solid.clone();
    let at = random.below(solid.points.len());
    solid.points[at][random.below(3)] = random.pick(&NUMBERS);
    solid
}

/// Tolerances at and past the ends of their range.
pub fn other_tolerances() -> Vec<Tolerances> {
    let ends = [1.0 / (1u64 << 40) as f64, 1.0 / 16.0];
    let mut values = vec![0.0, -1.0, f64::NAN, f64::INFINITY, Tolerances::USUAL.local];
    values.extend(
        ends.iter()
            .flat_map(|&e: &f64| [e.next_down(), e, e.next_up()]),
    );
    let pair = |&linear: &f64| {
        let with = move |&local: &f64| Tolerances { linear, local };
        values.iter().map(with).collect::<Vec<_>>()
    };
    values.iter().flat_map(pair).collect()
}

/// Some faces turned round.
pub fn windings(random: &mut Random, solid: &Solid) -> Solid {
    let mut solid = solid.clone();
    for _ in 0..random.between(1, 3) {
        let at = random.below(solid.faces.len());
        solid.faces[at].reverse();
    }
    solid
}

/// Faces and indices that do not close: unused points, repeated or wild indices, lost faces.
pub fn structure(random: &mut Random, solid: &Solid) -> Solid {
    let mut solid = solid.clone();
    let points = solid.points.len();
    let at = random.below(solid.faces.len());
    let face = &mut solid.faces[at];
    let corner = random.below(face.len());
    match random.below(8) {
        0 => solid.points.push([0.125; 3]),
        1 => solid.points.insert(0, [0.125; 3]),
        2 => face[corner] = random.below(points),
        3 => face[corner] = random.pick(&[points, 65_535]),
        4 => face.insert(corner, random.below(points)),
        5 => drop(face.remove(corner)),
        6 => drop(solid.faces.remove(at)),
        _ => solid.faces.push(solid.faces[at].clone()),
    }
    solid
}

/// A point moved: dents, bumps, doubled and nearly doubled points.
pub fn moved_point(random: &mut Random, solid: &Solid, t: &Tolerances) -> Solid {
    let mut solid = solid.clone();
    let at = random.below(solid.points.len());
    let other = solid.points[random.below(solid.points.len())];
    let share = random.pick(&[0.25, 0.5, 1.0, 1.5, 2.0, 1e3]);
    let direction = match random.coin() {
        true => random.direction(),
        false => random.pick(&[[1.0, 0.0, 0.0], [0.0, -1.0, 0.0], [0.0, 0.0, 1.0]]),
    };
    let step = scale(direction, share * t.local);
    match random.below(3) {
        0 => solid.points[at] = other,
        1 => solid.points[at] = add(other, step),
        _ => solid.points[at] = add(solid.points[at], step),
    }
    solid
}

/// A box with one side split into an L and a square: every point passes the plane tests, and the L is dented (4).
pub fn dented() -> Solid {
    dents::split_top([1.0, 1.0])
}

/// The same, where the corner between the two faces lies on the line between its neighbours: both go straight on there, and it passes.
pub fn straightened() -> Solid {
    dents::split_top([0.5, 0.5])
}

/// A corner of one solid of the job damaged in any of these ways.
pub fn any_solid(random: &mut Random, solid: &Solid, t: &Tolerances) -> Solid {
    match random.below(5) {
        0 => other_number(random, solid),
        1 => windings(random, solid),
        2 => structure(random, solid),
        3 => moved_point(random, solid, t),
        _ => dents::any(random, t),
    }
}

/// A job with one solid, its tolerances or its bytes damaged.
pub fn any(random: &mut Random, job: &Job) -> Vec<u8> {
    let mut job = job.clone();
    match random.below(8) {
        0..=2 => return any_file(random, &job.records()),
        3 => {
            let all = other_tolerances();
            job.tolerances = all[random.below(all.len())];
        }
        4 | 5 => job.first = any_solid(random, &job.first, &job.tolerances),
        _ => job.second = any_solid(random, &job.second, &job.tolerances),
    }
    job.bytes()
}

/// Records or bytes damaged, or the file cut short.
fn any_file(random: &mut Random, records: &[Record]) -> Vec<u8> {
    let bytes = join(records);
    match random.below(4) {
        0 => other_kind(random, records),
        1 => misplaced(random, records),
        2 => other_byte(random, &bytes),
        _ => bytes[..random.below(bytes.len())].to_vec(),
    }
}

/// A cell with its solid, its tolerances or its bytes damaged.
pub fn any_cell(random: &mut Random, cell: &CellFile) -> Vec<u8> {
    let mut cell = cell.clone();
    match random.below(8) {
        0..=2 => return any_file(random, &cell.records()),
        3 => {
            let all = other_tolerances();
            cell.tolerances = all[random.below(all.len())];
        }
        _ => cell.solid = any_solid(random, &cell.solid, &cell.tolerances),
    }
    cell.bytes()
}

/// A facet's bytes damaged.
pub fn any_facet(random: &mut Random, facet: &FacetFile) -> Vec<u8> {
    any_file(random, &facet.records())
}

/// Solids past the counts, and at their ends: 64 and 65 faces, 128 and 129 points, corners 2 to 65.
pub fn counts() -> Vec<Solid> {
    let mut out: Vec<_> = [3, 61, 62, 63, 64, 65].map(|n| prism(n, 1.0, 1.0)).into();
    for points in [3, 4, 128, 129] {
        let mut solid = cube(0.0, 2.0);
        solid.points.resize(points, [0.5; 3]);
        out.push(solid);
    }
    for corners in [0, 1, 2] {
        let mut solid = cube(0.0, 2.0);
        solid.faces[3].truncate(corners);
        out.push(solid);
    }
    for faces in [0, 1, 3] {
        let mut solid = cube(0.0, 2.0);
        solid.faces.truncate(faces);
        out.push(solid);
    }
    out
}

/// A job in order of exactly this many bytes: empty faces count one byte each.
pub fn sized(job: &Job, length: usize) -> Vec<u8> {
    let mut records = job.records();
    let before_end = records.len() - 2;
    let missing = length - join(&records).len();
    records.splice(before_end..before_end, vec![Record::face(); missing]);
    join(&records)
}
