//! Families of jobs.
use crate::dents;
use crate::family::{family, Family};
use crate::random::Random;
use crate::solid::{ball, cube, cuboid, gem, prism, pyramid, split_box, tetrahedron, Reshape};
use oracle::{Job, Operation, Point, Solid, Tolerances};

/// How [c, d] can lie to [0, 3]: one for each relation of two ranges.
const RANGES: [[f64; 2]; 13] = [
    [-2.0, -1.0],
    [-1.0, 0.0],
    [-1.0, 1.0],
    [-1.0, 3.0],
    [-1.0, 4.0],
    [0.0, 1.0],
    [0.0, 3.0],
    [0.0, 4.0],
    [1.0, 2.0],
    [1.0, 3.0],
    [1.0, 4.0],
    [3.0, 4.0],
    [4.0, 5.0],
];

/// How many jobs `lattice` numbers.
pub const LATTICE: usize = 13 * 13 * 13 * 3;

/// Box 0..3 and a box in each lattice position to it, under each operation.
pub fn lattice(index: usize) -> Job {
    let range = |k: u32| RANGES[index / 3 / 13usize.pow(k) % 13];
    let ranges = [range(0), range(1), range(2)];
    let second = cuboid(ranges.map(|r| r[0]), ranges.map(|r| r[1]));
    Job::usual(cube(0.0, 3.0), second, Operation::ALL[index % 3])
}

/// Tolerances at both ends of their range, the usual ones, and some between.
pub fn tolerances(random: &mut Random) -> Tolerances {
    let power = |n: usize| 1.0 / (1u64 << n) as f64;
    let (linear, local) = match random.below(8) {
        0 => (40, 40),
        1 => (40, 4),
        2 => (4, 4),
        3 => {
            let local = random.between(4, 40);
            (random.between(local, 40), local)
        }
        _ => return Tolerances::USUAL,
    };
    Tolerances {
        linear: power(linear),
        local: power(local),
    }
}

fn around(random: &mut Random, size: f64) -> Point {
    [(); 3].map(|()| random.signed() * size)
}

/// A solid of some family, of size about one around the origin.
pub fn solid(random: &mut Random, most_faces: usize) -> Solid {
    let most = most_faces.clamp(6, 64);
    let solid = match random.below(6) {
        0 => cube(-1.0, 1.0),
        1 => tetrahedron(1.0 + random.unit()),
        2 => prism(random.between(3, most - 2), 1.0, 1.0),
        3 => ball(random, 4 + (most - 4) / 2),
        _ => {
            let faces = random.between(5, most);
            gem(random, faces)
        }
    };
    match random.coin() {
        true => solid.reordered(random),
        false => solid,
    }
}

fn operation(random: &mut Random) -> Operation {
    random.pick(&Operation::ALL)
}

/// Two solids of any family that mostly overlap.
pub fn overlapping(random: &mut Random, most_faces: usize) -> Job {
    let (a, b) = (solid(random, most_faces), solid(random, most_faces));
    let (turn, by) = (random.signed(), around(random, 0.7));
    Job {
        tolerances: tolerances(random),
        first: a,
        second: b.turned(turn).shifted(by),
        operation: operation(random),
    }
}

/// Two gems of many faces, for time and room.
pub fn large(random: &mut Random, faces: usize) -> Job {
    let (a, b) = (gem(random, faces), gem(random, faces));
    let by = around(random, 0.3);
    Job::usual(a, b.shifted(by), operation(random))
}

/// A box and its neighbour across a gap of 0, 0.5, 1, 1.5 or 2 times local, either way.
pub fn gap(random: &mut Random) -> Job {
    let t = tolerances(random);
    let sign = random.pick(&[-1.0, 1.0]);
    let mut by = [0.0; 3];
    let axes = random.between(1, 3);
    for (k, step) in by.iter_mut().enumerate().take(axes) {
        let share = random.pick(&[0.0, 0.5, 1.0, 1.5, 2.0]);
        let whole = if k == 0 { 1.0 } else { 0.0 };
        *step = whole + sign * share * t.local;
    }
    by.rotate_left(random.below(3));
    Job {
        tolerances: t,
        first: cube(0.0, 1.0),
        second: cube(0.0, 1.0).shifted(by),
        operation: operation(random),
    }
}

/// A solid and a copy, turned and shifted by little more or less than local.
pub fn turned(random: &mut Random, most_faces: usize) -> Job {
    let t = tolerances(random);
    let first = solid(random, most_faces);
    let turn = random.pick(&[0.0, 0.25, 0.5, 1.0, 4.0]) * t.local;
    let by = around(random, 2.0 * t.local);
    let beside = match random.coin() {
        true => [1.0, 0.0, 0.0],
        false => [0.0; 3],
    };
    let second = first.turned(turn).shifted(by).shifted(beside);
    Job {
        tolerances: t,
        first,
        second,
        operation: operation(random),
    }
}

/// Solids with coordinates up to 2^20.
pub fn far(random: &mut Random, most_faces: usize) -> Job {
    let mut job = overlapping(random, most_faces);
    let size = (1u64 << random.between(1, 18)) as f64;
    let by = around(random, 1_000_000.0 - 3.0 * size);
    let place = |s: &Solid| s.scaled(size / 4.0).shifted(by);
    job.first = place(&job.first);
    job.second = place(&job.second);
    job
}

/// A box whose edge is about local, beside or across a larger one.
pub fn thin(random: &mut Random) -> Job {
    let t = tolerances(random);
    let edge = random.pick(&[0.5, 1.0, 1.0, 1.5, 2.0, 3.0]) * t.local;
    let edge = random.pick(&[edge, edge.next_up(), edge.next_down()]);
    let low = random.pick(&[-0.5, 0.0, 0.5, 1.0]);
    let mut first = cube(0.0, 1.0);
    let mut second = cuboid([low, -0.5, 0.25], [low + edge, 0.5, 0.75]);
    if random.coin() {
        std::mem::swap(&mut first, &mut second);
    }
    Job {
        tolerances: t,
        first,
        second,
        operation: operation(random),
    }
}

/// A box whose upright edge stands about local off that of another, near both its faces.
pub fn edge_contact(random: &mut Random) -> Job {
    let t = tolerances(random);
    let [a, b] = random.pick(&[[0.6, 0.8], [0.6, -0.8], [0.3, 0.4], [0.6, 0.75], [0.9, 0.9]]);
    let up = random.pick(&[-1.0, -0.5, 0.0, t.local]);
    Job {
        tolerances: t,
        first: cube(-1.0, 0.0),
        second: cube(0.0, 1.0).shifted([a * t.local, b * t.local, up]),
        operation: operation(random),
    }
}

/// Boxes on a lattice, shrunk towards the size where frames fail.
pub fn small(random: &mut Random) -> Job {
    let size = 1.0 / (1u64 << random.between(6, 12)) as f64;
    let mut job = lattice(random.below(LATTICE));
    job.first = job.first.scaled(size);
    job.second = job.second.scaled(size);
    job
}

/// A job of any family.
pub fn any(random: &mut Random) -> Job {
    match random.below(10) {
        0 => lattice(random.below(LATTICE)),
        1 => gap(random),
        2 => turned(random, 12),
        3 => far(random, 10),
        4 => small(random),
        5 => thin(random),
        6 => edge_contact(random),
        7 => overlapping(random, 24),
        _ => overlapping(random, 10),
    }
}

pub const FAMILIES: [Family<Job>; 21] = [
    family("boxes", |r| lattice(r.below(LATTICE)), 1),
    family(
        "prisms",
        |r| both(r, |r| prism(r.between(3, 9), 1.0, 1.0)),
        2,
    ),
    family(
        "tetrahedra",
        |r| both(r, |r| tetrahedron(1.0 + r.unit())),
        1,
    ),
    family("20 faces", |r| both(r, |r| gem(r, 20)), 20),
    family(
        "pyramids",
        |r| both(r, |r| pyramid(r.between(3, 8), 1.0, 1.0 + r.unit())),
        2,
    ),
    family("split sides", |r| both(r, split_side), 2),
    family("sides of two triangles", |r| both(r, split_across), 2),
    family("dents", dented, 1),
    family("slivers", |r| both(r, sliver), 1),
    family("touching", touching, 1),
    family("apart", |r| beside(r, 0.25), 1),
    family("nested", nested, 4),
    family("a gap of about local", gap, 1),
    family("turned by about local", |r| turned(r, 10), 4),
    family("about local thick", thin, 1),
    family("edges about local apart", edge_contact, 1),
    family("boxes far out", wide, 1),
    family("64 faces", corner_of_many, 10),
    family("coarse", coarse, 1),
    family("local a 16th", sixteenth, 1),
    family("any", any, 4),
];

type Make = fn(&mut Random) -> Job;

/// Jobs whose fused call gives a number that few others reach: how one is made, from which seed, and the number.
const RARE: [(Make, u64, u32); 17] = [
    (|r| large(r, 64), 0, 11),
    (sixteenth, 79, 13),
    (sixteenth, 555, 13),
    (|_| sliced(), 0, 14),
    (sixteenth, 661, 15),
    (sixteenth, 781, 15),
    (coarse, 18141, 16),
    (coarse, 31, 17),
    (coarse, 6697, 17),
    (sixteenth, 1749, 18),
    (sixteenth, 90, 19),
    (sixteenth, 258, 19),
    (|r| both(r, split_side), 2042, 21),
    (|r| both(r, split_side), 4077, 21),
    (|r| both(r, split_side), 4125, 22),
    (|r| both(r, split_side), 4758, 22),
    (|_| turned_inward(), 0, 23),
];

/// Each of these jobs with its number.
pub fn rare() -> [(Job, u32); 17] {
    RARE.map(|(make, seed, number)| (make(&mut Random::new(seed)), number))
}

/// A tall prism of 62 sides beside a bowl of 61, whose planes cut it one above another: more than 4,096 points in few cells.
fn sliced() -> Job {
    let along = |i: usize| 2.0 * i as f64 / 61.0 - 1.0;
    let profile = |y: f64| (0..62).map(move |i| [along(i), y, along(i) * along(i)]);
    let bowl = Solid {
        points: profile(1.0).chain(profile(-1.0)).collect(),
        faces: prism(62, 1.0, 1.0).faces,
    };
    let tall = prism(62, 0.5, 20.0).shifted([4.0, 0.0, -11.0]);
    Job::usual(tall, bowl, Operation::Union)
}

/// Two tetrahedra a few times local in size: merged points and filled edges turn the only shell of their union inward.
fn turned_inward() -> Job {
    let of = |points: [Point; 4]| Solid {
        points: points.to_vec(),
        faces: vec![vec![0, 1, 2], vec![0, 3, 1], vec![0, 2, 3], vec![1, 3, 2]],
    };
    let first = of([
        [
            -0.004106109187383024,
            -0.002353986625256772,
            0.0056587947101579775,
        ],
        [
            0.004740783616700758,
            0.0014863187965347981,
            -0.002596585836390596,
        ],
        [
            0.003949764335345218,
            -0.005440694521476321,
            0.0030488819035327254,
        ],
        [
            -0.00020803810631046088,
            0.0043805549233772905,
            0.005954570527654053,
        ],
    ]);
    let second = of([
        [
            -0.0018189701860367455,
            -0.002785224832175952,
            0.013570241373476143,
        ],
        [
            0.0005023739779338053,
            0.0021486894693824,
            -0.009950811903284545,
        ],
        [
            -0.010620700861668199,
            0.005556777451835578,
            0.0019693955300502932,
        ],
        [
            0.0026666691485003127,
            -0.012582872587822331,
            -0.0015324186017646809,
        ],
    ]);
    Job {
        tolerances: Tolerances {
            linear: 1.0 / (1u64 << 40) as f64,
            local: 1.0 / (1u64 << 8) as f64,
        },
        first,
        second,
        operation: Operation::Union,
    }
}

/// A small box at a point of a solid of 64 faces: what is left of it may have more.
fn corner_of_many(random: &mut Random) -> Job {
    let first = match random.coin() {
        true => prism(62, 1.0, 1.0),
        false => gem(random, 64),
    };
    let at = random.pick(&first.points);
    let size = random.pick(&[0.01, 0.1, 0.5]);
    let second = cube(-1.0, 1.0).turned(random.signed());
    Job::usual(first, second.scaled(size).shifted(at), operation(random))
}

/// Solids of size one, shifted and turned by a few times a great local: points and edges that nearly meet.
fn coarse(random: &mut Random) -> Job {
    let local = 1.0 / (1u64 << random.between(4, 7)) as f64;
    let thin = local * random.pick(&[1.5, 2.0, 2.5, 3.0, 4.0]);
    let mut pick = || match random.below(6) {
        0 => cube(0.0, 1.0),
        1 => tetrahedron(1.0),
        2 => prism(random.between(3, 6), 1.0, 1.0),
        3 => pyramid(random.between(3, 5), 1.0, 1.0),
        4 => split_side(random),
        _ => cuboid([0.0; 3], [1.0, 1.0, thin]),
    };
    let (first, second) = (pick(), pick());
    let shares = [
        -2.0, -1.5, -1.2, -0.9, -0.5, 0.0, 0.0, 0.5, 0.9, 1.2, 1.5, 2.0, 3.0, 8.0,
    ];
    let by = [(); 3].map(|()| local * random.pick(&shares));
    let turn = local * random.pick(&[0.0, 0.0, 0.3, 0.6, 1.0, 2.0]) * random.signed();
    Job {
        tolerances: Tolerances {
            linear: local / (1u64 << random.between(0, 12)) as f64,
            local,
        },
        first,
        second: second.turned(turn).shifted(by),
        operation: operation(random),
    }
}

/// Solids of few faces and the greatest local: fusing merges corners of one cell, and facets meet that should not.
pub fn sixteenth(random: &mut Random) -> Job {
    let solids: [fn(&mut Random) -> Solid; 4] = [
        split_side,
        split_side,
        |r| pyramid(r.between(3, 6), 1.0, 1.0 + r.unit()),
        |r| prism(r.between(3, 5), 1.0, 1.0),
    ];
    let solid = random.pick(&solids);
    let linear = random.pick(&[4, 10, 20, 40]);
    Job {
        tolerances: Tolerances {
            linear: 1.0 / (1u64 << linear) as f64,
            local: 1.0 / 16.0,
        },
        ..both(random, solid)
    }
}

/// Boxes of any size up to 2^20, where a cut point is seldom exact.
fn wide(random: &mut Random) -> Job {
    let mut boxed = || {
        let size = random.pick(&[1.0, 1e3, 1e6]);
        let (low, high) = (around(random, size), around(random, size));
        let of = |pick: fn(f64, f64) -> f64| std::array::from_fn(|i| pick(low[i], high[i]));
        cuboid(of(f64::min), of(f64::max))
    };
    let (first, second) = (boxed(), boxed());
    let tight = 1.0 / (1u64 << 40) as f64;
    Job {
        tolerances: match random.coin() {
            true => tolerances(random),
            false => Tolerances {
                linear: tight,
                local: tight,
            },
        },
        first,
        second,
        operation: operation(random),
    }
}

/// Two solids of one family, the second turned and shifted into the first.
fn both(random: &mut Random, solid: fn(&mut Random) -> Solid) -> Job {
    let (first, second) = (solid(random), solid(random));
    let by = around(random, 0.6);
    let turn = random.pick(&[0.0, 0.0, 0.5, 1.0]) * random.signed();
    Job {
        tolerances: tolerances(random),
        first,
        second: second.turned(turn).shifted(by),
        operation: operation(random),
    }
}

/// A box with a side of two faces.
pub fn split_side(random: &mut Random) -> Solid {
    let high = [(); 3].map(|()| 0.5 + random.unit());
    let share = random.pick(&[0.5, 0.25, 0.9]);
    split_box([-0.5; 3], high, share)
}

/// A box with a side of two triangles: no straight run, so that it passes the check turned, too.
fn split_across(random: &mut Random) -> Solid {
    let mut solid = cuboid([-0.5; 3], [(); 3].map(|()| 0.5 + random.unit()));
    solid.faces[5] = vec![4, 5, 7];
    solid.faces.push(vec![4, 7, 6]);
    solid
}

/// A solid with a dent or a straight run, and a box across it or beside it, either of them first.
fn dented(random: &mut Random) -> Job {
    let t = tolerances(random);
    let mut first = dents::any(random, &t);
    let mut second = cube(0.0, 1.0).shifted(around(random, 1.0));
    if random.below(4) == 0 {
        std::mem::swap(&mut first, &mut second);
    }
    Job {
        tolerances: t,
        first,
        second,
        operation: operation(random),
    }
}

/// A wedge, a box or a prism that is thin in one direction.
pub fn sliver(random: &mut Random) -> Solid {
    let thin = 1.0 / (1u64 << random.between(2, 20)) as f64;
    match random.below(3) {
        0 => cuboid([-1.0, -1.0, 0.0], [1.0, 1.0, thin]),
        1 => prism(random.between(3, 6), 1.0, thin),
        _ => tetrahedron(1.5).mapped(|[x, y, z]| [x, y, z * thin]),
    }
}

/// A box or a prism beside another, shifted by a width and more along some axes: contact at a face, an edge or a corner
/// where nothing is added.
fn beside(random: &mut Random, more: f64) -> Job {
    let axes = random.between(1, 3);
    let mut by = [0.0; 3];
    by[..axes].fill(1.0 + more);
    by.rotate_left(random.below(3));
    let slide = random.pick(&[0.0, 0.0, 0.25, -0.5]);
    let by = by.map(|x| if x == 0.0 { slide } else { x });
    Job {
        tolerances: tolerances(random),
        first: cube(0.0, 1.0),
        second: cube(0.0, 1.0).shifted(by),
        operation: operation(random),
    }
}

/// Solids that share a face, a part of one, an edge or a corner.
fn touching(random: &mut Random) -> Job {
    if random.coin() {
        return beside(random, 0.0);
    }
    let sides = random.between(3, 8);
    let (low, high) = (prism(sides, 1.0, 1.0), prism(sides, 1.0, 1.0));
    let turn = random.pick(&[0.0, 0.0, 0.125]);
    let about_z = |[x, y, z]: Point| [x - turn * y, y + turn * x, z + 1.0];
    Job {
        tolerances: tolerances(random),
        first: low,
        second: high.mapped(about_z),
        operation: operation(random),
    }
}

/// A solid inside another, or the other way round: from well inside to within local of its sides.
fn nested(random: &mut Random) -> Job {
    let t = tolerances(random);
    let outer = solid(random, 12);
    let share = random.pick(&[0.25, 0.5, 1.0 - 4.0 * t.local, 1.0 - t.local, 1.0]);
    let mut job = Job {
        tolerances: t,
        second: outer.scaled(share),
        first: outer,
        operation: operation(random),
    };
    if random.below(4) == 0 {
        std::mem::swap(&mut job.first, &mut job.second);
    }
    job
}
