//! Lists of cells for the steps of fusing. Their faces need not close, so that refusals come up that no whole job meets.
use crate::cuts;
use crate::family::{family, Family};
use crate::jobs::{self, tolerances};
use crate::leaves::{self, axis_plane};
use crate::random::Random;
use crate::solid::{add, tetrahedron, Reshape};
use oracle::{leaf, Cell, Face, Plane, Point, Solid, Tolerances};

/// Cells, and the room that their arrangement has.
#[derive(Clone, Debug)]
pub struct List {
    pub tolerances: Tolerances,
    pub room: usize,
    pub cells: Vec<Cell>,
}

/// The most corners that the port's leaf has memory for.
pub const ROOM: usize = 4608;

/// All corners of all faces.
pub fn corners(cells: &[Cell]) -> usize {
    cells.iter().flatten().map(|f| f.points.len()).sum()
}

pub const FAMILIES: [Family<List>; 7] = [
    family("spoilt cells", spoilt, 1),
    family("points in rows", rows, 1),
    family("points on edges", edges, 1),
    family("points beside an edge", sides, 1),
    family("facets of few points", facets, 1),
    family("shells", shells, 1),
    family("pieces of a job", pieces, 20),
];

type Corners = Vec<Vec<Point>>;

/// Faces over one plane, which fusing hands on and does not ask.
fn cell(faces: &Corners) -> Cell {
    let plane = axis_plane(0, 0.0, true);
    let face = |points: &Vec<Point>| Face {
        plane,
        points: points.clone(),
    };
    faces.iter().map(face).collect()
}

/// A room that is ample, or that has a few corners more than the faces.
fn list(random: &mut Random, tolerances: Tolerances, cells: Vec<Cell>) -> List {
    let room = match random.below(4) {
        0 => (corners(&cells) + random.below(3)).min(ROOM),
        _ => (2 * corners(&cells)).clamp(720, ROOM),
    };
    List {
        tolerances,
        room,
        cells,
    }
}

fn spoilt(random: &mut Random) -> List {
    let t = tolerances(random);
    let cells = leaves::loose(random, &t).iter().map(cell).collect();
    list(random, t, cells)
}

/// A triangle from a point to two that lie far from all others.
fn fin(point: Point, i: usize) -> Vec<Point> {
    let far = 32.0 + 4.0 * i as f64;
    vec![point, [far, 40.0, 50.0], [far, 60.0, 70.0]]
}

fn rows(random: &mut Random) -> List {
    let t = tolerances(random);
    let row = leaves::chain(random, &t);
    let fins = row.iter().enumerate().map(|(i, &q)| fin(q, i)).collect();
    list(random, t, vec![cell(&fins)])
}

fn edges(random: &mut Random) -> List {
    let t = tolerances(random);
    let (points, polygon) = leaves::edges(random, &t);
    let mut faces = vec![polygon.iter().map(|&i| points[i]).collect()];
    let others = points.iter().skip(3).enumerate();
    faces.extend(others.map(|(i, &q)| fin(q, i)));
    list(random, t, vec![cell(&faces)])
}

/// Points about as far along an edge, apart from each other on its two sides.
fn sides(random: &mut Random) -> List {
    let t = tolerances(random);
    let mut faces = vec![vec![O, X, Y]];
    for i in 0..random.between(1, 4) {
        let along = random.pick(&[0.25, 0.5, 0.5, 0.75]);
        let along = leaves::stepped(random, along, 3);
        let off = random.pick(&[-0.9, -0.6, -0.6, 0.6, 0.6, 0.9]) * t.local;
        let point = [along, leaves::stepped(random, off, 3), 0.0];
        faces.push(fin(point, i));
    }
    list(random, t, vec![cell(&faces)])
}

/// Cycles over a few corners of a box, now and then one that is met again, mostly reversed.
fn facets(random: &mut Random) -> List {
    let t = tolerances(random);
    let mut points: Vec<Point> = (0..8)
        .map(|i| [i & 1, i >> 1 & 1, i >> 2 & 1].map(f64::from))
        .collect();
    random.shuffle(&mut points);
    points.truncate(random.between(4, 6));
    let mut cells: Vec<Corners> = vec![Vec::new(); random.between(1, 3)];
    let mut all: Corners = Vec::new();
    for _ in 0..random.between(1, 8) {
        let mut cycle = match all.is_empty() || random.coin() {
            true => points.clone(),
            false => random_of(random, &all),
        };
        if cycle.len() == points.len() {
            random.shuffle(&mut cycle);
            cycle.truncate(random.between(3, 4));
        } else if random.below(4) > 0 {
            cycle.reverse();
        }
        let start = random.below(cycle.len());
        cycle.rotate_left(start);
        all.push(cycle.clone());
        let at = random.below(cells.len());
        cells[at].push(cycle);
    }
    cells.retain(|c| !c.is_empty());
    let cells = cells.iter().map(cell).collect();
    list(random, t, cells)
}

fn random_of(random: &mut Random, all: &Corners) -> Vec<Point> {
    all[random.below(all.len())].clone()
}

/// A tetrahedron that is flat or nearly so.
fn flat(random: &mut Random) -> Solid {
    let height = random.pick(&[0.0, 1e-300, 1e-17, 1e-12, 1e-6, -1e-6]);
    let mut solid = tetrahedron(1.0);
    solid.points[3] = [1.0, 1.0, height];
    solid
}

/// One to three shells in one or two cells, some inward, some flat.
fn shells(random: &mut Random) -> List {
    let t = tolerances(random);
    let mut cells: Vec<Corners> = vec![Vec::new(); random.between(1, 2)];
    for i in 0..random.between(1, 3) {
        let solid = match random.below(3) {
            0 => flat(random).shifted([5.0 * i as f64; 3]),
            1 => tetrahedron(1.0).shifted([5.0 * i as f64; 3]),
            _ => leaves::shell(random).shifted([5.0 * i as f64; 3]),
        };
        let turned = random.coin();
        let at = random.below(cells.len());
        for f in &solid.faces {
            let mut face: Vec<_> = f.iter().map(|&i| solid.points[i]).collect();
            if turned {
                face.reverse();
            }
            cells[at].push(face);
        }
    }
    cells.retain(|c| !c.is_empty());
    let cells = cells.iter().map(cell).collect();
    list(random, t, cells)
}

/// The first solid of a job, split by some planes of the second, with the second among the pieces or not.
fn pieces(random: &mut Random) -> List {
    loop {
        let job = jobs::any(random);
        let t = job.tolerances;
        let solids = [&job.first, &job.second].map(|s| leaf::check(&t, s, true));
        let [Ok(first), Ok(second)] = solids else {
            continue;
        };
        let Ok(mut cells) = leaf::difference(&t, Some(ROOM), &first, &second) else {
            continue;
        };
        if random.coin() {
            cells.push(second.clone());
        }
        let faces = first.iter().chain(&second);
        let planes: Vec<_> = faces.map(|f| f.plane).take(random.between(0, 8)).collect();
        let Ok(cells) = leaf::split_cells(&t, Some(ROOM), &cells, &planes) else {
            continue;
        };
        if cells.iter().flatten().all(|f| f.points.len() <= 128) {
            return list(random, t, cells);
        }
    }
}

/// Cells, the planes that split them, and the room of each list.
#[derive(Clone, Debug)]
pub struct Split {
    pub list: List,
    pub planes: Vec<Plane>,
}

/// The most corners that the port's leaf of `split_cells` has memory for.
pub const SPLIT_ROOM: usize = 6400;

pub const SPLITS: [Family<Split>; 2] = [
    family("cells and planes", split, 1),
    family("about 512 cells", split_many, 200),
];

/// One or two cells of one family of cuts, and the planes of one to four cuts.
fn split(random: &mut Random) -> Split {
    let make = random.pick(&cuts::FAMILIES).1;
    let cuts: Vec<_> = (0..random.between(1, 4)).map(|_| make(random)).collect();
    let cells = cuts
        .iter()
        .take(random.between(1, 2))
        .map(|c| c.cell.clone());
    let fits = |c: &Cell| {
        (1..=128).contains(&c.len()) && c.iter().all(|f| (3..=128).contains(&f.points.len()))
    };
    let cells: Vec<_> = cells.filter(fits).collect();
    let room = match random.below(3) {
        0 => corners(&cells) + random.below(48),
        _ => SPLIT_ROOM,
    };
    let planes = cuts.iter().map(|c| c.plane).collect();
    let tolerances = cuts[0].tolerances;
    let list = List {
        tolerances,
        room,
        cells,
    };
    Split { list, planes }
}

/// Tetrahedra in a row, and planes that cut one of them or none.
fn split_many(random: &mut Random) -> Split {
    let n = random.between(509, 513);
    let at = |i: usize| {
        let solid = tetrahedron(1.0).shifted([2.0 * i as f64, 0.0, 0.0]);
        leaf::check(&Tolerances::USUAL, &solid, true).expect("a tetrahedron")
    };
    let mut plane = || {
        let place = 2.0 * random.below(n) as f64;
        axis_plane(0, place + random.pick(&[0.25, 0.5, 1.5]), random.coin())
    };
    let planes = (0..3).map(|_| plane()).collect();
    let list = List {
        tolerances: Tolerances::USUAL,
        room: SPLIT_ROOM,
        cells: (0..n).map(at).collect(),
    };
    Split { list, planes }
}

const O: Point = [0.0, 0.0, 0.0];
const X: Point = [1.0, 0.0, 0.0];
const Y: Point = [0.0, 1.0, 0.0];
const Z: Point = [0.0, 0.0, 1.0];
const XY: Point = [1.0, 1.0, 0.0];

/// As many points, one corner each, in faces of 51, so that none is left with fewer than three.
fn points(n: usize) -> Corners {
    let corner = |i: usize| [i as f64, 0.0, 0.0];
    let all: Vec<Point> = (0..n).map(corner).collect();
    all.chunks(51).map(<[Point]>::to_vec).collect()
}

/// No cells at all, and as many points as may be, or one more.
pub fn counts() -> Vec<List> {
    let list = |cells| List {
        tolerances: Tolerances::USUAL,
        room: ROOM,
        cells,
    };
    let some = |n: usize| list(vec![cell(&points(n))]);
    vec![list(Vec::new()), some(4095), some(4096), some(4097)]
}

/// A list of any family but the last, which takes long.
pub fn any(random: &mut Random) -> List {
    let family = random.below(FAMILIES.len() - 1);
    (FAMILIES[family].make)(random)
}

/// For each refusal of these steps a list that meets it, and no other before it.
pub fn refused() -> Vec<(u32, List)> {
    let t = Tolerances::USUAL;
    let along = |x: f64| [x * t.local, 0.0, 0.0];
    let beside = |y: f64| [0.5, y * t.local, 0.0];
    let up = vec![O, X, Y];
    let down = vec![O, Y, X];
    let out = vec![vec![O, Y, X], vec![O, X, Z], vec![O, Z, Y], vec![X, Y, Z]];
    let far = |f: &Vec<Point>| f.iter().map(|&q| add(q, [4.0; 3])).collect();
    let two = out.iter().cloned().chain(out.iter().map(far)).collect();
    let inward = out.iter().map(|f| f.iter().rev().copied().collect());
    let flat = vec![
        vec![O, X, XY],
        vec![O, XY, Y],
        vec![O, Y, X],
        vec![X, Y, XY],
    ];
    let lists: Vec<(u32, usize, Vec<Corners>)> = vec![
        (6, ROOM, vec![vec![vec![O, X, Y], fin(along(1.0), 0)]]),
        (12, 6, vec![vec![up.clone(), fin(beside(0.0), 0)]]),
        (
            13,
            ROOM,
            vec![vec![vec![O, along(1.5), Y], fin(along(0.75), 0)]],
        ),
        (14, ROOM, vec![points(4097)]),
        (15, ROOM, vec![vec![vec![O, along(0.5), Y]]]),
        (16, ROOM, vec![vec![up.clone(), fin(beside(-1.0), 0)]]),
        (
            17,
            ROOM,
            vec![vec![up.clone(), fin(beside(0.9), 0), fin(beside(-0.9), 1)]],
        ),
        (18, ROOM, vec![vec![up.clone(), down.clone()]]),
        (18, ROOM, vec![vec![up.clone()], vec![up.clone()]]),
        (
            19,
            ROOM,
            vec![vec![up.clone()], vec![down], vec![up.clone()]],
        ),
        (20, ROOM, vec![vec![up]]),
        (21, ROOM, vec![flat]),
        (22, ROOM, vec![two]),
        (23, ROOM, vec![inward.collect()]),
    ];
    let made = |(number, room, cells): (u32, usize, Vec<Corners>)| {
        let cells = cells.iter().map(cell).collect();
        (
            number,
            List {
                tolerances: t,
                room,
                cells,
            },
        )
    };
    lists.into_iter().map(made).collect()
}
