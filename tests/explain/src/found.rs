//! A refusal found again, and words for numbers, points, planes and distances.
use oracle::{leaf, Cell, Interval, Plane, Point, Solid, Tolerances};

/// A refusal: its number, and where it arises, from the whole to the part.
#[derive(Debug)]
pub struct Found {
    pub number: u32,
    pub place: Vec<String>,
}

pub type Walk<T> = Result<T, Found>;

impl Found {
    pub fn new(number: u32, place: impl Into<String>) -> Self {
        Found {
            number,
            place: vec![place.into()],
        }
    }

    /// The same, inside a stage.
    pub fn at(mut self, stage: impl Into<String>) -> Self {
        self.place.insert(0, stage.into());
        self
    }
}

/// What is said where the walk does not find the oracle's refusal again.
pub const UNKNOWN: &str = "the place is not known to this tool";

/// What a walk found, where it has the number that the oracle gave; else a refusal without a place.
pub fn agreed<T>(number: u32, walk: Walk<T>) -> Found {
    match walk {
        Err(found) if found.number == number => found,
        _ => Found::new(number, UNKNOWN),
    }
}

/// A refusal here.
pub fn refuse<T>(number: u32, place: impl Into<String>) -> Walk<T> {
    Err(Found::new(number, place))
}

/// Refuses where this does not hold.
pub fn require(holds: bool, number: u32, place: impl FnOnce() -> String) -> Walk<()> {
    match holds {
        true => Ok(()),
        false => refuse(number, place()),
    }
}

/// The shortest decimal of a number.
pub fn decimal(x: f64) -> String {
    let text = format!("{x:?}");
    text.strip_suffix(".0").map_or(text.clone(), String::from)
}

/// A point in words.
pub fn place(q: &Point) -> String {
    let [x, y, z] = q.map(decimal);
    format!("({x}, {y}, {z})")
}

/// An interval of lengths, in multiples of local.
pub fn in_local(t: &Tolerances, d: Interval) -> String {
    let [low, high] = [d.lo(), d.hi()].map(|x| decimal(x / t.local));
    format!("between {low} and {high} local")
}

/// How far a point certainly lies off a plane, and on which side.
pub fn off_plane(t: &Tolerances, plane: &Plane, q: &Point) -> String {
    let d = leaf::distance(plane, q);
    match d.hi() < 0.0 {
        true => format!("{} inside", in_local(t, Interval::ends(-d.hi(), -d.lo()))),
        false => format!("{} outside", in_local(t, d)),
    }
}

/// How far apart two points are, by the interval that near compares with local squared.
pub fn apart(t: &Tolerances, a: &Point, b: &Point) -> String {
    let gap = |i: usize| (Interval::point(a[i]) - Interval::point(b[i])).sqr();
    let squared = gap(0) + gap(1) + gap(2);
    let root = Interval::ends(squared.lo().max(0.0).sqrt(), squared.hi().sqrt());
    format!("{} apart", in_local(t, root))
}

/// The points and planes of what was given, by their bits.
#[derive(Default)]
pub struct Names {
    points: Vec<(Point, String)>,
    planes: Vec<(Plane, String)>,
}

fn same(a: &[f64], b: &[f64]) -> bool {
    a.iter().zip(b).all(|(x, y)| x.to_bits() == y.to_bits())
}

/// The names of all that fit; none where nothing does.
fn named<T>(list: &[(T, String)], fits: impl Fn(&T) -> bool) -> Option<String> {
    let hits = list.iter().filter(|(value, _)| fits(value));
    let names: Vec<_> = hits.map(|(_, name)| name.as_str()).collect();
    (!names.is_empty()).then(|| names.join(" or "))
}

impl Names {
    /// A solid with the planes of its faces; `whose` is "of the first solid" or the like.
    pub fn add(&mut self, solid: &Solid, cell: &Cell, whose: &str) {
        for (i, q) in solid.points.iter().enumerate() {
            self.points.push((*q, format!("point {i} {whose}")));
        }
        for (i, face) in cell.iter().enumerate() {
            self.planes.push((face.plane, format!("face {i} {whose}")));
        }
    }

    pub fn point(&self, q: &Point) -> String {
        let name = named(&self.points, |p| same(p, q));
        format!(
            "{} {}",
            name.unwrap_or(String::from("a new corner")),
            place(q)
        )
    }

    /// The face whose plane it is, or whose plane turned round it is.
    pub fn plane(&self, t: &Tolerances, w: &Plane) -> String {
        let turned = |p: &Plane| leaf::opposite(t, p).is_ok_and(|p| same(&p, w));
        if let Some(name) = named(&self.planes, |p| same(p, w)) {
            format!("the plane of {name}")
        } else if let Some(name) = named(&self.planes, turned) {
            format!("the plane of {name}, turned round")
        } else {
            format!("a plane through {}", place(&[w[0], w[1], w[2]]))
        }
    }
}
