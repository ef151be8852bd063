//! Cuts, and the lists of cells that they give, in the order of docs/src.
use crate::check::{check, dot};
use crate::found::{agreed, apart, in_local, off_plane, refuse, require, Found, Names, Walk};
use oracle::{leaf, Cell, Operation, Plane, Point, Sign, Solid, Tolerances};

/// What every step is given.
pub struct Ground<'a> {
    pub t: &'a Tolerances,
    pub names: &'a Names,
}

impl Ground<'_> {
    pub fn plane(&self, w: &Plane) -> String {
        self.names.plane(self.t, w)
    }

    pub fn point(&self, q: &Point) -> String {
        self.names.point(q)
    }

    /// The side of a point; 7 with its distance.
    fn side(&self, plane: &Plane, q: &Point) -> Walk<Sign> {
        leaf::side(self.t, plane, q).map_err(|number| {
            let d = in_local(self.t, leaf::distance(plane, q));
            Found::new(number, format!("{}: its distance is {d}", self.point(q)))
        })
    }

    /// Whether two points are near; 6 with how far apart they are.
    fn near(&self, a: &Point, b: &Point) -> Walk<bool> {
        leaf::near(self.t, a, b).map_err(|number| {
            let (p, q) = (self.point(a), self.point(b));
            Found::new(number, format!("{p} and {q}: {}", apart(self.t, a, b)))
        })
    }

    /// What a cut leaves.
    pub fn clip(&self, cell: &Cell, plane: &Plane) -> Walk<Option<Cell>> {
        let part = leaf::clip(self.t, None, cell, plane);
        part.map_err(|number| {
            let found = agreed(number, self.clip_steps(cell, plane));
            found.at(format!("the cut by {}", self.plane(plane)))
        })
    }

    fn clip_steps(&self, cell: &Cell, plane: &Plane) -> Walk<()> {
        for q in cell.iter().flat_map(|f| &f.points) {
            self.side(plane, q)?;
        }
        let mut cap = Vec::new();
        for (i, face) in cell.iter().enumerate() {
            let on = || format!("face {i} of the cell, on {}", self.plane(&face.plane));
            let kept = self.kept(plane, &face.points, &mut cap);
            let kept = kept.map_err(|f| f.at(on()))?;
            self.unique(&kept).map_err(|f| f.at(on()))?;
        }
        let left = self.unique(&cap).map_err(|f| f.at("the cap"))?.len();
        let all = cap.len();
        let few = || format!("of the {all} points of the cap {left} are left, 3 are needed");
        require(left >= 3, 10, few)?;
        let flat = || format!("the {left} points of the cap have no hull of 3 corners");
        let hull = leaf::hull(self.t, plane, &cap);
        require(hull.is_ok(), hull.err().unwrap_or(0), flat)
    }

    /// The corners of one face that a cut keeps and makes; those on the plane join the cap.
    fn kept(&self, plane: &Plane, face: &[Point], cap: &mut Vec<Point>) -> Walk<Vec<Point>> {
        let mut out = Vec::new();
        for (i, a) in face.iter().enumerate() {
            let b = &face[(i + 1) % face.len()];
            let (sa, sb) = (self.side(plane, a)?, self.side(plane, b)?);
            if sa != Sign::Positive {
                out.push(*a);
            }
            if sa == Sign::Zero {
                cap.push(*a);
            }
            if sa != sb && sa != Sign::Zero && sb != Sign::Zero {
                let edge = |f: Found| {
                    let (p, q) = (self.point(a), self.point(b));
                    f.at(format!("the edge from {p} to {q}"))
                };
                let q = self.cut_point(plane, a, b).map_err(edge)?;
                out.push(q);
                cap.push(q);
            }
        }
        Ok(out)
    }

    fn cut_point(&self, plane: &Plane, a: &Point, b: &Point) -> Walk<Point> {
        let normal = [plane[9], plane[10], plane[11]];
        let along = |q: &Point| dot(&normal, &std::array::from_fn(|k| q[k] - plane[k]));
        let (da, db) = (along(a), along(b));
        let share = da / (da - db);
        let q: Point = std::array::from_fn(|k| a[k] + (b[k] - a[k]) * share);
        let sign = self.side(plane, &q)?;
        let off = || format!("{}: {}", self.point(&q), off_plane(self.t, plane, &q));
        require(sign == Sign::Zero, 9, off)?;
        Ok(q)
    }

    /// The points that are near none before; every kept one is tested.
    fn unique(&self, points: &[Point]) -> Walk<Vec<Point>> {
        let mut kept: Vec<Point> = Vec::new();
        for q in points {
            let near = kept.iter().map(|r| self.near(q, r));
            if !near.collect::<Walk<Vec<_>>>()?.contains(&true) {
                kept.push(*q);
            }
        }
        Ok(kept)
    }

    fn opposite(&self, plane: &Plane) -> Walk<Plane> {
        let turned = leaf::opposite(self.t, plane);
        turned.map_err(|n| Found::new(n, self.plane(plane)).at("turning a plane round"))
    }

    fn difference(&self, a: &Cell, b: &Cell) -> Walk<Vec<Cell>> {
        let mut remainder = Some(a.clone());
        let mut out = Vec::new();
        for face in b {
            let Some(current) = remainder else {
                break;
            };
            out.extend(self.clip(&current, &self.opposite(&face.plane)?)?);
            remainder = self.clip(&current, &face.plane)?;
        }
        Ok(out)
    }

    fn intersection(&self, a: &Cell, b: &Cell) -> Walk<Vec<Cell>> {
        let mut result = Some(a.clone());
        for face in b {
            let Some(current) = result else {
                break;
            };
            result = self.clip(&current, &face.plane)?;
        }
        Ok(result.into_iter().collect())
    }

    /// The cells of a Boolean operation.
    pub fn cells(&self, a: &Cell, b: &Cell, operation: Operation) -> Walk<Vec<Cell>> {
        let list = match operation {
            Operation::Intersection => self.intersection(a, b),
            _ => self.difference(a, b),
        };
        let mut list = list.map_err(|f| f.at("the first solid cut by the second"))?;
        if operation == Operation::Union {
            list.push(b.clone());
        }
        Ok(list)
    }

    /// Every cell by every plane.
    pub fn split(&self, mut cells: Vec<Cell>, planes: &[Plane]) -> Walk<Vec<Cell>> {
        for plane in planes {
            let reverse = self.opposite(plane)?;
            let mut next = Vec::new();
            for (i, cell) in cells.iter().enumerate() {
                let stage = format!("cell {i} of {}", cells.len());
                let both = [plane, &reverse].map(|w| self.clip(cell, w));
                for part in both {
                    next.extend(part.map_err(|f| f.at(stage.clone()))?);
                }
                if next.len() > 512 {
                    let (n, by) = (next.len(), self.plane(plane));
                    return refuse(11, format!("{n} cells after {stage} was split by {by}"));
                }
            }
            cells = next;
        }
        Ok(cells)
    }

    /// A made cell, indexed and checked.
    pub fn build(&self, cell: &Cell) -> Walk<Solid> {
        let solid = leaf::indexed(self.t, cell);
        let solid = solid.map_err(|number| agreed(number, self.indexed(cell)))?;
        check(self.t, &solid, false)?;
        Ok(solid)
    }

    /// The points of a cell, each against those before it up to the first near one.
    fn indexed(&self, cell: &Cell) -> Walk<()> {
        let mut kept: Vec<Point> = Vec::new();
        for q in cell.iter().flat_map(|f| &f.points) {
            let mut found = false;
            for r in &kept {
                found = self.near(q, r)?;
                if found {
                    break;
                }
            }
            if !found {
                kept.push(*q);
            }
        }
        Ok(())
    }
}
