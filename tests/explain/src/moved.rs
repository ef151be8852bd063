//! Offset and hollow, in the order of docs/src.
use crate::check::{cross, dot};
use crate::cut::Ground;
use crate::found::{agreed, decimal, in_local, place, require, Found, Walk};
use oracle::{leaf, Cell, Interval, Plane, Point, Sign, Solid};

fn normal(plane: &Plane) -> Point {
    [plane[9], plane[10], plane[11]]
}

fn certain_dot(a: &Point, b: &Point) -> Interval {
    leaf::dot(a.map(Interval::point), b.map(Interval::point))
}

impl Ground<'_> {
    /// The cell with its planes moved, before it is indexed and checked.
    pub fn offset(&self, cell: &Cell, distance: f64) -> Walk<Cell> {
        let distances = vec![distance; cell.len()];
        let moved = leaf::offset_distances(self.t, cell, &distances);
        moved.map_err(|number| {
            let walk = self.offset_steps(cell, distance);
            agreed(number, walk).at("moving the planes")
        })
    }

    fn offset_steps(&self, cell: &Cell, distance: f64) -> Walk<()> {
        let finite = || format!("the distance is {}", decimal(distance));
        require(distance.is_finite(), 2, finite)?;
        let indexed = leaf::indexed(self.t, cell);
        let Solid { points, faces } = indexed.map_err(|n| Found::new(n, "the points"))?;
        let mut moved = Vec::new();
        for (i, q) in points.iter().enumerate() {
            let own = (0..faces.len()).filter(|&j| faces[j].contains(&i));
            let own: Vec<_> = own.collect();
            let stage = |f: Found| f.at(format!("{}, of faces {own:?}", self.point(q)));
            moved.push(self.moved_point(cell, q, &own, distance).map_err(stage)?);
        }
        let planes = self.moved_planes(cell, distance)?;
        for q in faces.iter().flatten().map(|&i| &moved[i]) {
            for (j, plane) in planes.iter().enumerate() {
                let whose = format!("the moved plane of face {j}");
                self.beside(plane, q, 27, |s| s != Sign::Positive, &whose)?;
            }
        }
        Ok(())
    }

    /// A point on an allowed side of a plane: 7, or the number.
    fn beside(
        &self,
        plane: &Plane,
        q: &Point,
        number: u32,
        allowed: impl Fn(Sign) -> bool,
        whose: &str,
    ) -> Walk<()> {
        let sign = leaf::side(self.t, plane, q);
        let d = in_local(self.t, leaf::distance(plane, q));
        let words = || format!("the corner {} and {whose}: its distance is {d}", place(q));
        let number = sign.err().unwrap_or(number);
        require(sign.is_ok_and(allowed), number, words)
    }

    fn moved_point(&self, cell: &Cell, q: &Point, own: &[usize], by: f64) -> Walk<Point> {
        let many = || format!("{} faces meet there, not three", own.len());
        require(own.len() == 3, 24, many)?;
        let [a, b, c] = [0, 1, 2].map(|k| normal(&cell[own[k]].plane));
        let across = cross(&b, &c);
        let determinant = certain_dot(&a, &across);
        let ends = [determinant.lo(), determinant.hi()].map(decimal);
        let zero = || format!("the determinant is between {} and {}", ends[0], ends[1]);
        require(!determinant.contains(0.0), 25, zero)?;
        let (second, third) = (cross(&c, &a), cross(&a, &b));
        let share = 1.0 / dot(&a, &across);
        let moved: Point = std::array::from_fn(|k| {
            q[k] + (across[k] * by + second[k] * by + third[k] * by) * share
        });
        let step: Point = std::array::from_fn(|k| moved[k] - q[k]);
        for (n, face) in [a, b, c].iter().zip(own) {
            let rest = certain_dot(&step, n) - Interval::point(by);
            let off = in_local(self.t, rest);
            let words = || format!("moved, it is {off} off the moved plane of face {face}");
            let within = !(rest.lo() < -self.t.local || rest.hi() > self.t.local);
            require(within, 26, words)?;
        }
        Ok(moved)
    }

    fn moved_planes(&self, cell: &Cell, by: f64) -> Walk<Vec<Plane>> {
        let moved = |(j, face): (usize, &leaf::Face)| {
            let (w, z) = (&face.plane, normal(&face.plane));
            let origin = std::array::from_fn(|k| w[k] + z[k] * by);
            let frame = leaf::frame(self.t, &origin, &z, &[w[3], w[4], w[5]]);
            frame.map_err(|n| Found::new(n, format!("the moved plane of face {j}")))
        };
        cell.iter().enumerate().map(moved).collect()
    }

    /// The cavity strictly inside the cell.
    pub fn hollow(&self, cell: &Cell, wall: f64) -> Walk<()> {
        let inner = self.offset(cell, -wall)?;
        let solid = self.build(&inner);
        solid.map_err(|f| f.at("the check of the inner solid"))?;
        for q in inner.iter().flat_map(|f| &f.points) {
            for (j, face) in cell.iter().enumerate() {
                let whose = format!("the plane of face {j}");
                let inside = self.beside(&face.plane, q, 29, |s| s == Sign::Negative, &whose);
                inside.map_err(|f| f.at("the inner solid inside the outer"))?;
            }
        }
        Ok(())
    }
}
