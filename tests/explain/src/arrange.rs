//! Fusing: the vertices, facets, edges and shells of an arrangement, in the order of docs/src.
use crate::check::length;
use crate::cut::Ground;
use crate::found::{agreed, apart, decimal, in_local, place, refuse, require, Found, Walk};
use oracle::{leaf, Cell, Interval, Plane, Point, Sign};
use std::collections::BTreeMap;

/// A facet of a cell.
struct Use {
    cell: usize,
    plane: Plane,
    vertices: Vec<usize>,
}

/// A facet seen from its edge: its place, and whether it runs from the lower vertex to the higher.
type Seen = (usize, bool);

/// The edge of a facet, as `conform` measures it.
struct Edge {
    words: String,
    start: Point,
    along: [Interval; 3],
    squared: Interval,
    /// linear times its length
    margin: Interval,
}

fn gap(q: &Point, p: &Point) -> [Interval; 3] {
    std::array::from_fn(|k| Interval::point(q[k]) - Interval::point(p[k]))
}

impl Ground<'_> {
    /// Whether the cells fuse.
    pub fn fuse(&self, cells: &[Cell]) -> Walk<()> {
        let (points, mut uses) = self.merged(cells)?;
        let many = || format!("{} points, 4096 at most", points.len());
        require(points.len() <= 4096, 14, many)?;
        let mut facets: BTreeMap<Vec<usize>, Vec<usize>> = BTreeMap::new();
        for (i, f) in uses.iter_mut().enumerate() {
            f.vertices = self.conform(&points, f)?;
            let mut key = f.vertices.clone();
            key.sort_unstable();
            facets.entry(key).or_default().push(i);
        }
        let mut adjacency = vec![Vec::new(); cells.len()];
        let mut exterior = Vec::new();
        for list in facets.values() {
            match list.as_slice() {
                [a] => exterior.push(*a),
                [a, b] => self.interface(&points, [&uses[*a], &uses[*b]], &mut adjacency)?,
                _ => return self.too_many(&points, list.iter().map(|&i| &uses[i]).collect()),
            }
        }
        for (i, group) in leaf::components(&adjacency).into_iter().enumerate() {
            let own = exterior.iter().map(|&i| &uses[i]);
            let own: Vec<_> = own.filter(|f| group.contains(&f.cell)).collect();
            let stage = format!("body {i}, of {} cells", group.len());
            self.body(&points, &own).map_err(|f| f.at(stage))?;
        }
        Ok(())
    }

    /// All corners, near ones merged.
    fn merged(&self, cells: &[Cell]) -> Walk<(Vec<Point>, Vec<Use>)> {
        let (mut points, mut uses) = (Vec::new(), Vec::new());
        for (cell, faces) in cells.iter().enumerate() {
            for face in faces {
                let vertex = |q| self.vertex(&mut points, q);
                let vertices = face.points.iter().map(vertex).collect::<Walk<_>>();
                let stage = |f: Found| f.at(format!("merging the vertices of cell {cell}"));
                uses.push(Use {
                    cell,
                    plane: face.plane,
                    vertices: vertices.map_err(stage)?,
                });
            }
        }
        Ok((points, uses))
    }

    /// The place of a corner among the points, all of which are tested.
    fn vertex(&self, points: &mut Vec<Point>, q: &Point) -> Walk<usize> {
        let other = |r: &Point| format!("{}, {}", place(r), apart(self.t, q, r));
        let own = || self.point(q);
        let mut found: Option<usize> = None;
        for (i, r) in points.iter().enumerate() {
            match (leaf::near(self.t, q, r), found) {
                (Err(number), _) => return refuse(number, format!("{} and {}", own(), other(r))),
                (Ok(true), Some(first)) => {
                    let (a, b) = (other(&points[first]), other(r));
                    return refuse(13, format!("{} and {a}, and {b}", own()));
                }
                (Ok(true), None) => found = Some(i),
                (Ok(false), _) => (),
            }
        }
        Ok(found.unwrap_or_else(|| {
            points.push(*q);
            points.len() - 1
        }))
    }

    fn facet(&self, points: &[Point], f: &Use) -> String {
        let corners: Vec<_> = f.vertices.iter().map(|&v| place(&points[v])).collect();
        let (cell, plane) = (f.cell, self.plane(&f.plane));
        format!("the facet of cell {cell} on {plane}: {}", corners.join(" "))
    }

    fn conform(&self, points: &[Point], f: &Use) -> Walk<Vec<usize>> {
        leaf::conform(self.t, points, &f.vertices).map_err(|number| {
            let n = f.vertices.len();
            let mut ends = (0..n).map(|i| [f.vertices[i], f.vertices[(i + 1) % n]]);
            let walk = ends.try_for_each(|ends| self.edge(points, ends));
            agreed(number, walk).at(self.facet(points, f))
        })
    }

    /// The vertices inside an edge: 15, 16 or 17.
    fn edge(&self, points: &[Point], [start, end]: [usize; 2]) -> Walk<()> {
        let (a, b) = (&points[start], &points[end]);
        let along = gap(b, a);
        let squared = along[0].sqr() + along[1].sqr() + along[2].sqr();
        let words = format!("the edge from {} to {}", place(a), place(b));
        let above = squared - Interval::point(self.t.linear).sqr();
        let long = decimal(squared.hi().sqrt() / self.t.linear);
        let short = || format!("{words}: at most {long} linear long");
        require(above.sign() == Some(Sign::Positive), 15, short)?;
        let step: Point = std::array::from_fn(|k| b[k] - a[k]);
        let edge = Edge {
            words,
            start: *a,
            along,
            squared,
            margin: Interval::point(self.t.linear * length(&step)),
        };
        let mut inside: Vec<(Interval, usize)> = Vec::new();
        for (k, q) in points.iter().enumerate() {
            if k != start && k != end {
                inside.extend(self.inside(&edge, q)?.map(|projection| (projection, k)));
            }
        }
        inside.sort_by(|a, b| a.0.lo().total_cmp(&b.0.lo()));
        for pair in inside.windows(2) {
            let [p, q] = [pair[0].1, pair[1].1].map(|k| place(&points[k]));
            let doubt = || format!("{}: which of {p} and {q} comes first", edge.words);
            let sign = (pair[1].0 - pair[0].0).sign();
            require(sign == Some(Sign::Positive), 17, doubt)?;
        }
        Ok(())
    }

    /// Where a vertex projects to, if it lies inside an edge.
    fn inside(&self, edge: &Edge, q: &Point) -> Walk<Option<Interval>> {
        let delta = gap(q, &edge.start);
        let projection = leaf::dot(delta, edge.along);
        let ahead = |x: Interval| (x - edge.margin).sign() == Some(Sign::Positive);
        if !ahead(projection) || !ahead(edge.squared - projection) {
            return Ok(None);
        }
        let cross = leaf::cross(delta, edge.along);
        let area = leaf::dot(cross, cross);
        let separation = area - Interval::point(self.t.local).sqr() * edge.squared;
        match separation.sign() {
            Some(Sign::Positive) => Ok(None),
            Some(_) => Ok(Some(projection)),
            None => {
                let low = (area.lo().max(0.0) / edge.squared.hi()).sqrt();
                let high = (area.hi() / edge.squared.lo()).sqrt();
                let off = in_local(self.t, Interval::ends(low, high));
                refuse(
                    16,
                    format!("{}: the vertex {} is {off} off", edge.words, place(q)),
                )
            }
        }
    }

    fn interface(
        &self,
        points: &[Point],
        [a, b]: [&Use; 2],
        adjacency: &mut [Vec<usize>],
    ) -> Walk<()> {
        let meet = a.cell != b.cell && leaf::same_cycle(&a.vertices, &b.vertices);
        let both = || [a, b].map(|f| self.facet(points, f)).join("; ");
        require(meet, 18, || format!("two of the same vertices: {}", both()))?;
        adjacency[a.cell].push(b.cell);
        adjacency[b.cell].push(a.cell);
        Ok(())
    }

    fn too_many(&self, points: &[Point], facets: Vec<&Use>) -> Walk<()> {
        let words: Vec<_> = facets.iter().map(|f| self.facet(points, f)).collect();
        let (n, all) = (words.len(), words.join("; "));
        refuse(19, format!("{n} of the same vertices: {all}"))
    }

    /// The edges and shells of one body.
    fn body(&self, points: &[Point], faces: &[&Use]) -> Walk<()> {
        let neighbors = self.neighbors(points, faces)?;
        let mut outward = 0;
        for group in leaf::components(&neighbors) {
            let shell: Vec<_> = group.iter().map(|&i| faces[i].vertices.clone()).collect();
            let first = self.facet(points, faces[group[0]]);
            let words = format!("a shell of {} facets; its first: {first}", group.len());
            let sign = leaf::volume_sign(points, &shell);
            let sign = sign.map_err(|n| Found::new(n, words.clone()))?;
            outward += usize::from(sign == Sign::Positive);
            require(outward <= 1, 22, || words)?;
        }
        let first = || faces.first().map(|f| self.facet(points, f));
        let none = || {
            format!(
                "no shell outward; its first: {}",
                first().unwrap_or_default()
            )
        };
        require(outward > 0, 23, none)
    }

    /// Which facets of a body share an edge.
    fn neighbors(&self, points: &[Point], faces: &[&Use]) -> Walk<Vec<Vec<usize>>> {
        let mut edges: BTreeMap<[usize; 2], Vec<Seen>> = BTreeMap::new();
        for (i, f) in faces.iter().enumerate() {
            for (k, &a) in f.vertices.iter().enumerate() {
                let b = f.vertices[(k + 1) % f.vertices.len()];
                let edge = edges.entry([a.min(b), a.max(b)]).or_default();
                edge.push((i, a < b));
            }
        }
        let mut neighbors = vec![Vec::new(); faces.len()];
        for (edge, users) in &edges {
            match users.as_slice() {
                [(a, sa), (b, sb)] if a != b && sa != sb => {
                    neighbors[*a].push(*b);
                    neighbors[*b].push(*a);
                }
                _ => return self.open_edge(points, faces, edge, users),
            }
        }
        Ok(neighbors)
    }

    fn open_edge<T>(
        &self,
        points: &[Point],
        faces: &[&Use],
        edge: &[usize; 2],
        users: &[Seen],
    ) -> Walk<T> {
        let [a, b] = edge.map(|v| place(&points[v]));
        let seen = |(i, up): &Seen| {
            let way = if *up { "there" } else { "back" };
            format!("{way} by {}", self.facet(points, faces[*i]))
        };
        let list: Vec<_> = users.iter().map(seen).collect();
        let place = format!("the edge from {a} to {b}, run {}", list.join("; "));
        refuse(20, place)
    }
}
