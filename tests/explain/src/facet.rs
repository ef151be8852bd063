//! The mesh of a facet, in the order of docs/src.
use crate::found::{agreed, decimal, place, require, Found, Walk};
use oracle::leaf::{self, Projected};
use oracle::{FacetFile, Sign, Tolerances};

/// Whether the facet has a mesh.
pub fn mesh(bytes: &[u8], file: &FacetFile) -> Walk<()> {
    let answer = oracle::mesh(bytes, Some(usize::MAX));
    answer.map_err(|number| agreed(number, steps(file)))?;
    Ok(())
}

fn steps(file: &FacetFile) -> Walk<()> {
    let (t, facet) = (&file.tolerances, &file.facet);
    let corners = facet.points.len();
    require(corners <= 128, 12, || {
        format!("{corners} corners, 128 at most")
    })?;
    for (i, x) in facet.plane.iter().enumerate() {
        let words = || format!("number {i} of the plane is {}", decimal(*x));
        require(x.is_finite(), 2, words)?;
    }
    for (i, q) in facet.points.iter().enumerate() {
        let finite = q.iter().all(|x| x.is_finite());
        require(finite, 2, || format!("corner {i} {}", place(q)))?;
    }
    let basis = leaf::plane_basis(&facet.plane);
    basis.map_err(|n| Found::new(n, "the plane: its handedness"))?;
    require(corners >= 3, 3, || format!("{corners} corners, at least 3"))?;
    let mut shadows = Vec::new();
    for (i, q) in facet.points.iter().enumerate() {
        let shadow = leaf::projected(&facet.plane, q);
        shadows.push(shadow.map_err(|n| Found::new(n, format!("corner {i} {}", place(q))))?);
    }
    simple(t, &shadows)?;
    let ears = leaf::triangles(t, &shadows);
    ears.map_err(|n| Found::new(n, "cutting off ears; no two edges cross"))?;
    Ok(())
}

/// No two edges cross or overlap.
fn simple(t: &Tolerances, points: &[Projected]) -> Walk<()> {
    let n = points.len();
    for i in 0..n {
        for j in i + 2..n {
            if i == 0 && j == n - 1 {
                continue;
            }
            let (b, d) = (i + 1, (j + 1) % n);
            let words = || format!("the edges of corners {i}, {b} and {j}, {d}");
            let cross = crossed(t, [i, b, j, d].map(|k| &points[k]));
            require(cross == Ok(false), cross.err().unwrap_or(30), words)?;
        }
    }
    Ok(())
}

fn crossed(t: &Tolerances, [a, b, c, d]: [&Projected; 4]) -> leaf::Outcome<bool> {
    let turns = [(a, b, c), (a, b, d), (c, d, a), (c, d, b)];
    let mut signs = [Sign::Zero; 4];
    for (sign, (x, y, z)) in signs.iter_mut().zip(turns) {
        *sign = leaf::orientation(t, x, y, z)?;
    }
    let opposite = |a: Sign, b: Sign| a != b && a != Sign::Zero && b != Sign::Zero;
    let within = |(x, y, z): (&Projected, &Projected, &Projected)| {
        leaf::contains_range(t, x.x, y.x, z.x) && leaf::contains_range(t, x.y, y.y, z.y)
    };
    let touches = |(sign, turn)| sign == Sign::Zero && within(turn);
    let crosses = opposite(signs[0], signs[1]) && opposite(signs[2], signs[3]);
    Ok(crosses || signs.into_iter().zip(turns).any(touches))
}
