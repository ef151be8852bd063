//! 1: the model of job, cell and facet files.
use gen::{cells, damage, facets, jobs, Random};
use oracle::{join, read_cell, read_facet, read_job, Record};

#[test]
fn what_is_written_is_read() {
    for seed in 0..200 {
        let mut random = Random::new(seed);
        let job = jobs::any(&mut random);
        assert_eq!(read_job(&job.bytes()), Ok(job));
        let cell = cells::any(&mut random).cell;
        assert_eq!(read_cell(&cell.bytes()), Ok(cell));
        let facet = facets::any(&mut random);
        let read = read_facet(&facet.bytes()).expect("a facet");
        assert_eq!(read.bytes(), facet.bytes());
    }
}

#[test]
fn nothing_shorter_or_longer_is_read() {
    let mut random = Random::new(2);
    let job = jobs::lattice(1000).bytes();
    let cell = cells::box_near_half(&mut random).cell.bytes();
    assert!(damage::cut_short(&job).all(|b| read_job(b) == Err(1)));
    assert!(damage::too_long(&job).all(|b| read_job(&b) == Err(1)));
    assert!(damage::cut_short(&cell).all(|b| read_cell(b) == Err(1)));
    assert!(damage::too_long(&cell).all(|b| read_cell(&b) == Err(1)));
    assert_eq!(read_cell(&job), Err(1));
    assert_eq!(read_job(&cell), Err(1));
    assert_eq!(read_facet(&cell), Err(1));
}

#[test]
fn a_facet_is_tolerances_a_plane_and_points() {
    let facet = facets::counts().remove(4);
    let records = facet.records();
    let ends: Vec<_> = (0..records.len()).map(|n| join(&records[..n])).collect();
    assert_eq!(ends.iter().filter(|b| read_facet(b).is_ok()).count(), 4);
    let mut two = records.clone();
    two.insert(1, records[1].clone());
    assert_eq!(read_facet(&join(&two)), Err(1));
    let mut late = records.clone();
    late.swap(1, 2);
    assert_eq!(read_facet(&join(&late)), Err(1));
    let more = [records, vec![Record::face()]].concat();
    assert_eq!(read_facet(&join(&more)), Err(1));
}

#[test]
fn a_corner_needs_an_open_face() {
    let job = jobs::lattice(0);
    let mut records = job.records();
    let open = records.iter().position(|r| r.kind == 3).expect("a face");
    records.remove(open);
    assert_eq!(read_job(&join(&records)), Err(1));
    let mut empty = job.records();
    empty.retain(|r| ![2, 3, 4].contains(&r.kind));
    assert!(read_job(&join(&empty)).is_ok());
}
