//! The port's check of a cell's bytes.

mod raw {
    extern "C" {
        pub fn leaf_check_cell(
            job: *const u8,
            job_n: usize,
            given: u64,
            points: *mut f64,
            points_n: usize,
            counts: *mut u64,
            counts_n: usize,
            places: *mut u64,
            places_n: usize,
            ends: *mut u64,
            ends_n: usize,
            head: *mut u64,
            head_n: usize,
            next: *mut u64,
            next_n: usize,
            seen: *mut u64,
            seen_n: usize,
            work: *mut u64,
            work_n: usize,
            nodes: *mut u64,
            nodes_n: usize,
            cuts: *mut u64,
            cuts_n: usize,
        ) -> u64;
    }
}

/// Work memory that suffices for any cell.
pub struct Desk {
    points: Vec<f64>,
    counts: Vec<u64>,
    places: Vec<u64>,
    ends: Vec<u64>,
    head: Vec<u64>,
    next: Vec<u64>,
    seen: Vec<u64>,
    work: Vec<u64>,
    nodes: Vec<u64>,
    cuts: Vec<u64>,
}

impl Default for Desk {
    fn default() -> Self {
        let of = |n| vec![u64::MAX; n];
        Desk {
            points: vec![f64::NAN; 3_930],
            counts: of(32_768),
            places: of(10_923),
            ends: of(21_846),
            head: of(32_768),
            next: of(21_846),
            seen: of(32_768),
            work: of(32_768),
            nodes: of(32_768),
            cuts: of(32_769),
        }
    }
}

impl Desk {
    /// Document 01's number for a cell's bytes; 0 where the solid passes.
    pub fn check_cell(&mut self, job: &[u8], given: bool) -> u64 {
        // SAFETY: each pointer goes with the length of its own vector.
        unsafe {
            raw::leaf_check_cell(
                job.as_ptr(),
                job.len(),
                given.into(),
                self.points.as_mut_ptr(),
                self.points.len(),
                self.counts.as_mut_ptr(),
                self.counts.len(),
                self.places.as_mut_ptr(),
                self.places.len(),
                self.ends.as_mut_ptr(),
                self.ends.len(),
                self.head.as_mut_ptr(),
                self.head.len(),
                self.next.as_mut_ptr(),
                self.next.len(),
                self.seen.as_mut_ptr(),
                self.seen.len(),
                self.work.as_mut_ptr(),
                self.work.len(),
                self.nodes.as_mut_ptr(),
                self.nodes.len(),
                self.cuts.as_mut_ptr(),
                self.cuts.len(),
            )
        }
    }
}
