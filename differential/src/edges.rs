//! Which edges of the code a call takes, and how often, where the compiler was
//! told to count them (README, `soak`). Counted is what this build compiles:
//! the reference and what is around it, not the archives.
//!
//! Unsafe, for the counters are the compiler's: it lends each row before
//! `main`, for good, and they change while the code runs.

use std::sync::Mutex;

/// Rows of counters, an octet an edge: address and length.
static ROWS: Mutex<Vec<(usize, usize)>> = Mutex::new(Vec::new());

/// What the compiler calls for each row.
#[no_mangle]
extern "C" fn __sanitizer_cov_8bit_counters_init(start: *mut u8, end: *mut u8) {
    let row = (start as usize, end as usize - start as usize);
    let mut rows = ROWS.lock().unwrap();
    if !rows.contains(&row) {
        rows.push(row);
    }
}

/// How often, coarsely: 1, 2, 3, 4 to 7, 8 to 15, 16 to 31, 32 to 127, more.
fn class(times: u8) -> u8 {
    match times {
        0 => 0,
        1 => 1,
        2 => 2,
        3 => 4,
        4..8 => 8,
        8..16 => 16,
        16..32 => 32,
        32..128 => 64,
        _ => 128,
    }
}

/// What was met of every edge so far.
pub struct Edges {
    rows: Vec<(usize, usize)>,
    taken: Vec<u8>,
    met: Vec<u8>,
}

impl Edges {
    /// None where the build counts no edges.
    pub fn counted() -> Option<Edges> {
        let rows = ROWS.lock().unwrap().clone();
        let edges: usize = rows.iter().map(|row| row.1).sum();
        (edges > 0).then(|| Edges {
            rows,
            taken: vec![0; edges],
            met: vec![0; edges],
        })
    }

    /// From here on.
    pub fn clear(&mut self) {
        for &(start, length) in &self.rows {
            unsafe { std::ptr::write_bytes(start as *mut u8, 0, length) }
        }
    }

    /// Whether an edge was taken since then, as often as never before.
    pub fn is_new(&mut self) -> bool {
        let mut at = 0;
        for &(start, length) in &self.rows {
            let to = self.taken[at..at + length].as_mut_ptr();
            unsafe { std::ptr::copy_nonoverlapping(start as *const u8, to, length) }
            at += length;
        }
        let mut new = false;
        for (met, &times) in self.met.iter_mut().zip(&self.taken) {
            let class = class(times);
            new |= class & !*met != 0;
            *met |= class;
        }
        new
    }

    /// Edges by how often they were taken.
    pub fn met(&self) -> usize {
        self.met.iter().map(|met| met.count_ones() as usize).sum()
    }
}
