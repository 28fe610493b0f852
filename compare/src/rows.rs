// What a reader works on, and what it answers.

/// A road in the layout of C.
#[repr(C)]
#[derive(Clone, Copy, Debug, PartialEq, Eq)]
pub struct Road {
    pub tail: u32,
    pub head: u32,
    pub least: u32,
    pub most: u32,
    pub first: i32,
    pub second: i32,
}

/// The sizes of a network, or the number of a refusal and its place.
pub type Answer = Result<(usize, usize), (usize, Option<usize>)>;

/// A caller's rows.
#[derive(Clone, Debug, PartialEq, Eq)]
pub struct Rows {
    pub roads: Vec<Road>,
    pub stocks: Vec<i32>,
}

impl Rows {
    /// Rows of these lengths in which every entry differs, so that none can move or change unseen.
    pub fn marked(roads: usize, stocks: usize) -> Rows {
        let mark = |i: usize| {
            let n = 5_000 + i as u32;
            Road {
                tail: n,
                head: n + 1,
                least: n + 2,
                most: n + 3,
                first: -5,
                second: -6,
            }
        };
        Rows {
            roads: (0..roads).map(mark).collect(),
            stocks: (0..stocks).map(|i| 2_000_000 + i as i32).collect(),
        }
    }
}
