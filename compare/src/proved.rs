// The proved reader, by way of the static library.
use crate::rows::{Answer, Road, Rows};

#[repr(C)]
struct Outcome {
    refusal: usize,
    place: usize,
    nodes: usize,
    arcs: usize,
}

extern "C" {
    // A slice is a pointer and then a length.
    fn corners_read(
        text: *const u8,
        text_len: usize,
        roads: *mut Road,
        roads_len: usize,
        stocks: *mut i32,
        stocks_len: usize,
    ) -> Outcome;
}

pub fn read(text: &[u8], rows: &mut Rows) -> Answer {
    let Rows { roads, stocks } = rows;
    // SAFETY: each pointer and length is that of a live slice, and the three lie apart.
    let outcome = unsafe {
        corners_read(
            text.as_ptr(),
            text.len(),
            roads.as_mut_ptr(),
            roads.len(),
            stocks.as_mut_ptr(),
            stocks.len(),
        )
    };
    match outcome.refusal {
        0 => Ok((outcome.nodes, outcome.arcs)),
        number => Err((
            number,
            Some(outcome.place).filter(|&place| place != usize::MAX),
        )),
    }
}
