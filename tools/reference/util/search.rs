// Stands in for the match that the rolling hash answers.
use core::ops::Range;

use crate::PatternID;

#[derive(Clone, Copy, Debug)]
pub struct Match {
    pub id: PatternID,
    pub span: Extent,
}

#[derive(Clone, Copy, Debug)]
pub struct Extent {
    pub start: usize,
    pub end: usize,
}

impl Match {
    #[inline(always)]
    pub fn new(id: PatternID, span: Range<usize>) -> Match {
        Match { id, span: Extent { start: span.start, end: span.end } }
    }
}
