//! The searchers of the Rust crate behind safe calls, within the limits in which they may be called.
extern crate alloc;

mod packed;
mod util;

pub mod differences;
mod lanes;

use core::arch::x86_64::__m128i;
use std::sync::Arc;

use crate::packed::api::MatchKind;
use crate::packed::pattern::Patterns;
use crate::packed::rabinkarp::RabinKarp;
use crate::packed::teddy::generic::{Match, Slim};
use crate::packed::vector::Vector;

pub use crate::util::primitives::PatternID;

/// Id, start and end.
pub type Hit = Option<(usize, usize, usize)>;

/// A list of patterns, whose kind is set after the last is added.
pub struct Book(Arc<Patterns>);

impl Book {
    pub fn new(longest: bool, patterns: &[Vec<u8>]) -> Book {
        let mut p = Patterns::new();
        for bytes in patterns {
            p.add(bytes);
        }
        p.set_match_kind(if longest { MatchKind::LeftmostLongest } else { MatchKind::LeftmostFirst });
        Book(Arc::new(p))
    }
}

/// The rolling hash.
pub struct Rolling(RabinKarp);

impl Rolling {
    pub fn new(book: &Book) -> Rolling {
        Rolling(RabinKarp::new(&book.0))
    }

    /// For a place up to the text's length.
    pub fn find(&self, text: &[u8], place: usize) -> Hit {
        assert!(place <= text.len());
        self.0.find_at(text, place).map(|m| (m.id.as_usize(), m.span.start, m.span.end))
    }
}

/// The mask searcher with one to four masks.
enum Masks<V> {
    One(Slim<V, 1>),
    Two(Slim<V, 2>),
    Three(Slim<V, 3>),
    Four(Slim<V, 4>),
}

impl<V: Vector> Masks<V> {
    fn new(book: &Book, count: usize) -> Masks<V> {
        let p = Arc::clone(&book.0);
        assert!(count <= p.minimum_len());
        unsafe {
            match count {
                1 => Masks::One(Slim::<V, 1>::new(p)),
                2 => Masks::Two(Slim::<V, 2>::new(p)),
                3 => Masks::Three(Slim::<V, 3>::new(p)),
                4 => Masks::Four(Slim::<V, 4>::new(p)),
                _ => panic!("{count} masks"),
            }
        }
    }

    fn minimum_len(&self) -> usize {
        match self {
            Masks::One(s) => s.minimum_len(),
            Masks::Two(s) => s.minimum_len(),
            Masks::Three(s) => s.minimum_len(),
            Masks::Four(s) => s.minimum_len(),
        }
    }

    // None where too little stands from the place on for the searcher to be called
    fn find(&self, text: &[u8], place: usize) -> Option<Hit> {
        if place > text.len() || text.len() - place < self.minimum_len() {
            return None;
        }
        let r = text.as_ptr_range();
        let found: Option<Match> = unsafe {
            let from = r.start.add(place);
            match self {
                Masks::One(s) => s.find(from, r.end),
                Masks::Two(s) => s.find(from, r.end),
                Masks::Three(s) => s.find(from, r.end),
                Masks::Four(s) => s.find(from, r.end),
            }
        };
        let base = r.start as usize;
        Some(found.map(|m| (m.pattern().as_usize(), m.start() as usize - base, m.end() as usize - base)))
    }
}

/// The mask searcher over the processor's 128 bits.
pub struct Slim128(Masks<__m128i>);

impl Slim128 {
    pub fn new(book: &Book, count: usize) -> Slim128 {
        Slim128(Masks::new(book, count))
    }

    pub fn find(&self, text: &[u8], place: usize) -> Option<Hit> {
        self.0.find(text, place)
    }
}

/// The mask searcher over sixteen bytes in a row.
pub struct SlimBytes(Masks<lanes::Bytes16>);

impl SlimBytes {
    pub fn new(book: &Book, count: usize) -> SlimBytes {
        SlimBytes(Masks::new(book, count))
    }

    pub fn find(&self, text: &[u8], place: usize) -> Option<Hit> {
        self.0.find(text, place)
    }
}
