//! What the Rust does outside the limits within which it is compared. Each answer is as text; `panic` where it panics.
use core::arch::x86_64::__m128i;
use std::panic::{catch_unwind, AssertUnwindSafe};
use std::sync::Arc;

use crate::packed::api::MatchKind;
use crate::packed::pattern::Patterns;
use crate::packed::rabinkarp::RabinKarp;
use crate::packed::teddy::generic::Slim;
use crate::packed::vector::Vector;

fn caught(f: impl FnOnce() -> String) -> String {
    catch_unwind(AssertUnwindSafe(f)).unwrap_or("panic".into())
}

fn rolling(patterns: Patterns, text: &[u8], place: usize) -> String {
    caught(|| match RabinKarp::new(&Arc::new(patterns)).find_at(text, place) {
        Some(m) => format!("id {}, {} to {}", m.id.as_usize(), m.span.start, m.span.end),
        None => "none".into(),
    })
}

fn added(patterns: &[&[u8]]) -> Patterns {
    let mut p = Patterns::new();
    for bytes in patterns {
        p.add(bytes);
    }
    p
}

/// A search for `A` in `A` from a place on.
pub fn place(place: usize) -> String {
    rolling(added(&[b"A"]), b"A", place)
}

/// `A` and `AB` in `AB`, longest set before they are added.
pub fn kind_before() -> String {
    let mut p = Patterns::new();
    p.set_match_kind(MatchKind::LeftmostLongest);
    p.add(b"A");
    p.add(b"AB");
    rolling(p, b"AB", 0)
}

pub fn no_patterns() -> String {
    rolling(Patterns::new(), b"A", 0)
}

pub fn empty_pattern() -> String {
    caught(|| rolling(added(&[b""]), b"A", 0))
}

/// A number of patterns `A`, in `A`.
pub fn many(count: usize) -> String {
    caught(|| rolling(added(&vec![&b"A"[..]; count]), b"A", 0))
}

/// A pattern of that many bytes, in a text of as many.
pub fn long(len: usize) -> String {
    let bytes = vec![b'A'; len];
    caught(|| rolling(added(&[&bytes]), &bytes, 0))
}

/// Two masks made of a book whose shortest pattern is `A`.
pub fn masks_above() -> String {
    caught(|| {
        let slim = unsafe { Slim::<__m128i, 2>::new(Arc::new(added(&[b"A"]))) };
        format!("made, {} bytes", slim.memory_usage())
    })
}

/// Lane 0 of lanes 1 to 16 shuffled by an index in every lane.
pub fn shuffled(index: u8) -> String {
    caught(|| unsafe {
        let lanes: [u8; 16] = core::array::from_fn(|i| 1 + i as u8);
        let v = __m128i::load_unaligned(lanes.as_ptr()).shuffle_bytes(__m128i::splat(index));
        let out: [u8; 16] = core::mem::transmute(v);
        out[0].to_string()
    })
}

/// The memory of a list to which `A` was added and that was then reset, and that of a new one.
pub fn reset() -> String {
    let mut p = added(&[b"A"]);
    p.reset();
    format!("{} bytes of patterns", p.memory_usage() - Patterns::new().memory_usage())
}
