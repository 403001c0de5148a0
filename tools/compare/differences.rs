//! Inputs at which the Rust answers something else, each with what both sides answer.
use crate::ours::{self, record};
use reference::differences as rust;

fn job(records: &[(&[u8; 2], &[u8])]) -> Vec<u8> {
    let mut job = vec![];
    for (mark, bytes) in records {
        record(&mut job, mark, bytes);
    }
    job
}

fn told(job: &[u8], place: usize, searcher: u32, masks: usize) -> String {
    match ours::find(job, place, searcher, masks) {
        Ok((id, start, end)) => format!("id {id}, {start} to {end}"),
        Err(100) => "none".into(),
        Err(n) => format!("refusal {n}"),
    }
}

/// Prints each, and ends the program where one is not as listed; how many there are.
pub fn run() -> usize {
    std::panic::set_hook(Box::new(|_| {}));
    let a_in_a = job(&[(b"PN", b"A"), (b"TX", b"A")]);
    let long = vec![b'A'; 16385];
    let mut many = vec![];
    for _ in 0..1025 {
        record(&mut many, b"PN", b"A");
    }
    record(&mut many, b"TX", b"A");
    // the input, our answer, the Rust's, and what both are to be
    let list = [
        ("`A` in `A` from the place 2^64 - 1", told(&a_in_a, usize::MAX, 1, 0), rust::place(usize::MAX), "none", "panic"),
        ("longest set before `A` and `AB` are entered, `AB`", told(&job(&[(b"KL", b""), (b"PN", b"A"), (b"PN", b"AB"), (b"TX", b"AB")]), 0, 1, 0), rust::kind_before(), "id 1, 0 to 2", "id 0, 0 to 1"),
        ("a book without patterns, `A`", told(&job(&[(b"TX", b"A")]), 0, 1, 0), rust::no_patterns(), "refusal 4", "panic"),
        ("an empty pattern", told(&job(&[(b"PN", b""), (b"TX", b"A")]), 0, 1, 0), rust::empty_pattern(), "refusal 1", "panic"),
        ("1,025 patterns `A`, `A`", told(&many, 0, 1, 0), rust::many(1025), "refusal 2", "id 0, 0 to 1"),
        ("a pattern of 16,385 bytes in itself", told(&job(&[(b"PN", &long), (b"TX", &long)]), 0, 1, 0), rust::long(16385), "refusal 3", "id 0, 0 to 16385"),
        ("two masks for the pattern `A`", told(&a_in_a, 0, 2, 2), rust::masks_above(), "refusal 5", "panic"),
        ("lanes 1 to 16 shuffled by the index 16: lane 0", "0".into(), rust::shuffled(16), "0", "1"),
        ("lanes 1 to 16 shuffled by the index 127: lane 0", "0".into(), rust::shuffled(127), "0", "16"),
        ("bytes of patterns after `A` was added and the list reset", "no reset".into(), rust::reset(), "no reset", "1 bytes of patterns"),
    ];
    let _ = std::panic::take_hook();
    for (input, ours, theirs, want, rust_wants) in &list {
        println!("difference: {input}: ours {ours}, the Rust {theirs}");
        if ours != want || theirs != rust_wants {
            println!("  is not as listed: {want}, {rust_wants}");
            std::process::exit(1);
        }
    }
    list.len()
}
