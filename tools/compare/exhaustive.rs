//! Every small book and text over two letters, and small texts around the edges of windows.
use crate::{check, Case, Counts, Rust};

/// Every word over the two letters with a length from `low` to `high`.
fn words(letters: [u8; 2], low: usize, high: usize) -> Vec<Vec<u8>> {
    let mut all = vec![];
    for len in low..=high {
        for bits in 0..1usize << len {
            all.push((0..len).map(|i| letters[bits >> i & 1]).collect());
        }
    }
    all
}

/// Books of one or two of the words, in each order, with a word twice too, under both kinds.
fn books(words: &[Vec<u8>]) -> Vec<(bool, Vec<Vec<u8>>)> {
    let mut all = vec![];
    for longest in [false, true] {
        for a in words {
            all.push((longest, vec![a.clone()]));
            for b in words {
                all.push((longest, vec![a.clone(), b.clone()]));
            }
        }
    }
    all
}

pub fn run(counts: &mut Counts) {
    // short texts, from every place
    for (longest, patterns) in books(&words(*b"ab", 1, 3)) {
        let rust = Rust::new(longest, &patterns);
        for text in words(*b"ab", 0, 5) {
            let n = text.len();
            check(&rust, &Case { longest, patterns: patterns.clone(), text }, 0..=n, counts);
        }
    }
    // every word of up to three letters behind blanks, so that it begins at every place around the edges of windows of
    // sixteen bytes, and before blanks, so that the tail's window ends at every place behind it. The letters `A` and `Q`
    // have one low nybble, the blank `!` has that too
    for (longest, patterns) in books(&words(*b"AQ", 1, 2)) {
        let rust = Rust::new(longest, &patterns);
        for word in words(*b"AQ", 1, 2) {
            for start in 0..=36 {
                for after in [0, 1, 2, 3, 13, 14, 15, 16, 17, 18, 19, 20] {
                    let mut text = vec![b'!'; start];
                    text.extend_from_slice(&word);
                    text.resize(text.len() + after, b'!');
                    let case = Case { longest, patterns: patterns.clone(), text };
                    check(&rust, &case, [0, start / 2, start].into_iter(), counts);
                }
            }
        }
    }
}
