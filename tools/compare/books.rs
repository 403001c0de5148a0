//! Random and hard books, texts and places within the limits.
use crate::random::Random;
use crate::Case;

const MAX_PATTERNS: usize = 1024;
const MAX_BYTES: usize = 16384;
const MAX_JOB: usize = 65536;

fn word(random: &mut Random, letters: &[u8], len: usize) -> Vec<u8> {
    (0..len).map(|_| *random.pick(letters)).collect()
}

/// The letters of a book: one, two or three, two with one low nybble or one high nybble, those of part numbers, or every byte.
fn alphabet(random: &mut Random) -> Vec<u8> {
    match random.below(7) {
        0 => b"a".to_vec(),
        1 => b"ab".to_vec(),
        2 => b"abc".to_vec(),
        3 => b"AQaq".to_vec(),
        4 => vec![0, 0x0F, 0xF0, 0xFF],
        5 => b"ABCDEFGHIJKLMNOPQRSTUVWXYZ0123456789-".to_vec(),
        _ => (0..=255).collect(),
    }
}

/// A pattern: a new word, or one made of another that is in, equal to it, a front of it, with more behind, or with one byte
/// changed.
fn pattern(random: &mut Random, letters: &[u8], made: &[Vec<u8>], low: usize, high: usize) -> Vec<u8> {
    if made.is_empty() || random.one_in(2) {
        let len = random.between(low, high);
        return word(random, letters, len);
    }
    let mut p = random.pick(made).clone();
    match random.below(4) {
        0 => {}
        1 => p.truncate(random.between(low, p.len())),
        2 => {
            let more = random.between(1, 3);
            p.extend(word(random, letters, more));
        }
        _ => {
            let i = random.below(p.len());
            p[i] = *random.pick(letters);
        }
    }
    p
}

/// How many patterns, and their lengths: mostly few and short ones, some about as long as the hash has bits, some full books.
fn patterns(random: &mut Random, letters: &[u8]) -> Vec<Vec<u8>> {
    let (count, low, high) = match random.below(60) {
        0 => (random.between(600, 1100), 1, 16),
        1..=3 => (random.between(30, 120), 1, 9),
        4..=8 => (random.between(1, 6), 61, 67),
        9 => (random.between(1, 4), 250, 310),
        10..=19 => (random.between(9, 24), 1, 6),
        20..=30 => (random.between(1, 9), 4, 7),
        31..=40 => (random.between(1, 9), 2, 5),
        _ => (random.between(1, 9), 1, 4),
    };
    let mut made: Vec<Vec<u8>> = vec![];
    let mut total = 0;
    while made.len() < count.min(MAX_PATTERNS) {
        let p = pattern(random, letters, &made, low, high);
        if total + p.len() > MAX_BYTES {
            break;
        }
        total += p.len();
        made.push(p);
    }
    made
}

/// Letters with patterns and fronts of patterns among them.
fn text(random: &mut Random, letters: &[u8], patterns: &[Vec<u8>], len: usize) -> Vec<u8> {
    let mut text = vec![];
    let blank = *random.pick(&[b'.', 0, 0xFF, letters[0]]);
    let thin = random.one_in(2);
    while text.len() < len {
        match random.below(if thin { 24 } else { 4 }) {
            0 => text.extend(random.pick(patterns)),
            1 => {
                let p = random.pick(patterns);
                text.extend_from_slice(&p[..random.below(p.len())]);
            }
            2 => text.push(*random.pick(letters)),
            _ => text.push(blank),
        }
    }
    text.truncate(len);
    text
}

/// A book, a text and the places to search from: the first, around the edges of windows, around the end, and any.
pub fn case(random: &mut Random) -> (Case, Vec<usize>) {
    let letters = alphabet(random);
    let patterns = patterns(random, &letters);
    let used: usize = patterns.iter().map(|p| p.len() + 4).sum::<usize>() + 8;
    let want = match random.below(100) {
        0 => random.between(2000, 30000),
        1..=5 => random.between(200, 1000),
        6..=30 => random.between(0, 22),
        _ => random.between(15, 110),
    };
    let len = want.min(MAX_JOB - used);
    let text = text(random, &letters, &patterns, len);
    let mut places = vec![0];
    if patterns.len() > 200 || len > 1500 {
        places.push(random.between(0, len));
    } else {
        places.extend([1, 15, 16, 17, 31, 32, 33, 48, 64].into_iter().filter(|p| *p <= len && random.one_in(2)));
        places.extend((0..=20).filter(|k| *k <= len && random.one_in(3)).map(|k| len - k));
        places.push(random.between(0, len));
    }
    let longest = random.one_in(2);
    (Case { longest, patterns, text }, places)
}
