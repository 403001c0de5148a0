//! Times whole calls: our `find` on a job, beside the Rust on the same job, which it reads, makes its searcher of and searches
//! too. Processor time of this thread, the best of some rounds in which both take turns.
//!
//!   bench [SECONDS]      seconds for each pair, 0.2 if not given
//!
//! Each line has the time of a whole call of both, their ratio, and of what is left without reading and making (the time of
//! the same call from the text's end on is taken away) the millions of bytes a second, and their ratio.

#[path = "../ours.rs"]
mod ours;
#[allow(dead_code)]
#[path = "../random.rs"]
mod random;

use random::Random;
use std::hint::black_box;

unsafe extern "C" {
    fn clock_gettime(clock: i32, time: *mut [i64; 2]) -> i32;
}

fn now() -> f64 {
    let mut time = [0; 2];
    assert_eq!(0, unsafe { clock_gettime(3, &mut time) });
    time[0] as f64 + time[1] as f64 / 1e9
}

/// Part numbers like DC-40-R and PX-1207-B, of 4 to 12 bytes, no two alike.
fn parts(random: &mut Random, count: usize) -> Vec<Vec<u8>> {
    let mut all: Vec<Vec<u8>> = vec![];
    while all.len() < count {
        let mut p: Vec<u8> = (0..random.between(1, 3)).map(|_| b'A' + random.below(26) as u8).collect();
        p.push(b'-');
        let top = *random.pick(&[100, 1000, 10000]);
        p.extend(random.below(top).to_string().bytes());
        if random.below(3) > 0 {
            p.extend([b'-', b'A' + random.below(26) as u8]);
        }
        if (4..=12).contains(&p.len()) && !all.contains(&p) {
            all.push(p);
        }
    }
    all
}

const WORDS: [&str; 12] = ["ORDER", "CONFIRMED", "PIECES", "DELIVERY", "WEEK", "PRICE", "NET", "WE", "THANK", "YOU", "FOR", "LINE"];

/// A text without a hit: printable bytes, or words, numbers and part numbers that are not listed.
fn text(random: &mut Random, patterns: &[Vec<u8>], prose: bool, len: usize) -> Vec<u8> {
    let mut t = vec![];
    while t.len() < len {
        match random.below(6) {
            _ if !prose => t.push(32 + random.below(95) as u8),
            0 => t.extend(format!("{} ", random.below(10000)).bytes()),
            1 => {
                t.extend([b'A' + random.below(26) as u8, b'A' + random.below(26) as u8, b'-']);
                t.extend(format!("{}-{} ", random.below(10000), (b'A' + random.below(26) as u8) as char).bytes());
            }
            _ => t.extend(format!("{} ", random.pick(&WORDS)).bytes()),
        }
    }
    t.truncate(len);
    let rolling = reference::Rolling::new(&reference::Book::new(false, patterns));
    while let Some((_, start, end)) = rolling.find(&t, 0) {
        t[start..end].fill(b'.');
    }
    t
}

/// Reads a job as the Rust's caller would: the kind, the patterns and the first text.
fn read(job: &[u8]) -> (bool, Vec<Vec<u8>>, &[u8]) {
    let (mut longest, mut patterns, mut rest) = (false, vec![], job);
    loop {
        let (mark, size) = (&rest[..2], rest[2] as usize + 256 * rest[3] as usize);
        let body = &rest[4..4 + size];
        match mark {
            b"PN" => patterns.push(body.to_vec()),
            b"KF" => longest = false,
            b"KL" => longest = true,
            _ => return (longest, patterns, body),
        }
        rest = &rest[4 + size..];
    }
}

/// Both sides of one comparison: what each takes for a whole call, from a place on.
struct Pair<'a> {
    ours: Box<dyn Fn(usize) + 'a>,
    rust: Box<dyn Fn(usize) + 'a>,
}

/// Seconds a turn, over a stretch of time.
fn stretch(seconds: f64, f: &dyn Fn()) -> f64 {
    let began = now();
    let (mut turns, mut step) = (0usize, 1usize);
    loop {
        for _ in 0..step {
            f();
        }
        turns += step;
        let t = now() - began;
        if t >= seconds {
            return t / turns as f64;
        }
        step = ((turns as f64 * seconds / 20.0 / t.max(1e-9)) as usize).clamp(1, 1 << 20);
    }
}

impl Pair<'_> {
    /// The best times of a whole call from 0 and from the end, of both sides.
    fn times(&self, seconds: f64, end: usize) -> [f64; 4] {
        const ROUNDS: usize = 5;
        let mut best = [f64::MAX; 4];
        for _ in 0..ROUNDS {
            let each = seconds / ROUNDS as f64 / 4.0;
            let calls: [&dyn Fn(); 4] = [&|| (self.ours)(0), &|| (self.rust)(0), &|| (self.ours)(end), &|| (self.rust)(end)];
            for (b, f) in best.iter_mut().zip(calls) {
                *b = b.min(stretch(each, f));
            }
        }
        best
    }
}

fn line(name: &str, count: usize, shape: &str, reach: usize, t: [f64; 4]) {
    let speed = |whole: f64, making: f64| reach as f64 / (whole - making).max(1e-9) / 1e6;
    let (ours, rust) = (speed(t[0], t[2]), speed(t[1], t[3]));
    println!("| {name} | {count} | {shape} | {:.1} | {:.1} | {:.2} | {ours:.0} | {rust:.0} | {:.2} |",
        t[0] * 1e6, t[1] * 1e6, t[0] / t[1], rust / ours);
}

fn main() {
    let seconds: f64 = std::env::args().nth(1).map_or(0.2, |s| s.parse().unwrap());
    println!("| searcher | patterns | text | ours, µs a call | Rust, µs a call | ratio | ours, MB/s | Rust, MB/s | ratio |");
    println!("|---|---|---|---|---|---|---|---|---|");
    for count in [8, 64, 600] {
        for prose in [false, true] {
            let mut random = Random::new(count as u64);
            let patterns = parts(&mut random, count);
            let used: usize = patterns.iter().map(|p| p.len() + 4).sum::<usize>() + 8;
            let none = text(&mut random, &patterns, prose, 65536 - used);
            let mut hit = none.clone();
            let middle = hit.len() / 2;
            let last = patterns.last().unwrap();
            hit[middle..middle + last.len()].copy_from_slice(last);
            for (text, with) in [(&none, "no hit"), (&hit, "a hit in the middle")] {
                let job = ours::job(false, &patterns, text);
                let reach = if with == "no hit" { text.len() } else { middle };
                let shape = format!("{}, {with}", if prose { "prose" } else { "random" });
                let shortest = patterns.iter().map(|p| p.len()).min().unwrap();
                let job = &job[..];
                let mine = |searcher: u32, masks: usize| -> Box<dyn Fn(usize) + '_> {
                    Box::new(move |at| { black_box(ours::find(black_box(job), at, searcher, masks)).ok(); })
                };
                let rolling = Pair { ours: mine(1, 0), rust: Box::new(|at| {
                    let (longest, patterns, text) = read(black_box(job));
                    black_box(reference::Rolling::new(&reference::Book::new(longest, &patterns)).find(text, at));
                }) };
                line("rolling hash, RabinKarp", count, &shape, reach, rolling.times(seconds, text.len()));
                for c in 1..=shortest.min(4) {
                    if with != "no hit" && c != 4 {
                        continue;
                    }
                    let bytes = Pair { ours: mine(2, c), rust: Box::new(move |at| {
                        let (longest, patterns, text) = read(black_box(job));
                        let book = reference::Book::new(longest, &patterns);
                        black_box(reference::SlimBytes::new(&book, c).find(text, at));
                    }) };
                    line(&format!("{c} masks, Slim over [u8; 16]"), count, &shape, reach, bytes.times(seconds, text.len()));
                    if c == 4 {
                        let lanes = Pair { ours: mine(2, c), rust: Box::new(move |at| {
                            let (longest, patterns, text) = read(black_box(job));
                            let book = reference_ssse3::Book::new(longest, &patterns);
                            black_box(reference_ssse3::Slim128::new(&book, c).find(text, at));
                        }) };
                        line("4 masks, Slim over 128 bits with ssse3", count, &shape, reach, lanes.times(seconds, text.len()));
                    }
                }
                if with == "no hit" {
                    let plain = Pair { ours: mine(0, 0), rust: mine(1, 0) };
                    line("plain, beside our rolling hash", count, &shape, reach, plain.times(seconds, text.len()));
                }
            }
        }
    }
}
