//! Jobs with faults, and calls out of order, against a model of the refusals.
use crate::ours::{self, record};
use crate::random::Random;
use crate::books;

/// What a call is to answer, by the rules: each in its own case only, the first that is due.
pub fn model(job: &[u8], place: usize, searcher: u32, masks: usize, buffer: usize) -> Result<(usize, usize, usize), u32> {
    if searcher > 2 || buffer != 12 {
        return Err(101);
    }
    if job.len() > 65536 {
        return Err(10);
    }
    let mut longest = false;
    let mut patterns: Vec<&[u8]> = vec![];
    let mut rest = job;
    let mut text = None;
    while !rest.is_empty() {
        if rest.len() < 4 {
            return Err(11);
        }
        let size = rest[2] as usize + 256 * rest[3] as usize;
        if rest.len() < 4 + size {
            return Err(11);
        }
        let body = &rest[4..4 + size];
        match &rest[..2] {
            b"PN" if size == 0 => return Err(1),
            b"PN" if patterns.len() == 1024 => return Err(2),
            b"PN" if patterns.iter().map(|p| p.len()).sum::<usize>() + size > 16384 => return Err(3),
            b"PN" => patterns.push(body),
            b"KF" | b"KL" if size > 0 => return Err(13),
            b"KF" => longest = false,
            b"KL" => longest = true,
            b"TX" => {
                text = Some(body);
                break;
            }
            _ => return Err(12),
        }
        rest = &rest[4 + size..];
    }
    let Some(shortest) = patterns.iter().map(|p| p.len()).min() else {
        return Err(4);
    };
    if searcher == 2 && !(1..=4.min(shortest)).contains(&masks) {
        return Err(5);
    }
    let text = text.ok_or(102u32)?;
    for start in place..=text.len() {
        let here = (0..patterns.len()).filter(|&i| text[start..].starts_with(patterns[i]));
        let best = if longest { here.rev().max_by_key(|&i| patterns[i].len()) } else { here.min() };
        if let Some(i) = best {
            return Ok((i, start, start + patterns[i].len()));
        }
    }
    Err(100)
}

/// Changes a job somewhere.
fn damage(random: &mut Random, job: &mut Vec<u8>) {
    match random.below(12) {
        0 => job.truncate(random.below(job.len() + 1)),
        1 | 2 if !job.is_empty() => {
            let i = random.below(job.len());
            job[i] = random.next() as u8;
        }
        3 if !job.is_empty() => {
            let i = random.below(job.len());
            job[i] ^= 1 << random.below(8);
        }
        4 => job.extend((0..random.below(9)).map(|_| 0)),
        _ => {
            // one more record, in front or behind
            let len = *random.pick(&[0, 0, 1, 2, 5, 20]);
            let bytes: Vec<u8> = (0..len).map(|_| random.next() as u8).collect();
            let mark = random.pick(&[b"PN", b"KF", b"KL", b"TX", b"Px", b"xN", b"pn"]);
            let mut more = vec![];
            record(&mut more, mark, &bytes);
            if random.one_in(2) {
                job.extend(more);
            } else {
                more.extend(job.iter());
                *job = more;
            }
        }
    }
}

/// A job at one of the bounds: full books, one more pattern or byte, the longest job, one byte more.
fn bounded(random: &mut Random) -> Vec<u8> {
    let mut job = vec![];
    match random.below(5) {
        0 => {
            for _ in 0..random.between(1022, 1026) {
                record(&mut job, b"PN", b"A");
            }
            // a full book refuses an empty pattern for being empty
            if random.one_in(2) {
                record(&mut job, b"PN", b"");
            }
        }
        1 => {
            record(&mut job, b"PN", &vec![b'A'; 16000]);
            record(&mut job, b"PN", &vec![b'A'; random.between(383, 385)]);
        }
        2 => record(&mut job, b"PN", &vec![b'A'; random.between(16383, 16386)]),
        3 => {
            record(&mut job, b"PN", b"AB");
            let text = random.between(65520, 65528);
            record(&mut job, b"TX", &vec![b'A'; text]);
            job.resize(random.between(65532, 65538), 0);
        }
        _ => {
            job.extend(vec![b'x'; random.between(65535, 65538)]);
        }
    }
    if random.one_in(2) {
        record(&mut job, b"TX", b"xABx");
    }
    job
}

fn fail(job: &[u8], call: (usize, u32, usize, usize), ours: String, model: String) -> ! {
    println!("DISAGREEMENT with the model: {ours} for {model}, place, searcher, masks, buffer {call:?}");
    println!("  job {}", job.iter().take(200).map(|b| format!("{b:02x}")).collect::<String>());
    std::process::exit(1)
}

/// One call, with a buffer of any length, every byte of which is looked at.
fn check(job: &[u8], place: usize, searcher: u32, masks: usize, buffer: usize) {
    let blank = vec![0xA5u8; buffer];
    let mut out = blank.clone();
    let code = ours::call(job, place, searcher, masks, &mut out);
    let want = model(job, place, searcher, masks, buffer);
    let (number, bytes) = match want {
        Ok((id, start, end)) => (0, [id, start, end].iter().flat_map(|n| (*n as u32).to_le_bytes()).collect()),
        Err(number) => (number, blank),
    };
    if (code, &out) != (number, &bytes) {
        fail(job, (place, searcher, masks, buffer), format!("{code} {out:02x?}"), format!("{number} {bytes:02x?}"));
    }
}

/// Many such calls, and how many.
pub fn run(random: &mut Random, calls: usize) -> usize {
    let mut done = 0;
    while done < calls {
        let mut job = if random.one_in(400) {
            bounded(random)
        } else {
            let (mut case, _) = books::case(random);
            case.patterns.truncate(8);
            case.text.truncate(60);
            case.job()
        };
        for _ in 0..random.below(4) {
            damage(random, &mut job);
        }
        for _ in 0..4 {
            let place = match random.below(8) {
                0 => usize::MAX - random.below(3),
                1 => random.next() as usize,
                _ => random.below(70),
            };
            let searcher = if random.one_in(16) { random.next() as u32 } else { random.below(4) as u32 };
            let masks = if random.one_in(16) { random.next() as usize } else { random.below(7) };
            let buffer = if random.one_in(8) { random.below(25) } else { 12 };
            check(&job, place, searcher, masks, buffer);
            done += 1;
        }
    }
    done
}
