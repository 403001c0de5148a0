//! Writes a list of the Rust's answers for the program `test_answers`.
use crate::random::Random;
use crate::{books, ours, ways, Rust};

/// How many answers are kept.
const ENTRIES: usize = 3000;

/// Each entry is the length of a job in two bytes, low byte first, a place in two, a searcher's number, a mask count, the
/// number that is answered, and the twelve bytes that are written (zeros where none are), and then the job. At most one entry
/// in two has no hit.
pub fn record(seed: u64, path: &str) {
    let mut random = Random::new(seed);
    let mut out: Vec<u8> = vec![];
    let (mut hits, mut slims, mut entries) = (0, 0, 0);
    while entries < ENTRIES {
        let (case, places) = books::case(&mut random);
        let job = case.job();
        // mostly small jobs, so that the list is short
        if job.len() > 160 && !random.one_in(if job.len() < 600 { 6 } else { 60 }) || job.len() > 9000 {
            continue;
        }
        let rust = Rust::new(case.longest, &case.patterns);
        let ways: Vec<_> = ways(case.shortest()).collect();
        for _ in 0..3 {
            let place = if random.one_in(2) { 0 } else { *random.pick(&places) };
            let way = if random.one_in(2) { *ways.last().unwrap() } else { *random.pick(&ways) };
            let (hit, slim) = rust.find(way, &case.text, place);
            if entries == ENTRIES || hit.is_none() && (entries - hits) * 2 > entries {
                continue;
            }
            out.extend((job.len() as u16).to_le_bytes());
            out.extend((place as u16).to_le_bytes());
            out.extend([way.searcher as u8, way.masks as u8, if hit.is_some() { 0 } else { 100 }]);
            let (id, start, end) = hit.unwrap_or((0, 0, 0));
            for n in [id, start, end] {
                out.extend((n as u32).to_le_bytes());
            }
            out.extend(&job);
            entries += 1;
            hits += hit.is_some() as usize;
            slims += slim as usize;
            assert_eq!(ours::find(&job, place, way.searcher, way.masks), hit.ok_or(100));
        }
    }
    std::fs::write(path, &out).unwrap();
    println!("recorded: seed {seed}, {entries} answers, {hits} hits, {slims} by Slim, {} bytes", out.len());
}
