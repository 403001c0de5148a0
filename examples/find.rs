//! Searches the first text of a job, as a Rust program does that links the static library:
//!
//!     examples/find JOB PLACE
//!
//! prints the hits from PLACE on, each with its start, end and id, by one call after another.
#[path = "../tools/ours.rs"]
#[allow(dead_code)]
mod ours;

fn main() {
    let mut args = std::env::args().skip(1);
    let path = args.next().expect("a job");
    let mut place = args.next().map_or(0, |at| at.parse().expect("a place"));
    let job = std::fs::read(path).expect("the job cannot be read");
    loop {
        // searcher 1 is the rolling hash, which has no masks
        match ours::find(&job, place, 1, 0) {
            Ok((id, start, end)) => {
                println!("{start} {end} {id}");
                place = end;
            }
            Err(100) => break,
            Err(number) => {
                eprintln!("refused: {number}");
                std::process::exit(1);
            }
        }
    }
}
