//! Compares the find of the static library with the searchers of the Rust crate, and its refusals with a model.
//!
//!   compare [--seed N] [--finds N] [--record FILE]
//!
//! Within the limits id, start and end are compared: the plain searcher and the rolling hash with `RabinKarp::find_at`, the
//! mask searcher with `Slim::find` of as many masks over 128 bits where enough of the text is left for it, else with
//! `RabinKarp::find_at`. A disagreement is made smaller and printed, and the program ends with 1.

mod books;
mod damage;
mod differences;
mod exhaustive;
#[path = "../ours.rs"]
mod ours;
#[path = "../random.rs"]
mod random;
mod recorded;

use random::Random;
use reference::{Book, Hit, Rolling, Slim128};

/// Patterns, their kind and a text.
#[derive(Clone)]
pub struct Case {
    pub longest: bool,
    pub patterns: Vec<Vec<u8>>,
    pub text: Vec<u8>,
}

impl Case {
    fn job(&self) -> Vec<u8> {
        ours::job(self.longest, &self.patterns, &self.text)
    }

    fn shortest(&self) -> usize {
        self.patterns.iter().map(|p| p.len()).min().unwrap()
    }
}

/// Which searcher, with how many masks.
#[derive(Clone, Copy, Debug, PartialEq)]
pub struct Way {
    pub searcher: u32,
    pub masks: usize,
}

/// The ways in which a book may be searched.
fn ways(shortest: usize) -> impl Iterator<Item = Way> {
    let masks = (1..=shortest.min(4)).map(|masks| Way { searcher: 2, masks });
    [0, 1].into_iter().map(|searcher| Way { searcher, masks: 0 }).chain(masks)
}

/// The Rust's searchers over one book.
pub struct Rust {
    rolling: Rolling,
    slim: Vec<Slim128>,
}

impl Rust {
    pub fn new(longest: bool, patterns: &[Vec<u8>]) -> Rust {
        let book = Book::new(longest, patterns);
        let shortest = patterns.iter().map(|p| p.len()).min().unwrap();
        Rust {
            rolling: Rolling::new(&book),
            slim: (1..=shortest.min(4)).map(|c| Slim128::new(&book, c)).collect(),
        }
    }

    /// The answer, and whether the mask searcher gave it.
    pub fn find(&self, way: Way, text: &[u8], place: usize) -> (Hit, bool) {
        if way.searcher == 2 {
            if let Some(hit) = self.slim[way.masks - 1].find(text, place) {
                return (hit, true);
            }
        }
        (self.rolling.find(text, place), false)
    }
}

#[derive(Default)]
pub struct Counts {
    pub books: usize,
    pub finds: usize,
    pub slim: usize,
    pub hits: usize,
}

fn same(ours: ours::Answer, theirs: Hit) -> bool {
    ours == theirs.ok_or(100)
}

/// Compares one text from some places on, in every way; the way and place of the first disagreement.
fn compare(rust: &Rust, case: &Case, places: impl Iterator<Item = usize>, counts: &mut Counts) -> Option<(Way, usize)> {
    let job = case.job();
    counts.books += 1;
    for place in places {
        for way in ways(case.shortest()) {
            let (theirs, slim) = rust.find(way, &case.text, place);
            counts.finds += 1;
            counts.slim += slim as usize;
            counts.hits += theirs.is_some() as usize;
            if !same(ours::find(&job, place, way.searcher, way.masks), theirs) {
                return Some((way, place));
            }
        }
    }
    None
}

fn disagrees(case: &Case, way: Way, place: usize) -> bool {
    if case.patterns.is_empty() || place > case.text.len() || way.masks > case.shortest() || case.shortest() == 0 {
        return false;
    }
    let (theirs, _) = Rust::new(case.longest, &case.patterns).find(way, &case.text, place);
    !same(ours::find(&case.job(), place, way.searcher, way.masks), theirs)
}

/// Takes patterns, bytes of patterns and bytes of the text away for as long as the two still disagree.
fn shrink(mut case: Case, way: Way, mut place: usize) -> (Case, usize) {
    loop {
        let mut tries: Vec<(Case, usize)> = vec![];
        for i in 0..case.patterns.len() {
            let mut less = case.clone();
            less.patterns.remove(i);
            tries.push((less, place));
            let mut less = case.clone();
            less.patterns[i].pop();
            tries.push((less, place));
        }
        for i in 0..case.text.len() {
            let mut less = case.clone();
            less.text.remove(i);
            tries.push((less, if i < place { place - 1 } else { place }));
        }
        match tries.into_iter().find(|(c, p)| disagrees(c, way, *p)) {
            Some((c, p)) => (case, place) = (c, p),
            None => return (case, place),
        }
    }
}

/// Prints a disagreement in its smallest form and ends the program.
fn fail(case: Case, way: Way, place: usize) -> ! {
    let (case, place) = shrink(case, way, place);
    let (theirs, _) = Rust::new(case.longest, &case.patterns).find(way, &case.text, place);
    let show = |b: &[u8]| b.escape_ascii().to_string();
    println!("DISAGREEMENT: {} {:?}, text {:?}, place {place}, {way:?}", if case.longest { "longest" } else { "first" },
        case.patterns.iter().map(|p| show(p)).collect::<Vec<_>>(), show(&case.text));
    println!("  ours {:?}, the Rust {theirs:?}", ours::find(&case.job(), place, way.searcher, way.masks));
    println!("  job {}", case.job().iter().map(|b| format!("{b:02x}")).collect::<String>());
    std::process::exit(1)
}

fn check(rust: &Rust, case: &Case, places: impl Iterator<Item = usize>, counts: &mut Counts) {
    if let Some((way, place)) = compare(rust, case, places, counts) {
        fail(case.clone(), way, place)
    }
}

fn option(args: &[String], name: &str) -> Option<String> {
    args.iter().position(|a| a == name).map(|i| args[i + 1].clone())
}

fn main() {
    let args: Vec<String> = std::env::args().collect();
    let seed: u64 = option(&args, "--seed").map_or(1, |s| s.parse().unwrap());
    if let Some(path) = option(&args, "--record") {
        return recorded::record(seed, &path);
    }
    let finds: usize = option(&args, "--finds").map_or(1_000_000, |s| s.parse().unwrap());
    let mut small = Counts::default();
    exhaustive::run(&mut small);
    let mut counts = Counts::default();
    let mut random = Random::new(seed);
    while counts.finds < finds {
        let (case, places) = books::case(&mut random);
        check(&Rust::new(case.longest, &case.patterns), &case, places.into_iter(), &mut counts);
    }
    let damaged = damage::run(&mut random, finds / 5);
    let shown = differences::run();
    for (name, c) in [("exhaustive", &small), ("random", &counts)] {
        println!("{name}: {} texts, {} finds, {} of them by Slim, {} hits: no disagreement", c.books, c.finds, c.slim, c.hits);
    }
    println!("damaged jobs: {damaged} calls as the model says");
    println!("compare: seed {seed}, {} finds equal, {damaged} calls as the model says, {shown} differences as listed, 0 disagreements",
        small.finds + counts.finds);
}
