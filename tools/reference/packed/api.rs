// Stands in for the module that chooses a searcher: only the kind is asked of it.
#[derive(Clone, Copy, Debug, Default, Eq, PartialEq)]
pub enum MatchKind {
    #[default]
    LeftmostFirst,
    LeftmostLongest,
}
