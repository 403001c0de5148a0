pub(crate) mod int;
pub(crate) mod primitives;
pub(crate) mod search;
