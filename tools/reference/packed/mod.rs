// The searchers, and what stands in for the modules that they import.
pub(crate) mod api;
pub(crate) mod ext;
pub(crate) mod pattern;
pub(crate) mod rabinkarp;
pub(crate) mod teddy;
pub(crate) mod vector;
