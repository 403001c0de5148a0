pub(crate) mod generic;
