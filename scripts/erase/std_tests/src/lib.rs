//! All libraries and their tests, with Rattle's calls as they are: what `make test` compiles. It proves nothing.
#![allow(dead_code, non_upper_case_globals, unused_imports, unused_variables)]

pub mod rattle;

// MODULES
