//! What the tests and the benchmark are made of: an independent implementation of the scope, a corpus of strips, the
//! table of calls that is run over it, and an implementation for speed.

pub mod calls;
pub mod compare;
pub mod corpus;
pub mod fast;
pub mod lists;
pub mod parts;
pub mod plain;
pub mod random;
pub mod reference;
pub mod strips;
pub mod tunes;
