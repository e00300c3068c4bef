//! A differential test of the library: a second implementation of the papers (documents 01 and 02),
//! written without regard to the first, a generator of links and runs, and a comparison of every answer.

pub mod calls;
pub mod compare;
pub mod coverage;
pub mod dense;
pub mod expected;
pub mod generator;
pub mod limits;
pub mod mutate;
pub mod random;
pub mod reference;
pub mod repeats;
pub mod runs;
pub mod session;
pub mod shapes;
pub mod shrink;
pub mod twins;

#[cfg(test)]
mod tests;
