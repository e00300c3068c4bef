//! The reference: the papers, document 01 and of document 02 E2, E5 and E12, as plain functions over
//! vectors, one for each rule.
//!
//! It was written from the papers and the RFC texts alone, without a look at the library; `why` from
//! the table of rules in the header.

pub mod application;
pub mod bgp_ls;
pub mod export;
pub mod isis;
pub mod kinds;
pub mod link;
pub mod meaning;
pub mod reply;
pub mod side_a;
pub mod side_b;
pub mod why;
