//! Shows links and BGP-LS runs: every element, who gets what and why, and the exports. What is
//! shown of answers is what the proved library says; the rest is read from the bytes.
pub mod dump;
pub mod elements;
pub mod fates;
pub mod input;
pub mod json;
pub mod layout;
pub mod library;
pub mod listing;
pub mod names;
pub mod options;
pub mod pcap;
pub mod reasons;
pub mod refusals;
pub mod report;
pub mod show;
pub mod table;
pub mod text;
pub mod values;
pub mod walker;
