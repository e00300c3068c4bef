//! The reference against the worked examples of the paper and of the RFCs, and the comparison
//! against libraries that are known to be right or wrong.

mod bench;
mod comparison;
mod general_for_rsvp_te;
mod limits;
mod places;
mod reader;
mod retired;
mod settled;
mod twice;
mod why;

use crate::reference::application::Asker;
use crate::reference::link::{ask, Link};
use crate::reference::reply::{Answer, Reading, Refusal, Run};

/// Bytes of text such as `12 03 00`.
pub fn bytes(text: &str) -> Vec<u8> {
    text.split_whitespace().map(|pair| u8::from_str_radix(pair, 16).unwrap()).collect()
}

pub const M: &str = "12 03 00 00 0A ";
pub const S: &str = "10 08 01 00 40 12 03 00 00 14 ";
pub const G: &str = "10 07 00 00 12 03 00 00 1E ";
pub const Z: &str = "10 03 81 00 40 ";

pub const RSVP_TE: Asker = Asker::Standard(0);
pub const SR_POLICY: Asker = Asker::Standard(1);
pub const LFA: Asker = Asker::Standard(2);

/// A link with A alone.
pub fn link_a(parts: &[&str]) -> Link {
    Link { a: bytes(&parts.concat()), ..Link::default() }
}

/// A link of three runs.
pub fn link(a: &str, b: &str, c: &str) -> Link {
    Link { a: bytes(a), b: bytes(b), c: bytes(c) }
}

/// The TE metric that a link answers.
pub fn metric(link: &Link, asker: Asker) -> Option<u64> {
    match ask(link, asker, 1092, 0) {
        Ok(Answer::Absent) => None,
        Ok(Answer::Found(Reading::Number(metric))) => Some(metric),
        other => panic!("{other:?}"),
    }
}

/// The SRLGs that a link answers; none if absent.
pub fn srlgs(link: &Link, asker: Asker) -> Vec<u32> {
    match ask(link, asker, 1096, usize::MAX) {
        Ok(Answer::Absent) => Vec::new(),
        Ok(Answer::Found(Reading::Srlgs(list))) => list,
        other => panic!("{other:?}"),
    }
}

/// Number, run and offset of a refusal.
pub fn told(refusal: Refusal) -> (u8, Run, usize) {
    (refusal.fault.number(), refusal.run, refusal.offset)
}

/// The refusal of a question about the metric.
pub fn refusal(link: &Link) -> (u8, Run, usize) {
    told(ask(link, SR_POLICY, 1092, 0).unwrap_err())
}

/// A 238 with these bytes of lengths and masks, a local identifier, and values.
pub fn srlg_tlv(masks: &str, values: &str) -> String {
    let value = format!("01 02 03 04 05 06 00 {masks} 0A 04 08 00 00 00 01 00 00 00 02 {values}");
    format!("EE {:02X} {value} ", bytes(&value).len())
}
