//! What A and B share: elements of one type byte and one length byte, and the two masks.

use super::application::Masks;
use super::reply::{Fault, Refusal, Run};

/// A framed element: its type, its first byte, and where its value begins and ends.
#[derive(Clone, Copy, PartialEq, Eq, Debug)]
pub struct Element {
    pub kind: u8,
    pub start: usize,
    pub value: usize,
    pub end: usize,
}

/// Frames the element at `start` in a holder that ends at `holder_end`.
pub fn frame(bytes: &[u8], start: usize, holder_end: usize, run: Run) -> Result<Element, Refusal> {
    if holder_end - start < 2 {
        return Err(Refusal::at(Fault::HeaderCut, run, start));
    }
    let value = start + 2;
    let end = value + usize::from(bytes[start + 1]);
    if end > holder_end {
        return Err(Refusal::at(Fault::ValueCut, run, start));
    }
    Ok(Element { kind: bytes[start], start, value, end })
}

/// The two bytes in front of the masks.
#[derive(Clone, Copy, PartialEq, Eq, Debug)]
pub struct MaskHeader {
    pub legacy_flag: bool,
    pub standard_length: usize,
    pub user_length: usize,
}

/// First byte: the L-flag and the length of the SABM. Second byte: a reserved bit, ignored, and the
/// length of the UDABM.
pub fn mask_header(bytes: &[u8], at: usize) -> MaskHeader {
    MaskHeader {
        legacy_flag: bytes[at] >= 128,
        standard_length: usize::from(bytes[at] % 128),
        user_length: usize::from(bytes[at + 1] % 128),
    }
}

impl MaskHeader {
    /// Either length above 8: the advertisement is ignored unread.
    pub fn too_long(&self) -> bool {
        self.standard_length > 8 || self.user_length > 8
    }

    /// L set with both lengths 0: the advertisement is ignored.
    pub fn legacy_flag_for_nobody(&self) -> bool {
        self.legacy_flag && self.standard_length == 0 && self.user_length == 0
    }

    /// The masks, which begin at `at`.
    pub fn masks(&self, bytes: &[u8], at: usize) -> Masks {
        let middle = at + self.standard_length;
        Masks::sent(&bytes[at..middle], &bytes[middle..middle + self.user_length])
    }
}
