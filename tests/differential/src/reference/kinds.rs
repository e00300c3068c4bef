//! The fourteen kinds.

use super::reply::{Fault, Reading, Refusal, Run};

pub const MAXIMUM_LINK_BANDWIDTH: u16 = 1089;
pub const MAXIMUM_RESERVABLE_BANDWIDTH: u16 = 1090;
pub const UNRESERVED_BANDWIDTH: u16 = 1091;
pub const TE_METRIC: u16 = 1092;
pub const SRLG: u16 = 1096;
pub const ASLA: u16 = 1122;
pub const EXTENDED_GROUP: u16 = 1173;

/// The fourteen code points, ascending.
pub const CODES: [u16; 14] =
    [1088, 1089, 1090, 1091, 1092, 1096, 1114, 1115, 1116, 1117, 1118, 1119, 1120, 1173];

/// 1089, 1090 and 1091 belong to the link.
pub const LINK_CODES: [u16; 3] = [1089, 1090, 1091];

/// The other eleven belong to applications.
pub const APPLICATION_CODES: [u16; 11] =
    [1088, 1092, 1096, 1114, 1115, 1116, 1117, 1118, 1119, 1120, 1173];

/// A known value: its code, and its place in the run.
#[derive(Clone, Copy, PartialEq, Eq, Debug)]
pub struct Attribute {
    pub code: u16,
    pub offset: usize,
    pub length: usize,
}

/// The code of an IS-IS type, in A or in the list of an ASLA; none for an unknown type.
pub fn code_of_isis_type(kind: u8) -> Option<u16> {
    match kind {
        3 => Some(1088),
        9 => Some(1089),
        10 => Some(1090),
        11 => Some(1091),
        18 => Some(1092),
        33 => Some(1114),
        34 => Some(1115),
        35 => Some(1116),
        36 => Some(1117),
        37 => Some(1118),
        38 => Some(1119),
        39 => Some(1120),
        14 => Some(1173),
        _ => None,
    }
}

/// Adds the kind of the element that begins at `start` to a list that is read. Its own checks are
/// behind it; if the kind stands in the list already, it is refused by 8 (E5).
pub fn add_to_list(
    list: &mut Vec<Attribute>,
    one: Attribute,
    run: Run,
    start: usize,
) -> Result<(), Refusal> {
    if list.iter().any(|other| other.code == one.code) {
        return Err(Refusal::at(Fault::KindTwice, run, start));
    }
    list.push(one);
    Ok(())
}

/// May a value of this kind have this length in A?
pub fn isis_length_is_right(code: u16, length: usize) -> bool {
    match code {
        1091 => length == 32,
        1092 => length == 3,
        1115 => length == 8,
        1173 => (4..=252).contains(&length) && length % 4 == 0,
        _ => length == 4,
    }
}

/// May a value of this kind have this length in a BGP-LS run?
pub fn bgp_ls_length_is_right(code: u16, length: usize) -> bool {
    match code {
        1091 => length == 32,
        1096 => length % 4 == 0,
        1115 => length == 8,
        1173 => length != 0 && length % 4 == 0,
        _ => length == 4,
    }
}

/// The value bytes as BGP-LS has them: the TE metric of A gets a zero in front.
pub fn bgp_ls_value(run: &[u8], attribute: &Attribute) -> Vec<u8> {
    let bytes = &run[attribute.offset..attribute.offset + attribute.length];
    let mut value = Vec::new();
    if attribute.code == TE_METRIC && bytes.len() == 3 {
        value.push(0);
    }
    value.extend_from_slice(bytes);
    value
}

/// All the bytes as one big-endian number.
pub fn big_endian(bytes: &[u8]) -> u64 {
    let mut number = 0;
    for &byte in bytes {
        number = number * 256 + u64::from(byte);
    }
    number
}

/// Groups of four bytes as big-endian numbers.
pub fn numbers_of_four(bytes: &[u8]) -> Vec<u32> {
    bytes.chunks_exact(4).map(|four| big_endian(four) as u32).collect()
}

/// Ascending, repeats dropped.
pub fn ascending_and_different(mut srlgs: Vec<u32>) -> Vec<u32> {
    srlgs.sort();
    srlgs.dedup();
    srlgs
}

/// How a value of a kind other than SRLG is read.
pub fn reading(run: &[u8], attribute: &Attribute) -> Reading {
    let bytes = &run[attribute.offset..attribute.offset + attribute.length];
    match attribute.code {
        1088 | 1092 | 1114 | 1116 | 1117 => Reading::Number(big_endian(bytes)),
        1115 => Reading::TwoNumbers(big_endian(&bytes[..4]), big_endian(&bytes[4..])),
        1089 | 1090 | 1118 | 1119 | 1120 => Reading::Bandwidth(big_endian(bytes) as u32),
        1091 | 1173 => Reading::Place { offset: attribute.offset, length: attribute.length },
        other => panic!("{other} is not read from one place"),
    }
}
