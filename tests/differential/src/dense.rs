//! Links with long exports: many applications with sets of their own, and many SRLGs.

use crate::generator::{element, mask_of};
use crate::random::Random;
use crate::reference::link::Link;

/// One of three styles.
pub fn dense_link(random: &mut Random) -> Link {
    let length = 4 * random.between(0, 256);
    let c = random.bytes(length);
    match random.below(3) {
        0 => Link { a: one_by_one(random), b: mixed_srlgs(random), c },
        1 => Link { a: halves(random), b: mixed_srlgs(random), c },
        _ => Link {
            a: longest_sets(random),
            b: (0..8).flat_map(|_| srlg_tlv(&[0, 0], false, random)).collect(),
            c,
        },
    }
}

/// The two length bytes and the mask of one application: 0 to 63 standard, 64 to 95 user, from there
/// on a retired bit.
fn masks_of_one(number: u8) -> Vec<u8> {
    let mask = mask_of(&[number % 64]);
    let mut bytes = vec![0, 0];
    bytes[usize::from(number / 64)] = mask.len() as u8;
    bytes.extend(mask);
    bytes
}

/// The length bytes and masks of all applications, retired bits too.
fn masks_of_all() -> Vec<u8> {
    let mut bytes = vec![8, 8];
    bytes.extend([255; 16]);
    bytes
}

/// An ASLA with these masks and this list.
fn asla(mut masks: Vec<u8>, list: &[u8]) -> Vec<u8> {
    masks.extend_from_slice(list);
    element(16, &masks)
}

/// Many applications in any order, each with a metric, which some share; a few with L.
fn one_by_one(random: &mut Random) -> Vec<u8> {
    let mut numbers: Vec<u8> = (0..128).collect();
    random.shuffle(&mut numbers);
    numbers.truncate(random.between(20, 128));
    let mut parts = Vec::new();
    for (at, number) in numbers.iter().enumerate() {
        let mut masks = masks_of_one(*number);
        if random.percent(5) {
            masks[0] |= 128;
        }
        let metric = [0, random.pick(&[0, 1]), (at % 100) as u8];
        parts.push(asla(masks, &element(18, &metric)));
    }
    as_many_as_fit(parts)
}

/// For each of some kinds, one half of all applications has one value, the others another one.
fn halves(random: &mut Random) -> Vec<u8> {
    let mut kinds =
        [(3, 4), (18, 3), (33, 4), (34, 8), (35, 4), (36, 4), (37, 4), (38, 4), (39, 4), (14, 8)];
    random.shuffle(&mut kinds);
    let count = random.between(2, 10);
    let mut parts = Vec::new();
    let mut others = Vec::new();
    for (kind, length) in &kinds[..count] {
        let mut masks = vec![8, 8];
        masks.extend(random.bytes(16));
        let value = random.bytes(*length);
        let mut other = value.clone();
        other[length - 1] ^= 1;
        parts.push(asla(masks, &element(*kind, &value)));
        others.extend(element(*kind, &other));
    }
    if random.percent(80) {
        parts.push(asla(masks_of_all(), &others));
    } else {
        parts.push(asla(vec![0, 0], &others));
    }
    as_many_as_fit(parts)
}

/// Every application has a set of its own, as long as can be.
fn longest_sets(random: &mut Random) -> Vec<u8> {
    let mut parts = vec![asla(masks_of_all(), &element(14, &random.bytes(232)))];
    let mut shared = element(34, &random.bytes(8));
    for kind in [3, 33, 35, 36, 37, 38, 39] {
        shared.extend(element(kind, &random.bytes(4)));
    }
    parts.push(asla(masks_of_all(), &shared));
    for number in 1..96 {
        parts.push(asla(masks_of_one(number), &element(18, &[0, 1, number])));
    }
    random.shuffle(&mut parts);
    as_many_as_fit(parts)
}

/// A 238 with these length bytes and masks, and as many values as it holds.
fn srlg_tlv(masks: &[u8], few: bool, random: &mut Random) -> Vec<u8> {
    let mut value = random.bytes(7);
    value.extend_from_slice(masks);
    value.extend([10, 4, 8, 0, 0, 0, 1, 0, 0, 0, 2]);
    while value.len() + 4 <= 255 {
        if few {
            value.extend([0, 0, 0, random.below(40) as u8]);
        } else {
            value.extend(random.bytes(4));
        }
    }
    element(238, &value)
}

/// Full 238s: general ones, some for many applications, some for any.
fn mixed_srlgs(random: &mut Random) -> Vec<u8> {
    let mut parts = Vec::new();
    for _ in 0..random.between(0, 9) {
        let masks = match random.below(3) {
            0 => vec![0, 0],
            1 => masks_of_all(),
            _ => {
                let mut masks = vec![4, 2];
                masks.extend(random.bytes(6));
                masks
            }
        };
        let few = random.percent(30);
        parts.push(srlg_tlv(&masks, few, random));
    }
    as_many_as_fit(parts)
}

/// As many of the parts as fit in 2,048 bytes.
fn as_many_as_fit(parts: Vec<Vec<u8>>) -> Vec<u8> {
    let mut bytes = Vec::new();
    for part in parts {
        if bytes.len() + part.len() <= 2048 {
            bytes.extend(part);
        }
    }
    bytes
}
