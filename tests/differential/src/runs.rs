//! BGP-LS runs, made at random: such as exporters write, and such as none does.

use crate::generator::{masks_of, once, repeat, rubbish, some_of, Scene};
use crate::random::Random;
use crate::reference::kinds::{APPLICATION_CODES, CODES, SRLG};

/// Codes that are no kinds; those beside the kinds among them.
const UNKNOWN: [u16; 20] = [
    0, 3, 256, 1028, 1034, 1087, 1093, 1094, 1095, 1097, 1098, 1113, 1121, 1123, 1172, 1174, 1344,
    4400, 25604, 65535,
];

/// A TLV of two bytes of type and two of length.
pub fn tlv(code: u16, value: &[u8]) -> Vec<u8> {
    let mut bytes = code.to_be_bytes().to_vec();
    bytes.extend((value.len() as u16).to_be_bytes());
    bytes.extend_from_slice(value);
    bytes
}

/// A TLV of a kind, or of an unknown code; where it is odd, of a wrong length.
fn attribute(scene: &Scene, random: &mut Random) -> Vec<u8> {
    if random.percent(8) {
        let length = random.between(0, 9);
        return tlv(random.pick(&UNKNOWN), &random.bytes(length));
    }
    let code = random.pick(&CODES);
    if scene.odd(random) && random.percent(4) {
        let length = random.pick(&[0, 1, 2, 3, 4, 5, 6, 7, 8, 9, 31, 32, 33]);
        return tlv(code, &scene.value(random, length));
    }
    match code {
        1091 => tlv(code, &scene.value(random, 32)),
        1092 if random.percent(60) => {
            let mut value = vec![0];
            value.extend(scene.value(random, 3));
            tlv(code, &value)
        }
        1096 => {
            let mut value = Vec::new();
            for _ in 0..random.pick(&[0, 1, 1, 2, 2, 3, 4, 8]) {
                value.extend(scene.srlg(random));
            }
            tlv(code, &value)
        }
        1115 => tlv(code, &scene.value(random, 8)),
        1173 => {
            let words =
                if random.percent(5) { random.between(1, 100) } else { random.between(1, 3) };
            tlv(code, &scene.value(random, 4 * words))
        }
        _ => tlv(code, &scene.value(random, 4)),
    }
}

/// Both masks, each of 0, 4 or 8 bytes where it is not odd.
fn masks(scene: &Scene, random: &mut Random) -> (Vec<u8>, Vec<u8>) {
    if random.percent(25) {
        return (Vec::new(), Vec::new());
    }
    let (mut standard, mut user) = masks_of(&some_of(scene, random));
    for mask in [&mut standard, &mut user] {
        while mask.len() % 4 != 0 {
            mask.push(0);
        }
        if mask.len() < 8 && random.percent(10) {
            mask.resize(mask.len() + 4, 0);
        }
    }
    if random.percent(10) {
        if random.percent(25) {
            // Retired bits alone.
            standard.clear();
            user.clear();
        }
        rubbish(&mut user, 4, random);
    }
    if scene.odd(random) {
        match random.below(6) {
            0 => standard = vec![255; 4 * random.between(0, 2)],
            1 => user = vec![255; 4 * random.between(0, 2)],
            2 => {
                // A length, but no bit, or RSVP-TE's alone.
                standard = vec![0; 4 * random.between(0, 2)];
                user = vec![0; 4 * random.between(0, 2)];
                if let Some(first) = standard.first_mut() {
                    *first = random.pick(&[0, 128]);
                }
            }
            3 => standard = random_mask(random),
            4 => user = random_mask(random),
            _ => {
                if let Some(first) = standard.first_mut() {
                    *first |= 128;
                }
            }
        }
    }
    (standard, user)
}

fn random_mask(random: &mut Random) -> Vec<u8> {
    let length = 4 * random.between(0, 2);
    random.bytes(length)
}

/// A 1122.
fn asla(scene: &Scene, random: &mut Random) -> Vec<u8> {
    if scene.odd(random) && random.percent(2) {
        let length = random.below(4);
        return tlv(1122, &random.bytes(length));
    }
    let (mut standard, mut user) = masks(scene, random);
    let mut lengths = [standard.len() as u8, user.len() as u8];
    if scene.odd(random) && random.percent(20) {
        let which = random.below(2);
        lengths[which] = random.pick(&[0, 1, 2, 3, 4, 5, 6, 7, 8, 9, 12, 16, 128, 132, 136, 255]);
        if random.percent(40) {
            // The mask has that length.
            [&mut standard, &mut user][which].resize(lengths[which].into(), 0);
        }
    }
    let reserved = if random.percent(85) { [0, 0] } else { [random.byte(), random.byte()] };
    let mut value = lengths.to_vec();
    value.extend(reserved);
    value.extend(standard);
    value.extend(user);
    if scene.odd(random) && random.percent(3) {
        value.truncate(random.between(4, value.len()));
    }
    let mut list = Vec::new();
    for _ in 0..random.pick(&[0, 1, 1, 2, 2, 3, 4, 6]) {
        list.push(inner(scene, random));
    }
    let read = lengths.iter().all(|length| [0, 4, 8].contains(length));
    if read {
        once(&mut list, kind_in_list);
    }
    if random.percent(25) && (!read || scene.odd(random)) {
        if random.percent(20) {
            // SRLGs without a number, before all else.
            list.retain(|part| kind_in_list(part) != Some(SRLG));
            list.splice(0..0, [tlv(SRLG, &[]), tlv(SRLG, &[])]);
        }
        repeat(&mut list, 4, tlv(1092, &[0, 0, 0]), random);
    }
    value.extend(list.concat());
    tlv(1122, &value)
}

/// The kind of a TLV in a 1122; none where it is unknown.
fn kind_in_list(part: &[u8]) -> Option<u16> {
    let code = u16::from_be_bytes([part[0], part[1]]);
    APPLICATION_CODES.contains(&code).then_some(code)
}

/// What stands in a 1122: the kinds, and sometimes what is skipped there whatever its length.
fn inner(scene: &Scene, random: &mut Random) -> Vec<u8> {
    if scene.odd(random) && random.percent(15) {
        let code = random.pick(&[1089, 1090, 1091, 1122]);
        let length = random.pick(&[0, 1, 3, 4, 4, 5, 32, 32]);
        return tlv(code, &scene.value(random, length));
    }
    attribute(scene, random)
}

/// A run of a scene, in any order.
pub fn run(scene: &Scene, random: &mut Random) -> Vec<u8> {
    let mut parts = Vec::new();
    for _ in 0..random.pick(&[0, 1, 1, 2, 3, 4, 5, 6, 8, 12]) {
        if random.percent(55) {
            parts.push(attribute(scene, random));
        } else {
            parts.push(asla(scene, random));
        }
    }
    if random.percent(50) {
        // As an exporter orders them.
        parts.sort_by_key(|part| [part[0], part[1]]);
    }
    parts.concat()
}
