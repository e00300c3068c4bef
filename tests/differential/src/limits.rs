//! Links and runs at the limits of their lengths.

use crate::generator::{asla, attribute, element, srlg_tlv, Scene};
use crate::random::Random;
use crate::reference::link::Link;
use crate::runs::{run, tlv};

/// Brings parts to so many bytes in all: leaves parts away that do not fit, and fills up with
/// elements of an unknown type.
fn fill(mut parts: Vec<Vec<u8>>, target: usize, random: &mut Random) -> Vec<u8> {
    let mut length: usize = 0;
    parts.retain(|part| {
        let fits = length + part.len() + 2 <= target;
        if fits {
            length += part.len();
        }
        fits
    });
    let mut left = target - length;
    while left > 0 {
        // Two bytes at least, and never one byte left over.
        let mut size = left.min(257);
        if left - size == 1 {
            size -= 1;
        }
        if size < 2 {
            parts.push(vec![0; size]);
        } else {
            parts.push(element(200, &random.bytes(size - 2)));
        }
        left -= size;
    }
    random.shuffle(&mut parts);
    parts.concat()
}

/// A link with a run, or all three, as long as may be, or a little longer. `turn` counts such links, so
/// that each length has its turn.
pub fn long_link(turn: u64, random: &mut Random) -> Link {
    const LENGTHS: [usize; 5] = [2048, 2049, 2047, 2048, 4096];
    const C_LENGTHS: [usize; 10] = [1024, 1028, 1020, 1024, 1025, 1024, 1023, 1022, 1026, 2048];
    let which = turn % 4;
    let scene = Scene::new(random, 5);
    let length = LENGTHS[(turn / 4 % 5) as usize];
    let mut link = Link::default();
    if which == 0 || which == 3 {
        link.a = long_a(&scene, length, random);
    }
    if which == 1 || which == 3 {
        link.b = long_b(&scene, length, random);
    }
    if which == 2 || which == 3 {
        link.c = long_c(C_LENGTHS[(turn / 4 % 10) as usize], random);
    }
    link
}

fn long_a(scene: &Scene, length: usize, random: &mut Random) -> Vec<u8> {
    let mut parts = Vec::new();
    for _ in 0..random.between(0, 80) {
        if random.percent(50) {
            parts.push(attribute(scene, random));
        } else {
            parts.push(asla(scene, random));
        }
    }
    fill(parts, length, random)
}

fn long_b(scene: &Scene, length: usize, random: &mut Random) -> Vec<u8> {
    let mut parts = Vec::new();
    for _ in 0..random.between(0, 60) {
        parts.push(srlg_tlv(scene, random));
    }
    fill(parts, length, random)
}

/// Any values, or few different ones.
fn long_c(length: usize, random: &mut Random) -> Vec<u8> {
    let few = random.percent(50);
    (0..length).map(|_| if few { random.byte() % 3 } else { random.byte() }).collect()
}

/// A BGP-LS run of about the greatest length, or a little over it. `turn` counts such runs, so that
/// each length has its turn.
pub fn long_run(turn: u64, random: &mut Random) -> Vec<u8> {
    const LENGTHS: [usize; 8] =
        [524_288, 524_289, 524_288, 524_287, 524_288, 524_284, 524_292, 600_000];
    let target = LENGTHS[(turn % 8) as usize];
    let scene = Scene::new(random, 2);
    let mut bytes = Vec::new();
    let style = random.below(4);
    while bytes.len() + 200_000 < target {
        bytes.extend(long_part(&scene, style, random));
    }
    while bytes.len() < target {
        let left = target - bytes.len();
        let mut size = left.min(30_000);
        if left - size < 4 {
            size = left;
        }
        if size < 4 {
            bytes.extend(vec![0; size]);
        } else {
            bytes.extend(tlv(65000, &vec![0; size - 4]));
        }
    }
    bytes
}

/// A part of a long run: a long list of SRLGs, a long group, a long 1122, or many short TLVs.
fn long_part(scene: &Scene, style: usize, random: &mut Random) -> Vec<u8> {
    match (style, random.below(4)) {
        (0, _) => {
            let mut bytes = Vec::new();
            for _ in 0..500 {
                bytes.extend(run(scene, random));
            }
            bytes
        }
        (1, 0..=2) => tlv(1096, &srlgs(random, 16_383)),
        (2, 0..=2) => {
            let mut value = vec![4, 0, 0, 0, random.byte(), 0, 0, 0];
            value.extend(tlv(1096, &srlgs(random, 16_000)));
            tlv(1122, &value)
        }
        (_, 0) => tlv(1173, &vec![7; 65_532]),
        (_, 1) => {
            let mut value = vec![0, 0, 0, 0];
            value.extend(tlv(1173, &vec![9; 60_000]));
            tlv(1122, &value)
        }
        _ => {
            let mut bytes = Vec::new();
            for _ in 0..1000 {
                bytes.extend(tlv(random.pick(&[0, 1096, 1096, 2000]), &[]));
            }
            bytes
        }
    }
}

/// So many SRLGs, with repeats or without.
fn srlgs(random: &mut Random, count: usize) -> Vec<u8> {
    let few = random.percent(40);
    let mut bytes = Vec::new();
    for _ in 0..count {
        if few {
            bytes.extend((random.below(300) as u32).to_be_bytes());
        } else {
            bytes.extend(random.bytes(4));
        }
    }
    bytes
}
