//! Damage to runs.

use crate::random::Random;
use crate::reference::link::Link;

/// Does one or more of: another byte, a length one off, an end cut away, bytes taken out, put in or
/// doubled. `wide` tells two bytes of type and length from one.
pub fn damage(run: &mut Vec<u8>, wide: bool, random: &mut Random) {
    let times = random.pick(&[1, 1, 1, 2, 3]);
    for _ in 0..times {
        damage_once(run, wide, random);
    }
}

fn damage_once(run: &mut Vec<u8>, wide: bool, random: &mut Random) {
    if run.is_empty() {
        let length = random.between(1, 4);
        run.extend(random.bytes(length));
        return;
    }
    let at = random.below(run.len());
    match random.below(10) {
        0 => run[at] = random.byte(),
        1 => run[at] ^= 1 << random.below(8),
        2..=3 => {
            // The length of a whole element, or of what looks like an inner one.
            let at = length_place(run, wide, random);
            run[at] = match random.below(4) {
                0 => run[at].wrapping_add(1),
                1 => run[at].wrapping_sub(1),
                2 => random.below(12) as u8,
                _ => random.byte(),
            };
        }
        4 => run.truncate(at),
        5 => run.truncate(run.len() - run.len().min(random.between(1, 3))),
        6 => {
            let end = run.len().min(at + random.between(1, 4));
            run.drain(at..end);
        }
        7 => run.insert(at, random.byte()),
        8 => {
            let end = run.len().min(at + random.between(1, 20));
            let doubled = run[at..end].to_vec();
            run.splice(at..at, doubled);
        }
        _ => run.extend([random.byte()]),
    }
}

/// The place of a length byte of some element, found by walking, or any place.
fn length_place(run: &[u8], wide: bool, random: &mut Random) -> usize {
    let header = if wide { 4 } else { 2 };
    let mut places = Vec::new();
    let mut at = 0;
    while at + header <= run.len() {
        places.push(at + header - 1);
        let length = if wide {
            usize::from(run[at + 2]) * 256 + usize::from(run[at + 3])
        } else {
            usize::from(run[at + 1])
        };
        at += header + length;
    }
    if places.is_empty() || random.percent(40) {
        random.below(run.len())
    } else {
        random.pick(&places)
    }
}

/// Damages one of the runs of a link.
pub fn damage_link(link: &mut Link, random: &mut Random) {
    match random.below(10) {
        0..=5 => damage(&mut link.a, false, random),
        6..=8 => damage(&mut link.b, false, random),
        _ => damage(&mut link.c, false, random),
    }
}
