//! Links whose applications have sets that are equal, or nearly so.

use crate::generator::{
    attribute, element, kind_in_list, masks_of, once, run_c, some_application, srlg_tlv_with,
    Scene, SentMasks,
};
use crate::random::Random;
use crate::reference::application::Application;
use crate::reference::link::Link;

/// Each of a few applications has its own ASLA and its own 238, all after one model, with now and then
/// a small change: a bit of a value, a value left out, another order, a repeat.
pub fn twins(scene: &Scene, random: &mut Random) -> Link {
    let mut list = Vec::new();
    for _ in 0..random.between(1, 4) {
        list.push(attribute(scene, random));
    }
    once(&mut list, kind_in_list);
    let mut srlgs = Vec::new();
    for _ in 0..random.between(0, 4) {
        srlgs.push(scene.srlg(random).to_vec());
    }
    let mut a = Vec::new();
    let mut b = Vec::new();
    let mut applications = scene.applications.clone();
    while applications.len() < 3 {
        applications.push(some_application(random));
    }
    for application in applications {
        let masks = masks_for(application, random);
        let mut value = masks.bytes();
        for part in changed(&list, 2, random) {
            if value.len() + part.len() <= 255 {
                value.extend(part);
            }
        }
        a.extend(element(16, &value));
        if random.percent(70) {
            let values = changed(&srlgs, 0, random).concat();
            b.extend(srlg_tlv_with(&masks, &values, random));
        }
    }
    Link { a, b, c: run_c(scene, random) }
}

/// The masks of one application, rarely with L.
fn masks_for(application: Application, random: &mut Random) -> SentMasks {
    let (standard, user) = masks_of(&[application]);
    SentMasks { legacy_flag: random.percent(4), reserved: false, standard, user, declared: None }
}

/// The same parts, or with one small change. The first `header` bytes of a part stay.
fn changed(parts: &[Vec<u8>], header: usize, random: &mut Random) -> Vec<Vec<u8>> {
    let mut parts = parts.to_vec();
    if parts.is_empty() {
        return parts;
    }
    let at = random.below(parts.len());
    match random.below(10) {
        0..=2 => {
            // The top bit of the first byte, the low bit of the last one, or any other bit.
            let length = parts[at].len();
            if length > header {
                match random.below(3) {
                    0 => parts[at][header] ^= 128,
                    1 => parts[at][length - 1] ^= 1,
                    _ => parts[at][random.between(header, length - 1)] ^= 1 << random.below(8),
                }
            }
        }
        3 => {
            parts.remove(at);
        }
        4 => random.shuffle(&mut parts),
        // Of a list this is refused.
        5 if header == 0 || random.percent(20) => parts.push(parts[at].clone()),
        _ => {}
    }
    parts
}
