//! Links of extreme shapes: as many ASLAs, applications, TLVs 238 or SRLGs as a run holds.

use crate::generator::{element, masks_of, srlg_tlv_with, SentMasks};
use crate::random::Random;
use crate::reference::application::Application;
use crate::reference::link::Link;

/// The greatest length of A and of B.
const MOST: usize = 2048;

/// A shape of A beside one of B, C in some order; runs of the greatest length, or one byte more, among
/// them.
pub fn shaped_link(random: &mut Random) -> Link {
    let a = match random.below(8) {
        0..=2 => one_asla_each(random),
        3..=4 => aslas_for_everybody(random),
        5..=6 => short_aslas(random),
        _ => Vec::new(),
    };
    let b = match random.below(8) {
        0..=1 => many_srlg_tlvs(random),
        2..=3 => one_srlg_tlv_each(random),
        4..=5 => most_srlgs(random),
        _ => Vec::new(),
    };
    let count = random.pick(&[0, 0, 1, 40, 41, 192, 193, 255, 256]);
    let c = bytes_of(&numbers(count, random));
    Link { a: to_a_limit(a, random), b: to_a_limit(b, random), c }
}

/// As it is, or filled with unknown elements to the greatest length, to one byte less or one more.
fn to_a_limit(mut run: Vec<u8>, random: &mut Random) -> Vec<u8> {
    let target = match random.below(20) {
        0..=2 => MOST,
        3 => MOST - 1,
        4 => MOST + 1,
        _ => return run,
    };
    while run.len() + 2 <= target {
        let left = target - run.len();
        let size = if left == 258 { 256 } else { left.min(257) };
        run.extend(element(200, &vec![0; size - 2]));
    }
    run
}

/// Parts one after another, as many as fit in a run.
fn as_many_as_fit(parts: Vec<Vec<u8>>) -> Vec<u8> {
    let mut run = Vec::new();
    for part in parts {
        if run.len() + part.len() <= MOST {
            run.extend(part);
        }
    }
    run
}

/// Application n of 96: standard ones, then user ones; up to 127 those with retired bits.
fn application(n: usize) -> Application {
    if n < 64 {
        Application::Standard(n as u8)
    } else {
        Application::User((n - 64) as u8)
    }
}

/// Applications in some order: the 95 other than RSVP-TE, all 96 and the retired bits, or any of them.
fn many_applications(random: &mut Random) -> Vec<Application> {
    let mut numbers: Vec<usize> = match random.below(4) {
        0..=1 => (1..96).collect(),
        2 => (0..128).collect(),
        _ => (0..128).filter(|_| random.percent(60)).collect(),
    };
    match random.below(4) {
        0..=1 => {}
        2 => numbers.reverse(),
        _ => random.shuffle(&mut numbers),
    }
    numbers.into_iter().map(application).collect()
}

/// The masks of some applications, of the least lengths or longer; rarely with L.
fn sent(applications: &[Application], longer: bool, random: &mut Random) -> SentMasks {
    let (mut standard, mut user) = masks_of(applications);
    if longer {
        for mask in [&mut standard, &mut user] {
            mask.resize(random.between(mask.len(), 8), 0);
        }
    }
    SentMasks { legacy_flag: random.percent(2), reserved: false, standard, user, declared: None }
}

/// An ASLA with these masks and this list.
fn asla(masks: &SentMasks, list: &[u8]) -> Vec<u8> {
    let mut value = masks.bytes();
    value.extend_from_slice(list);
    element(16, &value)
}

/// A value of some kind, told by a small number: equal numbers give equal values.
fn attribute(kind: u8, number: usize) -> Vec<u8> {
    let number = number as u8;
    match kind {
        18 => element(kind, &[0, 1, number]),
        34 => element(kind, &[0, 0, 0, 1, 0, 0, 0, number]),
        11 => element(kind, &[number; 32]),
        _ => element(kind, &[0, 0, 2, number]),
    }
}

const KINDS: [u8; 13] = [3, 9, 10, 11, 14, 18, 33, 34, 35, 36, 37, 38, 39];

/// An ASLA for each application, with one value or two: all the same, a few different ones, or each
/// its own. Sometimes one for everybody, or a general one, before or behind them.
fn one_asla_each(random: &mut Random) -> Vec<u8> {
    let sets = random.pick(&[1, 2, 3, 17, 128, 128]);
    let second = random.percent(50).then(|| random.pick(&KINDS)).filter(|kind| *kind != 18);
    let longer = random.percent(20);
    let mut parts = Vec::new();
    for (at, one) in many_applications(random).into_iter().enumerate() {
        let mut list = attribute(18, at % sets);
        if let Some(kind) = second {
            list.extend(attribute(kind, at / 2 % sets));
        }
        parts.push(asla(&sent(&[one], longer, random), &list));
    }
    if random.percent(30) {
        let named: Vec<Application> =
            if random.percent(50) { (0..128).map(application).collect() } else { Vec::new() };
        let more = asla(&sent(&named, false, random), &attribute(random.pick(&KINDS), 99));
        parts.insert(random.pick(&[0, parts.len()]), more);
    }
    as_many_as_fit(parts)
}

/// 60 to 81 ASLAs that name everybody, or all but a few, retired bits too, with a value of some kind in
/// each.
fn aslas_for_everybody(random: &mut Random) -> Vec<u8> {
    let missing = random.pick(&[0, 0, 2, 50]);
    let kinds = random.pick(&[1, 4, KINDS.len()]);
    let mut parts = Vec::new();
    for at in 0..random.between(60, 81) {
        let mut numbers: Vec<usize> = (0..128).collect();
        numbers.retain(|_| !random.percent(missing));
        let named: Vec<Application> = numbers.into_iter().map(application).collect();
        let kind = KINDS[(at + 5) % kinds];
        parts.push(asla(&sent(&named, false, random), &attribute(kind, at % 100)));
    }
    as_many_as_fit(parts)
}

/// As many ASLAs without a value as fit, of one mask byte or none; a few with a value among them.
fn short_aslas(random: &mut Random) -> Vec<u8> {
    let general = random.pick(&[0, 0, 5, 100]);
    let mut parts = Vec::new();
    for _ in 0..random.between(395, 512) {
        let named = if random.percent(general) {
            Vec::new()
        } else {
            vec![application(random.below(8) + 64 * random.below(2))]
        };
        parts.push(asla(&sent(&named, false, random), &[]));
    }
    let place = random.below(3);
    for at in 0..random.between(0, 5) {
        let named = [application(random.below(8) + 64 * random.below(2))];
        let valued = asla(&sent(&named, false, random), &attribute(random.pick(&KINDS), at));
        parts.insert([0, 200, 390][place], valued);
    }
    as_many_as_fit(parts)
}

/// As many numbers as are asked for: ascending, falling, in any order, going up and down, or with many
/// repeats.
fn numbers(count: usize, random: &mut Random) -> Vec<u32> {
    let step = random.pick(&[1, 257, 1_000_003]);
    let mut numbers: Vec<u32> = (0..count as u32).map(|n| n * step + 5).collect();
    match random.below(10) {
        0..=1 => {}
        2..=3 => numbers.reverse(),
        4..=5 => random.shuffle(&mut numbers),
        6 => numbers.iter_mut().skip(1).step_by(2).for_each(|n| *n = u32::MAX - *n),
        7 => numbers.iter_mut().for_each(|n| *n %= 20),
        8 => numbers.fill(9),
        _ => {
            // All in order but one.
            if count > 0 {
                numbers[random.below(count)] = random.draw() as u32;
            }
        }
    }
    numbers
}

fn bytes_of(numbers: &[u32]) -> Vec<u8> {
    numbers.iter().flat_map(|number| number.to_be_bytes()).collect()
}

/// Whom a TLV 238 of several is for: nobody, one application, one of a few, or everybody.
fn subjects(style: usize, at: usize) -> Vec<Application> {
    match style {
        0 => Vec::new(),
        1 => vec![application(1)],
        2 => vec![application(at % 7)],
        3 => vec![application(at % 15 + 60)],
        _ => (0..128).map(application).collect(),
    }
}

/// 60 to 92 TLVs 238, most of them for few applications, with none to two numbers in each.
fn many_srlg_tlvs(random: &mut Random) -> Vec<u8> {
    let pool = numbers(200, random);
    let style = random.below(4);
    let most = random.pick(&[0, 1, 1, 2]);
    let mut parts = Vec::new();
    let mut next = 0;
    for at in 0..random.between(60, 92) {
        let count = random.between(0, most);
        let masks = sent(&subjects(style, at), false, random);
        parts.push(srlg_tlv_with(&masks, &bytes_of(&pool[next..next + count]), random));
        next += count;
    }
    as_many_as_fit(parts)
}

/// A TLV 238 for each of as many applications as fit, with a number of its own, one that a few share,
/// or none.
fn one_srlg_tlv_each(random: &mut Random) -> Vec<u8> {
    let pool = numbers(128, random);
    let shared = random.pick(&[1, 3, 128, 128]);
    let longer = random.percent(20);
    let mut parts = Vec::new();
    for (at, one) in many_applications(random).into_iter().enumerate() {
        let count = usize::from(random.percent(95));
        let from = at % shared;
        let masks = sent(&[one], longer, random);
        parts.push(srlg_tlv_with(&masks, &bytes_of(&pool[from..from + count]), random));
    }
    as_many_as_fit(parts)
}

/// 464 numbers, or as many as fit, in TLVs 238 as long as can be.
fn most_srlgs(random: &mut Random) -> Vec<u8> {
    let style = random.below(5);
    let all = numbers(464, random);
    let mut parts = Vec::new();
    for (at, some) in all.chunks(if style == 4 { 54 } else { 58 }).enumerate() {
        let masks = sent(&subjects(style, at), false, random);
        parts.push(srlg_tlv_with(&masks, &bytes_of(some), random));
    }
    as_many_as_fit(parts)
}
