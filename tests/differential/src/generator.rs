//! Links, made at random: well-formed ones and odd ones.

use crate::random::Random;
use crate::reference::application::Application;
use crate::reference::kinds::code_of_isis_type;
use crate::reference::link::Link;

/// What the parts of one link or run draw from: a few applications and a few values, so that they
/// meet often.
pub struct Scene {
    pub applications: Vec<Application>,
    pub words: Vec<[u8; 4]>,
    pub srlgs: Vec<u32>,
    /// Of a hundred choices, so many are odd ones.
    pub oddness: usize,
    /// Nothing legacy but the link's bandwidths in A, and nothing in C, with but few exceptions.
    pub bare_a: bool,
    pub bare_c: bool,
}

impl Scene {
    pub fn new(random: &mut Random, oddness: usize) -> Scene {
        let mut applications = Vec::new();
        for _ in 0..random.between(1, 5) {
            applications.push(some_application(random));
        }
        let mut words = Vec::new();
        for _ in 0..random.between(1, 4) {
            words.push(some_word(random));
        }
        let mut srlgs = Vec::new();
        for _ in 0..random.between(1, 6) {
            srlgs.push(some_srlg(random));
        }
        let (bare_a, bare_c) = (random.percent(35), random.percent(35));
        Scene { applications, words, srlgs, oddness, bare_a, bare_c }
    }

    /// True where an odd choice is due.
    pub fn odd(&self, random: &mut Random) -> bool {
        random.percent(self.oddness)
    }

    fn word(&self, random: &mut Random) -> [u8; 4] {
        if random.percent(90) {
            random.pick(&self.words)
        } else {
            some_word(random)
        }
    }

    pub fn srlg(&self, random: &mut Random) -> [u8; 4] {
        if random.percent(90) {
            random.pick(&self.srlgs).to_be_bytes()
        } else {
            some_srlg(random).to_be_bytes()
        }
    }

    /// A value of so many bytes.
    pub fn value(&self, random: &mut Random, length: usize) -> Vec<u8> {
        let mut value = Vec::new();
        while value.len() < length {
            value.extend(self.word(random));
        }
        value.truncate(length);
        value
    }
}

/// Registered applications often, and those at the ends of mask bytes; user ones with a retired number
/// too, whose masks have retired bits.
pub fn some_application(random: &mut Random) -> Application {
    const ENDS: [u8; 14] = [0, 1, 2, 3, 7, 8, 15, 16, 30, 31, 32, 33, 62, 63];
    match random.below(10) {
        0..=1 => Application::Standard(0),
        2..=3 => Application::Standard(random.between(1, 2) as u8),
        4 => Application::Standard(random.pick(&ENDS)),
        5 => Application::Standard(random.below(64) as u8),
        6 => Application::User(random.pick(&ENDS)),
        7 => Application::User(random.below(64) as u8),
        _ => Application::User(random.below(32) as u8),
    }
}

/// Numbers, floats, patterns of no number, flags.
fn some_word(random: &mut Random) -> [u8; 4] {
    const WORDS: [u32; 14] = [
        0,
        1,
        10,
        0xFFFF_FFFF,
        0x8000_0000,
        0x8000_000A,
        0x4C9E_BC20,
        0x7F80_0000,
        0xFF80_0000,
        0x7FC0_0000,
        0x7F80_0001,
        0xFFC1_2345,
        0x0000_0001,
        0x00FF_FFFF,
    ];
    if random.percent(50) {
        random.pick(&WORDS).to_be_bytes()
    } else {
        (random.draw() as u32).to_be_bytes()
    }
}

fn some_srlg(random: &mut Random) -> u32 {
    const ENDS: [u32; 8] = [0, 1, 7, 255, 256, 0x7FFF_FFFF, 0x8000_0000, 0xFFFF_FFFF];
    match random.below(4) {
        0 => random.pick(&ENDS),
        1 => random.below(16) as u32,
        2 => (random.below(256) as u32) << 24 | random.below(4) as u32,
        _ => random.draw() as u32,
    }
}

/// Masks as they are sent, and whether L is set.
pub struct SentMasks {
    pub legacy_flag: bool,
    pub reserved: bool,
    pub standard: Vec<u8>,
    pub user: Vec<u8>,
    /// Lengths that are declared in place of those of the masks.
    pub declared: Option<(u8, u8)>,
}

impl SentMasks {
    /// Both lengths as they are declared.
    fn lengths(&self) -> (u8, u8) {
        self.declared.unwrap_or((self.standard.len() as u8, self.user.len() as u8))
    }

    /// The two bytes of lengths and flags, and the masks.
    pub fn bytes(&self) -> Vec<u8> {
        let (standard, user) = self.lengths();
        let mut bytes = vec![
            standard | if self.legacy_flag { 128 } else { 0 },
            user | if self.reserved { 128 } else { 0 },
        ];
        bytes.extend(&self.standard);
        bytes.extend(&self.user);
        bytes
    }
}

/// A mask with these bits, of the least length in bytes.
pub fn mask_of(bits: &[u8]) -> Vec<u8> {
    let mut mask = Vec::new();
    for &bit in bits {
        let byte = usize::from(bit / 8);
        while mask.len() <= byte {
            mask.push(0);
        }
        mask[byte] |= 128 >> (bit % 8);
    }
    mask
}

/// Both masks of these applications.
pub fn masks_of(applications: &[Application]) -> (Vec<u8>, Vec<u8>) {
    let mut standard = Vec::new();
    let mut user = Vec::new();
    for application in applications {
        match application {
            Application::Standard(n) => standard.push(*n),
            Application::User(n) => user.push(*n),
        }
    }
    (mask_of(&standard), mask_of(&user))
}

/// Some of the scene's applications, at least one as a rule.
pub fn some_of(scene: &Scene, random: &mut Random) -> Vec<Application> {
    let mut chosen = vec![random.pick(&scene.applications)];
    for application in &scene.applications {
        if random.percent(30) {
            chosen.push(*application);
        }
    }
    chosen
}

/// Makes a mask longer by bytes of zero.
fn stretch(mask: &mut Vec<u8>, random: &mut Random) {
    while mask.len() < 8 && random.percent(60) {
        mask.push(0);
    }
}

/// Rubbish in the retired bits of a user mask, which is then longer than four bytes, by `step` or by a
/// multiple of it.
pub fn rubbish(user: &mut Vec<u8>, step: usize, random: &mut Random) {
    let length = 4 + step * random.between(1, 4 / step);
    user.resize(length.max(user.len()), 0);
    for byte in &mut user[4..] {
        *byte = if random.percent(30) { 1 << random.below(8) } else { random.byte() };
    }
}

fn some_masks(scene: &Scene, random: &mut Random) -> SentMasks {
    let mut masks = SentMasks {
        legacy_flag: random.percent(12),
        reserved: random.percent(8),
        standard: Vec::new(),
        user: Vec::new(),
        declared: None,
    };
    if random.percent(25) {
        // General, or L for nobody.
        masks.legacy_flag = masks.legacy_flag && scene.odd(random);
        return masks;
    }
    (masks.standard, masks.user) = masks_of(&some_of(scene, random));
    if random.percent(20) {
        stretch(&mut masks.standard, random);
        stretch(&mut masks.user, random);
    }
    if random.percent(12) {
        if random.percent(20) {
            // Retired bits alone, or beside RSVP-TE.
            masks.standard = random.pick(&[vec![], vec![0], vec![128]]);
            masks.user = Vec::new();
        }
        rubbish(&mut masks.user, 1, random);
    }
    if scene.odd(random) {
        odd_masks(&mut masks, random);
    }
    masks
}

/// Any lengths from 0 to 9, all bits, no bit, or lengths that the masks do not have.
fn odd_masks(masks: &mut SentMasks, random: &mut Random) {
    match random.below(10) {
        0 => masks.standard = vec![255; random.between(0, 9)],
        1 => masks.user = vec![255; random.between(0, 9)],
        2..=3 => {
            // A length, but no bit.
            masks.standard = vec![0; random.between(0, 8)];
            masks.user = vec![0; random.between(0, 8)];
        }
        4 => {
            let length = random.between(0, 9);
            masks.standard = random.bytes(length);
        }
        5 => {
            let length = random.between(0, 9);
            masks.user = random.bytes(length);
        }
        6 => masks.standard.resize(random.between(0, 9), 0),
        7 => masks.user.resize(random.between(0, 9), 0),
        8 => masks.declared = Some((random.below(128) as u8, masks.user.len() as u8)),
        _ => masks.declared = Some((masks.standard.len() as u8, random.below(128) as u8)),
    }
}

/// The types of the kinds in A and the lengths of their values.
const KINDS: [(u8, usize); 12] = [
    (3, 4),
    (9, 4),
    (10, 4),
    (11, 32),
    (18, 3),
    (33, 4),
    (34, 8),
    (35, 4),
    (36, 4),
    (37, 4),
    (38, 4),
    (39, 4),
];

/// Types that are no kinds; those beside the kinds among them.
const UNKNOWN: [u8; 22] =
    [0, 1, 2, 4, 5, 6, 8, 12, 13, 15, 17, 19, 20, 22, 32, 40, 128, 137, 146, 238, 250, 255];

/// An element of one type byte and one length byte.
pub fn element(kind: u8, value: &[u8]) -> Vec<u8> {
    let mut bytes = vec![kind, value.len() as u8];
    bytes.extend_from_slice(value);
    bytes
}

/// An attribute, as it stands in A or in the list of an ASLA; sometimes of an unknown type, and
/// where it is odd of a wrong length.
pub fn attribute(scene: &Scene, random: &mut Random) -> Vec<u8> {
    if random.percent(8) {
        let length = random.between(0, 9);
        return element(random.pick(&UNKNOWN), &random.bytes(length));
    }
    let (kind, mut length) =
        if random.percent(10) { (14, extended_group_length(random)) } else { random.pick(&KINDS) };
    if scene.odd(random) && random.percent(4) {
        length = random.pick(&[0, 1, 2, 3, 4, 5, 7, 8, 9, 31, 32, 33]);
    }
    element(kind, &scene.value(random, length))
}

fn extended_group_length(random: &mut Random) -> usize {
    match random.below(20) {
        0 => 4 * random.between(1, 63),
        1 => 252,
        _ => 4 * random.between(1, 3),
    }
}

/// Leaves a list the first element of each kind.
pub fn once(list: &mut Vec<Vec<u8>>, code: fn(&[u8]) -> Option<u16>) {
    let mut seen = Vec::new();
    list.retain(|part| match code(part) {
        None => true,
        Some(code) => {
            let first = !seen.contains(&code);
            seen.push(code);
            first
        }
    });
}

/// The kind of an element in the list of an ASLA; none where it is unknown.
pub fn kind_in_list(part: &[u8]) -> Option<u16> {
    code_of_isis_type(part[0])
}

/// Repeats an element of a list, right behind it or further on: as it is, with another value, or of a
/// wrong length; now and then beside another fault. `header` bytes stand before a value, the last of
/// them gives its length.
pub fn repeat(list: &mut Vec<Vec<u8>>, header: usize, fault: Vec<u8>, random: &mut Random) {
    if list.is_empty() {
        return;
    }
    let at = random.below(list.len());
    let mut again = list[at].clone();
    match random.below(6) {
        0 if again[header - 1] < 255 => {
            again.push(0);
            again[header - 1] += 1;
        }
        1..=2 if again.len() > header => {
            let last = again.len() - 1;
            again[last] ^= 1;
        }
        _ => {}
    }
    list.insert(random.between(at + 1, list.len()), again);
    if random.percent(25) {
        list.insert(random.between(0, list.len()), fault);
    }
}

/// Parts one after another, as many as fit in so many bytes.
fn as_many_as_fit(parts: Vec<Vec<u8>>, room: usize) -> Vec<u8> {
    let mut bytes = Vec::new();
    for part in parts {
        if bytes.len() + part.len() <= room {
            bytes.extend(part);
        }
    }
    bytes
}

/// An ASLA sub-TLV.
pub fn asla(scene: &Scene, random: &mut Random) -> Vec<u8> {
    if scene.odd(random) && random.percent(2) {
        // Too short for its fixed fields.
        let length = random.below(2);
        return element(16, &random.bytes(length));
    }
    let masks = some_masks(scene, random);
    let count = if masks.legacy_flag && random.percent(60) { 0 } else { random.between(0, 4) };
    let mut list = Vec::new();
    for _ in 0..count {
        if scene.odd(random) && random.percent(10) {
            // An ASLA in an ASLA is unknown.
            let length = random.below(7);
            list.push(element(16, &scene.value(random, length)));
        } else {
            list.push(attribute(scene, random));
        }
    }
    // A list that is not read may have anything twice.
    let (standard, user) = masks.lengths();
    let read = !masks.legacy_flag && standard <= 8 && user <= 8;
    if read {
        once(&mut list, kind_in_list);
    }
    if random.percent(25) && (!read || scene.odd(random)) {
        repeat(&mut list, 2, element(18, &[0, 0]), random);
    }
    if masks.legacy_flag && scene.odd(random) && random.percent(40) {
        // A list that is not read.
        let length = random.between(1, 5);
        list.push(random.bytes(length));
    }
    let mut value = masks.bytes();
    if scene.odd(random) && random.percent(4) {
        // Masks past the end.
        value.truncate(random.between(2, value.len()));
    }
    let room = 255 - value.len();
    value.extend(as_many_as_fit(list, room));
    element(16, &value)
}

/// The identifiers of a 238.
fn identifiers(scene: &Scene, random: &mut Random) -> Vec<u8> {
    const USUAL: [&[u8]; 8] =
        [&[4], &[4], &[6, 8], &[8, 6], &[12, 13], &[13, 12], &[4, 6, 8], &[6, 8, 12, 13]];
    let mut types = random.pick(&USUAL).to_vec();
    if scene.odd(random) && random.percent(50) {
        // Any combination, repeats too.
        types.clear();
        for _ in 0..random.between(0, 4) {
            types.push(random.pick(&[4, 6, 8, 12, 13]));
        }
    }
    if scene.odd(random) && random.percent(40) {
        types.insert(random.between(0, types.len()), random.pick(&[0, 3, 5, 7, 9, 14, 255]));
    }
    let mut bytes = Vec::new();
    for kind in types {
        let mut length = match kind {
            4 => 8,
            6 | 8 => 4,
            12 | 13 => 16,
            _ => random.between(0, 5),
        };
        if scene.odd(random) && random.percent(3) {
            length = random.pick(&[0, 3, 4, 5, 7, 8, 9, 15, 16, 17]);
        }
        bytes.extend(element(kind, &random.bytes(length)));
    }
    bytes
}

/// A TLV of type 238 with these masks and values, and one identifier.
pub fn srlg_tlv_with(masks: &SentMasks, values: &[u8], random: &mut Random) -> Vec<u8> {
    let mut value = random.bytes(7);
    value.extend(masks.bytes());
    value.extend([10, 4, 8]);
    value.extend(random.bytes(8));
    value.extend_from_slice(values);
    element(238, &value)
}

/// A TLV of type 238.
pub fn srlg_tlv(scene: &Scene, random: &mut Random) -> Vec<u8> {
    if scene.odd(random) && random.percent(2) {
        let length = random.below(10);
        return element(238, &random.bytes(length));
    }
    let masks = some_masks(scene, random);
    let mut value = random.bytes(7);
    value.extend(masks.bytes());
    if scene.odd(random) && random.percent(3) {
        // Ends within or right behind the masks.
        value.truncate(random.between(9, value.len()));
        return element(238, &value);
    }
    let list = identifiers(scene, random);
    let mut declared = list.len() as u8;
    if scene.odd(random) && random.percent(3) {
        declared = declared.wrapping_add(random.between(0, 4) as u8).wrapping_sub(2);
    }
    value.push(declared);
    value.extend(list);
    for _ in 0..random.pick(&[0, 0, 1, 1, 1, 2, 2, 3, 4, 8]) {
        value.extend(scene.srlg(random));
    }
    if scene.odd(random) && random.percent(if masks.legacy_flag { 40 } else { 4 }) {
        // A rest that is no multiple of four.
        let length = random.between(1, 3);
        value.extend(random.bytes(length));
    }
    value.truncate(255);
    element(238, &value)
}

/// An attribute outside an ASLA.
fn legacy(scene: &Scene, random: &mut Random) -> Vec<u8> {
    if !scene.bare_a || random.percent(5) {
        return attribute(scene, random);
    }
    match random.pick(&[(9, 4), (10, 4), (11, 32), (0, 0)]) {
        (0, _) => Vec::new(),
        (kind, length) => element(kind, &scene.value(random, length)),
    }
}

fn run_a(scene: &Scene, random: &mut Random) -> Vec<u8> {
    let mut a = Vec::new();
    for _ in 0..random.pick(&[0, 1, 2, 2, 3, 3, 4, 4, 5, 6, 8, 12]) {
        if random.percent(50) {
            a.extend(legacy(scene, random));
        } else {
            a.extend(asla(scene, random));
        }
    }
    a
}

fn run_b(scene: &Scene, random: &mut Random) -> Vec<u8> {
    let mut b = Vec::new();
    for _ in 0..random.pick(&[0, 0, 1, 1, 2, 2, 3, 4]) {
        if random.percent(92) {
            b.extend(srlg_tlv(scene, random));
        } else {
            let length = random.between(0, 12);
            b.extend(element(
                random.pick(&[0, 16, 22, 138, 139, 237, 239, 255]),
                &random.bytes(length),
            ));
        }
    }
    b
}

/// The legacy SRLGs.
pub fn run_c(scene: &Scene, random: &mut Random) -> Vec<u8> {
    let mut c = Vec::new();
    if scene.bare_c && !random.percent(5) {
        return c;
    }
    for _ in 0..random.pick(&[0, 0, 1, 2, 2, 3, 5]) {
        c.extend(scene.srlg(random));
    }
    if scene.odd(random) && random.percent(4) {
        let length = random.between(1, 3);
        c.extend(random.bytes(length));
    }
    c
}

/// A link of a scene, well-formed or odd as the scene is.
pub fn link(scene: &Scene, random: &mut Random) -> Link {
    Link { a: run_a(scene, random), b: run_b(scene, random), c: run_c(scene, random) }
}
