//! Applications, masks and advertisements, and the rule that picks among them.

use super::reply::{Fault, Refusal};

#[derive(Clone, Copy, PartialEq, Eq, Debug)]
pub enum Application {
    Standard(u8),
    User(u8),
}

/// Standard application 0.
pub const RSVP_TE: Application = Application::Standard(0);

/// The last standard application, and the last user one: user bits 32 to 63 are retired (E12).
pub const LAST_STANDARD: u8 = 63;
pub const LAST_USER: u8 = 31;

/// All applications but RSVP-TE in the order of groups: standard ones first.
pub fn all_but_rsvp_te() -> Vec<Application> {
    let mut all = Vec::new();
    for n in 1..=LAST_STANDARD {
        all.push(Application::Standard(n));
    }
    for n in 0..=LAST_USER {
        all.push(Application::User(n));
    }
    all
}

/// Who asks, by the number as it was given.
#[derive(Clone, Copy, PartialEq, Eq, Debug)]
pub enum Asker {
    General,
    Standard(u64),
    User(u64),
}

/// Whose set is meant.
#[derive(Clone, Copy, PartialEq, Eq, Debug)]
pub enum Whose {
    General,
    Application(Application),
}

/// A standard application's number above 63, or a user one's above 31, is refused by 6; the general
/// set has no number.
pub fn whose(asker: Asker) -> Result<Whose, Refusal> {
    let application = match asker {
        Asker::General => return Ok(Whose::General),
        Asker::Standard(n) if n <= LAST_STANDARD.into() => Application::Standard(n as u8),
        Asker::User(n) if n <= LAST_USER.into() => Application::User(n as u8),
        _ => return Err(Refusal::of_request(Fault::NoApplication)),
    };
    Ok(Whose::Application(application))
}

/// Two masks, each as long as it was sent, without the retired bits.
#[derive(Clone, PartialEq, Eq, Debug)]
pub struct Masks {
    pub standard: Vec<u8>,
    pub user: Vec<u8>,
    /// Whether a retired bit was set, which changes nothing.
    pub retired: bool,
}

/// Bit 0 is the top bit of the first byte. Bits not sent are 0.
pub fn bit(mask: &[u8], n: u8) -> bool {
    match mask.get(usize::from(n / 8)) {
        None => false,
        Some(byte) => byte & (128 >> (n % 8)) != 0,
    }
}

impl Masks {
    /// Masks as they were sent. A user bit above 31 counts as 0; the mask keeps its length.
    pub fn sent(standard: &[u8], user: &[u8]) -> Masks {
        let mut masks = Masks { standard: standard.to_vec(), user: user.to_vec(), retired: false };
        for byte in masks.user.iter_mut().skip(usize::from(LAST_USER / 8) + 1) {
            masks.retired |= *byte != 0;
            *byte = 0;
        }
        masks
    }

    /// Both lengths are 0.
    pub fn both_empty(&self) -> bool {
        self.standard.is_empty() && self.user.is_empty()
    }

    /// The application's bit is set.
    pub fn name(&self, application: Application) -> bool {
        match application {
            Application::Standard(n) => bit(&self.standard, n),
            Application::User(n) => bit(&self.user, n),
        }
    }

    /// How many bits are set in both masks, retired ones not counted.
    pub fn bits_set(&self) -> u32 {
        self.standard.iter().chain(&self.user).map(|byte| byte.count_ones()).sum()
    }
}

/// A live advertisement and what it carries: values of side A, or SRLGs.
#[derive(Clone, PartialEq, Eq, Debug)]
pub struct Advertisement<T> {
    /// Its first byte.
    pub start: usize,
    pub legacy_flag: bool,
    pub masks: Masks,
    pub carries: T,
}

/// Why an advertisement is ignored.
#[derive(Clone, Copy, PartialEq, Eq, PartialOrd, Ord, Debug)]
pub enum Ignored {
    MaskLength,
    LegacyFlagForNobody,
    IdentifierRepeated,
    IdentifiersMissing,
}

/// What becomes of an advertisement that is not refused.
#[derive(Clone, PartialEq, Eq, Debug)]
pub enum Verdict<T> {
    Ignored(Ignored),
    Live(Advertisement<T>),
}

/// The rule of "who gets what" that an application falls under, on one side.
#[derive(Clone, Copy, PartialEq, Eq, PartialOrd, Ord, Debug)]
pub enum Rule {
    /// 1: some live advertisement names it with L set.
    Legacy,
    /// 2: some live advertisement names it.
    Naming,
    /// 3: none does.
    General,
}

/// The rule for an application on a side. One L-flag anywhere wins.
pub fn rule<T>(live: &[Advertisement<T>], application: Application) -> Rule {
    if live.iter().any(|one| one.legacy_flag && one.masks.name(application)) {
        Rule::Legacy
    } else if live.iter().any(|one| one.masks.name(application)) {
        Rule::Naming
    } else {
        Rule::General
    }
}

/// Does RSVP-TE take the general set of a side? It does if no live advertisement of that side names it,
/// with L or without, and the side's legacy holds none of the application kinds (E2).
pub fn general_for_rsvp_te<T>(live: &[Advertisement<T>], legacy_has_a_kind: bool) -> bool {
    rule(live, RSVP_TE) == Rule::General && !legacy_has_a_kind
}

/// The advertisements that name an application, in byte order.
pub fn naming<T>(live: &[Advertisement<T>], application: Application) -> Vec<&Advertisement<T>> {
    live.iter().filter(|one| one.masks.name(application)).collect()
}

/// The general advertisements, in byte order: both mask lengths are 0.
pub fn general<T>(live: &[Advertisement<T>]) -> Vec<&Advertisement<T>> {
    live.iter().filter(|one| one.masks.both_empty()).collect()
}
