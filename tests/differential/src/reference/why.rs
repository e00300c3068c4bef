//! Why whoever asks gets a kind, or does not: the rule, and the advertisement that decides.
//!
//! | Rule | When | The advertisement |
//! |---|---|---|
//! | 0 | a live one with L names the application, on the side of the kind | the first such |
//! | 1 | some name it (RSVP-TE: and have the kind) | the one with the value; of SRLGs, or if none has the kind, the first that names it |
//! | 2 | the general set was asked for | the one with the value; of SRLGs the first general one if they have a number; none without a value |
//! | 3 | nothing names the application (RSVP-TE: and legacy has none of the kinds) | as 2 |
//! | 4 | legacy without L: RSVP-TE's kinds that none naming it has, a bandwidth that no ASLA gives | none; the run of the legacy values |
//! | 5 | an ASLA gives a bandwidth | that ASLA |
//! | 6 | a bandwidth or RSVP-TE's kind of a BGP-LS run | none |

use super::application::{
    general, general_for_rsvp_te, naming, Advertisement, Application, Asker, Whose, RSVP_TE,
};
use super::bgp_ls::read_run;
use super::kinds::{Attribute, LINK_CODES, MAXIMUM_LINK_BANDWIDTH, SRLG};
use super::link::{check_question, read_link, Link};
use super::reply::{Refusal, Run};
use super::side_a::{Asla, SideA};

#[derive(Clone, Copy, PartialEq, Eq, Debug)]
pub struct Why {
    pub rule: u8,
    pub advertisement: Option<(Run, usize)>,
    pub legacy: Option<Run>,
}

/// One side, or the 1122s of a run: its advertisements, whether one has a value of the kind, whether
/// values of several count together, the runs of both sorts of values, and whether legacy has some.
struct Side<'a, T> {
    live: &'a [Advertisement<T>],
    has: &'a dyn Fn(&T) -> bool,
    joined: bool,
    run: Run,
    legacy: Run,
    legacy_has_a_kind: bool,
}

impl<T> Side<'_, T> {
    /// The rule with an advertisement, if there is one.
    fn by(&self, rule: u8, one: Option<&Advertisement<T>>) -> Why {
        Why { rule, advertisement: one.map(|one| (self.run, one.start)), legacy: None }
    }

    fn any_has(&self, of: &[&Advertisement<T>]) -> bool {
        of.iter().any(|one| (self.has)(&one.carries))
    }

    /// Of those that count together the first; else the one that holds the value.
    fn holder<'b>(&self, of: &[&'b Advertisement<T>]) -> Option<&'b Advertisement<T>> {
        if !self.any_has(of) {
            return None;
        }
        of.iter().find(|one| self.joined || (self.has)(&one.carries)).copied()
    }

    fn for_general(&self, rule: u8) -> Why {
        self.by(rule, self.holder(&general(self.live)))
    }

    fn for_application(&self, application: Application) -> Why {
        let names = naming(self.live, application);
        if let Some(flagged) = names.iter().find(|one| one.legacy_flag) {
            return self.by(0, Some(flagged));
        }
        if application == RSVP_TE && general_for_rsvp_te(self.live, self.legacy_has_a_kind) {
            return self.for_general(3);
        }
        if application == RSVP_TE && !self.any_has(&names) {
            return Why { rule: 4, advertisement: None, legacy: Some(self.legacy) };
        }
        match names.first() {
            None => self.for_general(3),
            Some(first) => self.by(1, Some(self.holder(&names).unwrap_or(*first))),
        }
    }

    fn why(&self, whose: Whose) -> Why {
        match whose {
            Whose::General => self.for_general(2),
            Whose::Application(application) => self.for_application(application),
        }
    }
}

/// A link's answer, refused as a question is that has room enough.
pub fn of_link(link: &Link, asker: Asker, code: u16) -> Result<Why, Refusal> {
    let whose = check_question(asker, code)?;
    let sides = read_link(link)?;
    if LINK_CODES.contains(&code) {
        return Ok(of_bandwidth(&sides.a, code));
    }
    if code == SRLG {
        let has = |srlgs: &Vec<u32>| !srlgs.is_empty();
        let side = Side {
            live: &sides.b.live,
            has: &has,
            joined: true,
            run: Run::B,
            legacy: Run::C,
            legacy_has_a_kind: sides.b.legacy_has_a_kind(),
        };
        return Ok(side.why(whose));
    }
    let has = |values: &Vec<Attribute>| values.iter().any(|one| one.code == code);
    let side = Side {
        live: &sides.a.live,
        has: &has,
        joined: false,
        run: Run::A,
        legacy: Run::A,
        legacy_has_a_kind: sides.a.legacy_has_a_kind(),
    };
    Ok(side.why(whose))
}

/// A bandwidth of a link, the same for everyone: the ASLA that gives it, or legacy.
fn of_bandwidth(side: &SideA, code: u16) -> Why {
    let has = |asla: &&Asla| asla.carries.iter().any(|one| one.code == code);
    let flagged = side.live.iter().any(|asla| asla.legacy_flag && asla.masks.name(RSVP_TE));
    let rsvp_te_alone = |asla: &&Asla| asla.masks.name(RSVP_TE) && asla.masks.bits_set() == 1;
    let giver = if code == MAXIMUM_LINK_BANDWIDTH {
        let legacy = side.legacy.iter().any(|one| one.code == code);
        let mut live = side.live.iter().filter(|asla| !asla.legacy_flag && !legacy);
        live.find(has)
    } else {
        let mut live = side.live.iter().filter(|asla| !flagged && rsvp_te_alone(asla));
        live.find(has)
    };
    match giver {
        Some(asla) => Why { rule: 5, advertisement: Some((Run::A, asla.start)), legacy: None },
        None => Why { rule: 4, advertisement: None, legacy: Some(Run::A) },
    }
}

/// The answer of a BGP-LS run: bandwidths and RSVP-TE's kinds stand at its top level.
pub fn of_run(run: &[u8], asker: Asker, code: u16) -> Result<Why, Refusal> {
    let whose = check_question(asker, code)?;
    let reader = read_run(run)?;
    if LINK_CODES.contains(&code) || whose == Whose::Application(RSVP_TE) {
        return Ok(Why { rule: 6, advertisement: None, legacy: None });
    }
    // An SRLG TLV without a number has no value.
    let value = |one: &Attribute| one.code == code && (code != SRLG || one.length > 0);
    let has = |values: &Vec<Attribute>| values.iter().any(value);
    // RSVP-TE has been answered: nobody else asks for legacy values.
    let side = Side {
        live: &reader.aslas,
        has: &has,
        joined: code == SRLG,
        run: Run::BgpLs,
        legacy: Run::BgpLs,
        legacy_has_a_kind: false,
    };
    Ok(side.why(whose))
}
