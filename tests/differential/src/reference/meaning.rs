//! What a link or a BGP-LS run means, places apart.

use super::application::{all_but_rsvp_te, Application, Whose, RSVP_TE};
use super::bgp_ls::{read_run, Reader};
use super::kinds::{bgp_ls_value, APPLICATION_CODES, LINK_CODES, SRLG};
use super::link::{named_on, read_link, Link, Sides};
use super::reply::Refusal;
use super::side_a::find_in_a;
use super::side_b::srlgs_in_b;

/// Values by their codes, ascending, as BGP-LS value bytes; absent kinds are left out. So two sets
/// are equal when their values are.
pub type Set = Vec<(u16, Vec<u8>)>;

/// The meaning of a link or a run.
#[derive(Clone, PartialEq, Eq, Debug, Default)]
pub struct Meaning {
    pub bandwidths: Set,
    pub rsvp_te: Set,
    pub general: Set,
    pub named: Vec<(Application, Set)>,
}

/// SRLGs as BGP-LS value bytes.
pub fn srlg_bytes(srlgs: &[u32]) -> Vec<u8> {
    srlgs.iter().flat_map(|srlg| srlg.to_be_bytes()).collect()
}

/// The set of an application, or the general set, of a link.
pub fn link_set(link: &Link, sides: &Sides, whose: Whose) -> Set {
    let mut set = Vec::new();
    for code in APPLICATION_CODES {
        if code == SRLG {
            let srlgs = srlgs_in_b(&sides.b, whose);
            if !srlgs.is_empty() {
                set.push((code, srlg_bytes(&srlgs)));
            }
        } else if let Some(attribute) = find_in_a(&sides.a, whose, code) {
            set.push((code, bgp_ls_value(&link.a, &attribute)));
        }
    }
    set
}

/// The three bandwidths of a link, the same for everyone.
pub fn link_bandwidths(link: &Link, sides: &Sides) -> Set {
    let mut set = Vec::new();
    for code in LINK_CODES {
        if let Some(attribute) = find_in_a(&sides.a, Whose::General, code) {
            set.push((code, bgp_ls_value(&link.a, &attribute)));
        }
    }
    set
}

/// The meaning of an accepted link.
pub fn of_sides(link: &Link, sides: &Sides) -> Meaning {
    let mut named = Vec::new();
    for application in named_on(sides) {
        named.push((application, link_set(link, sides, Whose::Application(application))));
    }
    Meaning {
        bandwidths: link_bandwidths(link, sides),
        rsvp_te: link_set(link, sides, Whose::Application(RSVP_TE)),
        general: link_set(link, sides, Whose::General),
        named,
    }
}

/// The meaning of a link.
pub fn of_link(link: &Link) -> Result<Meaning, Refusal> {
    Ok(of_sides(link, &read_link(link)?))
}

/// A set of a run: the values of these kinds for whoever asks.
fn run_set(run: &[u8], reader: &Reader, whose: Whose, codes: &[u16]) -> Set {
    let mut set = Vec::new();
    for &code in codes {
        if code == SRLG {
            let srlgs = reader.srlgs(run, whose);
            if !srlgs.is_empty() {
                set.push((code, srlg_bytes(&srlgs)));
            }
        } else if let Some(attribute) = reader.find(whose, code) {
            set.push((code, bgp_ls_value(run, &attribute)));
        }
    }
    set
}

/// The meaning of a BGP-LS run.
pub fn of_run(run: &[u8]) -> Result<Meaning, Refusal> {
    let reader = read_run(run)?;
    let set = |whose| run_set(run, &reader, whose, &APPLICATION_CODES);
    let mut named = Vec::new();
    for application in all_but_rsvp_te() {
        if reader.names(application) {
            named.push((application, set(Whose::Application(application))));
        }
    }
    Ok(Meaning {
        bandwidths: run_set(run, &reader, Whose::General, &LINK_CODES),
        rsvp_te: set(Whose::Application(RSVP_TE)),
        general: set(Whose::General),
        named,
    })
}
