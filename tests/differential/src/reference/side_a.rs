//! Run A: legacy attributes and ASLA sub-TLVs, and who gets what of them.

use super::application::{
    general, general_for_rsvp_te, naming, rule, Advertisement, Application, Ignored, Rule, Verdict,
    Whose, RSVP_TE,
};
use super::isis::{frame, mask_header, Element};
use super::kinds::{
    add_to_list, code_of_isis_type, isis_length_is_right, Attribute, APPLICATION_CODES,
    MAXIMUM_LINK_BANDWIDTH, MAXIMUM_RESERVABLE_BANDWIDTH, UNRESERVED_BANDWIDTH,
};
use super::reply::{Fault, Refusal, Run};

/// The type of an ASLA sub-TLV.
const ASLA: u8 = 16;

/// An ASLA carries the known values of its list, in byte order.
pub type Asla = Advertisement<Vec<Attribute>>;

/// Run A, read: everything in byte order.
#[derive(Clone, PartialEq, Eq, Debug, Default)]
pub struct SideA {
    pub legacy: Vec<Attribute>,
    pub live: Vec<Asla>,
    pub ignored: Vec<Ignored>,
}

/// Walks A from its start and checks what the paper checks.
pub fn read_a(a: &[u8]) -> Result<SideA, Refusal> {
    let mut side = SideA::default();
    let mut at = 0;
    while at < a.len() {
        let element = frame(a, at, a.len(), Run::A)?;
        if element.kind == ASLA {
            match read_asla(a, &element)? {
                Verdict::Ignored(why) => side.ignored.push(why),
                Verdict::Live(asla) => side.live.push(asla),
            }
        } else if let Some(attribute) = read_attribute(&element)? {
            side.legacy.push(attribute);
        }
        at = element.end;
    }
    Ok(side)
}

/// A known kind has its length checked; an unknown type is skipped.
fn read_attribute(element: &Element) -> Result<Option<Attribute>, Refusal> {
    let Some(code) = code_of_isis_type(element.kind) else {
        return Ok(None);
    };
    let length = element.end - element.value;
    if !isis_length_is_right(code, length) {
        return Err(Refusal::at(Fault::KindLength, Run::A, element.start));
    }
    Ok(Some(Attribute { code, offset: element.value, length }))
}

/// The checks of an ASLA in the order of the paper.
fn read_asla(a: &[u8], element: &Element) -> Result<Verdict<Vec<Attribute>>, Refusal> {
    // A value under 2 bytes: 3.
    if element.end - element.value < 2 {
        return Err(Refusal::at(Fault::FixedFieldsCut, Run::A, element.start));
    }
    // Either length above 8: ignored unread.
    let header = mask_header(a, element.value);
    if header.too_long() {
        return Ok(Verdict::Ignored(Ignored::MaskLength));
    }
    // Masks past its end: 3.
    let masks_at = element.value + 2;
    let list_at = masks_at + header.standard_length + header.user_length;
    if list_at > element.end {
        return Err(Refusal::at(Fault::MasksCut, Run::A, element.start));
    }
    // L set with both lengths 0: ignored.
    if header.legacy_flag_for_nobody() {
        return Ok(Verdict::Ignored(Ignored::LegacyFlagForNobody));
    }
    // L set: the list is not read.
    let mut attributes = Vec::new();
    if !header.legacy_flag {
        // Otherwise each list element in turn is framed and, if known, its length checked, and that it
        // is the first of its kind. An ASLA in the list is unknown, since 16 is the type of no kind.
        let mut at = list_at;
        while at < element.end {
            let inner = frame(a, at, element.end, Run::A)?;
            if let Some(attribute) = read_attribute(&inner)? {
                add_to_list(&mut attributes, attribute, Run::A, inner.start)?;
            }
            at = inner.end;
        }
    }
    Ok(Verdict::Live(Advertisement {
        start: element.start,
        legacy_flag: header.legacy_flag,
        masks: header.masks(a, masks_at),
        carries: attributes,
    }))
}

/// The first value of a kind.
fn first(attributes: &[Attribute], code: u16) -> Option<Attribute> {
    attributes.iter().find(|one| one.code == code).copied()
}

/// The first value of a kind in several ASLAs together.
fn first_in(aslas: &[&Asla], code: u16) -> Option<Attribute> {
    aslas.iter().find_map(|asla| first(&asla.carries, code))
}

/// A kind of the link or of an application, for whoever asks.
pub fn find_in_a(side: &SideA, whose: Whose, code: u16) -> Option<Attribute> {
    match (code, whose) {
        (MAXIMUM_LINK_BANDWIDTH, _) => maximum_link_bandwidth(side),
        (MAXIMUM_RESERVABLE_BANDWIDTH | UNRESERVED_BANDWIDTH, _) => reservations(side, code),
        (_, Whose::General) => first_in(&general(&side.live), code),
        (_, Whose::Application(RSVP_TE)) => for_rsvp_te(side, code),
        (_, Whose::Application(application)) => for_application(side, application, code),
    }
}

/// 1089: legacy, else the first in any live ASLA without L.
fn maximum_link_bandwidth(side: &SideA) -> Option<Attribute> {
    let without_l: Vec<&Asla> = side.live.iter().filter(|asla| !asla.legacy_flag).collect();
    first(&side.legacy, MAXIMUM_LINK_BANDWIDTH).or(first_in(&without_l, MAXIMUM_LINK_BANDWIDTH))
}

/// 1090 and 1091: unless RSVP-TE is named with L, the first in a live ASLA whose only set bit in
/// both masks is standard 0; else legacy.
fn reservations(side: &SideA, code: u16) -> Option<Attribute> {
    let legacy = first(&side.legacy, code);
    if rule(&side.live, RSVP_TE) == Rule::Legacy {
        return legacy;
    }
    let rsvp_te_alone: Vec<&Asla> = side
        .live
        .iter()
        .filter(|asla| asla.masks.name(RSVP_TE) && asla.masks.bits_set() == 1)
        .collect();
    first_in(&rsvp_te_alone, code).or(legacy)
}

impl SideA {
    /// Does legacy hold one of the application kinds? The link's bandwidths are none.
    pub fn legacy_has_a_kind(&self) -> bool {
        self.legacy.iter().any(|one| APPLICATION_CODES.contains(&one.code))
    }
}

/// RSVP-TE: with L, legacy. Else for each kind the value from those that name it, otherwise legacy.
/// Where nothing names it and legacy has no kind at all, the general ones.
fn for_rsvp_te(side: &SideA, code: u16) -> Option<Attribute> {
    if general_for_rsvp_te(&side.live, side.legacy_has_a_kind()) {
        return first_in(&general(&side.live), code);
    }
    let legacy = first(&side.legacy, code);
    if rule(&side.live, RSVP_TE) == Rule::Legacy {
        return legacy;
    }
    first_in(&naming(&side.live, RSVP_TE), code).or(legacy)
}

/// Any other application: the three rules, for all kinds alike.
fn for_application(side: &SideA, application: Application, code: u16) -> Option<Attribute> {
    match rule(&side.live, application) {
        Rule::Legacy => first(&side.legacy, code),
        Rule::Naming => first_in(&naming(&side.live, application), code),
        Rule::General => first_in(&general(&side.live), code),
    }
}
