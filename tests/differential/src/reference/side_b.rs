//! Runs B and C: the TLVs of type 238 and the legacy SRLGs, and who gets what of them.

use super::application::{
    general, general_for_rsvp_te, naming, rule, Advertisement, Application, Ignored, Rule, Verdict,
    Whose, RSVP_TE,
};
use super::isis::{frame, mask_header, Element};
use super::kinds::{ascending_and_different, numbers_of_four};
use super::reply::{Fault, Refusal, Run};

/// The type of an Application-Specific SRLG TLV.
const APPLICATION_SPECIFIC_SRLG: u8 = 238;

/// Such a TLV carries its SRLG values, in byte order.
pub type SrlgTlv = Advertisement<Vec<u32>>;

/// Runs B and C, read.
#[derive(Clone, PartialEq, Eq, Debug, Default)]
pub struct SideB {
    pub legacy: Vec<u32>,
    pub live: Vec<SrlgTlv>,
    pub ignored: Vec<Ignored>,
}

/// Walks B from its start. C has been measured before.
pub fn read_b(b: &[u8], c: &[u8]) -> Result<SideB, Refusal> {
    let mut side = SideB { legacy: numbers_of_four(c), ..SideB::default() };
    let mut at = 0;
    while at < b.len() {
        let element = frame(b, at, b.len(), Run::B)?;
        if element.kind == APPLICATION_SPECIFIC_SRLG {
            match read_srlg_tlv(b, &element)? {
                Verdict::Ignored(why) => side.ignored.push(why),
                Verdict::Live(tlv) => side.live.push(tlv),
            }
        }
        at = element.end;
    }
    Ok(side)
}

/// The checks of a 238 in the order of the paper. Faults of its masks, its list or its rest are its
/// own: they are placed at its first byte.
fn read_srlg_tlv(b: &[u8], element: &Element) -> Result<Verdict<Vec<u32>>, Refusal> {
    let fault = |fault| Err(Refusal::at(fault, Run::B, element.start));
    // A value under 9 bytes: 3. It begins with 7 bytes of the neighbour.
    if element.end - element.value < 9 {
        return fault(Fault::FixedFieldsCut);
    }
    // A mask length above 8: ignored.
    let header = mask_header(b, element.value + 7);
    if header.too_long() {
        return Ok(Verdict::Ignored(Ignored::MaskLength));
    }
    // The masks, the length byte or the list past the end: 3.
    let masks_at = element.value + 9;
    let length_at = masks_at + header.standard_length + header.user_length;
    if length_at > element.end {
        return fault(Fault::MasksCut);
    }
    if length_at == element.end {
        return fault(Fault::ListLengthCut);
    }
    let list_at = length_at + 1;
    let rest_at = list_at + usize::from(b[length_at]);
    if rest_at > element.end {
        return fault(Fault::ListCut);
    }
    // Then each inner element in turn.
    let identifiers = read_identifiers(b, list_at, rest_at)?;
    // Ignored if L is set with both masks empty, if an identifier repeats, or if one is missing.
    if header.legacy_flag_for_nobody() {
        return Ok(Verdict::Ignored(Ignored::LegacyFlagForNobody));
    }
    if some_repeats(&identifiers) {
        return Ok(Verdict::Ignored(Ignored::IdentifierRepeated));
    }
    if !identify_a_link(&identifiers) {
        return Ok(Verdict::Ignored(Ignored::IdentifiersMissing));
    }
    // L set: the values are not read. Otherwise a rest that is no multiple of 4: 4.
    let mut srlgs = Vec::new();
    if !header.legacy_flag {
        if (element.end - rest_at) % 4 != 0 {
            return fault(Fault::SrlgsUneven);
        }
        srlgs = numbers_of_four(&b[rest_at..element.end]);
    }
    Ok(Verdict::Live(Advertisement {
        start: element.start,
        legacy_flag: header.legacy_flag,
        masks: header.masks(b, masks_at),
        carries: srlgs,
    }))
}

/// The length of an identifier, if its type is one of the five.
fn identifier_length(kind: u8) -> Option<usize> {
    match kind {
        4 => Some(8),
        6 | 8 => Some(4),
        12 | 13 => Some(16),
        _ => None,
    }
}

/// The known identifier types of a list in their order: each element is framed in the list, then its
/// length checked.
fn read_identifiers(b: &[u8], list_at: usize, list_end: usize) -> Result<Vec<u8>, Refusal> {
    let mut types = Vec::new();
    let mut at = list_at;
    while at < list_end {
        let inner = frame(b, at, list_end, Run::B)?;
        if let Some(length) = identifier_length(inner.kind) {
            if inner.end - inner.value != length {
                return Err(Refusal::at(Fault::IdentifierLength, Run::B, inner.start));
            }
            types.push(inner.kind);
        }
        at = inner.end;
    }
    Ok(types)
}

/// Does one of the five types stand there twice?
fn some_repeats(types: &[u8]) -> bool {
    types.iter().any(|kind| types.iter().filter(|other| *other == kind).count() > 1)
}

/// A 4, or both 6 and 8, or both 12 and 13.
fn identify_a_link(types: &[u8]) -> bool {
    let has = |kind| types.contains(&kind);
    has(4) || (has(6) && has(8)) || (has(12) && has(13))
}

/// The SRLGs of several TLVs together: all values, ascending, repeats dropped.
fn together(tlvs: &[&SrlgTlv]) -> Vec<u32> {
    let mut all = Vec::new();
    for tlv in tlvs {
        all.extend_from_slice(&tlv.carries);
    }
    ascending_and_different(all)
}

/// The legacy SRLGs: C, ascending, repeats dropped.
fn legacy(side: &SideB) -> Vec<u32> {
    ascending_and_different(side.legacy.clone())
}

/// The SRLGs for whoever asks, ascending; none at all is absent.
pub fn srlgs_in_b(side: &SideB, whose: Whose) -> Vec<u32> {
    match whose {
        Whose::General => together(&general(&side.live)),
        Whose::Application(RSVP_TE) => for_rsvp_te(side),
        Whose::Application(application) => for_application(side, application),
    }
}

impl SideB {
    /// Does legacy hold an SRLG? Without a value there is none.
    pub fn legacy_has_a_kind(&self) -> bool {
        !self.legacy.is_empty()
    }
}

/// RSVP-TE: with L, C. Else those that name it, if they carry any value; otherwise C. Where nothing
/// names it and C is empty, the general ones.
fn for_rsvp_te(side: &SideB) -> Vec<u32> {
    if general_for_rsvp_te(&side.live, side.legacy_has_a_kind()) {
        return together(&general(&side.live));
    }
    if rule(&side.live, RSVP_TE) == Rule::Legacy {
        return legacy(side);
    }
    let named = together(&naming(&side.live, RSVP_TE));
    if named.is_empty() {
        legacy(side)
    } else {
        named
    }
}

/// Any other application: the three rules.
fn for_application(side: &SideB, application: Application) -> Vec<u32> {
    match rule(&side.live, application) {
        Rule::Legacy => legacy(side),
        Rule::Naming => together(&naming(&side.live, application)),
        Rule::General => together(&general(&side.live)),
    }
}
