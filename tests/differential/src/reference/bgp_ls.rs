//! The reader of BGP-LS runs.

use super::application::{
    all_but_rsvp_te, general, naming, Advertisement, Application, Asker, Ignored, Masks, Verdict,
    Whose, RSVP_TE,
};
use super::kinds::{
    add_to_list, ascending_and_different, bgp_ls_length_is_right, big_endian, numbers_of_four,
    reading, Attribute, ASLA, CODES, LINK_CODES, SRLG,
};
use super::link::{check_question, srlg_answer};
use super::reply::{Answer, Fault, Refusal, Run};

/// A run, read: the known values at top level, and the 1122s that are not ignored, in byte order.
#[derive(Clone, PartialEq, Eq, Debug, Default)]
pub struct Reader {
    pub top: Vec<Attribute>,
    pub aslas: Vec<Advertisement<Vec<Attribute>>>,
    pub ignored: Vec<Ignored>,
}

/// A framed TLV.
struct Tlv {
    code: u16,
    start: usize,
    value: usize,
    end: usize,
}

/// Frames the TLV at `start` in a holder that ends at `holder_end`: two bytes of type, two of length.
fn frame(run: &[u8], start: usize, holder_end: usize) -> Result<Tlv, Refusal> {
    if holder_end - start < 4 {
        return Err(Refusal::at(Fault::HeaderCut, Run::BgpLs, start));
    }
    let value = start + 4;
    let end = value + big_endian(&run[start + 2..value]) as usize;
    if end > holder_end {
        return Err(Refusal::at(Fault::ValueCut, Run::BgpLs, start));
    }
    Ok(Tlv { code: big_endian(&run[start..start + 2]) as u16, start, value, end })
}

/// A known kind has its length checked; an unknown code is skipped.
fn read_attribute(tlv: &Tlv) -> Result<Option<Attribute>, Refusal> {
    if !CODES.contains(&tlv.code) {
        return Ok(None);
    }
    let length = tlv.end - tlv.value;
    if !bgp_ls_length_is_right(tlv.code, length) {
        return Err(Refusal::at(Fault::KindLength, Run::BgpLs, tlv.start));
    }
    Ok(Some(Attribute { code: tlv.code, offset: tlv.value, length }))
}

/// 1, then the run from its start.
pub fn read_run(run: &[u8]) -> Result<Reader, Refusal> {
    if run.len() > 524_288 {
        return Err(Refusal::of_request(Fault::RunTooLong));
    }
    let mut reader = Reader::default();
    let mut at = 0;
    while at < run.len() {
        let tlv = frame(run, at, run.len())?;
        if tlv.code == ASLA {
            match read_asla(run, &tlv)? {
                Verdict::Ignored(why) => reader.ignored.push(why),
                Verdict::Live(asla) => reader.aslas.push(asla),
            }
        } else if let Some(attribute) = read_attribute(&tlv)? {
            reader.top.push(attribute);
        }
        at = tlv.end;
    }
    Ok(reader)
}

/// The checks of a 1122 in the order of the paper.
fn read_asla(run: &[u8], tlv: &Tlv) -> Result<Verdict<Vec<Attribute>>, Refusal> {
    // Under 4 value bytes: 3.
    if tlv.end - tlv.value < 4 {
        return Err(Refusal::at(Fault::FixedFieldsCut, Run::BgpLs, tlv.start));
    }
    // A length other than 0, 4, 8: ignored.
    let standard_length = usize::from(run[tlv.value]);
    let user_length = usize::from(run[tlv.value + 1]);
    if ![0, 4, 8].contains(&standard_length) || ![0, 4, 8].contains(&user_length) {
        return Ok(Verdict::Ignored(Ignored::MaskLength));
    }
    // The two reserved bytes are ignored. Masks past the end: 3.
    let masks_at = tlv.value + 4;
    let user_at = masks_at + standard_length;
    let list_at = user_at + user_length;
    if list_at > tlv.end {
        return Err(Refusal::at(Fault::MasksCut, Run::BgpLs, tlv.start));
    }
    // Then its inner elements, each kind once. The link's bandwidths and 1122 are unknown here.
    let mut attributes = Vec::new();
    let mut at = list_at;
    while at < tlv.end {
        let inner = frame(run, at, tlv.end)?;
        if !LINK_CODES.contains(&inner.code) {
            if let Some(attribute) = read_attribute(&inner)? {
                add_to_list(&mut attributes, attribute, Run::BgpLs, inner.start)?;
            }
        }
        at = inner.end;
    }
    // Standard bit 0 is ignored, but a mask with no other bit is still a mask.
    let mut masks = Masks::sent(&run[masks_at..user_at], &run[user_at..list_at]);
    if let Some(first) = masks.standard.first_mut() {
        *first &= 127;
    }
    Ok(Verdict::Live(Advertisement {
        start: tlv.start,
        legacy_flag: false,
        masks,
        carries: attributes,
    }))
}

impl Reader {
    /// Does a 1122 name the application?
    pub fn names(&self, application: Application) -> bool {
        self.aslas.iter().any(|asla| asla.masks.name(application))
    }

    /// The values that count for whoever asks, in byte order. RSVP-TE has the top-level TLVs. Another
    /// application has the 1122s that name it, else, like the general set, those with both masks empty.
    fn values_for(&self, whose: Whose) -> Vec<Attribute> {
        let aslas = match whose {
            Whose::Application(RSVP_TE) => return self.top.clone(),
            Whose::Application(application) if self.names(application) => {
                naming(&self.aslas, application)
            }
            _ => general(&self.aslas),
        };
        aslas.iter().flat_map(|asla| asla.carries.clone()).collect()
    }

    /// The first value of a kind other than SRLG. The three bandwidths stand at top level, whoever
    /// asks.
    pub fn find(&self, whose: Whose, code: u16) -> Option<Attribute> {
        let values =
            if LINK_CODES.contains(&code) { self.top.clone() } else { self.values_for(whose) };
        values.into_iter().find(|one| one.code == code)
    }

    /// All SRLGs for whoever asks, ascending, repeats dropped.
    pub fn srlgs(&self, run: &[u8], whose: Whose) -> Vec<u32> {
        let mut all = Vec::new();
        for one in self.values_for(whose) {
            if one.code == SRLG {
                all.extend(numbers_of_four(&run[one.offset..one.offset + one.length]));
            }
        }
        ascending_and_different(all)
    }
}

/// Asks a run for one kind: 6, 7, 1, the run from its start, then 5.
pub fn ask(run: &[u8], asker: Asker, code: u16, room: usize) -> Result<Answer, Refusal> {
    let whose = check_question(asker, code)?;
    let reader = read_run(run)?;
    if code == SRLG {
        return srlg_answer(reader.srlgs(run, whose), room);
    }
    match reader.find(whose, code) {
        None => Ok(Answer::Absent),
        Some(attribute) => Ok(Answer::Found(reading(run, &attribute))),
    }
}

/// The place and length of a value's own bytes in the run; none if absent, refused or SRLG.
pub fn value(run: &[u8], asker: Asker, code: u16) -> Option<(usize, usize)> {
    let whose = check_question(asker, code).ok()?;
    let reader = read_run(run).ok()?;
    if code == SRLG {
        return None;
    }
    let attribute = reader.find(whose, code)?;
    Some((attribute.offset, attribute.length))
}

/// The applications other than RSVP-TE that some 1122 names.
pub fn named(run: &[u8]) -> Result<Vec<Application>, Refusal> {
    let reader = read_run(run)?;
    Ok(all_but_rsvp_te().into_iter().filter(|one| reader.names(*one)).collect())
}
