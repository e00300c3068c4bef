//! The questions to a link.

use super::application::{all_but_rsvp_te, whose, Application, Asker, Whose};
use super::kinds::{reading, CODES, SRLG};
use super::reply::{Answer, Fault, Reading, Refusal};
use super::side_a::{find_in_a, read_a, SideA};
use super::side_b::{read_b, srlgs_in_b, SideB};

/// The three runs of a link.
#[derive(Clone, PartialEq, Eq, Debug, Default)]
pub struct Link {
    pub a: Vec<u8>,
    pub b: Vec<u8>,
    pub c: Vec<u8>,
}

/// Both sides of a link that no number but 5, 6 or 7 refuses.
#[derive(Clone, PartialEq, Eq, Debug)]
pub struct Sides {
    pub a: SideA,
    pub b: SideB,
}

/// 1, then 2, then A from its start, then B from its start.
pub fn read_link(link: &Link) -> Result<Sides, Refusal> {
    if link.a.len() > 2048 || link.b.len() > 2048 || link.c.len() > 1024 {
        return Err(Refusal::of_request(Fault::RunTooLong));
    }
    if link.c.len() % 4 != 0 {
        return Err(Refusal::of_request(Fault::LegacySrlgsUneven));
    }
    let a = read_a(&link.a)?;
    let b = read_b(&link.b, &link.c)?;
    Ok(Sides { a, b })
}

/// The checks of a question itself: 6, then 7.
pub fn check_question(asker: Asker, code: u16) -> Result<Whose, Refusal> {
    let whose = whose(asker)?;
    if !CODES.contains(&code) {
        return Err(Refusal::of_request(Fault::UnknownCode));
    }
    Ok(whose)
}

/// The answer about SRLGs: none at all is absent, which fits any room; else the list must have room
/// for all of them, or 5.
pub fn srlg_answer(srlgs: Vec<u32>, room: usize) -> Result<Answer, Refusal> {
    if srlgs.is_empty() {
        Ok(Answer::Absent)
    } else if srlgs.len() > room {
        Err(Refusal::of_request(Fault::RoomTooSmall))
    } else {
        Ok(Answer::Found(Reading::Srlgs(srlgs)))
    }
}

/// Asks a link for one kind, with a list that has room for so many SRLGs.
pub fn ask(link: &Link, asker: Asker, code: u16, room: usize) -> Result<Answer, Refusal> {
    let whose = check_question(asker, code)?;
    let sides = read_link(link)?;
    if code == SRLG {
        return srlg_answer(srlgs_in_b(&sides.b, whose), room);
    }
    match find_in_a(&sides.a, whose, code) {
        None => Ok(Answer::Absent),
        Some(attribute) => Ok(Answer::Found(reading(&link.a, &attribute))),
    }
}

/// The place and length of a value's own bytes in A; none if absent, refused or SRLG.
pub fn value(link: &Link, asker: Asker, code: u16) -> Option<(usize, usize)> {
    let whose = check_question(asker, code).ok()?;
    let sides = read_link(link).ok()?;
    if code == SRLG {
        return None;
    }
    let attribute = find_in_a(&sides.a, whose, code)?;
    Some((attribute.offset, attribute.length))
}

/// The applications other than RSVP-TE that a live advertisement on some side names.
pub fn named_on(sides: &Sides) -> Vec<Application> {
    let named = |application: &Application| {
        sides.a.live.iter().any(|one| one.masks.name(*application))
            || sides.b.live.iter().any(|one| one.masks.name(*application))
    };
    all_but_rsvp_te().into_iter().filter(named).collect()
}

/// The named applications of a link.
pub fn named(link: &Link) -> Result<Vec<Application>, Refusal> {
    Ok(named_on(&read_link(link)?))
}
