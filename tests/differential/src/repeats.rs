//! What stands twice in a run, inside an ASLA and outside, for the counts of `coverage`.

use std::ops::Range;

use crate::reference::kinds::{
    bgp_ls_length_is_right, code_of_isis_type, isis_length_is_right, APPLICATION_CODES, ASLA,
    CODES, LINK_CODES, SRLG,
};
use crate::reference::reply::{Fault, Refusal};

/// A repeat, and what became of it.
#[derive(Clone, Copy, PartialEq, Eq, PartialOrd, Ord, Debug)]
pub enum Repeat {
    /// Refused by 8: a kind right behind its first.
    Neighbour,
    /// Refused by 8: a kind with something else between.
    FurtherOn,
    /// Refused by 8, with a fault behind it that is not told.
    BeforeAFault,
    /// Refused by 8: two 1096 without a number.
    EmptySrlgs,
    /// A bandwidth of the link: refused by 8 in A, accepted in a 1122, where it is unknown.
    Bandwidth,
    /// Refused by 4: the second one has a wrong length.
    WrongLength,
    /// Refused by 4, for another element before it.
    BehindAFault,
    /// Accepted: an unknown type.
    Unknown,
    /// Accepted: the list is not read because of L.
    WithL,
    /// Accepted: the ASLA is ignored for a mask length.
    Ignored,
    /// Accepted: a kind outside an ASLA.
    Outside,
}

/// A framed element.
struct Part {
    code: u16,
    start: usize,
    value: Range<usize>,
}

/// How a list is treated.
#[derive(Clone, Copy, PartialEq, Eq)]
enum Treated {
    Read,
    WithL,
    Ignored,
}

/// Run A, or a BGP-LS run.
#[derive(Clone, Copy, PartialEq, Eq)]
pub enum Format {
    A,
    BgpLs,
}

impl Format {
    /// The bytes of a type, and of a length.
    fn width(self) -> usize {
        match self {
            Format::A => 1,
            Format::BgpLs => 2,
        }
    }

    /// The code of a type, ASLA's too; an unknown type stays as it is.
    fn code(self, number: u16) -> u16 {
        match self {
            Format::A if number == 16 => ASLA,
            Format::A => code_of_isis_type(number as u8).unwrap_or(number),
            Format::BgpLs => number,
        }
    }

    /// Is it a kind in a list?
    fn knows(self, code: u16) -> bool {
        match self {
            Format::A => CODES.contains(&code),
            Format::BgpLs => APPLICATION_CODES.contains(&code),
        }
    }

    fn length_is_right(self, part: &Part) -> bool {
        match self {
            Format::A => isis_length_is_right(part.code, part.value.len()),
            Format::BgpLs => bgp_ls_length_is_right(part.code, part.value.len()),
        }
    }

    /// The elements of a range, as far as they are framed.
    fn parts(self, run: &[u8], range: Range<usize>) -> Vec<Part> {
        let width = self.width();
        let number =
            |at: usize| run[at..at + width].iter().fold(0, |n, b| n * 256 + usize::from(*b));
        let mut parts = Vec::new();
        let mut at = range.start;
        while at + 2 * width <= range.end {
            let value = at + 2 * width..at + 2 * width + number(at + width);
            if value.end > range.end {
                break;
            }
            let next = value.end;
            parts.push(Part { code: self.code(number(at) as u16), start: at, value });
            at = next;
        }
        parts
    }

    /// The list of an ASLA, if it can be told where it begins, and how it is treated.
    fn list(self, run: &[u8], asla: &Part) -> Option<(Range<usize>, Treated)> {
        let (low, header) = match self {
            Format::A => (127, 2),
            Format::BgpLs => (255, 4),
        };
        if asla.value.len() < header {
            return None;
        }
        let bytes = &run[asla.value.clone()];
        let lengths = [bytes[0] & low, bytes[1] & low].map(usize::from);
        let start = asla.value.start + header + lengths[0] + lengths[1];
        let allowed = |length: &usize| match self {
            Format::A => *length <= 8,
            Format::BgpLs => [0, 4, 8].contains(length),
        };
        let treated = if !lengths.iter().all(allowed) {
            Treated::Ignored
        } else if self == Format::A && bytes[0] >= 128 {
            Treated::WithL
        } else {
            Treated::Read
        };
        (start <= asla.value.end).then_some((start..asla.value.end, treated))
    }

    /// The repeats of a run that is accepted, or refused with a place in it.
    pub fn repeats(self, run: &[u8], refusal: Option<Refusal>) -> Vec<Repeat> {
        let (aslas, outside): (Vec<Part>, Vec<Part>) =
            self.parts(run, 0..run.len()).into_iter().partition(|part| part.code == ASLA);
        let mut found = Vec::new();
        for asla in &aslas {
            if let Some((range, treated)) = self.list(run, asla) {
                found.extend(self.in_list(run, range, treated, refusal));
            }
        }
        let twice = pairs(&outside).into_iter().any(|(_, at)| CODES.contains(&outside[at].code));
        if twice && refusal.is_none() {
            found.push(Repeat::Outside);
        }
        found
    }

    fn in_list(
        self,
        run: &[u8],
        range: Range<usize>,
        treated: Treated,
        refusal: Option<Refusal>,
    ) -> Vec<Repeat> {
        let list = self.parts(run, range.clone());
        let mut found = Vec::new();
        for (first, second) in pairs(&list) {
            let part = &list[second];
            let known = self.knows(part.code);
            let fault = refusal.map(|refusal| (refusal.fault, refusal.offset));
            match (treated, fault) {
                (Treated::Read, None) if LINK_CODES.contains(&part.code) => {
                    found.push(Repeat::Bandwidth);
                }
                (Treated::Read, None) => found.push(Repeat::Unknown),
                (Treated::WithL, None) if known => found.push(Repeat::WithL),
                (Treated::Ignored, None) if known => found.push(Repeat::Ignored),
                (Treated::Read, Some((Fault::KindTwice, at))) if at == part.start => {
                    found.extend(self.refused(&list, first, second, range.end));
                }
                (Treated::Read, Some((Fault::KindLength, at))) if known && at == part.start => {
                    found.push(Repeat::WrongLength);
                }
                (Treated::Read, Some((Fault::KindLength, at)))
                    if known && range.contains(&at) && at < part.start =>
                {
                    found.push(Repeat::BehindAFault);
                }
                _ => {}
            }
        }
        found
    }

    /// What there is to say of an element that is refused by 8, in a list that ends at `end`.
    fn refused(self, list: &[Part], first: usize, second: usize, end: usize) -> Vec<Repeat> {
        let wrong = |part: &Part| self.knows(part.code) && !self.length_is_right(part);
        let cut = list.last().is_some_and(|last| last.value.end < end);
        let empty = |at: usize| list[at].code == SRLG && list[at].value.is_empty();
        let near = first + 1 == second;
        let mut found = vec![if near { Repeat::Neighbour } else { Repeat::FurtherOn }];
        if list[second + 1..].iter().any(wrong) || cut {
            found.push(Repeat::BeforeAFault);
        }
        if LINK_CODES.contains(&list[second].code) {
            found.push(Repeat::Bandwidth);
        }
        if empty(first) && empty(second) {
            found.push(Repeat::EmptySrlgs);
        }
        found
    }
}

/// For each element of a list whose type stood there before: where that was first, and where it is.
fn pairs(list: &[Part]) -> Vec<(usize, usize)> {
    let mut pairs = Vec::new();
    for (at, part) in list.iter().enumerate() {
        if let Some(first) = list[..at].iter().position(|other| other.code == part.code) {
            pairs.push((first, at));
        }
    }
    pairs
}
