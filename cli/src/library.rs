//! All that is asked of the proved library.
use crate::input::RunName;
use crate::names::{Form, Kind};
use crate::values::Value;
use nakhshirul::{Answer, BgpLs, Link, Part, Reading, Run};

pub use nakhshirul::{Application, Rule, Subject};

/// What can be asked: a link, or a BGP-LS run.
#[derive(Clone, Copy, Debug)]
pub enum Source<'a> {
    Link(Link<'a>),
    BgpLs(BgpLs<'a>),
}

/// A place in a run.
#[derive(Clone, Copy, Debug, PartialEq, Eq, Hash)]
pub struct Place {
    pub run: RunName,
    pub offset: usize,
}

/// Why somebody gets what he gets.
#[derive(Clone, Copy, Debug, PartialEq, Eq, Hash)]
pub struct Why {
    pub rule: Rule,
    /// The advertisement that decides, or holds the value.
    pub advertisement: Option<Place>,
    /// Where the legacy values stand.
    pub legacy: Option<RunName>,
}

/// What a subject gets of a kind, from where and why.
#[derive(Clone, Debug, PartialEq, Eq)]
pub struct Fact {
    pub kind: &'static Kind,
    pub value: Option<Value>,
    /// The first byte of the value; none for SRLGs, which can stand in many places.
    pub place: Option<Place>,
    /// The value as it was sent has so many bytes.
    pub length: usize,
    pub why: Why,
}

/// Why the library refuses.
#[derive(Clone, Debug, PartialEq, Eq)]
pub struct Refusal {
    pub number: u8,
    /// The element that is to blame, if one is.
    pub place: Option<Place>,
    pub what: String,
}

impl From<nakhshirul::Refusal> for Refusal {
    fn from(refusal: nakhshirul::Refusal) -> Refusal {
        let place = refusal.place().map(Place::from);
        Refusal { number: refusal.number(), place, what: refusal.to_string() }
    }
}

impl From<nakhshirul::Place> for Place {
    fn from(place: nakhshirul::Place) -> Place {
        Place { run: place.run.into(), offset: place.offset }
    }
}

impl From<Run> for RunName {
    fn from(run: Run) -> RunName {
        match run {
            Run::A => RunName::A,
            Run::B => RunName::B,
            Run::BgpLs => RunName::BgpLs,
            Run::C => RunName::C,
            _ => unreachable!("{run} is no run of a link or of BGP-LS"),
        }
    }
}

/// Room for all SRLGs of a link: 2,048 bytes of B and 1,024 of C have no more.
const SRLGS_OF_A_LINK: usize = 768;

impl RunName {
    /// A longer run is refused.
    pub fn longest(self) -> usize {
        match self {
            RunName::A | RunName::B => 2048,
            RunName::C => 1024,
            RunName::BgpLs => 524_288,
        }
    }
}

impl<'a> Source<'a> {
    pub fn of_link(a: &'a [u8], b: &'a [u8], c: &'a [u8]) -> Source<'a> {
        Source::Link(Link { a, b, c })
    }

    pub fn of_bgp_ls(run: &'a [u8]) -> Source<'a> {
        Source::BgpLs(BgpLs { run })
    }

    /// The runs that it is made of.
    pub fn runs(&self) -> Vec<(RunName, &'a [u8])> {
        match self {
            Source::Link(Link { a, b, c }) => {
                vec![(RunName::A, a), (RunName::B, b), (RunName::C, c)]
            }
            Source::BgpLs(BgpLs { run }) => vec![(RunName::BgpLs, run)],
        }
    }

    /// The applications other than RSVP-TE that are named.
    pub fn named(&self) -> Result<Vec<Application>, Refusal> {
        let all = match self {
            Source::Link(link) => link.named()?,
            Source::BgpLs(run) => run.named()?,
        };
        Ok(all.iter().collect())
    }

    /// What a subject gets of a kind, from where and why.
    pub fn fact(&self, whom: Subject, kind: &'static Kind) -> Result<Fact, Refusal> {
        let why = self.why(whom, kind.code)?;
        let part = self.part(whom, kind.code);
        let value = match (part, kind.form) {
            (None, Form::Srlgs) | (Some(_), _) => self.value(whom, kind.code)?,
            (None, _) => None,
        };
        let length = part.map_or(0, |p| p.bytes.len());
        Ok(Fact { kind, value, place: part.map(place_of), length, why })
    }

    /// Where the value of a kind stands that a subject gets.
    pub fn place(&self, whom: Subject, code: u16) -> Option<Place> {
        self.part(whom, code).map(place_of)
    }

    fn part(&self, whom: Subject, code: u16) -> Option<Part<'a>> {
        match self {
            Source::Link(link) => link.value(whom, code),
            Source::BgpLs(run) => run.value(whom, code),
        }
    }

    fn value(&self, whom: Subject, code: u16) -> Result<Option<Value>, Refusal> {
        let room = match self {
            Source::Link(_) => SRLGS_OF_A_LINK,
            Source::BgpLs(run) => run.run.len() / 4,
        };
        let mut list = vec![0; if code == 1096 { room } else { 0 }];
        let answer = match self {
            Source::Link(link) => link.ask(whom, code, &mut list),
            Source::BgpLs(run) => run.ask(whom, code, &mut list),
        };
        Ok(match answer {
            Answer::Refused(refusal) => return Err(refusal.into()),
            Answer::Absent => None,
            Answer::Found(reading) => Some(match reading {
                Reading::Number(n) => Value::Number(n),
                Reading::Pair(first, second) => Value::Pair(first, second),
                Reading::Bandwidth(b) => Value::Bandwidth(b.bits()),
                Reading::Part(part) => Value::Bytes(part.bytes.to_vec()),
                Reading::Srlgs(all) => Value::Srlgs(all.to_vec()),
            }),
        })
    }

    fn why(&self, whom: Subject, code: u16) -> Result<Why, Refusal> {
        let why = match self {
            Source::Link(link) => link.why(whom, code)?,
            Source::BgpLs(run) => run.why(whom, code)?,
        };
        Ok(Why {
            rule: why.rule,
            advertisement: why.advertisement.map(Place::from),
            legacy: why.legacy.map(RunName::from),
        })
    }

    /// The export of a link, in the room that is lent; the bytes of a BGP-LS run as they are.
    pub fn export<'o>(&self, room: &'o mut [u8]) -> Result<&'o [u8], Refusal>
    where
        'a: 'o,
    {
        match self {
            Source::Link(link) => Ok(link.export(room)?),
            Source::BgpLs(run) => Ok(run.run),
        }
    }
}

fn place_of(part: Part) -> Place {
    Place { run: part.run.into(), offset: part.offset }
}

/// Room for any export.
pub fn room() -> Vec<u8> {
    vec![0; nakhshirul::LONGEST_EXPORT]
}
