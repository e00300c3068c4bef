//! What is asked, and what is answered.
use crate::code;
use std::error::Error;
use std::fmt;

/// Whom a question is about.
#[derive(Clone, Copy, Debug, PartialEq, Eq, Hash)]
pub enum Subject {
    /// The general set: what every application gets that nothing names.
    General,
    /// A standard application: 0 is RSVP-TE, 1 SR Policy, 2 LFA, 3 Flex-Algo. Above 63 a question
    /// is refused.
    Standard(u64),
    /// A user-defined application, 0 to 31. Above 31 a question is refused: 32 to 63 are retired.
    User(u64),
}

/// In words: `SR Policy`, `user 5`, `general set`.
///
/// ```
/// use nakhshirul::Subject;
///
/// assert_eq!(Subject::Standard(1).to_string(), "SR Policy");
/// assert_eq!(Subject::Standard(17).to_string(), "standard 17");
/// assert_eq!(Subject::User(5).to_string(), "user 5");
/// assert_eq!(Subject::General.to_string(), "general set");
/// ```
impl fmt::Display for Subject {
    fn fmt(&self, f: &mut fmt::Formatter<'_>) -> fmt::Result {
        match self {
            Subject::General => f.pad("general set"),
            Subject::Standard(0) => f.pad("RSVP-TE"),
            Subject::Standard(1) => f.pad("SR Policy"),
            Subject::Standard(2) => f.pad("LFA"),
            Subject::Standard(3) => f.pad("Flex-Algo"),
            Subject::Standard(n) => f.pad(&format!("standard {n}")),
            Subject::User(n) => f.pad(&format!("user {n}")),
        }
    }
}

impl Subject {
    pub(crate) fn who(self) -> u8 {
        match self {
            Subject::General => 0,
            Subject::Standard(_) => 1,
            Subject::User(_) => 2,
        }
    }

    pub(crate) fn number(self) -> u64 {
        match self {
            Subject::General => 0,
            Subject::Standard(n) | Subject::User(n) => n,
        }
    }
}

/// An application that is named.
///
/// ```
/// use nakhshirul::{Application, Subject};
///
/// assert_eq!(Subject::from(Application::Standard(1)), Subject::Standard(1));
/// assert_eq!(Application::Standard(2).to_string(), "LFA");
/// ```
#[derive(Clone, Copy, Debug, PartialEq, Eq, PartialOrd, Ord, Hash)]
pub enum Application {
    /// A standard application by its number, 0 to 63.
    Standard(u8),
    /// A user-defined application by its number, 0 to 31.
    User(u8),
}

impl From<Application> for Subject {
    fn from(application: Application) -> Subject {
        match application {
            Application::Standard(n) => Subject::Standard(n.into()),
            Application::User(n) => Subject::User(n.into()),
        }
    }
}

impl fmt::Display for Application {
    fn fmt(&self, f: &mut fmt::Formatter<'_>) -> fmt::Result {
        Subject::from(*self).fmt(f)
    }
}

/// A kind by its code point, to be shown.
///
/// ```
/// use nakhshirul::{code, Kind};
///
/// assert_eq!(Kind(code::TE_METRIC).to_string(), "TE metric (1092)");
/// assert_eq!(Kind(code::SRLG).name(), Some("SRLG"));
/// assert_eq!(Kind(1122).to_string(), "no kind (1122)");
/// ```
#[derive(Clone, Copy, Debug, PartialEq, Eq, PartialOrd, Ord, Hash)]
pub struct Kind(
    /// The code point.
    pub u16,
);

impl Kind {
    /// Its name; none where it is none of the fourteen.
    pub fn name(self) -> Option<&'static str> {
        Some(match self.0 {
            code::ADMINISTRATIVE_GROUP => "administrative group",
            code::MAXIMUM_LINK_BANDWIDTH => "maximum link bandwidth",
            code::MAXIMUM_RESERVABLE_BANDWIDTH => "maximum reservable bandwidth",
            code::UNRESERVED_BANDWIDTH => "unreserved bandwidth",
            code::TE_METRIC => "TE metric",
            code::SRLG => "SRLG",
            code::DELAY => "delay",
            code::MIN_MAX_DELAY => "min/max delay",
            code::DELAY_VARIATION => "delay variation",
            code::LOSS => "loss",
            code::RESIDUAL_BANDWIDTH => "residual bandwidth",
            code::AVAILABLE_BANDWIDTH => "available bandwidth",
            code::UTILISED_BANDWIDTH => "utilised bandwidth",
            code::EXTENDED_ADMINISTRATIVE_GROUP => "extended administrative group",
            _ => return None,
        })
    }
}

impl fmt::Display for Kind {
    fn fmt(&self, f: &mut fmt::Formatter<'_>) -> fmt::Result {
        f.pad(&format!(
            "{} ({})",
            self.name().unwrap_or("no kind"),
            self.0
        ))
    }
}

/// The answer to a question.
#[derive(Clone, Copy, Debug, PartialEq, Eq)]
pub enum Answer<'a, 'l> {
    /// Nothing of the kind is there.
    Absent,
    /// What the value reads as.
    Found(Reading<'a, 'l>),
    /// Why there is no answer.
    Refused(Refusal),
}

impl<'a, 'l> Answer<'a, 'l> {
    /// The reading, or none where it is absent, or the refusal.
    ///
    /// ```
    /// use nakhshirul::{code, Link, Reading, Subject};
    ///
    /// # fn main() -> Result<(), nakhshirul::Refusal> {
    /// let link = Link { a: &[0x12, 3, 0, 0, 10], b: &[], c: &[] };
    /// let metric = link.ask(Subject::Standard(0), code::TE_METRIC, &mut []).found()?;
    /// assert_eq!(metric, Some(Reading::Number(10)));
    /// # Ok(())
    /// # }
    /// ```
    pub fn found(self) -> Result<Option<Reading<'a, 'l>>, Refusal> {
        match self {
            Answer::Absent => Ok(None),
            Answer::Found(reading) => Ok(Some(reading)),
            Answer::Refused(refusal) => Err(refusal),
        }
    }
}

/// What a value reads as.
#[derive(Clone, Copy, Debug, PartialEq, Eq)]
pub enum Reading<'a, 'l> {
    /// A whole number, flag bits too (1088, 1092, 1114, 1116, 1117).
    Number(u32),
    /// Two numbers, flag bits too (1115).
    Pair(u32, u32),
    /// A bandwidth (1089, 1090, 1118, 1119, 1120).
    Bandwidth(Bandwidth),
    /// A part of the run (1091, 1173).
    Part(Part<'a>),
    /// The different SRLGs, ascending, at the front of the list that was lent (1096).
    Srlgs(&'l [u32]),
}

/// A bandwidth, by the bits that stand in the run. Two are equal when their bits are.
#[derive(Clone, Copy, Debug, PartialEq, Eq, Hash)]
pub struct Bandwidth(u32);

impl Bandwidth {
    /// The bits of its IEEE 754 binary32.
    pub fn bits(self) -> u32 {
        self.0
    }

    /// The number that they write.
    pub fn bytes_per_second(self) -> f32 {
        f32::from_bits(self.0)
    }
}

/// A value's bytes in the run that was asked, and where they stand.
#[derive(Clone, Copy, Debug, PartialEq, Eq, Hash)]
pub struct Part<'a> {
    /// The offset of its first byte.
    pub offset: usize,
    /// Its bytes.
    pub bytes: &'a [u8],
    /// The run they are in.
    pub run: Run,
    /// The fragment of that run, 0.
    pub fragment: u8,
}

/// A run that something stands in.
#[derive(Clone, Copy, Debug, PartialEq, Eq, Hash)]
#[non_exhaustive]
pub enum Run {
    /// The sub-TLVs of a link.
    A = 0,
    /// The TLVs 238 of a link.
    B = 1,
    /// A BGP-LS run.
    BgpLs = 2,
    /// The legacy SRLGs of a link.
    C = 7,
}

impl fmt::Display for Run {
    fn fmt(&self, f: &mut fmt::Formatter<'_>) -> fmt::Result {
        f.pad(match self {
            Run::A => "run A",
            Run::B => "run B",
            Run::BgpLs => "the BGP-LS run",
            Run::C => "run C",
        })
    }
}

/// Where an element begins.
#[derive(Clone, Copy, Debug, PartialEq, Eq, Hash)]
pub struct Place {
    /// The run it is in.
    pub run: Run,
    /// The offset of its first byte.
    pub offset: usize,
    /// The fragment of that run, 0.
    pub fragment: u8,
}

/// In words: `run A at 14`.
impl fmt::Display for Place {
    fn fmt(&self, f: &mut fmt::Formatter<'_>) -> fmt::Result {
        f.pad(&format!("{} at {}", self.run, self.offset))
    }
}

/// The rule that gave a subject its kind, or gave it none.
#[derive(Clone, Copy, Debug, PartialEq, Eq, Hash)]
pub enum Rule {
    /// An advertisement with the L-flag names the application: legacy values.
    LFlag = 0,
    /// Advertisements name the application (RSVP-TE: and have the kind).
    Named = 1,
    /// The general set was asked for.
    General = 2,
    /// Nothing names the application (RSVP-TE: and no kind of applications is there as a legacy value):
    /// the general set.
    Unnamed = 3,
    /// Legacy values, without an L-flag: what RSVP-TE is given by no advertisement that names it, or
    /// a bandwidth that no ASLA gives.
    Legacy = 4,
    /// An ASLA gives a bandwidth.
    Carried = 5,
    /// The top level of a BGP-LS run: a bandwidth, or RSVP-TE's kinds.
    Top = 6,
}

/// Why a subject gets what it gets of a kind, be it absent.
#[derive(Clone, Copy, Debug, PartialEq, Eq, Hash)]
pub struct Why {
    /// The rule.
    pub rule: Rule,
    /// The advertisement that decides by it, or holds the value; of SRLGs the first that counts.
    pub advertisement: Option<Place>,
    /// The run of the legacy values, where the rule is [`Rule::Legacy`].
    pub legacy: Option<Run>,
}

/// Why a call was refused. After one nothing was written.
#[derive(Clone, Copy, Debug, PartialEq, Eq, Hash)]
#[non_exhaustive]
pub enum Refusal {
    /// 1: a run is too long.
    TooLong,
    /// 2: the length of run C is not a multiple of 4.
    OddSrlgs,
    /// 3: an element, a mask or an inner list runs past what holds it, or is too short for its
    /// fixed fields. The innermost faulty element begins there.
    Cut {
        /// The run to blame.
        run: Run,
        /// The element's first byte.
        offset: usize,
        /// The fragment of that run, 0.
        fragment: u8,
    },
    /// 4: a known kind or link identifier has a wrong length.
    Length {
        /// The run to blame.
        run: Run,
        /// The element's first byte.
        offset: usize,
        /// The fragment of that run, 0.
        fragment: u8,
    },
    /// 5: the result is longer than the room that was lent.
    NoRoom,
    /// 6: the number of a standard application is above 63, or that of a user-defined one above 31.
    NoApplication,
    /// 7: the code is none of the fourteen.
    NoKind,
    /// 8: a known kind stands twice in the list of one ASLA. The second one begins there.
    Twice {
        /// The run to blame.
        run: Run,
        /// The element's first byte.
        offset: usize,
        /// The fragment of that run, 0.
        fragment: u8,
    },
}

impl Refusal {
    /// Its number, 1 to 8.
    ///
    /// ```
    /// assert_eq!(nakhshirul::Refusal::NoRoom.number(), 5);
    /// ```
    pub fn number(self) -> u8 {
        match self {
            Refusal::TooLong => 1,
            Refusal::OddSrlgs => 2,
            Refusal::Cut { .. } => 3,
            Refusal::Length { .. } => 4,
            Refusal::NoRoom => 5,
            Refusal::NoApplication => 6,
            Refusal::NoKind => 7,
            Refusal::Twice { .. } => 8,
        }
    }

    /// Where the faulty element begins, if one is to blame (3, 4 and 8).
    pub fn place(self) -> Option<Place> {
        match self {
            Refusal::Cut {
                run,
                offset,
                fragment,
            }
            | Refusal::Length {
                run,
                offset,
                fragment,
            }
            | Refusal::Twice {
                run,
                offset,
                fragment,
            } => Some(Place {
                run,
                offset,
                fragment,
            }),
            _ => None,
        }
    }

    fn reason(self) -> &'static str {
        match self {
            Refusal::TooLong => "a run is too long",
            Refusal::OddSrlgs => "the length of run C is not a multiple of 4",
            Refusal::Cut { .. } => "an element is cut",
            Refusal::Length { .. } => "an element has a wrong length",
            Refusal::NoRoom => "the result is longer than the room lent",
            Refusal::NoApplication => "there is no such application",
            Refusal::NoKind => "the code is none of the fourteen",
            Refusal::Twice { .. } => "a kind stands twice in one ASLA",
        }
    }
}

/// In words, with the number and the place.
///
/// ```
/// use nakhshirul::Link;
///
/// // The second TE metric has two bytes.
/// let link = Link { a: &[0x12, 3, 0, 0, 10, 0x12, 2, 0, 10], b: &[], c: &[] };
/// let refusal = link.named().unwrap_err();
/// assert_eq!(refusal.to_string(), "refused by 4: an element has a wrong length, run A at 5");
///
/// // An ASLA with two TE metrics, the second one at byte 10.
/// let link = Link { a: &[0x10, 13, 1, 0, 0x40, 0x12, 3, 0, 0, 20, 0x12, 3, 0, 0, 21], b: &[], c: &[] };
/// let refusal = link.named().unwrap_err();
/// assert_eq!(refusal.to_string(), "refused by 8: a kind stands twice in one ASLA, run A at 10");
/// ```
impl fmt::Display for Refusal {
    fn fmt(&self, f: &mut fmt::Formatter<'_>) -> fmt::Result {
        write!(f, "refused by {}: {}", self.number(), self.reason())?;
        match self.place() {
            None => Ok(()),
            Some(place) => write!(f, ", {place}"),
        }
    }
}

impl Error for Refusal {}

/// The applications that are named, RSVP-TE left out.
#[derive(Clone, Copy, Debug, Default, PartialEq, Eq, Hash)]
pub struct Applications {
    standard: u64,
    user: u64,
}

impl Applications {
    /// The standard ones, application n as 2 to the n.
    pub fn standard(self) -> u64 {
        self.standard
    }

    /// The user-defined ones, application n as 2 to the n.
    pub fn user(self) -> u64 {
        self.user
    }

    /// How many there are.
    pub fn len(self) -> usize {
        (self.standard.count_ones() + self.user.count_ones()) as usize
    }

    /// Whether there is none.
    pub fn is_empty(self) -> bool {
        self.standard == 0 && self.user == 0
    }

    /// Whether an application is one of them.
    pub fn contains(self, application: Application) -> bool {
        let (set, n) = match application {
            Application::Standard(n) => (self.standard, n),
            Application::User(n) => (self.user, n),
        };
        n < 64 && set >> n & 1 == 1
    }

    /// Each of them: the standard ones ascending, then the user-defined ones.
    pub fn iter(self) -> Iter {
        Iter { left: self }
    }
}

impl IntoIterator for Applications {
    type Item = Application;
    type IntoIter = Iter;

    fn into_iter(self) -> Iter {
        self.iter()
    }
}

/// Iterates over [`Applications`].
///
/// ```
/// use nakhshirul::{code, Link};
///
/// // Two ASLAs: SR Policy and LFA have metric 20, user-defined application 31 has metric 21. The last
/// // four bytes of its mask are rubbish: user bits 32 to 63 are retired.
/// let a = [
///     0x10, 8, 1, 0, 0x60, 0x12, 3, 0, 0, 20,
///     0x10, 15, 0, 8, 0, 0, 0, 1, 0xDE, 0xAD, 0xBE, 0xEF, 0x12, 3, 0, 0, 21,
/// ];
/// let link = Link { a: &a, b: &[], c: &[] };
/// for application in link.named().unwrap() {
///     let metric = link.value(application.into(), code::TE_METRIC).unwrap();
///     println!("{application:?} has metric {:?}", metric.bytes);
/// }
/// assert_eq!(link.named().unwrap().iter().len(), 3);
/// ```
#[derive(Clone, Debug)]
pub struct Iter {
    left: Applications,
}

impl Iterator for Iter {
    type Item = Application;

    fn next(&mut self) -> Option<Application> {
        if self.left.standard != 0 {
            let n = self.left.standard.trailing_zeros();
            self.left.standard &= self.left.standard - 1;
            return Some(Application::Standard(n as u8));
        }
        if self.left.user != 0 {
            let n = self.left.user.trailing_zeros();
            self.left.user &= self.left.user - 1;
            return Some(Application::User(n as u8));
        }
        None
    }

    fn size_hint(&self) -> (usize, Option<usize>) {
        (self.left.len(), Some(self.left.len()))
    }
}

impl ExactSizeIterator for Iter {}

/// The four numbers of a reply, read by its status. It is proved of the library that it gives no
/// other status, and names no other run, than those that are read here.
pub(crate) struct Reply([u64; 4]);

impl Reply {
    pub(crate) fn new() -> Reply {
        Reply([0; 4])
    }

    pub(crate) fn as_mut_ptr(&mut self) -> *mut u64 {
        self.0.as_mut_ptr()
    }

    fn offset(&self) -> usize {
        self.0[0] as usize
    }

    fn run(&self) -> Run {
        match self.0[2] {
            0 => Run::A,
            1 => Run::B,
            2 => Run::BgpLs,
            7 => Run::C,
            n => unreachable!("run {n}"),
        }
    }

    fn fragment(&self) -> u8 {
        self.0[3] as u8
    }

    fn part_of<'a>(&self, bytes: &'a [u8]) -> Part<'a> {
        let offset = self.offset();
        Part {
            offset,
            bytes: &bytes[offset..offset + self.0[1] as usize],
            run: self.run(),
            fragment: self.fragment(),
        }
    }

    fn refusal(&self, status: u64) -> Refusal {
        let (run, offset, fragment) = (self.run(), self.offset(), self.fragment());
        match status {
            129 => Refusal::TooLong,
            130 => Refusal::OddSrlgs,
            131 => Refusal::Cut {
                run,
                offset,
                fragment,
            },
            132 => Refusal::Length {
                run,
                offset,
                fragment,
            },
            133 => Refusal::NoRoom,
            134 => Refusal::NoApplication,
            135 => Refusal::NoKind,
            136 => Refusal::Twice {
                run,
                offset,
                fragment,
            },
            n => unreachable!("status {n}"),
        }
    }

    pub(crate) fn answer<'a, 'l>(
        &self,
        status: u64,
        run: &'a [u8],
        list: &'l [u32],
    ) -> Answer<'a, 'l> {
        let [first, second, ..] = self.0;
        Answer::Found(match status {
            0 => return Answer::Absent,
            1 => Reading::Number(first as u32),
            2 => Reading::Pair(first as u32, second as u32),
            3 => Reading::Bandwidth(Bandwidth(first as u32)),
            4 => Reading::Part(self.part_of(run)),
            5 => Reading::Srlgs(&list[..first as usize]),
            n => return Answer::Refused(self.refusal(n)),
        })
    }

    pub(crate) fn part<'a>(&self, status: u64, run: &'a [u8]) -> Option<Part<'a>> {
        (status == 4).then(|| self.part_of(run))
    }

    pub(crate) fn named(&self, status: u64) -> Result<Applications, Refusal> {
        if status != 6 {
            return Err(self.refusal(status));
        }
        let [standard, user, ..] = self.0;
        Ok(Applications { standard, user })
    }

    pub(crate) fn why(&self, status: u64) -> Result<Why, Refusal> {
        if status != 16 {
            return Err(self.refusal(status));
        }
        let [number, offset, ..] = self.0;
        let rule = match number {
            0 => Rule::LFlag,
            1 => Rule::Named,
            2 => Rule::General,
            3 => Rule::Unnamed,
            4 => Rule::Legacy,
            5 => Rule::Carried,
            6 => Rule::Top,
            n => unreachable!("rule {n}"),
        };
        let told = offset != u64::MAX;
        Ok(Why {
            rule,
            advertisement: told.then(|| Place {
                run: self.run(),
                offset: offset as usize,
                fragment: self.fragment(),
            }),
            legacy: (rule == Rule::Legacy).then(|| self.run()),
        })
    }

    pub(crate) fn length(&self, status: u64) -> Result<usize, Refusal> {
        if status != 7 {
            return Err(self.refusal(status));
        }
        Ok(self.0[0] as usize)
    }

    pub(crate) fn written<'o>(&self, status: u64, out: &'o [u8]) -> Result<&'o [u8], Refusal> {
        Ok(&out[..self.length(status)?])
    }
}
