//! The elements of a run, one after another and one in another, and the first fault among them.
use crate::input::RunName;
use crate::library::Application;
use crate::names::Kind;
use std::ops::Range;

/// A type, a length and a value in a run.
#[derive(Clone, Debug, PartialEq, Eq)]
pub struct Element {
    /// Its first byte.
    pub offset: usize,
    /// Its type.
    pub number: u16,
    pub name: &'static str,
    /// Where its value stands.
    pub value: Range<usize>,
    pub body: Body,
    /// What stands inside it.
    pub inner: List,
}

/// What an element is.
#[derive(Clone, Debug, PartialEq, Eq)]
pub enum Body {
    Attribute(&'static Kind),
    Advertisement(Advertisement),
    /// An identifier of the link in a TLV 238.
    Identifier,
    /// Known at the top of a run, but not here.
    PassedOver,
    Unknown,
}

/// An ASLA sub-TLV, a TLV 238 or an ASLA TLV of BGP-LS.
#[derive(Clone, Debug, Default, PartialEq, Eq)]
pub struct Advertisement {
    /// The byte with the L-flag.
    pub flags: usize,
    pub l_flag: bool,
    pub standard: Range<usize>,
    pub user: Range<usize>,
    /// The bits of both masks, application n as 2 to the n.
    pub names: [u64; 2],
    /// The retired bits of the user mask, which count as 0, in the same way.
    pub retired: u64,
    pub ignored: Option<Ignored>,
    /// What is not read, since it is ignored or has L.
    pub unread: Range<usize>,
    /// The SRLG values of a TLV 238.
    pub srlgs: Range<usize>,
}

/// Why an advertisement is ignored.
#[derive(Clone, Copy, Debug, PartialEq, Eq)]
pub enum Ignored {
    /// A mask of a length that is not allowed.
    MaskLength(usize),
    LWithoutMasks,
    /// An identifier of this type stands there twice.
    Repeated(u16),
    /// Nothing that identifies the link.
    NoIdentifiers,
}

impl Advertisement {
    pub fn is_live(&self) -> bool {
        self.ignored.is_none()
    }

    pub fn is_general(&self) -> bool {
        self.standard.is_empty() && self.user.is_empty()
    }

    pub fn names(&self, application: Application) -> bool {
        match application {
            Application::Standard(n) => self.names[0] >> n & 1 == 1,
            Application::User(n) => self.names[1] >> n & 1 == 1,
        }
    }

    /// All that it names, RSVP-TE too.
    pub fn named(&self) -> Vec<Application> {
        let all = (0..64).map(Application::Standard).chain((0..64).map(Application::User));
        all.filter(|a| self.names(*a)).collect()
    }

    /// The retired bits that are set in its user mask, by their numbers.
    pub fn retired(&self) -> Vec<usize> {
        (0..64).filter(|n| self.retired >> n & 1 == 1).collect()
    }
}

/// Elements in a row, up to the first fault.
#[derive(Clone, Debug, Default, PartialEq, Eq)]
pub struct List {
    pub elements: Vec<Element>,
    pub fault: Option<Fault>,
}

impl List {
    /// The first fault, here or inside.
    pub fn first_fault(&self) -> Option<&Fault> {
        let inside = self.elements.iter().find_map(|e| e.inner.first_fault());
        inside.or(self.fault.as_ref())
    }

    /// The advertisements that count.
    pub fn live(&self) -> impl Iterator<Item = (&Element, &Advertisement)> {
        self.elements.iter().filter_map(|e| match &e.body {
            Body::Advertisement(a) if a.is_live() => Some((e, a)),
            _ => None,
        })
    }

    /// Whether a known attribute of a kind stands here or inside.
    pub fn has(&self, code: u16) -> bool {
        self.elements.iter().any(|e| match &e.body {
            Body::Attribute(kind) => kind.code == code,
            Body::Advertisement(a) => code == 1096 && !a.srlgs.is_empty() || e.inner.has(code),
            _ => false,
        })
    }
}

/// What is wrong with an element.
#[derive(Clone, Debug, PartialEq, Eq)]
pub struct Fault {
    /// The number of the refusal: 3, 4 or 8.
    pub number: u8,
    pub run: RunName,
    /// The element's first byte.
    pub offset: usize,
    pub what: String,
}
