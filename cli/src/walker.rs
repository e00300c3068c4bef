//! Walks over the elements of a run and checks them, in the order in which the library does.
//!
//! One walker serves headers of one byte and one byte (IS-IS) and of two and two (BGP-LS).
use crate::elements::{Advertisement, Body, Element, Fault, Ignored, List};
use crate::input::RunName;
use crate::names::{Identifier, Kind, ASLA, ASLA_TLV, IDENTIFIERS, SRLG_TLV};
use std::ops::Range;

/// The elements of run A.
pub fn of_a(run: &[u8]) -> List {
    Walker { run, name: RunName::A, width: 1 }.list(0..run.len(), &TOP_OF_A)
}

/// The elements of run B.
pub fn of_b(run: &[u8]) -> List {
    Walker { run, name: RunName::B, width: 1 }.list(0..run.len(), &TOP_OF_B)
}

/// The TLVs of a BGP-LS run.
pub fn of_bgp_ls(run: &[u8]) -> List {
    Walker { run, name: RunName::BgpLs, width: 2 }.list(0..run.len(), &TOP_OF_BGP_LS)
}

/// A type, a length and where the value stands.
struct Frame {
    offset: usize,
    number: u16,
    name: &'static str,
    value: Range<usize>,
}

impl Frame {
    fn element(self, body: Body) -> Element {
        let Frame { offset, number, name, value } = self;
        Element { offset, number, name, value, body, inner: List::default() }
    }

    /// `TE metric (type 18)`.
    fn title(&self) -> String {
        format!("{} (type {})", self.name, self.number)
    }
}

/// Where elements stand in a row: what holds them, whether a kind may stand there once alone, what they
/// are called, and how one is read.
struct Level {
    holder: &'static str,
    once: bool,
    name: fn(u16) -> Option<&'static str>,
    read: fn(&Walker, Frame) -> Result<Element, Fault>,
}

const TOP_OF_A: Level = Level {
    holder: "the run",
    once: false,
    name: |number| match number {
        ASLA => Some("ASLA"),
        _ => (IN_ASLA.name)(number),
    },
    read: |walker, frame| match frame.number {
        ASLA => walker.asla(frame),
        _ => walker.attribute(frame),
    },
};

const IN_ASLA: Level = Level {
    holder: "its ASLA",
    once: true,
    name: |number| Kind::of_isis_type(number).map(|k| k.name),
    read: |walker, frame| walker.attribute(frame),
};

const TOP_OF_B: Level = Level {
    holder: "the run",
    once: false,
    name: |number| (number == SRLG_TLV).then_some("app-specific SRLG"),
    read: |walker, frame| match frame.number {
        SRLG_TLV => walker.tlv_238(frame),
        _ => Ok(frame.element(Body::Unknown)),
    },
};

const IN_238: Level = Level {
    holder: "the list of identifiers",
    once: false,
    name: |number| Identifier::of(number).map(|i| i.name),
    read: |walker, frame| walker.identifier(frame),
};

const TOP_OF_BGP_LS: Level = Level {
    holder: "the run",
    once: false,
    name: |number| match number {
        ASLA_TLV => Some("ASLA"),
        _ => Kind::of_code(number).map(|k| k.name),
    },
    read: |walker, frame| match frame.number {
        ASLA_TLV => walker.tlv_1122(frame),
        _ => walker.bgp_ls_attribute(frame),
    },
};

const IN_1122: Level = Level {
    holder: "its ASLA",
    once: true,
    name: TOP_OF_BGP_LS.name,
    read: |walker, frame| match frame.number {
        ASLA_TLV | 1089..=1091 => Ok(frame.element(Body::PassedOver)),
        _ => walker.bgp_ls_attribute(frame),
    },
};

/// How an advertisement begins.
struct Layout {
    /// Whether the top bits of the two lengths are flags.
    has_flags: bool,
    /// How long the lengths and what is reserved are together.
    header: usize,
    allowed: fn(usize) -> bool,
}

const ISIS: Layout = Layout { has_flags: true, header: 2, allowed: |length| length <= 8 };
const BGP_LS: Layout =
    Layout { has_flags: false, header: 4, allowed: |length| matches!(length, 0 | 4 | 8) };

/// The bits of user applications; from 32 on they are retired and count as 0.
const USERS: u64 = 0xFFFF_FFFF;

struct Walker<'a> {
    run: &'a [u8],
    name: RunName,
    /// The bytes of a type, and of a length.
    width: usize,
}

impl Walker<'_> {
    fn list(&self, range: Range<usize>, level: &Level) -> List {
        let mut list = List::default();
        let mut at = range.start;
        while at < range.end {
            let read = self.frame(at, range.end, level).and_then(|frame| (level.read)(self, frame));
            let read = read.and_then(|element| self.first_of_its_kind(element, &list, level));
            let element = match read {
                Ok(element) => element,
                Err(fault) => {
                    list.fault = Some(fault);
                    break;
                }
            };
            at = element.value.end;
            let stop = element.inner.first_fault().is_some();
            list.elements.push(element);
            if stop {
                break;
            }
        }
        list
    }

    /// The element, unless its kind stands in a list already where it may stand once alone.
    fn first_of_its_kind(
        &self,
        element: Element,
        list: &List,
        level: &Level,
    ) -> Result<Element, Fault> {
        let Element { offset, number, name, .. } = element;
        let same = list.elements.iter().find(|before| before.number == number);
        match (same, &element.body) {
            (Some(first), Body::Attribute(_)) if level.once => {
                let what = format!(
                    "{name} (type {number}) stands twice in {}, first at {}",
                    level.holder, first.offset
                );
                Err(Fault { number: 8, run: self.name, offset, what })
            }
            _ => Ok(element),
        }
    }

    fn number(&self, at: usize) -> usize {
        let bytes = &self.run[at..at + self.width];
        bytes.iter().fold(0, |n, b| n << 8 | usize::from(*b))
    }

    fn frame(&self, at: usize, end: usize, level: &Level) -> Result<Frame, Fault> {
        let header = 2 * self.width;
        let left = end - at;
        if left < header {
            let what = format!("{} left for a type and a length of {header}", bytes(left));
            return Err(Fault { number: 3, run: self.name, offset: at, what });
        }
        let number = self.number(at) as u16;
        let length = self.number(at + self.width);
        let name = (level.name)(number).unwrap_or("unknown");
        let value = at + header..at + header + length;
        let frame = Frame { offset: at, number, name, value };
        if frame.value.end > end {
            let left = bytes(left - header);
            let what = format!("has length {length}, and {} has {left} left for it", level.holder);
            return Err(self.fault(3, &frame, what));
        }
        Ok(frame)
    }

    fn fault(&self, number: u8, frame: &Frame, what: String) -> Fault {
        let what = format!("{} {what}", frame.title());
        Fault { number, run: self.name, offset: frame.offset, what }
    }

    fn at_least(&self, frame: &Frame, length: usize, holds: &str) -> Result<(), Fault> {
        match frame.value.len() {
            has if has < length => {
                let what = format!("has length {has}, must be at least {length} ({holds})");
                Err(self.fault(3, frame, what))
            }
            _ => Ok(()),
        }
    }

    /// An element of a known kind, if nothing is wrong with its length.
    fn measured(
        &self,
        frame: Frame,
        body: Body,
        must_be: Option<String>,
    ) -> Result<Element, Fault> {
        let Some(must_be) = must_be else {
            return Ok(frame.element(body));
        };
        let what = format!("has length {}, must be {must_be}", frame.value.len());
        Err(self.fault(4, &frame, what))
    }

    /// An attribute of A, legacy or in a list, or something unknown.
    fn attribute(&self, frame: Frame) -> Result<Element, Fault> {
        let Some(kind) = Kind::of_isis_type(frame.number) else {
            return Ok(frame.element(Body::Unknown));
        };
        let must_be = kind.isis_length.must_be(frame.value.len());
        self.measured(frame, Body::Attribute(kind), must_be)
    }

    fn bgp_ls_attribute(&self, frame: Frame) -> Result<Element, Fault> {
        let Some(kind) = Kind::of_code(frame.number) else {
            return Ok(frame.element(Body::Unknown));
        };
        let must_be = kind.length.must_be(frame.value.len());
        self.measured(frame, Body::Attribute(kind), must_be)
    }

    fn identifier(&self, frame: Frame) -> Result<Element, Fault> {
        let Some(known) = Identifier::of(frame.number) else {
            return Ok(frame.element(Body::Unknown));
        };
        let must_be = known.length.must_be(frame.value.len());
        self.measured(frame, Body::Identifier, must_be)
    }

    fn asla(&self, frame: Frame) -> Result<Element, Fault> {
        self.at_least(&frame, 2, "two mask lengths")?;
        let mut found = self.masks(&frame, frame.value.start, &ISIS)?;
        let mut inner = List::default();
        if found.is_live() && found.l_flag && found.is_general() {
            found.ignored = Some(Ignored::LWithoutMasks);
        }
        if found.is_live() && !found.l_flag {
            inner = self.list(found.unread.clone(), &IN_ASLA);
            found.unread.start = found.unread.end;
        }
        let element = frame.element(Body::Advertisement(found));
        Ok(Element { inner, ..element })
    }

    /// The mask lengths at a place, and the masks behind them. What is behind those counts as not read.
    fn masks(&self, frame: &Frame, at: usize, layout: &Layout) -> Result<Advertisement, Fault> {
        let low = if layout.has_flags { 0x7F } else { 0xFF };
        let lengths = [self.run[at] & low, self.run[at + 1] & low].map(usize::from);
        let start = at + layout.header;
        let mut found = Advertisement {
            flags: at,
            l_flag: layout.has_flags && self.run[at] & 0x80 != 0,
            unread: start..frame.value.end,
            ..Advertisement::default()
        };
        if let Some(wrong) = lengths.into_iter().find(|n| !(layout.allowed)(*n)) {
            found.ignored = Some(Ignored::MaskLength(wrong));
            return Ok(found);
        }
        let [standard, user] = lengths;
        let left = frame.value.end - start;
        if standard + user > left {
            let left = bytes(left);
            let what =
                format!("has masks of {standard} and {user} bytes, and {left} left for them");
            return Err(self.fault(3, frame, what));
        }
        found.standard = start..start + standard;
        found.user = found.standard.end..found.standard.end + user;
        found.unread.start = found.user.end;
        let user = self.bits(&found.user);
        found.names = [self.bits(&found.standard), user & USERS];
        found.retired = user & !USERS;
        Ok(found)
    }

    /// Bit 0 is the top bit of the first byte.
    fn bits(&self, mask: &Range<usize>) -> u64 {
        let of = |(i, byte): (usize, &u8)| u64::from(byte.reverse_bits()) << (8 * i);
        self.run[mask.clone()].iter().enumerate().map(of).sum()
    }

    fn tlv_238(&self, frame: Frame) -> Result<Element, Fault> {
        self.at_least(&frame, 9, "7 neighbour bytes, two mask lengths")?;
        let mut found = self.masks(&frame, frame.value.start + 7, &ISIS)?;
        if !found.is_live() {
            return Ok(frame.element(Body::Advertisement(found)));
        }
        let list = self.identifier_list(&frame, found.unread.start)?;
        found.unread.start = list.end;
        let inner = self.list(list, &IN_238);
        if inner.fault.is_none() {
            found.ignored = ignored(&found, &inner);
            if found.is_live() && !found.l_flag {
                found.srlgs = found.unread.clone();
                found.unread.start = found.unread.end;
            }
        }
        let rest = found.srlgs.len();
        if rest % 4 != 0 {
            let what = format!("has SRLG values of {rest} bytes together, must be a multiple of 4");
            return Err(self.fault(4, &frame, what));
        }
        let element = frame.element(Body::Advertisement(found));
        Ok(Element { inner, ..element })
    }

    /// The list of identifiers that begins, with its length, at a place.
    fn identifier_list(&self, frame: &Frame, at: usize) -> Result<Range<usize>, Fault> {
        if at == frame.value.end {
            let what = "ends before the length of its list of identifiers".into();
            return Err(self.fault(3, frame, what));
        }
        let length = usize::from(self.run[at]);
        let left = frame.value.end - at - 1;
        if length > left {
            let left = bytes(left);
            let what =
                format!("has a list of identifiers of {length} bytes, and {left} left for it");
            return Err(self.fault(3, frame, what));
        }
        Ok(at + 1..at + 1 + length)
    }

    fn tlv_1122(&self, frame: Frame) -> Result<Element, Fault> {
        self.at_least(&frame, 4, "two mask lengths, two reserved bytes")?;
        let mut found = self.masks(&frame, frame.value.start, &BGP_LS)?;
        // RSVP-TE is at the top of a run, whatever a mask says.
        found.names[0] &= !1;
        let mut inner = List::default();
        if found.is_live() {
            inner = self.list(found.unread.clone(), &IN_1122);
            found.unread.start = found.unread.end;
        }
        let element = frame.element(Body::Advertisement(found));
        Ok(Element { inner, ..element })
    }
}

/// Why a TLV 238 with these identifiers is ignored.
fn ignored(found: &Advertisement, identifiers: &List) -> Option<Ignored> {
    let count = |number: u16| identifiers.elements.iter().filter(|e| e.number == number).count();
    if found.l_flag && found.is_general() {
        return Some(Ignored::LWithoutMasks);
    }
    if let Some(twice) = IDENTIFIERS.iter().find(|i| count(i.number) > 1) {
        return Some(Ignored::Repeated(twice.number));
    }
    let has = |number: u16| count(number) == 1;
    let enough = has(4) || has(6) && has(8) || has(12) && has(13);
    (!enough).then_some(Ignored::NoIdentifiers)
}

/// A count of bytes in words.
fn bytes(count: usize) -> String {
    match count {
        0 => "no byte".into(),
        1 => "1 byte".into(),
        n => format!("{n} bytes"),
    }
}
