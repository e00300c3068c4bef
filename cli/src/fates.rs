//! What becomes of each element of a run.
use crate::elements::{Advertisement, Body, Element, Ignored, List};
use crate::input::RunName;
use crate::library::{Application, Fact, Rule, Subject};
use crate::names::{self, Kind, RSVP_TE};
use crate::report::Facts;

/// What becomes of an element: a word that stays the same, and a sentence.
#[derive(Clone, Debug, PartialEq, Eq)]
pub struct Fate {
    pub word: &'static str,
    pub text: String,
}

fn fate(word: &'static str, text: impl Into<String>) -> Fate {
    Fate { word, text: text.into() }
}

/// A run, its elements, and what the library answers of it; none where it was not asked.
pub struct Fates<'a> {
    pub run: RunName,
    pub list: &'a List,
    pub facts: Option<&'a Facts>,
}

impl Fates<'_> {
    fn is_bgp_ls(&self) -> bool {
        self.run == RunName::BgpLs
    }

    /// What becomes of an element at the top of the run.
    pub fn top(&self, element: &Element) -> Fate {
        match &element.body {
            Body::Advertisement(found) => self.advertisement(found),
            Body::Attribute(kind) => self.top_attribute(element, kind),
            Body::Identifier | Body::PassedOver | Body::Unknown => self.unknown(element),
        }
    }

    /// What becomes of an element inside an advertisement.
    pub fn inner(&self, element: &Element, holder: &Element) -> Fate {
        match (&element.body, &holder.body) {
            (Body::Identifier, _) => fate("identifier", ""),
            (Body::PassedOver, _) => fate("unknown", "passed over inside an ASLA"),
            (Body::Attribute(kind), Body::Advertisement(found)) => match self.facts {
                Some(facts) => self.inner_attribute(element, kind, found, facts),
                None => fate("attribute", ""),
            },
            _ => fate("unknown", "unknown, passed over"),
        }
    }

    fn unknown(&self, element: &Element) -> Fate {
        let hint = match (self.run, element.number) {
            (RunName::A, 22 | 23 | 25 | 141 | 222 | 223) => {
                ": if this is a whole TLV, A takes the sub-TLVs in it"
            }
            (RunName::A, 238) => ": if this is a TLV 238, it belongs in B",
            (RunName::B, 138 | 139) => ": if this is a legacy SRLG TLV, its values belong in C",
            _ => "",
        };
        fate("unknown", format!("unknown, passed over{hint}"))
    }

    fn advertisement(&self, found: &Advertisement) -> Fate {
        if let Some(why) = found.ignored {
            return fate("ignored", format!("ignored: {}", self.ignored(why)));
        }
        let named = found.named();
        if found.is_general() {
            let whom = self.facts.map_or("", |facts| match self.is_for_rsvp_te(facts) {
                true => ": for all not named, RSVP-TE too",
                false => ": for all not named",
            });
            return fate("general", format!("general{whom}"));
        }
        let retired = retired(found);
        if named.is_empty() {
            let no_bit = if retired.is_empty() { "no bit" } else { "no other bit" };
            let text = format!("neither{retired}: its masks have {no_bit}, so it names nobody");
            return fate("neither", text);
        }
        let who = who(&named);
        if found.l_flag {
            let legacy = if self.run == RunName::B { "the SRLGs of C" } else { "legacy values" };
            let text = format!("names {who}{retired}, L-flag (byte {}): {legacy}", found.flags);
            return fate("names", text);
        }
        let overruled = match self.run {
            RunName::B => self.overruled(&named),
            _ => String::new(),
        };
        fate("names", format!("names {who}{retired}{overruled}"))
    }

    /// Whether RSVP-TE takes the general set of this run, as the library says of its kinds.
    fn is_for_rsvp_te(&self, facts: &Facts) -> bool {
        let gets = facts.all.iter().find(|g| g.whom == RSVP_TE.into());
        let of_this_run = |f: &&Fact| (f.kind.code == 1096) == (self.run == RunName::B);
        let mut all = gets.into_iter().flat_map(|g| &g.facts).filter(of_this_run);
        all.any(|f| f.why.rule == Rule::Unnamed)
    }

    /// Of the applications that an advertisement names, those that another names with L.
    fn overruled(&self, named: &[Application]) -> String {
        let mut left = named.to_vec();
        let mut text = String::new();
        for (_, other) in self.list.live().filter(|(_, a)| a.l_flag) {
            let (hit, rest): (Vec<Application>, Vec<Application>) =
                left.into_iter().partition(|a| other.names(*a));
            if !hit.is_empty() {
                text += &format!("; but the L-flag at {} decides for {}", other.flags, who(&hit));
            }
            left = rest;
        }
        text
    }

    fn ignored(&self, why: Ignored) -> String {
        match why {
            Ignored::MaskLength(n) if self.is_bgp_ls() => {
                format!("a mask of {n} bytes (0, 4 or 8 allowed)")
            }
            Ignored::MaskLength(n) => format!("a mask of {n} bytes (at most 8)"),
            Ignored::LWithoutMasks => "the L-flag with both masks empty".into(),
            Ignored::Repeated(number) => format!("identifier {number} stands there twice"),
            Ignored::NoIdentifiers => {
                "no identifiers of the link (4, or 6 and 8, or 12 and 13)".into()
            }
        }
    }

    fn top_attribute(&self, element: &Element, kind: &Kind) -> Fate {
        let mut before = self.list.elements.iter().take_while(|e| e.offset < element.offset);
        if kind.code != 1096 {
            if let Some(first) = before.find(|e| e.number == element.number) {
                return shadowed(first.offset);
            }
        }
        match self.is_bgp_ls() {
            false => fate("legacy", "legacy"),
            true if kind.is_of_the_link() => fate("top", "for everyone"),
            true => fate("top", "for RSVP-TE"),
        }
    }

    fn inner_attribute(
        &self,
        element: &Element,
        kind: &Kind,
        found: &Advertisement,
        facts: &Facts,
    ) -> Fate {
        if kind.is_of_the_link() {
            return self.inner_bandwidth(element, kind, found, facts);
        }
        if kind.code == 1096 {
            return fate("attribute", "");
        }
        if found.is_general() {
            return match self.place(facts, Subject::General, kind) {
                Some(place) if place != element.value.start => shadowed(self.element_at(place)),
                _ => fate("attribute", ""),
            };
        }
        self.for_the_named(element, kind, found, facts)
    }

    /// An attribute of an advertisement that names applications: who does not get it, and why.
    fn for_the_named(
        &self,
        element: &Element,
        kind: &Kind,
        found: &Advertisement,
        facts: &Facts,
    ) -> Fate {
        let named = found.named();
        let gets =
            |a: &Application| self.place(facts, (*a).into(), kind) == Some(element.value.start);
        let (takers, others): (Vec<Application>, Vec<Application>) =
            named.into_iter().partition(gets);
        let mut reasons: Vec<(String, Vec<Application>)> = Vec::new();
        for one in &others {
            let reason = self.why_not(*one, kind, facts);
            match reasons.iter_mut().find(|(text, _)| *text == reason) {
                Some((_, all)) => all.push(*one),
                None => reasons.push((reason, vec![*one])),
            }
        }
        let word = match (takers.is_empty(), reasons.first()) {
            (true, Some((text, _))) if text.starts_with("shadowed") => "shadowed",
            (true, Some(_)) => "overruled",
            _ => "attribute",
        };
        let only = reasons.len() == 1 && takers.is_empty();
        let texts = reasons.iter().map(|(text, all)| match only {
            true => text.clone(),
            false => format!("{text} for {}", who(all)),
        });
        fate(word, texts.collect::<Vec<String>>().join("; "))
    }

    /// Why an application that is named does not get a value.
    fn why_not(&self, one: Application, kind: &Kind, facts: &Facts) -> String {
        let mut with_l = self.list.live().filter(|(_, a)| a.l_flag && a.names(one));
        if let Some((_, other)) = with_l.next() {
            return format!("overruled by the L-flag at {}", other.flags);
        }
        match self.place(facts, one.into(), kind) {
            Some(place) => shadowed(self.element_at(place)).text,
            None => "not used".into(),
        }
    }

    fn inner_bandwidth(
        &self,
        element: &Element,
        kind: &Kind,
        found: &Advertisement,
        facts: &Facts,
    ) -> Fate {
        let place = self.place(facts, Subject::General, kind);
        if place == Some(element.value.start) {
            return fate("attribute", "for everyone");
        }
        if kind.code != 1089 && found.named() != [RSVP_TE] {
            return fate("passed over", "passed over: counts only where RSVP-TE alone is named");
        }
        let mut with_l = self.list.live().filter(|(_, a)| a.l_flag && a.names(RSVP_TE));
        match (kind.code, with_l.next(), place) {
            (1090 | 1091, Some((_, other)), _) => {
                fate("overruled", format!("overruled by the L-flag at {} for RSVP-TE", other.flags))
            }
            (_, _, Some(place)) => shadowed(self.element_at(place)),
            _ => fate("attribute", ""),
        }
    }

    fn place(&self, facts: &Facts, whom: Subject, kind: &Kind) -> Option<usize> {
        facts.get(whom, kind.code)?.place.map(|p| p.offset)
    }

    /// The first byte of the element whose value begins at a place.
    fn element_at(&self, value: usize) -> usize {
        value - if self.is_bgp_ls() { 4 } else { 2 }
    }
}

/// ` (retired user bits 40, 62-63 ignored)`, or nothing.
fn retired(found: &Advertisement) -> String {
    let bits = found.retired();
    if bits.is_empty() {
        return String::new();
    }
    let s = if bits.len() == 1 { "" } else { "s" };
    format!(" (retired user bit{s} {} ignored)", names::ranges(&bits).join(", "))
}

/// Applications, each in one piece where a line is broken.
fn who(all: &[Application]) -> String {
    let all: Vec<String> =
        names::applications(all).iter().map(|a| a.replace(' ', "\u{A0}")).collect();
    all.join(", ")
}

fn shadowed(by: usize) -> Fate {
    fate("shadowed", format!("shadowed by the one at {by}"))
}
