//! Why somebody gets what he gets, in words, from what the library says.
use crate::input::RunName;
use crate::library::{Application, Fact, Place, Rule, Subject, Why};
use crate::names::{self, RSVP_TE};
use crate::report::{Facts, Gets, Report};
use crate::values;

/// `A 12` is the byte at offset 12 of run A; in a BGP-LS run the offset says all.
pub fn place(place: Place) -> String {
    match place.run {
        RunName::BgpLs => place.offset.to_string(),
        run => format!("{run}\u{A0}{}", place.offset),
    }
}

/// The byte with the L-flag of an advertisement: behind type and length, in a TLV 238 also behind the neighbour.
pub fn flag_of(advertisement: Place) -> Place {
    let behind = if advertisement.run == RunName::B { 9 } else { 2 };
    Place { offset: advertisement.offset + behind, ..advertisement }
}

fn advertisement(of: Place) -> String {
    let name = if of.run == RunName::B { "TLV 238" } else { "ASLA" };
    format!("{name} at {}", place(of))
}

/// What the advertisements of a kind are called, one of them.
fn one_of(code: u16, at_top: bool) -> &'static str {
    match code {
        1096 if !at_top => "TLV 238",
        _ => "ASLA",
    }
}

/// The rule of a subject's fact in words.
pub fn rule(whom: Subject, fact: &Fact, is_link: bool) -> String {
    let one = one_of(fact.kind.code, !is_link);
    // Others than RSVP-TE take the general set whatever is legacy.
    let legacy = match (names::application(whom), fact.kind.code) {
        (Some(RSVP_TE), 1096) => " and C is empty",
        (Some(RSVP_TE), _) => " and legacy has none of its kinds",
        _ => "",
    };
    let unnamed = format!("no {one} names it{legacy}");
    match (fact.why.rule, fact.why.advertisement) {
        (Rule::LFlag, Some(at)) => {
            let flag = place(flag_of(at));
            format!("the {} names it with the L-flag, byte {flag}, so legacy", advertisement(at))
        }
        (Rule::LFlag, None) => "named with the L-flag, so legacy".into(),
        (Rule::Named, Some(at)) => format!("the {} names it", advertisement(at)),
        (Rule::Named, None) => "named".into(),
        (Rule::General, Some(at)) => format!("the general {}", advertisement(at)),
        (Rule::General, None) => format!("no general {one} has it"),
        (Rule::Unnamed, Some(at)) => format!("{unnamed}, so the general {}", advertisement(at)),
        (Rule::Unnamed, None) => format!("{unnamed}, and no general one has it"),
        (Rule::Legacy, _) => "legacy".into(),
        (Rule::Carried, Some(at)) => format!("in the {}", advertisement(at)),
        (Rule::Carried, None) => "in an ASLA".into(),
        (Rule::Top, _) => "top of the run".into(),
    }
}

/// Where the value of a fact stands: `at A 12`, or `in C`; empty where that is not one place.
pub fn stands(fact: &Fact) -> String {
    match (fact.place, fact.why.rule) {
        (Some(at), _) => format!("at\u{A0}{}", place(at)),
        (None, Rule::Legacy | Rule::LFlag) if fact.value.is_some() => "in\u{A0}C".into(),
        _ => String::new(),
    }
}

/// One fact in a line: what a subject gets of a kind, and why.
pub fn sentence(whom: Subject, fact: &Fact, is_link: bool) -> String {
    let who = names::subject(whom);
    let kind = format!("{} {}", fact.kind.code, fact.kind.name);
    let rule = rule(whom, fact, is_link);
    let line = match &fact.value {
        None => format!("{who}: {kind}: none: {}", absent(fact, &rule)),
        Some(value) => {
            let text = values::text(fact.kind, value);
            let stands = stands(fact);
            let value = if stands.is_empty() { "" } else { "; value " };
            format!("{who}: {kind}: {text}: {rule}{value}{stands}")
        }
    };
    line.replace('\u{A0}', " ")
}

/// Why there is none.
fn absent(fact: &Fact, rule: &str) -> String {
    match fact.why.rule {
        Rule::LFlag => format!("{rule}, and there is none"),
        Rule::Named => format!("{rule}, and none that does has it"),
        Rule::Legacy => "no legacy value".into(),
        Rule::Top => "not at the top of the run".into(),
        Rule::General | Rule::Unnamed | Rule::Carried => rule.into(),
    }
}

/// Who gets kinds by the same rule from the same advertisement, and from where: told once.
struct Reason {
    why: Why,
    words: String,
    /// The kinds that are there, with their places, and those that are not.
    has: Vec<String>,
    lacks: Vec<String>,
}

impl Reason {
    fn text(&self) -> String {
        let Reason { why, words, has, lacks, .. } = self;
        let has = has.join(", ");
        let lacks = lacks.join(", ");
        if lacks.is_empty() {
            return format!("{words}: {has}");
        }
        let absent = match (why.rule, why.advertisement) {
            (Rule::General | Rule::Unnamed, None) => {
                return words.replace("has it", &format!("has {lacks}"))
            }
            (Rule::Legacy | Rule::LFlag, _) => format!("no legacy {lacks}"),
            _ => format!("no {lacks}"),
        };
        match (has.is_empty(), why.rule) {
            (false, _) => format!("{words}: {has}; {absent}"),
            (true, Rule::Legacy) => absent,
            (true, _) => format!("{words}: {absent}"),
        }
    }
}

/// The reasons of one subject, for the kinds that somebody gets.
fn of_subject(gets: &Gets, told: &[&names::Kind], is_link: bool) -> Vec<String> {
    let mut all: Vec<Reason> = Vec::new();
    // Words are made once for each rule and advertisement.
    let mut known: Vec<(Why, bool, usize)> = Vec::new();
    for fact in gets.facts.iter().filter(|f| told.contains(&f.kind)) {
        let of_srlgs = fact.kind.code == 1096;
        let same = known.iter().find(|(why, srlgs, _)| *why == fact.why && *srlgs == of_srlgs);
        let i = same.map(|(.., i)| *i).unwrap_or_else(|| {
            let words = rule(gets.whom, fact, is_link);
            let i = place_for(&mut all, fact.why, words);
            known.push((fact.why, of_srlgs, i));
            i
        });
        let code = fact.kind.code;
        match fact.value {
            Some(_) => all[i].has.push(format!("{code}\u{A0}{}", stands(fact)).trim_end().into()),
            None => all[i].lacks.push(code.to_string()),
        }
    }
    all.iter().map(Reason::text).collect()
}

/// Where the reason with these words stands; added if there is none.
fn place_for(all: &mut Vec<Reason>, why: Why, words: String) -> usize {
    all.iter().position(|r| r.words == words).unwrap_or_else(|| {
        all.push(Reason { why, words, has: Vec::new(), lacks: Vec::new() });
        all.len() - 1
    })
}

/// All reasons, each once, with those whom it is about.
pub fn all(facts: &Facts, is_link: bool) -> Vec<(String, String)> {
    let told = facts.kinds();
    let mut all: Vec<(Vec<Subject>, String)> = Vec::new();
    for gets in &facts.all {
        for text in of_subject(gets, &told, is_link) {
            match all.iter_mut().find(|(_, other)| *other == text) {
                Some((whom, _)) => whom.push(gets.whom),
                None => all.push((vec![gets.whom], text)),
            }
        }
    }
    all.into_iter().map(|(whom, text)| (title(&whom), text)).collect()
}

fn title(whom: &[Subject]) -> String {
    let named: Vec<Application> = whom.iter().filter_map(|w| names::application(*w)).collect();
    let general = whom.contains(&Subject::General).then(|| names::subject(Subject::General));
    let all: Vec<String> = general.into_iter().chain(names::applications(&named)).collect();
    all.join(", ")
}

/// The facts that a person asks for, one line each; without a code those of every kind that somebody gets.
pub fn lines(report: &Report, whom: Subject, code: Option<u16>) -> Vec<String> {
    let Ok(facts) = &report.facts else {
        return Vec::new();
    };
    let item = &report.item;
    let told = facts.kinds();
    let all: Vec<String> = names::KINDS
        .iter()
        .filter(|k| code.is_none_or(|code| code == k.code))
        .filter_map(|k| item.source.fact(whom, k).ok())
        .filter(|f| code.is_some() || f.value.is_some() || told.contains(&f.kind))
        .map(|f| format!("{}: {}", item.title(), sentence(whom, &f, item.is_link())))
        .collect();
    match all.is_empty() {
        true => vec![format!("{}: {}: nothing", item.title(), names::subject(whom))],
        false => all,
    }
}
