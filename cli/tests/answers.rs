//! What is shown of random links and runs is what the second implementation answers.
mod common;

use common::{file_of, file_of_run, some_link, some_run, with_stack};
use differential::reference::application::{Application as Named, Asker};
use differential::reference::kinds::CODES;
use differential::reference::reply::{Answer, Reading, Refusal};
use differential::reference::{bgp_ls, link as isis};
use inspect::elements::{Body, List};
use inspect::fates::Fates;
use inspect::input::{self, RunName};
use inspect::library::{Application, Place, Source, Subject};
use inspect::names::Kind;
use inspect::report::{items, Facts, Report};
use inspect::table::Table;
use inspect::values::{self, Value};

/// What can be asked of a link and of a run, by the second implementation.
enum Reference {
    Link(isis::Link),
    Run(Vec<u8>),
}

impl Reference {
    fn ask(&self, whom: Subject, code: u16) -> Result<Answer, Refusal> {
        let asker = match whom {
            Subject::General => Asker::General,
            Subject::Standard(n) => Asker::Standard(n),
            Subject::User(n) => Asker::User(n),
        };
        match self {
            Reference::Link(link) => isis::ask(link, asker, code, usize::MAX),
            Reference::Run(run) => bgp_ls::ask(run, asker, code, usize::MAX),
        }
    }

    fn named(&self) -> Result<Vec<Application>, Refusal> {
        let named = match self {
            Reference::Link(link) => isis::named(link)?,
            Reference::Run(run) => bgp_ls::named(run)?,
        };
        let of = |a: Named| match a {
            Named::Standard(n) => Application::Standard(n),
            Named::User(n) => Application::User(n),
        };
        Ok(named.into_iter().map(of).collect())
    }

    /// The value that somebody gets; the reference tells of some only where it stands.
    fn value(&self, whom: Subject, code: u16) -> Option<Value> {
        let bytes = match self {
            Reference::Link(link) => &link.a,
            Reference::Run(run) => run,
        };
        let Ok(Answer::Found(reading)) = self.ask(whom, code) else { return None };
        Some(match reading {
            Reading::Number(n) => Value::Number(n as u32),
            Reading::TwoNumbers(first, second) => Value::Pair(first as u32, second as u32),
            Reading::Bandwidth(bits) => Value::Bandwidth(bits),
            Reading::Place { offset, length } => {
                Value::Bytes(bytes[offset..offset + length].to_vec())
            }
            Reading::Srlgs(all) => Value::Srlgs(all),
        })
    }
}

/// The report of a file with one link, and what the second implementation has to say.
fn check(file: &str, reference: &Reference) {
    let read = input::read(file.as_bytes());
    let mut all = items("random", &read.entries[0]);
    let report = Report::of(all.remove(0));
    match (&report.facts, reference.named()) {
        (Ok(facts), Ok(named)) => {
            assert_eq!(facts.named, named, "{file}");
            check_table(file, facts, reference);
            check_fates(file, &report, facts);
        }
        (Err(refusal), Err(expected)) => {
            assert_eq!(refusal.number, expected.fault.number(), "{file}");
            let offset = refusal.place.map_or(0, |p| p.offset);
            assert_eq!(offset, expected.offset, "{file}");
            check_walk(file, &report, refusal.number);
        }
        (facts, expected) => panic!("{file}: {} {expected:?}", facts.is_ok()),
    }
}

fn check_table(file: &str, facts: &Facts, reference: &Reference) {
    let table = Table::of(facts);
    for (i, column) in facts.columns.iter().enumerate() {
        for member in column {
            let whom = facts.all[*member].whom;
            for kind in CODES.iter().filter_map(|c| Kind::of_code(*c)) {
                let value = reference.value(whom, kind.code);
                if kind.is_of_the_link() {
                    let got = facts.get(whom, kind.code).and_then(|f| f.value.clone());
                    assert_eq!(got, value, "{file} {whom:?} {}", kind.code);
                    continue;
                }
                let expected = value.map_or("-".to_string(), |v| values::text(kind, &v));
                let expected = expected.strip_prefix("bits ").unwrap_or(&expected);
                let shown = table.shown(kind.code, i).unwrap_or("-").replace(' ', ",");
                assert_eq!(shown, expected.replace(' ', ","), "{file} {whom:?} {}", kind.code);
            }
        }
    }
}

/// A refusal of an element is the walk's first fault, run by run.
fn check_walk(file: &str, report: &Report, number: u8) {
    let fault = report.lists.iter().find_map(|(_, list)| list.first_fault());
    let Err(refusal) = &report.facts else { return };
    if matches!(number, 3 | 4 | 8) {
        let fault = fault.unwrap_or_else(|| panic!("{file}: no fault"));
        let place = Place { run: fault.run, offset: fault.offset };
        assert_eq!((fault.number, Some(place)), (number, refusal.place), "{file}");
        assert_eq!(fault.what, refusal.what, "{file}");
    }
}

/// What is called shadowed, overruled or passed over nobody gets; what an advertisement has for
/// somebody and is not called so, somebody gets.
fn check_fates(file: &str, report: &Report, facts: &Facts) {
    assert!(report.lists.iter().all(|(_, list)| list.first_fault().is_none()), "{file}");
    let standard = (0..64).map(Subject::Standard);
    let all = standard.chain((0..32).map(Subject::User)).chain([Subject::General]);
    let everyone: Vec<Subject> = all.collect();
    for (run, list) in report.lists.iter().filter(|(run, _)| *run != RunName::B) {
        let fates = Fates { run: *run, list, facts: Some(facts) };
        for (code, value, word, for_somebody) in attributes(list, &fates) {
            let got = |whom: &Subject| {
                let place = report.item.source.place(*whom, code);
                place.is_some_and(|p| p.offset == value)
            };
            let somebody = everyone.iter().any(got);
            let lost = matches!(word, "shadowed" | "overruled" | "passed over");
            assert!(!(lost && somebody), "{file}: {code} at {value} is {word}");
            assert!(lost || somebody || !for_somebody, "{file}: {code} at {value} is {word}");
        }
    }
}

/// The known attributes of a run: code, place of the value, what becomes of it, and whether it
/// stands in an advertisement for somebody.
fn attributes(list: &List, fates: &Fates) -> Vec<(u16, usize, &'static str, bool)> {
    let mut all = Vec::new();
    for element in &list.elements {
        if let Body::Attribute(kind) = element.body {
            all.push((kind.code, element.value.start, fates.top(element).word, false));
        }
        let Body::Advertisement(found) = &element.body else { continue };
        let for_somebody = found.is_general() || !found.named().is_empty();
        for inner in &element.inner.elements {
            if let Body::Attribute(kind) = inner.body {
                let word = fates.inner(inner, element).word;
                all.push((kind.code, inner.value.start, word, for_somebody));
            }
        }
    }
    all.retain(|(code, ..)| *code != 1096);
    all
}

#[test]
fn tables_of_random_links() {
    with_stack(|| {
        for case in 0..3000 {
            let link = some_link(case);
            check(&file_of(&link), &Reference::Link(link));
        }
    });
}

#[test]
fn tables_of_random_runs() {
    with_stack(|| {
        for case in 0..1500 {
            let run = some_run(case);
            check(&file_of_run(&run), &Reference::Run(run));
        }
    });
}

#[test]
fn exports_can_be_read_back() {
    with_stack(|| {
        for case in 0..1000 {
            let link = some_link(case);
            let (text, _, _) =
                common::shown(inspect::options::Mode::BgpLs, file_of(&link).as_bytes());
            let read = input::read(text.as_bytes());
            let expected = differential::reference::export::export(&link, usize::MAX);
            match expected {
                Err(_) => assert_eq!(read.entries.len(), 0, "{text}"),
                Ok(bytes) => {
                    assert_eq!(read.faults().next(), None);
                    assert_eq!(read.entries[0].bytes(RunName::BgpLs), bytes);
                    let source = items("x", &read.entries[0]).remove(0).source;
                    assert!(matches!(source, Source::BgpLs(_)));
                }
            }
        }
    });
}
