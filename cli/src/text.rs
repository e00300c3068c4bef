//! A report as text.
use crate::input::RunName;
use crate::layout::{padded, unbroken, wrap};
use crate::library::Subject;
use crate::listing::{self, Listing};
use crate::names::{applications, Kind};
use crate::reasons;
use crate::refusals;
use crate::report::{Facts, Item, Report};
use crate::table::Table;
use crate::values;
use crate::walker;
use std::io::{self, Write};

/// One line: sizes, the named applications and the length of the export, or the refusal.
pub fn brief(report: &Report, export: Option<&[u8]>) -> String {
    let item = &report.item;
    let sizes = match item.is_link() {
        true => {
            let len = |name| item.run(name).len();
            format!("A {}, B {}, C {} bytes", len(RunName::A), len(RunName::B), len(RunName::C))
        }
        false => format!("BGP-LS {} bytes", item.run(RunName::BgpLs).len()),
    };
    let rest = match &report.facts {
        Ok(facts) => outcome(item, facts, export),
        Err(refusal) => {
            let line = refusals::line(item, refusal).map(|line| format!(" (line {line})"));
            format!("{}{}", refusals::sentence(refusal), line.unwrap_or_default())
        }
    };
    format!("link {}: {sizes}; {rest}", item.title())
}

fn outcome(item: &Item, facts: &Facts, export: Option<&[u8]>) -> String {
    let named = match facts.named.is_empty() {
        true => "names nobody".to_string(),
        false => format!("names {}", applications(&facts.named).join(", ")),
    };
    match export.filter(|_| item.is_link()) {
        Some(bytes) => format!("{named}; export {} bytes", bytes.len()),
        None => named,
    }
}

/// Everything.
pub fn write(out: &mut dyn Write, report: &Report, export: Option<&[u8]>) -> io::Result<()> {
    writeln!(out, "{}", brief(report, export))?;
    let refusal = report.facts.as_ref().err();
    if let Some(bytes) = refusal.and_then(|r| refusals::around(&report.item, r)) {
        writeln!(out, "  {bytes}")?;
    }
    write_elements(out, report)?;
    if let Ok(facts) = &report.facts {
        write_facts(out, facts, report.item.is_link())?;
    }
    match export.filter(|bytes| report.item.is_link() && !bytes.is_empty()) {
        Some(bytes) => write_export(out, bytes),
        None => Ok(()),
    }
}

fn write_elements(out: &mut dyn Write, report: &Report) -> io::Result<()> {
    let facts = report.facts.as_ref().ok();
    for (run, bytes) in report.item.source.runs() {
        let listed = match report.list(run) {
            Some(list) => Listing { run, bytes, list, facts }.lines(),
            None if run == RunName::C && bytes.len() <= run.longest() => listing::srlgs(bytes),
            None => Vec::new(),
        };
        if !bytes.is_empty() && !listed.is_empty() {
            writeln!(out, "  {run}: offset, type, length, value, what becomes of it")?;
            lines(out, &listed)?;
        }
    }
    Ok(())
}

/// Lines as they are.
pub fn lines(out: &mut dyn Write, lines: &[String]) -> io::Result<()> {
    for line in lines {
        writeln!(out, "{line}")?;
    }
    Ok(())
}

fn write_facts(out: &mut dyn Write, facts: &Facts, is_link: bool) -> io::Result<()> {
    let table = Table::of(facts);
    let found = facts.of_the_link.iter().filter_map(|f| Some((f, f.value.as_ref()?)));
    if table.is_empty() && found.clone().next().is_none() {
        return writeln!(out, "  nobody gets anything");
    }
    if !table.is_empty() {
        lines(out, &table.lines())?;
    }
    for (fact, value) in found {
        let Kind { code, name, .. } = fact.kind;
        let text = unbroken(&values::text(fact.kind, value));
        let why = reasons::rule(Subject::General, fact, is_link);
        let text =
            format!("{code} {name}, for everyone: {text} ({why}, {})", reasons::stands(fact));
        hanging(out, "  ", "    ", &text)?;
    }
    if table.is_empty() {
        return Ok(());
    }
    match is_link {
        true => writeln!(out, "  why (A 12 is the byte at offset 12 of run A, counted from 0)")?,
        false => writeln!(out, "  why (bytes are told by their offsets, counted from 0)")?,
    }
    let mut before = String::new();
    for (title, text) in reasons::all(facts, is_link) {
        reason(out, if title == before { "" } else { &title }, &text)?;
        before = title;
    }
    Ok(())
}

/// A reason beside its title, or below it where the title is long.
fn reason(out: &mut dyn Write, title: &str, text: &str) -> io::Result<()> {
    const TITLE: usize = 10;
    let blank = " ".repeat(3 + TITLE + 1);
    if title.chars().count() > TITLE {
        hanging(out, "   ", "   ", title)?;
        return hanging(out, &blank, &blank, text);
    }
    hanging(out, &format!("   {} ", padded(title, TITLE)), &blank, text)
}

/// A text in lines, with one thing in front of the first and another in front of the others.
fn hanging(out: &mut dyn Write, first: &str, others: &str, text: &str) -> io::Result<()> {
    let width = 80 - first.chars().count().max(others.chars().count());
    for (i, line) in wrap(text, width).iter().enumerate() {
        let front = if i == 0 { first } else { others };
        writeln!(out, "{front}{line}")?;
    }
    Ok(())
}

fn write_export(out: &mut dyn Write, bytes: &[u8]) -> io::Result<()> {
    let list = walker::of_bgp_ls(bytes);
    let listing = Listing { run: RunName::BgpLs, bytes, list: &list, facts: None };
    writeln!(out, "  export: offset, type, length, value, for whom")?;
    lines(out, &listing.lines())
}
