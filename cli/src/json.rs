//! A report as a JSON document in one line. docs/inspect.md lists the keys.
use crate::elements::{Advertisement, Body, Element, List};
use crate::fates::{Fate, Fates};
use crate::input::{Entry, RunName};
use crate::library::{Application, Fact, Place, Refusal, Rule, Why};
use crate::names;
use crate::reasons;
use crate::refusals;
use crate::report::{Facts, Item, Report};
use crate::values::{self, Value};
use crate::walker;
use std::fmt;

/// A JSON value.
#[derive(Clone, Debug, PartialEq, Eq)]
pub enum Json {
    Null,
    Bool(bool),
    /// Its digits.
    Number(String),
    Text(String),
    List(Vec<Json>),
    Object(Vec<(&'static str, Json)>),
}

impl From<&str> for Json {
    fn from(text: &str) -> Json {
        Json::Text(text.into())
    }
}

impl From<String> for Json {
    fn from(text: String) -> Json {
        Json::Text(text)
    }
}

impl From<usize> for Json {
    fn from(number: usize) -> Json {
        Json::Number(number.to_string())
    }
}

impl From<bool> for Json {
    fn from(truth: bool) -> Json {
        Json::Bool(truth)
    }
}

impl<T: Into<Json>> From<Option<T>> for Json {
    fn from(some: Option<T>) -> Json {
        some.map_or(Json::Null, T::into)
    }
}

fn list<T: Into<Json>>(all: impl IntoIterator<Item = T>) -> Json {
    Json::List(all.into_iter().map(T::into).collect())
}

impl Json {
    /// Adds the value to a text.
    fn write(&self, out: &mut String) {
        match self {
            Json::Null => out.push_str("null"),
            Json::Bool(truth) => out.push_str(if *truth { "true" } else { "false" }),
            Json::Number(digits) => out.push_str(digits),
            Json::Text(text) => quote(out, text),
            Json::List(all) => {
                out.push('[');
                for (i, one) in all.iter().enumerate() {
                    out.push_str(if i == 0 { "" } else { "," });
                    one.write(out);
                }
                out.push(']');
            }
            Json::Object(all) => {
                out.push('{');
                for (i, (key, one)) in all.iter().enumerate() {
                    out.push_str(if i == 0 { "" } else { "," });
                    quote(out, key);
                    out.push(':');
                    one.write(out);
                }
                out.push('}');
            }
        }
    }
}

impl fmt::Display for Json {
    fn fmt(&self, f: &mut fmt::Formatter<'_>) -> fmt::Result {
        let mut text = String::new();
        self.write(&mut text);
        f.write_str(&text)
    }
}

fn quote(out: &mut String, text: &str) {
    let is_plain = |c: char| c >= ' ' && !matches!(c, '"' | '\\' | '\u{7F}');
    out.push('"');
    let mut rest = text;
    while let Some(at) = rest.find(|c| !is_plain(c)) {
        out.push_str(&rest[..at]);
        match rest.as_bytes()[at] {
            c @ (b'"' | b'\\') => out.extend(['\\', char::from(c)]),
            c => out.push_str(&format!("\\u{c:04x}")),
        }
        rest = &rest[at + 1..];
    }
    out.push_str(rest);
    out.push('"');
}

fn hex(bytes: &[u8]) -> String {
    values::hex_with(bytes, "")
}

/// A report as a document.
pub fn document(report: &Report, export: Option<&[u8]>) -> Json {
    let item = &report.item;
    let mut all = head(item.file, item.entry);
    all.push(("source", if item.is_link() { "isis" } else { "bgp-ls" }.into()));
    all.push(("refused", report.facts.as_ref().err().map(|r| refused(item, r)).into()));
    all.push((
        "runs",
        Json::List(item.source.runs().into_iter().map(|r| run(report, r)).collect()),
    ));
    if let Ok(facts) = &report.facts {
        all.push(("named", applications(&facts.named)));
        all.push(("link", Json::List(facts.of_the_link.iter().map(fact).collect())));
        all.push(("gets", gets(facts)));
        all.push(("groups", groups(facts)));
    }
    if let Some(bytes) = export.filter(|_| item.is_link()) {
        all.push(("export", exported(bytes)));
    }
    Json::Object(all)
}

/// An entry whose lines cannot be read.
pub fn faulty(file: &str, entry: &Entry) -> Json {
    let mut all = head(file, entry);
    let fault = |f: &crate::input::Fault| {
        Json::Object(vec![
            ("line", f.line.into()),
            ("column", f.column.into()),
            ("what", f.what.as_str().into()),
        ])
    };
    all.push(("faults", Json::List(entry.faults.iter().map(fault).collect())));
    Json::Object(all)
}

fn head(file: &str, entry: &Entry) -> Vec<(&'static str, Json)> {
    vec![("name", entry.name.clone().into()), ("file", file.into()), ("line", entry.line.into())]
}

fn refused(item: &Item, refusal: &Refusal) -> Json {
    let place = refusals::place(refusal);
    Json::Object(vec![
        ("number", usize::from(refusal.number).into()),
        ("run", place.run.to_string().into()),
        ("offset", place.offset.into()),
        ("line", refusals::line(item, refusal).into()),
        ("what", refusal.what.as_str().into()),
    ])
}

fn run(report: &Report, (name, bytes): (RunName, &[u8])) -> Json {
    let mut all = vec![
        ("run", name.to_string().into()),
        ("length", bytes.len().into()),
        ("bytes", hex(bytes).into()),
    ];
    if let Some(list) = report.list(name) {
        let fates = Fates { run: name, list, facts: report.facts.as_ref().ok() };
        all.push(("elements", elements(bytes, list, &fates)));
    } else if name == RunName::C {
        all.push(("srlgs", srlgs(&values::words(bytes))));
    }
    Json::Object(all)
}

fn elements(bytes: &[u8], list: &List, fates: &Fates) -> Json {
    let of = |e: &Element| {
        let inner = e.inner.elements.iter();
        let inner = inner.map(|i| element(bytes, i, fates.inner(i, e), Vec::new()));
        element(bytes, e, fates.top(e), inner.collect())
    };
    Json::List(list.elements.iter().map(of).collect())
}

fn element(bytes: &[u8], e: &Element, fate: Fate, inner: Vec<Json>) -> Json {
    let mut all = vec![
        ("offset", e.offset.into()),
        ("type", usize::from(e.number).into()),
        ("name", e.name.into()),
        ("length", e.value.len().into()),
        ("bytes", hex(&bytes[e.value.clone()]).into()),
    ];
    match &e.body {
        Body::Attribute(kind) => {
            let value = values::of_bytes(kind, &bytes[e.value.clone()]);
            all.push(("text", values::text(kind, &value).into()));
            all.push(("value", of_value(&value)));
        }
        Body::Identifier => all.push(("text", values::identifier(&bytes[e.value.clone()]).into())),
        Body::Advertisement(found) => all.extend(advertisement(bytes, found)),
        Body::PassedOver | Body::Unknown => {}
    }
    all.push(("fate", fate.word.into()));
    all.push(("note", fate.text.replace('\u{A0}', " ").into()));
    if matches!(e.body, Body::Advertisement(_)) {
        all.push(("elements", Json::List(inner)));
    }
    Json::Object(all)
}

fn advertisement(bytes: &[u8], found: &Advertisement) -> Vec<(&'static str, Json)> {
    vec![
        ("l_flag", found.l_flag.into()),
        ("flags_at", found.flags.into()),
        ("standard_mask", hex(&bytes[found.standard.clone()]).into()),
        ("user_mask", hex(&bytes[found.user.clone()]).into()),
        ("names", applications(&found.named())),
        ("retired_user_bits", list(found.retired())),
        ("srlgs", srlgs(&values::words(&bytes[found.srlgs.clone()]))),
        ("not_read", hex(&bytes[found.unread.clone()]).into()),
    ]
}

fn applications(all: &[Application]) -> Json {
    list(all.iter().map(Application::to_string))
}

fn srlgs(all: &[u32]) -> Json {
    list(all.iter().map(|n| *n as usize))
}

fn gets(facts: &Facts) -> Json {
    let one = |g: &crate::report::Gets| {
        Json::Object(vec![
            ("who", names::subject(g.whom).into()),
            ("kinds", Json::List(g.facts.iter().map(fact).collect())),
        ])
    };
    Json::List(facts.all.iter().map(one).collect())
}

/// The groups of named applications with equal sets.
fn groups(facts: &Facts) -> Json {
    let names = |group: &Vec<usize>| list(group.iter().map(|i| names::subject(facts.all[*i].whom)));
    Json::List(facts.columns[2..].iter().map(names).collect())
}

fn fact(fact: &Fact) -> Json {
    let value = fact.value.as_ref();
    Json::Object(vec![
        ("code", usize::from(fact.kind.code).into()),
        ("name", fact.kind.name.into()),
        ("text", value.map(|v| values::text(fact.kind, v)).into()),
        ("value", value.map(of_value).into()),
        ("at", fact.place.map(|p| with_length(p, fact.length)).into()),
        ("why", why(&fact.why)),
    ])
}

fn of_value(value: &Value) -> Json {
    match value {
        Value::Number(n) => (*n as usize).into(),
        Value::Pair(first, second) => list([*first as usize, *second as usize]),
        Value::Bandwidth(bits) => Json::Object(vec![
            ("bits", format!("{bits:08X}").into()),
            ("bytes_per_second", values::bytes_per_second(*bits).map(Json::Number).into()),
        ]),
        Value::Bytes(bytes) => hex(bytes).into(),
        Value::Srlgs(all) => srlgs(all),
    }
}

fn place(place: Place) -> Json {
    Json::Object(vec![("run", place.run.to_string().into()), ("offset", place.offset.into())])
}

fn with_length(at: Place, length: usize) -> Json {
    let Json::Object(mut all) = place(at) else { return Json::Null };
    all.push(("length", length.into()));
    Json::Object(all)
}

fn why(why: &Why) -> Json {
    let rule = match why.rule {
        Rule::LFlag => "L-flag",
        Rule::Named => "named",
        Rule::General => "general",
        Rule::Unnamed => "not named",
        Rule::Legacy => "legacy",
        Rule::Carried => "carried",
        Rule::Top => "top",
    };
    let flag = why.advertisement.filter(|_| why.rule == Rule::LFlag).map(reasons::flag_of);
    Json::Object(vec![
        ("rule", rule.into()),
        ("advertisement", why.advertisement.map(place).into()),
        ("flag", flag.map(place).into()),
        ("legacy", why.legacy.map(|run| run.to_string()).into()),
    ])
}

fn exported(bytes: &[u8]) -> Json {
    let tlvs = walker::of_bgp_ls(bytes);
    let fates = Fates { run: RunName::BgpLs, list: &tlvs, facts: None };
    Json::Object(vec![
        ("length", bytes.len().into()),
        ("bytes", hex(bytes).into()),
        ("elements", elements(bytes, &tlvs, &fates)),
    ])
}

#[cfg(test)]
mod tests {
    use super::*;

    #[test]
    fn texts_are_quoted() {
        let text = Json::from("a\"b\\c\nd\u{7F}é");
        assert_eq!(text.to_string(), "\"a\\\"b\\\\c\\u000ad\\u007fé\"");
    }

    #[test]
    fn lists_and_objects() {
        let all =
            Json::Object(vec![("a", list([1usize, 2])), ("b", Json::Null), ("c", true.into())]);
        assert_eq!(all.to_string(), "{\"a\":[1,2],\"b\":null,\"c\":true}");
    }
}
