//! All that is known of a link or a BGP-LS run, gathered once for whatever shows it.
use crate::elements::List;
use crate::input::{Entry, RunName};
use crate::library::{Application, Fact, Refusal, Source, Subject};
use crate::names::{Kind, KINDS, RSVP_TE};
use crate::refusals;
use crate::walker;

/// A link or a BGP-LS run of a file.
pub struct Item<'a> {
    pub file: &'a str,
    pub entry: &'a Entry,
    pub source: Source<'a>,
}

/// The link and the run of an entry, whichever it has. An entry without a line is an empty link.
pub fn items<'a>(file: &'a str, entry: &'a Entry) -> Vec<Item<'a>> {
    let run = entry.run(RunName::BgpLs).map(|r| Source::of_bgp_ls(&r.bytes));
    let is_link = run.is_none() || entry.runs.len() > 1;
    let of = |name| entry.bytes(name);
    let link = is_link.then(|| Source::of_link(of(RunName::A), of(RunName::B), of(RunName::C)));
    link.into_iter().chain(run).map(|source| Item { file, entry, source }).collect()
}

impl<'a> Item<'a> {
    pub fn is_link(&self) -> bool {
        matches!(self.source, Source::Link(_))
    }

    pub fn run(&self, name: RunName) -> &'a [u8] {
        let mut all = self.source.runs().into_iter();
        all.find(|r| r.0 == name).map_or(&[], |r| r.1)
    }

    pub fn title(&self) -> String {
        self.entry.title(self.file)
    }
}

/// A subject and what it gets of each kind that was asked for.
pub struct Gets {
    pub whom: Subject,
    pub facts: Vec<Fact>,
}

/// What the library answers of a source that it accepts.
pub struct Facts {
    pub named: Vec<Application>,
    /// RSVP-TE, the general set, and each named application.
    pub all: Vec<Gets>,
    /// The bandwidths that everyone gets alike.
    pub of_the_link: Vec<Fact>,
    /// The columns of the table: RSVP-TE, the general set, and groups with equal sets; as places in `all`.
    pub columns: Vec<Vec<usize>>,
}

impl Facts {
    pub fn get(&self, whom: Subject, code: u16) -> Option<&Fact> {
        let mut all = match Kind::of_code(code)?.is_of_the_link() {
            true => self.of_the_link.iter(),
            false => self.all.iter().find(|g| g.whom == whom)?.facts.iter(),
        };
        all.find(|f| f.kind.code == code)
    }

    /// The kinds of applications that somebody gets.
    pub fn kinds(&self) -> Vec<&'static Kind> {
        let got = |kind: &&Kind| {
            let has = |f: &Fact| f.kind == *kind && f.value.is_some();
            self.all.iter().any(|g| g.facts.iter().any(has))
        };
        KINDS.iter().filter(got).collect()
    }
}

/// What is known of an item.
pub struct Report<'a> {
    pub item: Item<'a>,
    /// The elements of its runs; C has none.
    pub lists: Vec<(RunName, List)>,
    pub facts: Result<Facts, Refusal>,
}

impl<'a> Report<'a> {
    pub fn of(item: Item<'a>) -> Report<'a> {
        let lists = lists(&item.source);
        let asked = facts(&item.source, &lists);
        let facts = asked.map_err(|refusal| refusals::explained(&item, &lists, refusal));
        Report { item, lists, facts }
    }

    pub fn list(&self, name: RunName) -> Option<&List> {
        self.lists.iter().find(|(n, _)| *n == name).map(|(_, list)| list)
    }
}

/// A run that the library refuses by its length is not walked.
fn lists(source: &Source) -> Vec<(RunName, List)> {
    let all = source.runs().into_iter().filter(|(name, run)| run.len() <= name.longest());
    let walked = |(name, run): (RunName, &[u8])| match name {
        RunName::A => Some((name, walker::of_a(run))),
        RunName::B => Some((name, walker::of_b(run))),
        RunName::BgpLs => Some((name, walker::of_bgp_ls(run))),
        RunName::C => None,
    };
    all.filter_map(walked).collect()
}

fn facts(source: &Source, lists: &[(RunName, List)]) -> Result<Facts, Refusal> {
    let named = source.named()?;
    let kinds: Vec<&'static Kind> =
        KINDS.iter().filter(|k| occurs(source, lists, k.code)).collect();
    let ask = |whom: Subject, of_the_link: bool| -> Result<Vec<Fact>, Refusal> {
        let wanted = kinds.iter().filter(|k| k.is_of_the_link() == of_the_link);
        wanted.map(|k| source.fact(whom, k)).collect()
    };
    let mut all = Vec::new();
    for whom in
        [RSVP_TE.into(), Subject::General].into_iter().chain(named.iter().map(|a| (*a).into()))
    {
        let facts = ask(whom, false)?;
        all.push(Gets { whom, facts });
    }
    let of_the_link = ask(Subject::General, true)?;
    let columns = columns(&all);
    Ok(Facts { named, all, of_the_link, columns })
}

/// Whether a kind stands anywhere in a source. What does not, nobody gets.
fn occurs(source: &Source, lists: &[(RunName, List)], code: u16) -> bool {
    let legacy = matches!(source, Source::Link(l) if code == 1096 && !l.c.is_empty());
    legacy || lists.iter().any(|(_, list)| list.has(code))
}

/// RSVP-TE and the general set by themselves; then the applications with equal sets together, by the first of each.
fn columns(all: &[Gets]) -> Vec<Vec<usize>> {
    let mut columns: Vec<Vec<usize>> = vec![vec![0], vec![1]];
    let set = |i: usize| all[i].facts.iter().map(|f| &f.value);
    for i in 2..all.len() {
        let same = columns[2..].iter().position(|group| set(group[0]).eq(set(i)));
        match same {
            Some(group) => columns[2 + group].push(i),
            None => columns.push(vec![i]),
        }
    }
    columns
}
