//! What a run of the test has reached.

use std::collections::BTreeMap;

use crate::calls::{function, Request, Subject, FUNCTIONS, WITH_EXPORT_LENGTH};
use crate::expected::Outcome;
use crate::reference::application::{
    general, naming, rule, Advertisement, Application, Ignored, Rule, RSVP_TE,
};
use crate::reference::bgp_ls::read_run;
use crate::reference::export::groups;
use crate::reference::kinds::{Attribute, APPLICATION_CODES, CODES, SRLG};
use crate::reference::link::{named_on, read_link, Sides};
use crate::reference::meaning::{self, Set};
use crate::reference::reply::{Fault, Refusal, Run};
use crate::reference::side_a::Asla;
use crate::repeats::{Format, Repeat};

/// What becomes of a side's general values for RSVP-TE.
#[derive(Clone, Copy, PartialEq, Eq, PartialOrd, Ord, Debug)]
enum ForRsvpTe {
    Taken,
    NamedWithL,
    NamedWithoutAValue,
    NamedWithAValue,
    /// Nothing names it, and a kind of applications is legacy.
    Legacy,
}

/// The same, for the live advertisements of a side; none where it has no general values.
fn for_rsvp_te<T>(
    live: &[Advertisement<T>],
    has: impl Fn(&T) -> bool,
    legacy_has_a_kind: bool,
) -> Option<ForRsvpTe> {
    let some_has = |of: Vec<&Advertisement<T>>| of.iter().any(|one| has(&one.carries));
    if !some_has(general(live)) {
        return None;
    }
    Some(match rule(live, RSVP_TE) {
        Rule::Legacy => ForRsvpTe::NamedWithL,
        Rule::Naming if some_has(naming(live, RSVP_TE)) => ForRsvpTe::NamedWithAValue,
        Rule::Naming => ForRsvpTe::NamedWithoutAValue,
        Rule::General if legacy_has_a_kind => ForRsvpTe::Legacy,
        Rule::General => ForRsvpTe::Taken,
    })
}

/// Counts of calls and of what the links and runs had in them.
#[derive(Default)]
pub struct Coverage {
    pub calls: u64,
    pub links: u64,
    pub accepted_links: u64,
    pub runs: u64,
    pub accepted_runs: u64,
    pub exported_runs: u64,
    pub most_groups: usize,
    pub longest_export: usize,
    pub groups: u64,
    statuses: BTreeMap<(usize, u64), u64>,
    faults: BTreeMap<(&'static str, Fault), u64>,
    kinds: BTreeMap<(usize, u16), u64>,
    rules: BTreeMap<(&'static str, Rule), u64>,
    whys: BTreeMap<(usize, u64, bool, u64), u64>,
    ignored: BTreeMap<(&'static str, Ignored), u64>,
    repeats: BTreeMap<(&'static str, Repeat), u64>,
    rsvp_te: BTreeMap<(&'static str, ForRsvpTe), u64>,
    things: BTreeMap<&'static str, u64>,
}

/// The statuses that each function can give.
const STATUSES: [&[u64]; 10] = [
    &[0, 1, 2, 3, 4, 5, 129, 130, 131, 132, 133, 134, 135, 136],
    &[0, 4],
    &[6, 129, 130, 131, 132, 136],
    &[7, 129, 130, 131, 132, 133, 136],
    &[0, 1, 2, 3, 4, 5, 129, 131, 132, 133, 134, 135, 136],
    &[0, 4],
    &[6, 129, 131, 132, 136],
    &[16, 129, 130, 131, 132, 134, 135, 136],
    &[16, 129, 131, 132, 134, 135, 136],
    &[7, 129, 130, 131, 132, 136],
];

/// The place of `nakhshirul_export_length`.
const EXPORT_LENGTH: usize = 9;

/// The answers of the two why functions: rule, whether an advertisement is told, run.
const WHYS: [(usize, &[(u64, bool, u64)]); 2] = [
    (
        7,
        &[
            (0, true, 0),
            (0, true, 1),
            (1, true, 0),
            (1, true, 1),
            (2, true, 0),
            (2, true, 1),
            (2, false, 0),
            (3, true, 0),
            (3, true, 1),
            (3, false, 0),
            (4, false, 0),
            (4, false, 7),
            (5, true, 0),
        ],
    ),
    (8, &[(1, true, 2), (2, true, 2), (2, false, 0), (3, true, 2), (3, false, 0), (6, false, 0)]),
];

/// The faults that each run can have.
const FAULTS: [(&str, &[Fault]); 3] = [
    (
        "A",
        &[
            Fault::HeaderCut,
            Fault::ValueCut,
            Fault::FixedFieldsCut,
            Fault::MasksCut,
            Fault::KindLength,
            Fault::KindTwice,
        ],
    ),
    (
        "B",
        &[
            Fault::HeaderCut,
            Fault::ValueCut,
            Fault::FixedFieldsCut,
            Fault::MasksCut,
            Fault::ListLengthCut,
            Fault::ListCut,
            Fault::IdentifierLength,
            Fault::SrlgsUneven,
        ],
    ),
    (
        "BGP-LS",
        &[
            Fault::HeaderCut,
            Fault::ValueCut,
            Fault::FixedFieldsCut,
            Fault::MasksCut,
            Fault::KindLength,
            Fault::KindTwice,
        ],
    ),
];

const RULES: [(&str, Rule); 6] = [
    ("A", Rule::Legacy),
    ("A", Rule::Naming),
    ("A", Rule::General),
    ("B", Rule::Legacy),
    ("B", Rule::Naming),
    ("B", Rule::General),
];

const IGNORED: [(&str, Ignored); 7] = [
    ("A", Ignored::MaskLength),
    ("A", Ignored::LegacyFlagForNobody),
    ("B", Ignored::MaskLength),
    ("B", Ignored::LegacyFlagForNobody),
    ("B", Ignored::IdentifierRepeated),
    ("B", Ignored::IdentifiersMissing),
    ("BGP-LS", Ignored::MaskLength),
];

const REPEATS: [(&str, &[Repeat]); 2] = [
    (
        "A",
        &[
            Repeat::Neighbour,
            Repeat::FurtherOn,
            Repeat::BeforeAFault,
            Repeat::Bandwidth,
            Repeat::WrongLength,
            Repeat::BehindAFault,
            Repeat::Unknown,
            Repeat::WithL,
            Repeat::Ignored,
            Repeat::Outside,
        ],
    ),
    (
        "BGP-LS",
        &[
            Repeat::Neighbour,
            Repeat::FurtherOn,
            Repeat::BeforeAFault,
            Repeat::EmptySrlgs,
            Repeat::Bandwidth,
            Repeat::WrongLength,
            Repeat::BehindAFault,
            Repeat::Unknown,
            Repeat::Ignored,
            Repeat::Outside,
        ],
    ),
];

/// What can become of a side's general values for RSVP-TE.
const FOR_RSVP_TE: [ForRsvpTe; 5] = [
    ForRsvpTe::Taken,
    ForRsvpTe::NamedWithL,
    ForRsvpTe::NamedWithoutAValue,
    ForRsvpTe::NamedWithAValue,
    ForRsvpTe::Legacy,
];

const THINGS: [&str; 50] = [
    "A general",
    "A naming",
    "A neither",
    "A with L",
    "B general",
    "B naming",
    "B neither",
    "B with L",
    "BGP-LS general",
    "BGP-LS naming",
    "BGP-LS neither",
    "RSVP-TE with L on A",
    "RSVP-TE with L on B",
    "a group of standard and user applications",
    "A of 2048 bytes accepted",
    "A of 2049 bytes",
    "B of 2048 bytes accepted",
    "B of 2049 bytes",
    "C of 1024 bytes accepted",
    "C of 1028 bytes",
    "BGP-LS run of 524288 bytes accepted",
    "BGP-LS run of 524289 bytes",
    "95 ASLAs or more, each of one application",
    "60 ASLAs or more, each of 90 applications or more",
    "400 ASLAs or more",
    "60 TLVs 238 or more",
    "464 SRLGs ascending",
    "464 SRLGs falling",
    "464 SRLGs in any order",
    "60 groups or more with 400 SRLGs or more",
    "A with retired bits",
    "A with retired bits alone",
    "A with L and retired bits alone",
    "A with RSVP-TE alone but for retired bits, and 1090",
    "A with 1089 beside retired bits alone",
    "B with retired bits",
    "B with retired bits alone",
    "BGP-LS with retired bits",
    "BGP-LS with retired bits alone",
    "BGP-LS with a user mask of 8 bytes without retired bits",
    "user 31 asked and answered",
    "user 32 asked",
    "user 33 to 63 asked",
    "RSVP-TE takes general values of both sides",
    "RSVP-TE takes general values of A, not of B",
    "RSVP-TE takes general values of B, not of A",
    "RSVP-TE takes general values beside legacy bandwidths",
    "RSVP-TE takes no general values, for legacy has other kinds",
    "why RSVP-TE takes general values of A",
    "why RSVP-TE takes general values of B",
];

impl Coverage {
    /// Counts one call.
    pub fn call(&mut self, subject: &Subject, request: &Request, outcome: &Outcome) {
        self.calls += 1;
        let function = function(subject, request);
        *self.statuses.entry((function, outcome.status)).or_default() += 1;
        if let Some(refusal) = outcome.refusal {
            let run = match refusal.run {
                Run::A => "A",
                Run::B => "B",
                Run::BgpLs => "BGP-LS",
                Run::C => panic!("a refusal in C"),
            };
            *self.faults.entry((run, refusal.fault)).or_default() += 1;
        }
        if outcome.status == 16 {
            let [rule, offset, run, _] = outcome.reply;
            *self.whys.entry((function, rule, offset != u64::MAX, run)).or_default() += 1;
            let rsvp_te = matches!(request, Request::Why { who: 1, number: 0, .. });
            if rsvp_te && rule == 3 && offset != u64::MAX {
                self.thing_if(run == 0, "why RSVP-TE takes general values of A");
                self.thing_if(run == 1, "why RSVP-TE takes general values of B");
            }
        }
        if let Request::Ask { who: 2, number, .. } | Request::Why { who: 2, number, .. } = request {
            let refused = outcome.status == 134;
            self.thing_if(*number == 31 && outcome.status < 128, "user 31 asked and answered");
            self.thing_if(*number == 32 && refused, "user 32 asked");
            self.thing_if((33..64).contains(number) && refused, "user 33 to 63 asked");
        }
        let code = match request {
            Request::Ask { code, .. } | Request::Value { code, .. } => *code,
            _ => return,
        };
        if (1..=5).contains(&outcome.status) {
            *self.kinds.entry((function, code)).or_default() += 1;
        }
    }

    /// Counts what a link or a run has in it, once for all its calls.
    pub fn subject(&mut self, subject: &Subject) {
        match subject {
            Subject::Link(link) => {
                self.links += 1;
                self.thing_if(link.a.len() == 2049, "A of 2049 bytes");
                self.thing_if(link.b.len() == 2049, "B of 2049 bytes");
                self.thing_if(link.c.len() == 1028, "C of 1028 bytes");
                let read = read_link(link);
                self.repeats("A", Format::A, &link.a, read.as_ref().err());
                let Ok(sides) = read else { return };
                self.accepted_links += 1;
                self.thing_if(link.a.len() == 2048, "A of 2048 bytes accepted");
                self.thing_if(link.b.len() == 2048, "B of 2048 bytes accepted");
                self.thing_if(link.c.len() == 1024, "C of 1024 bytes accepted");
                self.sides(&sides);
                self.shapes(&sides);
                self.rsvp_te(&sides);
                let meaning = meaning::of_sides(link, &sides);
                let groups = groups(&meaning.named);
                self.groups += groups.len() as u64;
                self.most_groups = self.most_groups.max(groups.len());
                let most_srlgs = |(_, set): &(_, Set)| {
                    set.iter().any(|(code, value)| *code == SRLG && value.len() >= 1600)
                };
                self.thing_if(
                    groups.len() >= 60 && groups.iter().any(most_srlgs),
                    "60 groups or more with 400 SRLGs or more",
                );
                for (members, _) in groups {
                    let user = |one: &Application| matches!(one, Application::User(_));
                    if members.iter().any(user) && !members.iter().all(user) {
                        self.thing("a group of standard and user applications");
                    }
                }
            }
            Subject::Run(run) => {
                self.runs += 1;
                self.thing_if(run.len() == 524_289, "BGP-LS run of 524289 bytes");
                let read = read_run(run);
                self.repeats("BGP-LS", Format::BgpLs, run, read.as_ref().err());
                let Ok(reader) = read else { return };
                self.accepted_runs += 1;
                self.thing_if(run.len() == 524_288, "BGP-LS run of 524288 bytes accepted");
                for why in reader.ignored {
                    *self.ignored.entry(("BGP-LS", why)).or_default() += 1;
                }
                for asla in reader.aslas {
                    self.thing(pick(&asla, ["BGP-LS general", "BGP-LS naming", "BGP-LS neither"]));
                    self.retired(
                        &asla,
                        ["BGP-LS with retired bits", "BGP-LS with retired bits alone"],
                    );
                    self.thing_if(
                        asla.masks.user.len() == 8 && !asla.masks.retired,
                        "BGP-LS with a user mask of 8 bytes without retired bits",
                    );
                }
            }
        }
    }

    fn sides(&mut self, sides: &Sides) {
        for application in named_on(sides) {
            *self.rules.entry(("A", rule(&sides.a.live, application))).or_default() += 1;
            *self.rules.entry(("B", rule(&sides.b.live, application))).or_default() += 1;
        }
        for why in &sides.a.ignored {
            *self.ignored.entry(("A", *why)).or_default() += 1;
        }
        for why in &sides.b.ignored {
            *self.ignored.entry(("B", *why)).or_default() += 1;
        }
        for asla in &sides.a.live {
            self.thing(pick(asla, ["A general", "A naming", "A neither"]));
            if asla.legacy_flag {
                self.thing("A with L");
            }
            self.retired(asla, ["A with retired bits", "A with retired bits alone"]);
            self.retired_in_a(asla);
        }
        for tlv in &sides.b.live {
            self.thing(pick(tlv, ["B general", "B naming", "B neither"]));
            if tlv.legacy_flag {
                self.thing("B with L");
            }
            self.retired(tlv, ["B with retired bits", "B with retired bits alone"]);
        }
        if rule(&sides.a.live, RSVP_TE) == Rule::Legacy {
            self.thing("RSVP-TE with L on A");
        }
        if rule(&sides.b.live, RSVP_TE) == Rule::Legacy {
            self.thing("RSVP-TE with L on B");
        }
    }

    /// Retired bits of a user mask: beside others, or alone.
    fn retired<T>(&mut self, one: &Advertisement<T>, things: [&'static str; 2]) {
        self.thing_if(one.masks.retired, things[0]);
        self.thing_if(one.masks.retired && one.masks.bits_set() == 0, things[1]);
    }

    /// What retired bits must not change in A: whom L is for, and the bandwidths.
    fn retired_in_a(&mut self, asla: &Asla) {
        if !asla.masks.retired {
            return;
        }
        let has = |code| asla.carries.iter().any(|one| one.code == code);
        let alone = asla.masks.name(RSVP_TE) && asla.masks.bits_set() == 1;
        let nobody = asla.masks.bits_set() == 0;
        self.thing_if(nobody && asla.legacy_flag, "A with L and retired bits alone");
        self.thing_if(alone && has(1090), "A with RSVP-TE alone but for retired bits, and 1090");
        self.thing_if(nobody && has(1089), "A with 1089 beside retired bits alone");
    }

    /// What becomes of the general values of both sides for RSVP-TE.
    fn rsvp_te(&mut self, sides: &Sides) {
        let (a, b) = (&sides.a, &sides.b);
        let of_an_application = |one: &Attribute| APPLICATION_CODES.contains(&one.code);
        let in_a = |list: &Vec<Attribute>| list.iter().any(of_an_application);
        let on_a = for_rsvp_te(&a.live, in_a, a.legacy_has_a_kind());
        let on_b = for_rsvp_te(&b.live, |srlgs| !srlgs.is_empty(), b.legacy_has_a_kind());
        for (side, one) in [("A", on_a), ("B", on_b)] {
            if let Some(one) = one {
                *self.rsvp_te.entry((side, one)).or_default() += 1;
            }
        }
        let taken = |one: Option<ForRsvpTe>| one == Some(ForRsvpTe::Taken);
        let left = |one: Option<ForRsvpTe>| one.is_some() && !taken(one);
        self.thing_if(taken(on_a) && taken(on_b), "RSVP-TE takes general values of both sides");
        self.thing_if(taken(on_a) && left(on_b), "RSVP-TE takes general values of A, not of B");
        self.thing_if(left(on_a) && taken(on_b), "RSVP-TE takes general values of B, not of A");
        let bandwidths = taken(on_a) && !a.legacy.is_empty();
        self.thing_if(bandwidths, "RSVP-TE takes general values beside legacy bandwidths");
        let general: Vec<u16> =
            general(&a.live).iter().flat_map(|one| &one.carries).map(|one| one.code).collect();
        let others = a.legacy.iter().all(|one| !general.contains(&one.code));
        let shut_out = on_a == Some(ForRsvpTe::Legacy) && others;
        self.thing_if(shut_out, "RSVP-TE takes no general values, for legacy has other kinds");
    }

    /// What stands twice in a run, if nothing but it is to blame for a refusal.
    fn repeats(
        &mut self,
        name: &'static str,
        format: Format,
        run: &[u8],
        refusal: Option<&Refusal>,
    ) {
        let blamed = match refusal.map(|refusal| (refusal.fault.number(), refusal.run)) {
            None => true,
            Some((3 | 4 | 8, blamed)) => blamed != Run::B,
            Some(_) => false,
        };
        if blamed {
            for one in format.repeats(run, refusal.copied()) {
                *self.repeats.entry((name, one)).or_default() += 1;
            }
        }
    }

    /// The shapes of `shapes.rs`.
    fn shapes(&mut self, sides: &Sides) {
        let naming = |least: u32, most: u32| {
            let named = sides.a.live.iter().map(|asla| asla.masks.bits_set());
            named.filter(|n| (least..=most).contains(n)).count()
        };
        self.thing_if(naming(1, 1) >= 95, "95 ASLAs or more, each of one application");
        self.thing_if(naming(90, 96) >= 60, "60 ASLAs or more, each of 90 applications or more");
        self.thing_if(sides.a.live.len() >= 400, "400 ASLAs or more");
        self.thing_if(sides.b.live.len() >= 60, "60 TLVs 238 or more");
        let srlgs: Vec<u32> = sides.b.live.iter().flat_map(|tlv| tlv.carries.clone()).collect();
        if srlgs.len() >= 464 {
            let mut pairs = srlgs.iter().zip(&srlgs[1..]);
            let thing = match (pairs.clone().all(|(x, y)| x < y), pairs.all(|(x, y)| x > y)) {
                (true, _) => "464 SRLGs ascending",
                (_, true) => "464 SRLGs falling",
                _ => "464 SRLGs in any order",
            };
            self.thing(thing);
        }
    }

    fn thing_if(&mut self, met: bool, thing: &'static str) {
        if met {
            self.thing(thing);
        }
    }

    fn thing(&mut self, thing: &'static str) {
        *self.things.entry(thing).or_default() += 1;
    }

    /// What was never reached.
    pub fn missing(&self) -> Vec<String> {
        let mut missing = Vec::new();
        for (function, statuses) in STATUSES.iter().enumerate() {
            if function == EXPORT_LENGTH && !WITH_EXPORT_LENGTH {
                continue;
            }
            for status in *statuses {
                if !self.statuses.contains_key(&(function, *status)) {
                    missing.push(format!("{} status {status}", FUNCTIONS[function]));
                }
            }
        }
        for (run, faults) in FAULTS {
            for fault in faults {
                if !self.faults.contains_key(&(run, *fault)) {
                    missing.push(format!("{run} {fault:?}"));
                }
            }
        }
        // The value functions have no SRLGs.
        for (function, codes) in [(0, 14), (1, 13), (4, 14), (5, 13)] {
            let found = self.kinds.keys().filter(|(one, _)| *one == function).count();
            if found < codes {
                missing.push(format!("{} found {found} kinds of {codes}", FUNCTIONS[function]));
            }
        }
        for (function, answers) in WHYS {
            for &(rule, told, run) in answers {
                if !self.whys.contains_key(&(function, rule, told, run)) {
                    let name = FUNCTIONS[function];
                    missing.push(format!("{name} rule {rule}, told {told}, run {run}"));
                }
            }
        }
        for one in RULES {
            if !self.rules.contains_key(&one) {
                missing.push(format!("{one:?}"));
            }
        }
        for one in IGNORED {
            if !self.ignored.contains_key(&one) {
                missing.push(format!("{one:?}"));
            }
        }
        for one in ["A", "B"].iter().flat_map(|side| FOR_RSVP_TE.map(|one| (*side, one))) {
            if !self.rsvp_te.contains_key(&one) {
                missing.push(format!("{one:?} for RSVP-TE"));
            }
        }
        for (run, repeats) in REPEATS {
            for one in repeats {
                if !self.repeats.contains_key(&(run, *one)) {
                    missing.push(format!("{run} twice {one:?}"));
                }
            }
        }
        for one in THINGS {
            if !self.things.contains_key(one) {
                missing.push(one.to_string());
            }
        }
        missing
    }

    /// The counts, for a reader.
    pub fn print(&self) {
        println!(
            "links {} (accepted {}), runs {} (accepted {}, of exports {})",
            self.links, self.accepted_links, self.runs, self.accepted_runs, self.exported_runs
        );
        println!(
            "exports: groups {}, most in one {}, longest {} bytes",
            self.groups, self.most_groups, self.longest_export
        );
        for (function, name) in FUNCTIONS.iter().enumerate() {
            let counts = self.statuses.iter().filter(|((one, _), _)| *one == function);
            line(name, counts.map(|((_, status), n)| format!("{status}: {n}")));
        }
        for number in 1..=8 {
            let counts = self.faults.iter().filter(|((_, fault), _)| fault.number() == number);
            let texts = counts.map(|((run, fault), n)| match number {
                3 | 4 | 8 => format!("{run} {fault:?}: {n}"),
                _ => format!("{n}"),
            });
            line(&format!("refused by {number}"), texts);
        }
        for function in [0, 1, 4, 5] {
            let counts = CODES.iter().filter_map(|code| {
                Some(format!("{code}: {}", self.kinds.get(&(function, *code))?))
            });
            line(&format!("{} found", FUNCTIONS[function]), counts);
        }
        for function in [7, 8] {
            let counts = self.whys.iter().filter(|((one, ..), _)| *one == function);
            let texts = counts.map(|((_, rule, told, run), n)| {
                let at = if *told { "at" } else { "none," };
                format!("rule {rule} {at} run {run}: {n}")
            });
            line(&format!("{} answered", FUNCTIONS[function]), texts);
        }
        line("rules", self.rules.iter().map(|((side, rule), n)| format!("{side} {rule:?}: {n}")));
        line("ignored", self.ignored.iter().map(|((side, why), n)| format!("{side} {why:?}: {n}")));
        let general = self.rsvp_te.iter();
        line("general for RSVP-TE", general.map(|((side, one), n)| format!("{side} {one:?}: {n}")));
        line("twice", self.repeats.iter().map(|((run, one), n)| format!("{run} {one:?}: {n}")));
        line("met", self.things.iter().map(|(thing, n)| format!("{thing}: {n}")));
    }
}

/// Which of three an advertisement is: general, naming, neither.
fn pick<T>(one: &Advertisement<T>, names: [&'static str; 3]) -> &'static str {
    if one.masks.both_empty() {
        names[0]
    } else if one.masks.bits_set() > 0 {
        names[1]
    } else {
        names[2]
    }
}

fn line(name: &str, counts: impl Iterator<Item = String>) {
    println!("{name}: {}", counts.collect::<Vec<String>>().join(", "));
}
