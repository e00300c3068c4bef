//! The cases of a run of the test, one after another.

use crate::calls::{function, Request, Subject, FUNCTIONS, WITH_EXPORT_LENGTH};
use crate::compare::{hex, observe, required, Library, Pattern, Placed};
use crate::coverage::Coverage;
use crate::dense::dense_link;
use crate::expected::expected;
use crate::generator::{link, some_application, Scene};
use crate::limits::{long_link, long_run};
use crate::mutate::{damage, damage_link};
use crate::random::Random;
use crate::reference::application::Application;
use crate::reference::bgp_ls::read_run;
use crate::reference::export::export;
use crate::reference::kinds::{CODES, SRLG};
use crate::reference::link::{named, read_link, Link};
use crate::runs::run;
use crate::shapes::shaped_link;
use crate::shrink::shrink;
use crate::twins::twins;

pub struct Session<'a> {
    pub library: &'a dyn Library,
    pub seed: u64,
    pub coverage: Coverage,
}

/// A difference, told for a reader.
#[derive(Debug)]
pub struct Difference(pub String);

impl Session<'_> {
    pub fn new(library: &dyn Library, seed: u64) -> Session<'_> {
        Session { library, seed, coverage: Coverage::default() }
    }

    /// One case: a link or a run, and some calls about it. Long ones come at set places, since they
    /// take their time.
    pub fn case(&mut self, case: u64) -> Result<(), Difference> {
        let random = &mut Random::new(self.seed, case);
        let mut scene = scene(random);
        if case % 2000 == 50 {
            let run = long_run(case / 2000, random);
            return self.run_case(case, &scene, run, 5, random);
        }
        match case % 500 {
            20 | 270 => {
                let link = long_link(case / 250, random);
                self.link_case(case, &scene, link, random)
            }
            123 if case % 5000 == 123 => {
                let subject = accepted(random, |random| Subject::Link(link(&scene, random)));
                self.compare(case, &subject, &every_question(&subject), random)
            }
            124 if case % 5000 == 124 => {
                let subject = accepted(random, |random| Subject::Run(run(&scene, random)));
                self.compare(case, &subject, &every_question(&subject), random)
            }
            _ if case % 50 == 21 => {
                let link = shaped_link(random);
                scene.applications.extend(some_named(&link, random));
                self.link_case(case, &scene, link, random)
            }
            120 => {
                let link = dense_link(random);
                self.link_case(case, &scene, link, random)
            }
            _ if random.percent(60) => {
                let mut link =
                    if random.percent(15) { twins(&scene, random) } else { link(&scene, random) };
                if random.percent(20) {
                    damage_link(&mut link, random);
                }
                self.link_case(case, &scene, link, random)
            }
            _ => {
                let mut run = run(&scene, random);
                if random.percent(20) {
                    damage(&mut run, true, random);
                }
                self.run_case(case, &scene, run, 12, random)
            }
        }
    }

    /// The calls about a link, and about its export as a run.
    fn link_case(
        &mut self,
        case: u64,
        scene: &Scene,
        link: Link,
        random: &mut Random,
    ) -> Result<(), Difference> {
        let whole = export(&link, usize::MAX);
        let length = whole.as_ref().map_or(random.below(60), |bytes| bytes.len());
        let mut requests = vec![Request::Named, Request::Export { room: room(length, random) }];
        if random.percent(50) {
            requests.push(Request::Export { room: room(length, random) });
        }
        if random.percent(50) && WITH_EXPORT_LENGTH {
            requests.push(Request::ExportLength);
        }
        let questions = if whole.is_ok() { 9 } else { 3 };
        let subject = Subject::Link(link);
        let codes = codes_in(&subject);
        for _ in 0..questions {
            requests.push(question(scene, &subject, &codes, random));
        }
        self.compare(case, &subject, &requests, random)?;
        if let Ok(mut bytes) = whole {
            self.coverage.longest_export = self.coverage.longest_export.max(bytes.len());
            if random.percent(50) {
                self.coverage.exported_runs += 1;
                if random.percent(30) {
                    damage(&mut bytes, true, random);
                }
                self.run_case(case, scene, bytes, 6, random)?;
            }
        }
        Ok(())
    }

    /// The calls about a run.
    fn run_case(
        &mut self,
        case: u64,
        scene: &Scene,
        run: Vec<u8>,
        questions: usize,
        random: &mut Random,
    ) -> Result<(), Difference> {
        let subject = Subject::Run(run);
        let codes = codes_in(&subject);
        // Why is asked once at least, since long runs are few.
        let general = Request::Why { who: 0, number: 0, code: SRLG };
        let mut requests = vec![Request::Named, general];
        for _ in 0..questions {
            requests.push(question(scene, &subject, &codes, random));
        }
        self.compare(case, &subject, &requests, random)
    }

    /// Makes the calls and compares.
    fn compare(
        &mut self,
        case: u64,
        subject: &Subject,
        requests: &[Request],
        random: &mut Random,
    ) -> Result<(), Difference> {
        self.coverage.subject(subject);
        let placed = Placed::new(subject, random);
        for request in requests {
            let outcome = expected(subject, request);
            let pattern = Pattern(random.byte());
            let seen = observe(self.library, &placed, request, pattern);
            let due = required(&outcome, request, pattern);
            self.coverage.call(subject, request, &outcome);
            if seen != due {
                return Err(self.difference(case, subject, request));
            }
        }
        Ok(())
    }

    /// Tells a difference, and the shortest call found that has one.
    fn difference(&self, case: u64, subject: &Subject, request: &Request) -> Difference {
        let mut text = format!(
            "DIFFERENCE in case {case} of seed {} (repeat: --seed {} --case {case})\n",
            self.seed, self.seed
        );
        text += &self.tell(subject, request);
        let mut differs = |subject: &Subject, request: &Request| {
            let placed = Placed::new(subject, &mut Random::new(0, 0));
            let due = required(&expected(subject, request), request, Pattern(0xA5));
            observe(self.library, &placed, request, Pattern(0xA5)) != due
        };
        let short = shrink(subject, request, &mut differs);
        if short != *subject {
            text += "\nshortened:\n";
            text += &self.tell(&short, request);
        }
        Difference(text)
    }

    /// A call with its runs and both answers.
    fn tell(&self, subject: &Subject, request: &Request) -> String {
        let mut text = format!("  {} {request:?}\n", FUNCTIONS[function(subject, request)]);
        for (name, run) in subject.runs() {
            let shown = &run[..run.len().min(8192)];
            text += &format!("  {name} ({} bytes): {}\n", run.len(), hex(shown));
        }
        let pattern = Pattern(0xA5);
        let placed = Placed::new(subject, &mut Random::new(0, 0));
        let outcome = expected(subject, request);
        let due = required(&outcome, request, pattern);
        let seen = observe(self.library, &placed, request, pattern);
        text += &format!("  reference: {}\n", due.text());
        if let Some(refusal) = outcome.refusal {
            text += &format!("    because {:?}\n", refusal.fault);
        }
        text += &format!("  library:   {}\n", seen.text());
        text += &format!("  differing: {}\n", due.difference(&seen));
        text
    }
}

/// Half of the scenes are well-formed, the others odd, more or less.
fn scene(random: &mut Random) -> Scene {
    let oddness = random.pick(&[0, 0, 0, 0, 10, 30, 30, 60]);
    Scene::new(random, oddness)
}

/// A few of the applications that a link names; none where it is refused.
fn some_named(link: &Link, random: &mut Random) -> Vec<Application> {
    match named(link) {
        Ok(names) if !names.is_empty() => (0..6).map(|_| random.pick(&names)).collect(),
        _ => Vec::new(),
    }
}

/// A room for so many bytes or numbers: exact, one less, none, larger, any smaller one.
fn room(length: usize, random: &mut Random) -> usize {
    match random.below(20) {
        0..=9 => length,
        10..=13 => length.saturating_sub(1),
        14 => 0,
        15..=17 => length + random.between(1, 40),
        18 => length * 2 + 100,
        _ => random.below(length + 1),
    }
}

/// The codes of the kinds that stand somewhere in a link or a run, as often as they do; none where it
/// is refused.
fn codes_in(subject: &Subject) -> Vec<u16> {
    let mut attributes = Vec::new();
    match subject {
        Subject::Link(link) => {
            let Ok(sides) = read_link(link) else {
                return Vec::new();
            };
            attributes.extend(sides.a.legacy);
            attributes.extend(sides.a.live.into_iter().flat_map(|asla| asla.carries));
        }
        Subject::Run(run) => {
            let Ok(reader) = read_run(run) else {
                return Vec::new();
            };
            attributes.extend(reader.top);
            attributes.extend(reader.aslas.into_iter().flat_map(|asla| asla.carries));
        }
    }
    attributes.iter().map(|attribute| attribute.code).collect()
}

/// A question to a link or a run, or the same to a value or why function.
fn question(scene: &Scene, subject: &Subject, codes: &[u16], random: &mut Random) -> Request {
    let (who, number) = who(scene, random);
    let code =
        if codes.is_empty() || random.percent(50) { code(random) } else { random.pick(codes) };
    match random.below(10) {
        0..=2 => return Request::Value { who, number, code },
        3..=4 => return Request::Why { who, number, code },
        _ => {}
    }
    let room = if code == SRLG {
        room(count(subject, who, number, code), random)
    } else {
        random.below(6)
    };
    Request::Ask { who, number, code, room }
}

/// The first one that is accepted.
fn accepted(random: &mut Random, mut make: impl FnMut(&mut Random) -> Subject) -> Subject {
    loop {
        let subject = make(random);
        if expected(&subject, &Request::Named).refusal.is_none() {
            return subject;
        }
    }
}

/// All fourteen kinds for the general set and every application, their values, and why; user 32 to 63
/// too, which are refused.
fn every_question(subject: &Subject) -> Vec<Request> {
    let mut requests = Vec::new();
    for (who, number) in (0..64).flat_map(|n| [(1, n), (2, n)]).chain([(0, 0)]) {
        for code in CODES {
            let room = count(subject, who, number, code);
            requests.push(Request::Ask { who, number, code, room });
            requests.push(Request::Value { who, number, code });
            requests.push(Request::Why { who, number, code });
        }
    }
    requests
}

/// How many SRLGs the answer has.
fn count(subject: &Subject, who: u8, number: u64, code: u16) -> usize {
    if code != SRLG {
        return 0;
    }
    let room = usize::MAX;
    let unbounded = Request::Ask { who, number, code, room };
    expected(subject, &unbounded).list.len()
}

/// Who asks: mostly an application of the scene.
fn who(scene: &Scene, random: &mut Random) -> (u8, u64) {
    let application = match random.below(100) {
        0..=61 => random.pick(&scene.applications),
        62..=71 => Application::Standard(0),
        72..=83 => return (0, number(random)),
        84..=95 => some_application(random),
        96..=97 => return (random.pick(&[3, 4, 5, 64, 127, 128, 129, 255]), number(random)),
        _ => return (random.between(1, 2) as u8, number(random)),
    };
    match application {
        Application::Standard(n) => (1, u64::from(n)),
        Application::User(n) => (2, u64::from(n)),
    }
}

/// Any number of an application, mostly above 63, or 31 and the next.
fn number(random: &mut Random) -> u64 {
    let low = random.below(64) as u64;
    match random.below(9) {
        0 => low,
        1 => 64,
        8 => random.between(31, 33) as u64,
        2 => 64 + low,
        3 => 256 + low,
        4 => (1 << 32) + low,
        5 => (1 << 63) + low,
        6 => u64::MAX - low,
        _ => random.draw(),
    }
}

/// A code, mostly one of the fourteen; SRLG more often than the others.
fn code(random: &mut Random) -> u16 {
    const BAD: [u16; 16] =
        [0, 3, 18, 64, 1087, 1093, 1095, 1097, 1113, 1121, 1122, 1123, 1172, 1174, 32767, 65535];
    match random.below(100) {
        0..=82 => random.pick(&CODES),
        83..=91 => SRLG,
        92..=97 => random.pick(&BAD),
        98 => random.draw() as u16,
        _ => random.pick(&CODES) ^ (1 << random.below(16)),
    }
}
