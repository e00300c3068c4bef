//! What the header promises for a call, by the reference.

use crate::calls::{Request, Subject};
use crate::reference::application::{Application, Asker};
use crate::reference::reply::{Answer, Fault, Reading, Refusal, Run};
use crate::reference::why::{self, Why};
use crate::reference::{bgp_ls, export, link};

/// The status, the reply, and what is written to the front of the lent list and buffer.
#[derive(Clone, PartialEq, Eq, Debug, Default)]
pub struct Outcome {
    pub status: u64,
    pub reply: [u64; 4],
    pub list: Vec<u32>,
    pub out: Vec<u8>,
    /// Why the call was refused, which the header does not tell.
    pub refusal: Option<Refusal>,
}

/// What the reference answers to a call.
pub fn expected(subject: &Subject, request: &Request) -> Outcome {
    match *request {
        Request::Ask { who, number, code, room } => {
            let Some(asker) = asker(who, number) else {
                return refused(Refusal::of_request(Fault::NoApplication));
            };
            let answer = match subject {
                Subject::Link(link) => link::ask(link, asker, code, room),
                Subject::Run(run) => bgp_ls::ask(run, asker, code, room),
            };
            answered(subject, answer)
        }
        Request::Value { who, number, code } => {
            let found = asker(who, number).and_then(|asker| match subject {
                Subject::Link(link) => link::value(link, asker, code),
                Subject::Run(run) => bgp_ls::value(run, asker, code),
            });
            match found {
                None => Outcome::default(),
                Some((offset, length)) => place(subject, offset, length),
            }
        }
        Request::Why { who, number, code } => {
            let Some(asker) = asker(who, number) else {
                return refused(Refusal::of_request(Fault::NoApplication));
            };
            reasoned(match subject {
                Subject::Link(link) => why::of_link(link, asker, code),
                Subject::Run(run) => why::of_run(run, asker, code),
            })
        }
        Request::Named => match subject {
            Subject::Link(link) => named(link::named(link)),
            Subject::Run(run) => named(bgp_ls::named(run)),
        },
        Request::Export { room } => {
            let Subject::Link(link) = subject else { panic!("a run is not exported") };
            match export::export(link, room) {
                Err(refusal) => refused(refusal),
                Ok(out) => Outcome { out: out.clone(), ..status(7, out.len() as u64, 0) },
            }
        }
        Request::ExportLength => {
            let Subject::Link(link) = subject else { panic!("a run is not exported") };
            match export::length(link) {
                Err(refusal) => refused(refusal),
                Ok(length) => status(7, length as u64, 0),
            }
        }
    }
}

/// `who` is 0, 1 or 2; the general set ignores the number.
fn asker(who: u8, number: u64) -> Option<Asker> {
    match who {
        0 => Some(Asker::General),
        1 => Some(Asker::Standard(number)),
        2 => Some(Asker::User(number)),
        _ => None,
    }
}

fn status(status: u64, first: u64, second: u64) -> Outcome {
    Outcome { status, reply: [first, second, 0, 0], ..Outcome::default() }
}

/// The number of a run.
fn run_number(run: Run) -> u64 {
    match run {
        Run::A => 0,
        Run::B => 1,
        Run::BgpLs => 2,
        Run::C => 7,
    }
}

/// Offset and length of a value, with its run: A of a link. The fragment is 0.
fn place(subject: &Subject, offset: usize, length: usize) -> Outcome {
    let run = match subject {
        Subject::Link(_) => Run::A,
        Subject::Run(_) => Run::BgpLs,
    };
    let reply = [offset as u64, length as u64, run_number(run), 0];
    Outcome { status: 4, reply, ..Outcome::default() }
}

fn refused(refusal: Refusal) -> Outcome {
    let status = 128 + u64::from(refusal.fault.number());
    let reply = [refusal.offset as u64, 0, run_number(refusal.run), 0];
    Outcome { status, reply, refusal: Some(refusal), ..Outcome::default() }
}

fn answered(subject: &Subject, answer: Result<Answer, Refusal>) -> Outcome {
    match answer {
        Err(refusal) => refused(refusal),
        Ok(Answer::Absent) => status(0, 0, 0),
        Ok(Answer::Found(Reading::Number(number))) => status(1, number, 0),
        Ok(Answer::Found(Reading::TwoNumbers(first, second))) => status(2, first, second),
        Ok(Answer::Found(Reading::Bandwidth(bits))) => status(3, u64::from(bits), 0),
        Ok(Answer::Found(Reading::Place { offset, length })) => place(subject, offset, length),
        Ok(Answer::Found(Reading::Srlgs(list))) => {
            Outcome { list: list.clone(), ..status(5, list.len() as u64, 0) }
        }
    }
}

/// The rule, the offset of the advertisement or all ones, and its run; of legacy values theirs.
fn reasoned(why: Result<Why, Refusal>) -> Outcome {
    let why = match why {
        Err(refusal) => return refused(refusal),
        Ok(why) => why,
    };
    let (offset, run) = match (why.advertisement, why.legacy) {
        (Some((run, offset)), _) => (offset as u64, run_number(run)),
        (None, Some(run)) => (u64::MAX, run_number(run)),
        (None, None) => (u64::MAX, 0),
    };
    let reply = [u64::from(why.rule), offset, run, 0];
    Outcome { status: 16, reply, ..Outcome::default() }
}

fn named(named: Result<Vec<Application>, Refusal>) -> Outcome {
    match named {
        Err(refusal) => refused(refusal),
        Ok(applications) => {
            let mut numbers = [0, 0];
            for application in applications {
                match application {
                    Application::Standard(n) => numbers[0] += 1 << n,
                    Application::User(n) => numbers[1] += 1 << n,
                }
            }
            status(6, numbers[0], numbers[1])
        }
    }
}
