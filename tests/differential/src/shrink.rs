//! A shorter call that still differs.

use crate::calls::{Request, Subject};
use crate::reference::link::Link;

/// Tries shorter calls with so many bytes in all.
const EFFORT: usize = 50_000_000;

/// Cuts spans out of the runs, and makes bytes 0, as long as the call still differs. `differs` makes
/// the call and compares.
pub fn shrink(
    subject: &Subject,
    request: &Request,
    differs: &mut dyn FnMut(&Subject, &Request) -> bool,
) -> Subject {
    let mut best = subject.clone();
    let mut effort = 0;
    let mut again = true;
    while again && effort < EFFORT {
        again = false;
        for which in 0..best.runs().len() {
            let mut span = best.runs()[which].1.len();
            while span > 0 && effort < EFFORT {
                let mut at = 0;
                while at + span <= best.runs()[which].1.len() && effort < EFFORT {
                    let mut run = best.runs()[which].1.clone();
                    run.drain(at..at + span);
                    let candidate = with_run(&best, which, run);
                    effort += 500 + candidate.length();
                    if differs(&candidate, request) {
                        best = candidate;
                        again = true;
                    } else {
                        at += if span > 64 { span / 8 } else { 1 };
                    }
                }
                span = if span > 64 { span / 2 } else { span - 1 };
            }
            for at in 0..best.runs()[which].1.len() {
                let mut run = best.runs()[which].1.clone();
                if run[at] != 0 && effort < EFFORT {
                    run[at] = 0;
                    let candidate = with_run(&best, which, run);
                    effort += 500 + candidate.length();
                    if differs(&candidate, request) {
                        best = candidate;
                    }
                }
            }
        }
    }
    best
}

/// The subject with one of its runs replaced.
fn with_run(subject: &Subject, which: usize, run: Vec<u8>) -> Subject {
    match subject {
        Subject::Run(_) => Subject::Run(run),
        Subject::Link(link) => {
            let mut link: Link = link.clone();
            match which {
                0 => link.a = run,
                1 => link.b = run,
                _ => link.c = run,
            }
            Subject::Link(link)
        }
    }
}
