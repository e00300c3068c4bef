//! The comparison itself: the reference in the library's place agrees with itself, and each single
//! slip of a library is found.

use crate::calls::{Request, Subject};
use crate::compare::{Lent, Library};
use crate::expected::{expected, Outcome};
use crate::reference::link::Link;
use crate::session::Session;

/// The reference in the library's place, with an answer changed by `slip`.
struct Mirror {
    slip: fn(&Request, &mut Outcome),
    /// One more write than the answer has.
    stray: fn(&Request, &Outcome, &Lent),
}

impl Library for Mirror {
    fn call(&self, runs: &[(*const u8, usize)], request: &Request, lent: &Lent) -> u64 {
        let bytes = |at: usize| match runs[at] {
            (_, 0) => Vec::new(),
            (run, len) => unsafe { std::slice::from_raw_parts(run, len).to_vec() },
        };
        let subject = match runs.len() {
            3 => Subject::Link(Link { a: bytes(0), b: bytes(1), c: bytes(2) }),
            _ => Subject::Run(bytes(0)),
        };
        let mut outcome = expected(&subject, request);
        (self.slip)(request, &mut outcome);
        (self.stray)(request, &outcome, lent);
        unsafe {
            if !outcome.list.is_empty() {
                lent.list.copy_from(outcome.list.as_ptr(), outcome.list.len());
            }
            if !outcome.out.is_empty() {
                lent.out.copy_from(outcome.out.as_ptr(), outcome.out.len());
            }
            lent.reply.copy_from(outcome.reply.as_ptr(), 4);
        }
        outcome.status
    }
}

const RIGHT: Mirror = Mirror { slip: |_, _| {}, stray: |_, _, _| {} };

/// So many cases; the first difference.
fn first_difference(library: &Mirror, cases: u64) -> Option<String> {
    let mut session = Session::new(library, 5);
    for case in 0..cases {
        if let Err(difference) = session.case(case) {
            return Some(difference.0);
        }
    }
    None
}

#[test]
fn the_reference_agrees_with_itself() {
    let mut session = Session::new(&RIGHT, 5);
    for case in 0..20_000 {
        session.case(case).unwrap();
    }
    assert_eq!(session.coverage.missing(), [String::new(); 0]);
}

#[test]
fn a_wrong_answer_is_found() {
    let slips: [fn(&Request, &mut Outcome); 12] = [
        |_, outcome| outcome.status += u64::from(outcome.status == 135),
        |_, outcome| outcome.reply[1] += u64::from(outcome.status == 1),
        |_, outcome| outcome.reply[0] |= u64::from(outcome.status == 6),
        |_, outcome| outcome.reply[0] += u64::from(outcome.status == 132),
        |_, outcome| outcome.reply[2] ^= u64::from(outcome.status == 131),
        |_, outcome| outcome.reply[2] ^= 2 * u64::from(outcome.status == 4),
        |_, outcome| outcome.reply[3] |= u64::from(outcome.status == 0),
        |_, outcome| outcome.reply[0] ^= u64::from(outcome.status == 16 && outcome.reply[0] > 1),
        |_, outcome| outcome.reply[2] &= !(7 * u64::from(outcome.reply == [4, u64::MAX, 7, 0])),
        |request, outcome| {
            let told = *request == Request::ExportLength && outcome.status == 7;
            outcome.reply[0] += u64::from(told && outcome.reply[0] > 2000);
        },
        |_, outcome| {
            if let Some(last) = outcome.list.last_mut() {
                *last ^= 1;
            }
        },
        |_, outcome| {
            if let Some(last) = outcome.out.last_mut() {
                *last ^= 1;
            }
        },
    ];
    for (at, slip) in slips.into_iter().enumerate() {
        let text = first_difference(&Mirror { slip, ..RIGHT }, 2_000).expect("a difference");
        assert!(text.contains("differing"), "{at}: {text}");
    }
}

#[test]
fn a_stray_write_is_found() {
    let strays: [fn(&Request, &Outcome, &Lent); 5] = [
        |_, _, lent| unsafe { *lent.reply.wrapping_add(4) = 0 },
        |_, _, lent| unsafe { *lent.reply.wrapping_sub(1) = 0 },
        |_, outcome, lent| {
            if outcome.status == 5 {
                unsafe { *lent.list.wrapping_add(outcome.list.len()) = 3 }
            }
        },
        |_, outcome, lent| {
            if outcome.status == 7 && !lent.out.is_null() {
                unsafe { *lent.out.wrapping_add(outcome.out.len()) = 3 }
            }
        },
        |request, outcome, lent| {
            // Written although refused for want of room.
            if outcome.status == 133 && !matches!(request, Request::Export { room: 0 }) {
                unsafe { *lent.out = 3 }
            }
        },
    ];
    for stray in strays {
        assert!(first_difference(&Mirror { stray, ..RIGHT }, 2_000).is_some());
    }
}
