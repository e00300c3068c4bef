//! The links on the bench, as the paper gives them.

use super::*;
use crate::reference::export::{export, length};
use crate::reference::kinds::CODES;
use crate::reference::link::named;

#[test]
fn empty_a() {
    let link = Link::default();
    for code in CODES {
        for asker in [Asker::General, RSVP_TE, SR_POLICY, Asker::User(31)] {
            assert_eq!(ask(&link, asker, code, 0), Ok(Answer::Absent));
        }
    }
    assert_eq!(export(&link, 0), Ok(Vec::new()));
    assert_eq!(length(&link), Ok(0));
    assert_eq!(named(&link), Ok(Vec::new()));
}

#[test]
fn m_s_g() {
    let link = link_a(&[M, S, G]);
    assert_eq!(metric(&link, RSVP_TE), Some(10));
    assert_eq!(metric(&link, SR_POLICY), Some(20));
    assert_eq!(metric(&link, LFA), Some(30));
    assert_eq!(metric(&link, Asker::User(5)), Some(30));
    assert_eq!(metric(&link, Asker::General), Some(30));
    let whole = bytes(
        "04 44 00 04 00 00 00 0A 04 62 00 0C 00 00 00 00 04 44 00 04 00 00 00 1E 04 62 00 10 \
         04 00 00 00 40 00 00 00 04 44 00 04 00 00 00 14",
    );
    assert_eq!(whole.len(), 44);
    assert_eq!(export(&link, 44), Ok(whole.clone()));
    assert_eq!(export(&link, 45), Ok(whole));
    assert_eq!(length(&link), Ok(44));
    assert_eq!(told(export(&link, 43).unwrap_err()), (5, Run::A, 0));
}

#[test]
fn the_legacy_flag() {
    let one = link_a(&[M, Z, G]);
    assert_eq!(metric(&one, SR_POLICY), Some(10));
    assert_eq!(metric(&one, LFA), Some(30));
    // The first L wins, and the last one too.
    assert_eq!(metric(&link_a(&[M, S, Z]), SR_POLICY), Some(10));
    assert_eq!(metric(&link_a(&[M, Z, S]), SR_POLICY), Some(10));
}

#[test]
fn named_with_nothing() {
    let link = link_a(&["10 03 01 00 40 ", G]);
    assert_eq!(metric(&link, SR_POLICY), None);
    assert_eq!(metric(&link, LFA), Some(30));
    // Changed by E2: RSVP-TE has 30, and the export 8 bytes more.
    assert_eq!(metric(&link, RSVP_TE), Some(30));
    assert_eq!(export(&link, usize::MAX).unwrap().len(), 36);
    assert_eq!(length(&link), Ok(36));
}

#[test]
fn a_mask_without_bits() {
    let link = link_a(&["10 08 01 00 00 12 03 00 00 14 ", G]);
    assert_eq!(metric(&link, SR_POLICY), Some(30));
    // Changed by E2.
    assert_eq!(metric(&link, RSVP_TE), Some(30));
    assert_eq!(length(&link), Ok(24));
}

#[test]
fn bits_from_the_top() {
    let link = link_a(&["10 08 01 00 02 12 03 00 00 14 "]);
    assert_eq!(metric(&link, Asker::Standard(6)), Some(20));
    assert_eq!(metric(&link, SR_POLICY), None);
}

#[test]
fn the_first_of_two() {
    let link = link_a(&[S, "10 08 01 00 60 12 03 00 00 15 "]);
    assert_eq!(metric(&link, SR_POLICY), Some(20));
    assert_eq!(metric(&link, LFA), Some(21));
}

#[test]
fn the_second_mask() {
    let link = link_a(&["10 08 00 01 80 12 03 00 00 14 ", G]);
    assert_eq!(metric(&link, Asker::User(0)), Some(20));
    // Changed by E2.
    assert_eq!(metric(&link, RSVP_TE), Some(30));
    assert_eq!(length(&link), Ok(44));
    assert_eq!(metric(&link, SR_POLICY), Some(30));
}

#[test]
fn ignored_and_refused() {
    let ignored = link_a(&["10 0B 09 00 FF FF FF FF FF FF FF FF FF "]);
    assert_eq!(metric(&ignored, SR_POLICY), None);
    assert_eq!(named(&ignored), Ok(Vec::new()));
    assert_eq!(refusal(&link_a(&["10 01 00"])), (3, Run::A, 0));
    assert_eq!(refusal(&link_a(&["12 02 00 0A"])), (4, Run::A, 0));
    assert_eq!(refusal(&link_a(&["12 03 00 00"])), (3, Run::A, 0));
}

#[test]
fn two_sides() {
    let link = link(G, &srlg_tlv("01 00 40", "00 00 00 07"), "");
    assert_eq!(metric(&link, SR_POLICY), Some(30));
    assert_eq!(srlgs(&link, SR_POLICY), [7]);
    assert_eq!(srlgs(&link, LFA), [0u32; 0]);
    // Changed by E2.
    assert_eq!(metric(&link, RSVP_TE), Some(30));
    assert_eq!(srlgs(&link, RSVP_TE), [0u32; 0]);
    assert_eq!(length(&link), Ok(52));
}
