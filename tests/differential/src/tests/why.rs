//! Why whoever asks gets what: each row of the table of rules.

use super::*;
use crate::reference::why::{of_link, of_run, Why};

fn told(rule: u8, run: Run, offset: usize) -> Why {
    Why { rule, advertisement: Some((run, offset)), legacy: None }
}

fn untold(rule: u8) -> Why {
    Why { rule, advertisement: None, legacy: None }
}

fn legacy(run: Run) -> Why {
    Why { rule: 4, advertisement: None, legacy: Some(run) }
}

fn metric_of(link: &Link, asker: Asker) -> Why {
    of_link(link, asker, 1092).unwrap()
}

#[test]
fn side_a() {
    let link = link_a(&[M, S, G]);
    assert_eq!(metric_of(&link, RSVP_TE), legacy(Run::A));
    assert_eq!(metric_of(&link, SR_POLICY), told(1, Run::A, 5));
    assert_eq!(metric_of(&link, LFA), told(3, Run::A, 15));
    assert_eq!(metric_of(&link, Asker::General), told(2, Run::A, 15));
    assert_eq!(of_link(&link, LFA, 1114), Ok(untold(3)));
    assert_eq!(of_link(&link, Asker::General, 1114), Ok(untold(2)));
    // Named, though not with the kind: the first that names it.
    assert_eq!(of_link(&link, SR_POLICY, 1114), Ok(told(1, Run::A, 5)));
    let twice = link_a(&["10 03 01 00 40 ", S]);
    assert_eq!(metric_of(&twice, SR_POLICY), told(1, Run::A, 5));
    assert_eq!(of_link(&twice, SR_POLICY, 1114), Ok(told(1, Run::A, 0)));
    // One L anywhere: the first with L.
    assert_eq!(metric_of(&link_a(&[S, Z, Z, G]), SR_POLICY), told(0, Run::A, 10));
    assert_eq!(metric_of(&link_a(&[S, Z, G]), LFA), told(3, Run::A, 15));
}

#[test]
fn rsvp_te() {
    let named = "10 08 01 00 80 12 03 00 00 14 ";
    assert_eq!(metric_of(&link_a(&[M, named]), RSVP_TE), told(1, Run::A, 5));
    assert_eq!(of_link(&link_a(&[named]), RSVP_TE, 1114), Ok(legacy(Run::A)));
    assert_eq!(metric_of(&link_a(&[G]), RSVP_TE), told(3, Run::A, 0));
    assert_eq!(of_link(&link_a(&[G]), RSVP_TE, 1114), Ok(untold(3)));
    assert_eq!(metric_of(&link_a(&[G, "03 04 00 00 00 05"]), RSVP_TE), legacy(Run::A));
    assert_eq!(metric_of(&link_a(&[G, "10 03 01 00 80"]), RSVP_TE), legacy(Run::A));
    // Nothing at all is there, nothing legacy either: the general set, which is empty.
    assert_eq!(metric_of(&link_a(&[]), RSVP_TE), untold(3));
    assert_eq!(of_link(&link_a(&[]), RSVP_TE, 1096), Ok(untold(3)));
    assert_eq!(metric_of(&link_a(&["10 03 81 00 80"]), RSVP_TE), told(0, Run::A, 0));
}

#[test]
fn side_b() {
    let empty = srlg_tlv("01 00 C0", "");
    let seven = srlg_tlv("01 00 C0", "00 00 00 07");
    let general = srlg_tlv("00 00", "00 00 00 09");
    let b = [empty.as_str(), &seven, &general].concat();
    let at =
        |tlvs: &[&String]| bytes(&tlvs.iter().map(|one| one.as_str()).collect::<String>()).len();
    let link = link("", &b, "00 00 00 05");
    let why = |asker| of_link(&link, asker, 1096).unwrap();
    assert_eq!(why(SR_POLICY), told(1, Run::B, 0));
    assert_eq!(why(RSVP_TE), told(1, Run::B, 0));
    assert_eq!(why(LFA), told(3, Run::B, at(&[&empty, &seven])));
    assert_eq!(why(Asker::General), told(2, Run::B, at(&[&empty, &seven])));
    // Nothing but empty ones: named all the same; RSVP-TE has C; the general set nothing.
    let bare = srlg_tlv("00 00", "");
    let link = super::link("", &[empty.as_str(), &bare].concat(), "");
    let why = |asker| of_link(&link, asker, 1096).unwrap();
    assert_eq!(why(SR_POLICY), told(1, Run::B, 0));
    assert_eq!(why(RSVP_TE), legacy(Run::C));
    assert_eq!(why(LFA), untold(3));
    assert_eq!(why(Asker::General), untold(2));
    // An L on A says nothing of B.
    let link = super::link(Z, &seven, "");
    assert_eq!(of_link(&link, SR_POLICY, 1096), Ok(told(1, Run::B, 0)));
    assert_eq!(of_link(&link, SR_POLICY, 1092), Ok(told(0, Run::A, 0)));
}

#[test]
fn bandwidths() {
    let nine = "10 08 00 00 09 04 00 00 00 01 ";
    let ten = "10 09 01 00 80 0A 04 00 00 00 01 ";
    for asker in [Asker::General, RSVP_TE, SR_POLICY, Asker::User(7)] {
        let why = |parts: &[&str], code| of_link(&link_a(parts), asker, code).unwrap();
        assert_eq!(why(&[M, nine], 1089), told(5, Run::A, 5));
        assert_eq!(why(&[nine, "09 04 00 00 00 02"], 1089), legacy(Run::A));
        assert_eq!(why(&[M], 1089), legacy(Run::A));
        assert_eq!(why(&[M, ten], 1090), told(5, Run::A, 5));
        assert_eq!(why(&[M, ten, "10 03 81 00 80"], 1090), legacy(Run::A));
        assert_eq!(why(&["10 09 01 00 C0 0A 04 00 00 00 01"], 1090), legacy(Run::A));
        assert_eq!(why(&["10 03 81 00 40"], 1091), legacy(Run::A));
    }
}

#[test]
fn runs() {
    let run = bytes(
        "04 44 00 04 00 00 00 0A 04 62 00 0C 00 00 00 00 04 44 00 04 00 00 00 1E 04 62 00 10 \
         04 00 00 00 40 00 00 00 04 44 00 04 00 00 00 14 04 62 00 08 00 00 00 00 04 48 00 00",
    );
    let why = |asker, code| of_run(&run, asker, code).unwrap();
    assert_eq!(why(RSVP_TE, 1092), untold(6));
    assert_eq!(why(SR_POLICY, 1092), told(1, Run::BgpLs, 24));
    assert_eq!(why(SR_POLICY, 1096), told(1, Run::BgpLs, 24));
    assert_eq!(why(LFA, 1092), told(3, Run::BgpLs, 8));
    assert_eq!(why(Asker::General, 1092), told(2, Run::BgpLs, 8));
    // The SRLG TLV has no number.
    assert_eq!(why(LFA, 1096), untold(3));
    assert_eq!(why(Asker::General, 1096), untold(2));
    assert_eq!(why(Asker::User(3), 1089), untold(6));
}

#[test]
fn refused_as_a_question() {
    let link = link_a(&["12 02 00 0A"]);
    for (asker, code) in [(Asker::User(64), 1), (LFA, 1), (LFA, 1092)] {
        assert_eq!(
            of_link(&link, asker, code).unwrap_err(),
            ask(&link, asker, code, 0).unwrap_err()
        );
    }
}
