//! The same kind twice in one list is refused by 8 (E5): the worked cases.

use super::*;
use crate::reference::bgp_ls;
use crate::reference::export::export;
use crate::reference::link::{named, value};
use crate::reference::why;

const TWO_METRICS: &str = "12 03 00 00 14 12 03 00 00 15 ";

#[test]
fn in_a() {
    let asla = |header: &str, list: &str| bytes(&[header, list].concat());
    let refused = |a: Vec<u8>| refusal(&Link { a, ..Link::default() });
    assert_eq!(refused(asla("10 0D 01 00 40 ", TWO_METRICS)), (8, Run::A, 10));
    // Its own checks come first, the next element's behind it.
    assert_eq!(refused(bytes("10 0C 01 00 40 12 03 00 00 14 12 02 00 15")), (4, Run::A, 10));
    assert_eq!(
        refused(bytes("10 0F 01 00 40 12 03 00 00 14 12 03 00 00 15 12 09")),
        (8, Run::A, 10)
    );
    assert_eq!(refused(bytes("10 0E 00 00 09 04 4C 00 00 01 09 04 4C 00 00 02")), (8, Run::A, 10));
    assert_eq!(refused(asla("10 0D 01 00 00 ", TWO_METRICS)), (8, Run::A, 10));
    // With another kind between.
    let between = "10 13 01 00 40 12 03 00 00 14 03 04 00 00 00 01 12 03 00 00 15";
    assert_eq!(refused(bytes(between)), (8, Run::A, 16));
    // The second one's place, and not the first one's: 5 bytes further in.
    assert_eq!(refused([bytes(M), asla("10 0D 01 00 40 ", TWO_METRICS)].concat()), (8, Run::A, 15));
    // Behind an earlier fault, and before one of another element.
    assert_eq!(
        refused(bytes("10 11 01 00 40 03 02 00 00 12 03 00 00 14 12 03 00 00 15")),
        (4, Run::A, 5)
    );
    assert_eq!(refused([asla("10 0D 01 00 40 ", TWO_METRICS), vec![18]].concat()), (8, Run::A, 10));
}

#[test]
fn everybody_is_refused() {
    let link = link_a(&["10 0D 01 00 40 ", TWO_METRICS]);
    let due = (8, Run::A, 10);
    for asker in [Asker::General, RSVP_TE, LFA, Asker::User(3)] {
        assert_eq!(told(ask(&link, asker, 1089, 0).unwrap_err()), due);
        assert_eq!(told(why::of_link(&link, asker, 1096).unwrap_err()), due);
        assert_eq!(value(&link, asker, 1092), None);
    }
    assert_eq!(told(named(&link).unwrap_err()), due);
    assert_eq!(told(export(&link, usize::MAX).unwrap_err()), due);
}

#[test]
fn accepted() {
    // Lists that are not read.
    assert_eq!(metric(&link_a(&[M, "10 0D 81 00 40 ", TWO_METRICS]), SR_POLICY), Some(10));
    let long = ["10 15 09 00 40 00 00 00 00 00 00 00 00 ", TWO_METRICS].concat();
    assert_eq!(metric(&link_a(&[M, &long]), SR_POLICY), None);
    // An unknown type, an ASLA in an ASLA too.
    assert_eq!(metric(&link_a(&["10 0B 01 00 40 C8 02 00 00 C8 02 00 01 "]), SR_POLICY), None);
    assert_eq!(metric(&link_a(&["10 07 01 00 40 10 00 10 00 "]), SR_POLICY), None);
    // Outside, and in two ASLAs.
    assert_eq!(metric(&link_a(&["12 03 00 00 0A 12 03 00 00 0B "]), RSVP_TE), Some(10));
    assert_eq!(metric(&link_a(&[S, S, G, G]), SR_POLICY), Some(20));
    // Identifiers never give 8.
    let twice = "EE 22 00 00 00 00 00 02 00 00 00 14 04 08 00 00 00 01 00 00 00 02 \
                 04 08 00 00 00 01 00 00 00 02 00 00 00 07";
    assert_eq!(srlgs(&link("", twice, ""), Asker::General), [0u32; 0]);
}

#[test]
fn in_runs() {
    let refused = |text: &str| told(bgp_ls::ask(&bytes(text), LFA, 1092, 0).unwrap_err());
    let fine = |text: &str| assert!(bgp_ls::ask(&bytes(text), LFA, 1092, 0).is_ok(), "{text}");
    let metrics = "04 44 00 04 00 00 00 14 04 44 00 04 00 00 00 15";
    let due = (8, Run::BgpLs, 20);
    assert_eq!(refused(&["04 62 00 18 04 00 00 00 40 00 00 00 ", metrics].concat()), due);
    let empty = "04 62 00 10 04 00 00 00 40 00 00 00 04 48 00 00 04 48 00 00";
    assert_eq!(refused(empty), (8, Run::BgpLs, 16));
    let short = "04 62 00 13 04 00 00 00 40 00 00 00 04 48 00 00 04 48 00 03 00 00 00";
    assert_eq!(refused(short), (4, Run::BgpLs, 16));
    // Unknown there, in an ignored 1122, and at the top.
    fine("04 62 00 10 04 00 00 00 40 00 00 00 04 41 00 00 04 41 00 00");
    fine("04 62 00 10 04 00 00 00 40 00 00 00 04 62 00 00 04 62 00 00");
    fine("04 62 00 18 05 00 00 00 40 00 00 00 04 44 00 04 00 00 00 14 04 44 00 04 00 00 00 15");
    fine(metrics);
    let top = bytes("04 48 00 04 00 00 00 09 04 48 00 04 00 00 00 07");
    let joined = Ok(Answer::Found(Reading::Srlgs(vec![7, 9])));
    assert_eq!(bgp_ls::ask(&top, RSVP_TE, 1096, 2), joined);
}
