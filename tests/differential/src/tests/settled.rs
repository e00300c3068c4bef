//! The points of the paper that can be taken in two ways, as they were settled.

use super::*;
use crate::reference::application::Application;
use crate::reference::export::export;
use crate::reference::link::named;

fn bandwidth(link: &Link, code: u16) -> Option<u32> {
    match ask(link, Asker::User(3), code, 0) {
        Ok(Answer::Absent) => None,
        Ok(Answer::Found(Reading::Bandwidth(bits))) => Some(bits),
        other => panic!("{other:?}"),
    }
}

#[test]
fn maximum_link_bandwidth() {
    let general = "10 08 00 00 09 04 00 00 00 01 ";
    let neither = "10 09 01 00 00 09 04 00 00 00 02 ";
    let flagged = "10 09 81 00 40 09 04 00 00 00 03 ";
    let legacy = "09 04 00 00 00 04 ";
    assert_eq!(bandwidth(&link_a(&[general, neither]), 1089), Some(1));
    assert_eq!(bandwidth(&link_a(&[neither, general]), 1089), Some(2));
    assert_eq!(bandwidth(&link_a(&[flagged, neither, general]), 1089), Some(2));
    assert_eq!(bandwidth(&link_a(&[flagged]), 1089), None);
    assert_eq!(bandwidth(&link_a(&[general, legacy]), 1089), Some(4));
}

#[test]
fn maximum_reservable_bandwidth() {
    let alone = "10 0B 01 02 80 00 00 0A 04 00 00 00 01 ";
    let shared = "10 09 01 00 C0 0A 04 00 00 00 02 ";
    let user = "10 0A 01 01 80 01 0A 04 00 00 00 03 ";
    let legacy = "0A 04 00 00 00 04 ";
    let flagged = "10 03 81 00 80 ";
    assert_eq!(bandwidth(&link_a(&[shared, user]), 1090), None);
    assert_eq!(bandwidth(&link_a(&[legacy, shared, user, alone]), 1090), Some(1));
    assert_eq!(bandwidth(&link_a(&[shared, legacy]), 1090), Some(4));
    assert_eq!(bandwidth(&link_a(&[alone, legacy, flagged]), 1090), Some(4));
    assert_eq!(bandwidth(&link_a(&[alone, flagged]), 1090), None);
}

#[test]
fn rsvp_te() {
    // A mix by kind with legacy, nothing from general ones where something names it.
    let named = "10 08 01 00 80 12 03 00 00 01 ";
    let link_1 = link_a(&[G, named, M, "03 04 00 00 00 05"]);
    assert_eq!(metric(&link_1, RSVP_TE), Some(1));
    let group = ask(&link_1, RSVP_TE, 1088, 0);
    assert_eq!(group, Ok(Answer::Found(Reading::Number(5))));
    // L on A leaves B as it is, and the other way round.
    let flag_a = "10 03 81 00 80 ";
    let b = srlg_tlv("01 00 80", "00 00 00 07");
    let c = "00 00 00 05 00 00 00 05";
    let link_2 = link(&[named, M, flag_a].concat(), &b, c);
    assert_eq!(metric(&link_2, RSVP_TE), Some(10));
    assert_eq!(srlgs(&link_2, RSVP_TE), [7]);
    let flag_b = srlg_tlv("81 00 80", "");
    let link_3 = link(&[named, M].concat(), &[b.clone(), flag_b].concat(), c);
    assert_eq!(metric(&link_3, RSVP_TE), Some(1));
    assert_eq!(srlgs(&link_3, RSVP_TE), [5]);
    // Named without values: RSVP-TE falls back to C, another application to nothing.
    let empty = srlg_tlv("01 00 C0", "");
    let general = srlg_tlv("00 00", "00 00 00 09");
    let link_4 = link("", &[empty, general].concat(), c);
    assert_eq!(srlgs(&link_4, RSVP_TE), [5]);
    assert_eq!(srlgs(&link_4, SR_POLICY), [0u32; 0]);
    assert_eq!(srlgs(&link_4, LFA), [9]);
}

#[test]
fn groups() {
    // Standard 40 and user 2 share a set, SR Policy and user 0 have empty ones.
    let a = "10 0E 06 01 00 00 00 00 00 80 20 12 03 00 00 07 10 04 01 01 40 80 ";
    let link = link(a, "", "");
    let names = [
        Application::Standard(1),
        Application::Standard(40),
        Application::User(0),
        Application::User(2),
    ];
    assert_eq!(named(&link).unwrap(), names);
    let written = bytes(
        "04 62 00 0C 04 04 00 00 40 00 00 00 80 00 00 00 \
         04 62 00 18 08 04 00 00 00 00 00 00 00 80 00 00 20 00 00 00 04 44 00 04 00 00 00 07",
    );
    assert_eq!(export(&link, usize::MAX), Ok(written));
}

#[test]
fn an_export_of_all_kinds() {
    let a = "27 04 00 00 00 27 0E 04 00 00 00 0E 0B 20 01 01 01 01 01 01 01 01 01 01 01 01 01 01 01 01 \
             01 01 01 01 01 01 01 01 01 01 01 01 01 01 01 01 09 04 00 00 00 09 0A 04 00 00 00 0A \
             12 03 00 00 12 03 04 00 00 00 03 22 08 00 00 00 22 00 00 00 23 10 03 01 00 80 ";
    let link = link(a, "", "00 00 00 02 00 00 00 01 00 00 00 02");
    let written = bytes(
        "04 40 00 04 00 00 00 03 04 41 00 04 00 00 00 09 04 42 00 04 00 00 00 0A 04 43 00 20 \
         01 01 01 01 01 01 01 01 01 01 01 01 01 01 01 01 01 01 01 01 01 01 01 01 01 01 01 01 01 01 01 01 \
         04 44 00 04 00 00 00 12 04 48 00 08 00 00 00 01 00 00 00 02 \
         04 5B 00 08 00 00 00 22 00 00 00 23 04 60 00 04 00 00 00 27 04 95 00 04 00 00 00 0E",
    );
    assert_eq!(export(&link, usize::MAX), Ok(written));
    assert_eq!(named(&link), Ok(Vec::new()));
}

/// The illustration of RFC 9294, section 4.1: an ASLA for S, F and X, a general set of SRLGs, and one
/// for X. X is user application 7 here. By E2 the general SRLGs are RSVP-TE's too.
#[test]
fn the_illustration_of_rfc_9294() {
    let a = "10 09 01 01 60 01 12 03 00 00 64 ";
    let general = srlg_tlv("00 00", "00 00 00 05");
    let for_x = srlg_tlv("00 01 01", "00 00 00 06");
    let link = link(a, &[general, for_x].concat(), "");
    let written = bytes(
        "04 48 00 04 00 00 00 05 04 62 00 0C 00 00 00 00 04 48 00 04 00 00 00 05 \
         04 62 00 18 04 00 00 00 60 00 00 00 04 44 00 04 00 00 00 64 04 48 00 04 00 00 00 05 \
         04 62 00 18 00 04 00 00 01 00 00 00 04 44 00 04 00 00 00 64 04 48 00 04 00 00 00 06",
    );
    assert_eq!(export(&link, usize::MAX), Ok(written));
}
