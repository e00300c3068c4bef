//! User bits 32 to 63 are retired (E12): the worked cases.

use super::*;
use crate::reference::application::Application;
use crate::reference::bgp_ls;
use crate::reference::export::export;
use crate::reference::link::{named, value};

fn bandwidth(link: &Link, code: u16) -> Option<u32> {
    match ask(link, LFA, code, 0) {
        Ok(Answer::Absent) => None,
        Ok(Answer::Found(Reading::Bandwidth(bits))) => Some(bits),
        other => panic!("{other:?}"),
    }
}

#[test]
fn retired_bits_alone() {
    let link = link_a(&["10 0C 00 05 00 00 00 00 80 12 03 00 00 14 ", G]);
    assert_eq!(told(ask(&link, Asker::User(32), 1092, 0).unwrap_err()), (6, Run::A, 0));
    assert_eq!(value(&link, Asker::User(32), 1092), None);
    assert_eq!(metric(&link, Asker::User(31)), Some(30));
    assert_eq!(named(&link), Ok(Vec::new()));
    // By E2 the general metric is RSVP-TE's too.
    let written = bytes("04 44 00 04 00 00 00 1E 04 62 00 0C 00 00 00 00 04 44 00 04 00 00 00 1E");
    assert_eq!(export(&link, usize::MAX), Ok(written));
    // Without G nothing is general, whatever the retired bits say.
    let alone = link_a(&["10 0C 00 05 00 00 00 00 80 12 03 00 00 14 "]);
    assert_eq!(metric(&alone, Asker::General), None);
    assert_eq!(metric(&alone, Asker::User(31)), None);
    assert_eq!(export(&alone, usize::MAX), Ok(Vec::new()));
    // With L it is for nobody, and its list is not read.
    let flagged = link_a(&[M, "10 09 80 05 00 00 00 00 80 12 09 ", G]);
    assert_eq!(metric(&flagged, Asker::User(31)), Some(30));
}

#[test]
fn retired_bits_beside_others() {
    let link = link_a(&["10 0F 00 08 00 00 00 01 00 00 00 01 12 03 00 00 14 "]);
    assert_eq!(named(&link), Ok(vec![Application::User(31)]));
    assert_eq!(metric(&link, Asker::User(31)), Some(20));
    let written = bytes("04 62 00 10 00 04 00 00 00 00 00 01 04 44 00 04 00 00 00 14");
    assert_eq!(export(&link, usize::MAX), Ok(written));
}

#[test]
fn bandwidths() {
    let rubbish = link_a(&["10 0F 01 06 80 00 00 00 00 00 80 0A 04 4C 00 00 01 "]);
    assert_eq!(bandwidth(&rubbish, 1090), Some(0x4C00_0001));
    let user_31 = link_a(&["10 0D 01 04 80 00 00 00 01 0A 04 4C 00 00 01 "]);
    assert_eq!(bandwidth(&user_31, 1090), None);
    let neither = link_a(&["10 0D 00 05 00 00 00 00 80 09 04 4C 00 00 02 "]);
    assert_eq!(bandwidth(&neither, 1089), Some(0x4C00_0002));
}

#[test]
fn refusals() {
    let short = link_a(&["10 0B 00 05 00 00 00 00 80 12 02 00 14 "]);
    assert_eq!(refusal(&short), (4, Run::A, 9));
    // 6 before 7, and both before the run.
    assert_eq!(told(ask(&short, Asker::User(40), 1, 0).unwrap_err()), (6, Run::A, 0));
    let run = bgp_ls::ask(&[0], Asker::User(40), 1, 0);
    assert_eq!(told(run.unwrap_err()), (6, Run::A, 0));
}

#[test]
fn side_b() {
    let link = link(
        "",
        "EE 1E 00 00 00 00 00 02 00 00 06 00 00 00 00 00 80 0A 04 08 00 00 00 01 00 00 00 02 \
         00 00 00 07",
        "",
    );
    assert_eq!(named(&link), Ok(Vec::new()));
    assert_eq!(srlgs(&link, Asker::General), [0u32; 0]);
    assert_eq!(srlgs(&link, Asker::User(31)), [0u32; 0]);
}

#[test]
fn the_reader() {
    let run = bytes("04 62 00 14 00 08 00 00 00 00 00 01 00 00 00 01 04 44 00 04 00 00 00 14");
    assert_eq!(bgp_ls::named(&run), Ok(vec![Application::User(31)]));
    let alone = bytes("04 62 00 14 00 08 00 00 00 00 00 00 00 00 00 01 04 44 00 04 00 00 00 14");
    assert_eq!(bgp_ls::named(&alone), Ok(Vec::new()));
    assert_eq!(bgp_ls::ask(&alone, Asker::General, 1092, 0), Ok(Answer::Absent));
}
