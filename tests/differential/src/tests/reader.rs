//! The reader of BGP-LS runs, and that an export means what its link means and has the length told.

use super::*;
use crate::dense::dense_link;
use crate::generator::{link as some_link, Scene};
use crate::random::Random;
use crate::reference::application::Application;
use crate::reference::bgp_ls::{ask as ask_run, named, value};
use crate::reference::export::{export, length};
use crate::reference::meaning::{of_link, of_run};
use crate::shapes::shaped_link;

fn run_metric(run: &[u8], asker: Asker) -> Option<u64> {
    match ask_run(run, asker, 1092, 0) {
        Ok(Answer::Absent) => None,
        Ok(Answer::Found(Reading::Number(metric))) => Some(metric),
        other => panic!("{other:?}"),
    }
}

const TOP: &str = "04 44 00 04 00 00 00 0A ";
const GENERAL: &str = "04 62 00 0C 00 00 AB CD 04 44 00 04 01 00 00 1E ";
const SR: &str = "04 62 00 10 04 00 00 00 40 00 00 00 04 44 00 04 00 00 00 14 ";

#[test]
fn who_gets_what() {
    let run = bytes(&[TOP, GENERAL, SR].concat());
    assert_eq!(run_metric(&run, RSVP_TE), Some(10));
    assert_eq!(run_metric(&run, SR_POLICY), Some(20));
    assert_eq!(run_metric(&run, LFA), Some(0x0100_001E));
    assert_eq!(run_metric(&run, Asker::General), Some(0x0100_001E));
    assert_eq!(named(&run), Ok(vec![Application::Standard(1)]));
    assert_eq!(value(&run, SR_POLICY, 1092), Some((8 + 16 + 16, 4)));
    // No application gets the top-level values.
    assert_eq!(run_metric(&bytes(TOP), SR_POLICY), None);
    // Bit 0 is ignored, and its 1122 is neither general nor naming.
    let bit_0 = "04 62 00 10 04 00 00 00 80 00 00 00 04 44 00 04 00 00 00 14 ";
    let run = bytes(&[bit_0, GENERAL].concat());
    assert_eq!(run_metric(&run, RSVP_TE), None);
    assert_eq!(run_metric(&run, SR_POLICY), Some(0x0100_001E));
    assert_eq!(named(&run), Ok(Vec::new()));
}

#[test]
fn srlgs_of_a_run() {
    let run = bytes(
        "04 48 00 00 04 62 00 10 00 04 00 00 80 00 00 00 04 48 00 04 00 00 00 09 \
         04 62 00 14 00 04 00 00 80 00 00 00 04 48 00 08 00 00 00 09 00 00 00 01",
    );
    assert_eq!(ask_run(&run, RSVP_TE, 1096, 0), Ok(Answer::Absent));
    let found = Ok(Answer::Found(Reading::Srlgs(vec![1, 9])));
    assert_eq!(ask_run(&run, Asker::User(0), 1096, 2), found);
    assert_eq!(told(ask_run(&run, Asker::User(0), 1096, 1).unwrap_err()), (5, Run::A, 0));
}

#[test]
fn refusals() {
    let refused = |text: &str| told(ask_run(&bytes(text), SR_POLICY, 1092, 0).unwrap_err());
    let fine = |text: &str| assert!(ask_run(&bytes(text), SR_POLICY, 1092, 0).is_ok(), "{text}");
    assert_eq!(refused(&[TOP, "04 44 00"].concat()), (3, Run::BgpLs, 8));
    assert_eq!(refused(&[TOP, "04 44 00 05 00 00 00 00"].concat()), (3, Run::BgpLs, 8));
    assert_eq!(refused("04 44 00 03 00 00 00"), (4, Run::BgpLs, 0));
    assert_eq!(refused("04 95 00 00"), (4, Run::BgpLs, 0));
    assert_eq!(refused("04 48 00 02 00 00"), (4, Run::BgpLs, 0));
    assert_eq!(refused("04 62 00 03 05 00 00"), (3, Run::BgpLs, 0));
    fine("04 62 00 04 05 00 00 00");
    fine("04 62 00 05 84 00 00 00 00");
    assert_eq!(refused("04 62 00 07 04 00 00 00 00 00 00"), (3, Run::BgpLs, 0));
    assert_eq!(refused("04 62 00 06 00 00 00 00 04 44"), (3, Run::BgpLs, 8));
    assert_eq!(refused("04 62 00 0A 00 00 00 00 04 44 00 02 00 00"), (4, Run::BgpLs, 8));
    // Skipped in a 1122, whatever their lengths.
    for code in ["41", "42", "43", "62"] {
        fine(&format!("04 62 00 09 00 00 00 00 04 {code} 00 01 00"));
    }
    assert_eq!(refused("04 41 00 01 00"), (4, Run::BgpLs, 0));
    assert_eq!(told(ask_run(&[0], Asker::User(32), 0, 0).unwrap_err()), (6, Run::A, 0));
    assert_eq!(told(ask_run(&[0], Asker::User(31), 0, 0).unwrap_err()), (7, Run::A, 0));
}

#[test]
fn an_export_means_what_its_link_means() {
    let mut accepted = 0;
    for case in 0..20_000 {
        let random = &mut Random::new(77, case);
        let link = if case % 200 == 0 {
            dense_link(random)
        } else if case % 200 == 100 {
            shaped_link(random)
        } else {
            let scene = Scene::new(random, (case % 50) as usize);
            some_link(&scene, random)
        };
        let Ok(meaning) = of_link(&link) else {
            continue;
        };
        accepted += 1;
        let run = export(&link, 233_588).unwrap();
        assert_eq!(length(&link), Ok(run.len()), "case {case}");
        assert_eq!(of_run(&run), Ok(meaning), "case {case}");
    }
    assert!(accepted > 10_000, "{accepted}");
}
