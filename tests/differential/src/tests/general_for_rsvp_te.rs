//! RSVP-TE takes the general set where nothing names it and legacy has none of the kinds (E2): the
//! worked cases.

use super::*;
use crate::reference::export::{export, length};

const B: &str = "EE 18 00 00 00 00 00 02 00 00 00 0A 04 08 00 00 00 01 00 00 00 02 00 00 00 09";

#[test]
fn side_a() {
    // Legacy bandwidths shut nothing out.
    let bandwidth = link_a(&["09 04 4C 00 00 01 ", G]);
    assert_eq!(metric(&bandwidth, RSVP_TE), Some(30));
    assert_eq!(length(&bandwidth), Ok(32));
    // One legacy kind shuts out all that is general: the metric too.
    let group = link_a(&["03 04 00 00 00 05 ", G]);
    assert_eq!(metric(&group, RSVP_TE), None);
    assert_eq!(length(&group), Ok(24));
    // Named, with an empty list or with L.
    for named in ["10 03 01 00 80 ", "10 03 81 00 80 "] {
        let link = link_a(&[named, G]);
        assert_eq!(metric(&link, RSVP_TE), None);
        assert_eq!(length(&link), Ok(16));
    }
    assert_eq!(metric(&link_a(&[M, G]), RSVP_TE), Some(10));
    assert_eq!(metric(&link_a(&[G]), RSVP_TE), Some(30));
}

#[test]
fn both_sides() {
    let bare = link(G, B, "");
    assert_eq!(srlgs(&bare, RSVP_TE), [9]);
    let written = bytes(
        "04 44 00 04 00 00 00 1E 04 48 00 04 00 00 00 09 04 62 00 14 00 00 00 00 \
         04 44 00 04 00 00 00 1E 04 48 00 04 00 00 00 09",
    );
    assert_eq!(export(&bare, usize::MAX), Ok(written));
    // Each side by itself.
    let with_c = link(G, B, "00 00 00 01");
    assert_eq!(srlgs(&with_c, RSVP_TE), [1]);
    assert_eq!(metric(&with_c, RSVP_TE), Some(30));
    let with_m = link(&[M, G].concat(), B, "");
    assert_eq!(metric(&with_m, RSVP_TE), Some(10));
    assert_eq!(srlgs(&with_m, RSVP_TE), [9]);
    let named_on_a = link(&["10 03 01 00 80 ", G].concat(), B, "");
    assert_eq!(metric(&named_on_a, RSVP_TE), None);
    assert_eq!(srlgs(&named_on_a, RSVP_TE), [9]);
    // Named on B, with L or without a value.
    for masks in ["81 00 80", "01 00 80"] {
        let named_on_b = link(G, &[B, " ", &srlg_tlv(masks, "")].concat(), "");
        assert_eq!(srlgs(&named_on_b, RSVP_TE), [0u32; 0]);
        assert_eq!(metric(&named_on_b, RSVP_TE), Some(30));
    }
}
