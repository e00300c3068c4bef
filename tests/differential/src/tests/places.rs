//! Where refusals point, and readings of values.

use super::*;
use crate::reference::link::value;

#[test]
fn places_in_a() {
    // A lone byte, a header cut, a value cut.
    assert_eq!(refusal(&link_a(&[M, "12"])), (3, Run::A, 5));
    assert_eq!(refusal(&link_a(&[M, "12 03"])), (3, Run::A, 5));
    // Masks past the end: the sub-TLV.
    assert_eq!(refusal(&link_a(&[M, "10 03 01 01 40"])), (3, Run::A, 5));
    assert_eq!(refusal(&link_a(&[M, "10 02 80 01 40 00"])), (3, Run::A, 5));
    // Inner elements: their own first byte, held by the list.
    assert_eq!(refusal(&link_a(&[M, "10 04 01 00 40 12 ", "03 00 00"])), (3, Run::A, 10));
    assert_eq!(refusal(&link_a(&[M, "10 07 01 00 40 12 02 00 00 "])), (4, Run::A, 10));
    // With L the list is not read, nor where the mask is too long.
    assert_eq!(metric(&link_a(&[M, "10 07 81 00 40 12 02 00 00 "]), SR_POLICY), Some(10));
    assert_eq!(metric(&link_a(&["10 02 09 00 ", M]), RSVP_TE), Some(10));
    assert_eq!(metric(&link_a(&["10 02 00 7F ", M]), RSVP_TE), Some(10));
    assert_eq!(metric(&link_a(&["10 03 80 80 12 ", M]), RSVP_TE), Some(10));
    // An ASLA in a list is unknown.
    assert_eq!(metric(&link_a(&["10 05 01 00 40 10 00 ", M]), SR_POLICY), None);
}

#[test]
fn places_in_b() {
    let refused = |b: &str| refusal(&link("", b, ""));
    assert_eq!(refused("EE 08 00 00 00 00 00 00 00 00"), (3, Run::B, 0));
    // Nine bytes: no room for the length byte, unless a mask is too long.
    assert_eq!(refused("16 00 EE 09 00 00 00 00 00 00 00 00 00"), (3, Run::B, 2));
    assert_eq!(srlgs(&link("", "EE 09 00 00 00 00 00 00 00 00 09", ""), SR_POLICY), [0u32; 0]);
    assert_eq!(refused("EE 09 00 00 00 00 00 00 00 01 00"), (3, Run::B, 0));
    // The list past the end, an identifier past the list, an identifier of a wrong length.
    assert_eq!(refused("EE 0A 00 00 00 00 00 00 00 00 00 01"), (3, Run::B, 0));
    assert_eq!(refused("EE 0B 00 00 00 00 00 00 00 00 00 01 04"), (3, Run::B, 12));
    assert_eq!(refused("EE 0E 00 00 00 00 00 00 00 00 00 02 04 01 00 00"), (3, Run::B, 12));
    assert_eq!(refused("EE 0D 00 00 00 00 00 00 00 00 00 03 04 01 00"), (4, Run::B, 12));
    // Identifiers are checked before L for nobody ignores the TLV.
    assert_eq!(refused("EE 0D 00 00 00 00 00 00 00 80 00 03 04 01 00"), (4, Run::B, 12));
    // A rest that is no multiple of 4.
    assert_eq!(refused(&srlg_tlv("00 00", "00 00 00 07 00")), (4, Run::B, 0));
    assert_eq!(srlgs(&link("", &srlg_tlv("81 00 40", "00"), "00 00 00 05"), SR_POLICY), [5]);
}

#[test]
fn identifiers() {
    let with = |list: &str| {
        let length = bytes(list).len();
        let value = format!("00 00 00 00 00 00 00 00 00 {length:02X} {list} 00 00 00 07");
        link("", &format!("EE {:02X} {value}", bytes(&value).len()), "")
    };
    let six = "06 04 01 02 03 04 ";
    let eight = "08 04 01 02 03 04 ";
    let twelve = "0C 10 01 02 03 04 05 06 07 08 01 02 03 04 05 06 07 08 ";
    let thirteen = "0D 10 01 02 03 04 05 06 07 08 01 02 03 04 05 06 07 08 ";
    let four = "04 08 01 02 03 04 05 06 07 08 ";
    for list in [four, &[six, eight].concat(), &[thirteen, twelve].concat(), &[six, four].concat()]
    {
        assert_eq!(srlgs(&with(list), SR_POLICY), [7], "{list}");
    }
    let repeated = [four, six, four].concat();
    let crossed = [six, thirteen].concat();
    for list in ["", six, eight, twelve, thirteen, "05 00 ", &repeated, &crossed] {
        assert_eq!(srlgs(&with(list), SR_POLICY), [0u32; 0], "{list}");
    }
    assert_eq!(srlgs(&with(&["05 00 05 00 ", four].concat()), SR_POLICY), [7]);
}

#[test]
fn readings() {
    let a = "03 04 80 00 00 01 09 04 7F 80 00 01 0A 04 4C 9E BC 20 22 08 80 00 00 01 00 00 00 02 \
             0E 08 00 00 00 01 00 00 00 02 12 03 FF FF FF 21 04 80 00 00 05";
    let link = link(a, "", "");
    let found = |code| ask(&link, RSVP_TE, code, 0).unwrap();
    assert_eq!(found(1088), Answer::Found(Reading::Number(0x8000_0001)));
    assert_eq!(found(1089), Answer::Found(Reading::Bandwidth(0x7F80_0001)));
    assert_eq!(found(1090), Answer::Found(Reading::Bandwidth(0x4C9E_BC20)));
    assert_eq!(found(1115), Answer::Found(Reading::TwoNumbers(0x8000_0001, 2)));
    assert_eq!(found(1173), Answer::Found(Reading::Place { offset: 30, length: 8 }));
    assert_eq!(found(1092), Answer::Found(Reading::Number(0xFF_FFFF)));
    assert_eq!(found(1114), Answer::Found(Reading::Number(0x8000_0005)));
    assert_eq!(value(&link, RSVP_TE, 1092), Some((40, 3)));
    assert_eq!(value(&link, RSVP_TE, 1115), Some((20, 8)));
    assert_eq!(value(&link, RSVP_TE, 1096), None);
    assert_eq!(value(&link, Asker::User(64), 1092), None);
}
