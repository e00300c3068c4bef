//! Lengths, numbers and rooms at their limits, and the order of refusals.

use super::*;
use crate::reference::bgp_ls;
use crate::reference::export::{export, length};
use crate::reference::link::named;

#[test]
fn lengths_of_runs() {
    let mut long = Link { a: vec![200, 0].repeat(1024), ..Link::default() };
    assert_eq!(long.a.len(), 2048);
    assert_eq!(metric(&long, SR_POLICY), None);
    long.a.push(200);
    assert_eq!(refusal(&long), (1, Run::A, 0));
    let long = Link { b: vec![200; 2049], ..Link::default() };
    assert_eq!(refusal(&long), (1, Run::A, 0));
    let mut long = Link { c: vec![1; 1024], ..Link::default() };
    assert_eq!(srlgs(&long, RSVP_TE), [0x0101_0101]);
    long.c.push(0);
    // 1 before 2.
    assert_eq!(refusal(&long), (1, Run::A, 0));
    let uneven = Link { c: vec![1; 1023], ..Link::default() };
    assert_eq!(refusal(&uneven), (2, Run::A, 0));
    assert_eq!(told(named(&uneven).unwrap_err()), (2, Run::A, 0));
    assert_eq!(told(export(&uneven, 0).unwrap_err()), (2, Run::A, 0));
    assert_eq!(told(length(&uneven).unwrap_err()), (2, Run::A, 0));
}

#[test]
fn lengths_of_bgp_ls_runs() {
    let whole = vec![0; 524_288];
    assert_eq!(bgp_ls::ask(&whole, SR_POLICY, 1092, 0), Ok(Answer::Absent));
    let long = vec![0; 524_289];
    assert_eq!(told(bgp_ls::ask(&long, SR_POLICY, 1092, 0).unwrap_err()), (1, Run::A, 0));
}

#[test]
fn numbers_of_applications() {
    let link = link_a(&[G]);
    assert_eq!(metric(&link, Asker::Standard(63)), Some(30));
    assert_eq!(metric(&link, Asker::User(31)), Some(30));
    let refused = |asker| assert_eq!(told(ask(&link, asker, 1092, 0).unwrap_err()), (6, Run::A, 0));
    for number in [64, 256, 1 << 32, u64::MAX] {
        refused(Asker::Standard(number));
        refused(Asker::User(number));
    }
    (32..64).for_each(|number| refused(Asker::User(number)));
}

#[test]
fn the_order_of_refusals() {
    let bad = Link { a: vec![16; 2049], b: vec![238], c: vec![0; 1025] };
    let number = |asker, code, link: &Link| told(ask(link, asker, code, 0).unwrap_err()).0;
    assert_eq!(number(Asker::User(32), 1087, &bad), 6);
    assert_eq!(number(Asker::User(31), 1087, &bad), 7);
    assert_eq!(number(Asker::General, 1122, &bad), 7);
    assert_eq!(number(Asker::Standard(63), 1088, &bad), 1);
    let bad = Link { a: bytes("12 02 00 00"), b: vec![238], c: vec![0; 1023] };
    assert_eq!(number(Asker::User(31), 1096, &bad), 2);
    let bad = Link { a: bytes("12 02 00 00"), b: vec![238], c: vec![0; 1020] };
    assert_eq!(told(ask(&bad, Asker::General, 1096, 0).unwrap_err()), (4, Run::A, 0));
    let bad = Link { a: vec![], b: vec![238], c: vec![0; 1020] };
    assert_eq!(told(ask(&bad, RSVP_TE, 1096, 0).unwrap_err()), (3, Run::B, 0));
    let good = Link { a: vec![], b: vec![], c: vec![0; 1020] };
    assert_eq!(told(ask(&good, RSVP_TE, 1096, 0).unwrap_err()), (5, Run::A, 0));
    assert_eq!(ask(&good, RSVP_TE, 1096, 1), Ok(Answer::Found(Reading::Srlgs(vec![0]))));
    // An absent kind fits room 0.
    assert_eq!(ask(&good, SR_POLICY, 1096, 0), Ok(Answer::Absent));
}
