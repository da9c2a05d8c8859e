//! Document 02's C-16, sentence by sentence, with places told by hand and the
//! kind of each misfit.  (Its settled readings: misfits_settled.rs.  The lines of
//! settled.md: misfits_headers.rs.)

mod common;
use common::small::*;
use common::*;
use second_reader::check::{judge, Answer};
use second_reader::desk;
use second_reader::layout;
use second_reader::misfit::Misfit;
use second_reader::shown::{
    algorithm, certificates, responder_id, signature, signed_part, Step, Walk,
};
use second_reader::slip;

#[test]
fn the_small_response_is_as_it_is_drawn() {
    assert_eq!(small().octets(), h(SMALL));
    assert_eq!(h(SMALL).len(), 95);
    assert!(fits(&h(SMALL)));
}

/// "A refused element header shall say the place of its tag octet, counted from
/// the start of the response".
#[test]
fn a_refused_header() {
    // The envelope's own.
    assert_eq!(wrong_in("3080 0a0106 0000"), (0, "header form"));
    assert_eq!(wrong_in("308103 0a0106"), (0, "header form"));
    // Its status.
    assert_eq!(wrong_in("3004 0a810106"), (2, "header form"));
    // producedAt, with its length in two octets.
    let long = h("18810f 32303035303530313031303030305a");
    assert_eq!(wrong_with(|parts| parts.produced_at = long), (30, "header form"));
    // Inside a Name, which begins at 28: universal number 0, number 31, 80 hex.
    assert_eq!(wrong_with(|parts| parts.responder = h("a104 3002 0000")), (30, "header form"));
    assert_eq!(wrong_with(|parts| parts.responder = h("a104 3002 1f00")), (30, "header form"));
    assert_eq!(wrong_with(|parts| parts.responder = h("a104 3080 0000")), (28, "header form"));
    // The last element of all.
    assert_eq!(wrong_with(|parts| parts.bits = h("1f02 00aa")), (91, "header form"));
}

/// "and every reader above passes it on."
#[test]
fn every_reader_passes_it_on() {
    let mut parts = small();
    parts.bits = h("0302 01aa");
    let response = parts.octets();
    let found = layout::read(&response).unwrap_err();
    assert_eq!((found.number, found.place()), (3, Some(91)));
    for shown in [signed_part, responder_id, algorithm, signature, certificates] {
        assert_eq!(shown(&response), Err(found));
    }
    assert_eq!(Walk::new(&response).step(), Step::Refused(found));
    assert_eq!(judge(&question(), &response), Err(found));
    assert_eq!(desk::judged(&desk::put_together(&question(), &response)), Err(found));
}

/// "With refusal 3 the answer then carries the first place, from left to right,
/// whose element itself, not just one inside it, doesn't fit".
#[test]
fn the_first_place_from_left_to_right() {
    // The serial, and not the CertID, the entry, the list around it.
    assert_eq!(wrong_with_entry(|entry| entry.serial = h("0201ff")), (64, "wrong content"));
    // An element and one inside it: the element.
    let mut twice = small_entry();
    twice.serial = h("0201ff");
    let mut octets = twice.octets();
    octets[0] = 0x31;
    assert_eq!(wrong_with(|parts| parts.entries = vec![octets]), (49, "wrong tag"));
    // Two that are not one inside the other: the left one.
    twice.name_hash = h("0400");
    twice.key_hash = h("04020122");
    assert_eq!(wrong_with(|parts| parts.entries = vec![twice.octets()]), (58, "wrong content"));
    // producedAt before an entry, an entry before the signature.
    let both = |parts: &mut common::Parts| {
        parts.bits = h("0300");
        parts.entries = vec![h("3000")];
    };
    assert_eq!(wrong_with(both), (51, "missing"));
    assert_eq!(wrong_with(|parts| parts.bits = h("0300")), (91, "wrong content"));
}

/// "the envelope before the basic response."
#[test]
fn the_envelope_before_the_basic_response() {
    // The responder id is broken, at 26, and an octet follows the envelope.
    let mut response = h(SMALL);
    response[26] = 0xA3;
    assert_eq!(wrong(&response), (26, "wrong tag"));
    response.push(0x00);
    assert_eq!(wrong(&response), (95, "left over"));
    // Left over inside the envelope's 30, its A0 and the 30 in it.
    let string = h("0402 1f00");
    let kind = h("0609 2b0601050507300101");
    let bytes = |more: &str| cat(&[&kind, &string, &h(more)]);
    let inside_30 = cat(&[&h("0a0100"), &tlv(0xA0, &tlv(0x30, &bytes("")))]);
    assert_eq!(wrong(&tlv(0x30, &inside_30)), (22, "header form"));
    assert_eq!(wrong(&tlv(0x30, &cat(&[&inside_30, &h("0500")]))), (24, "left over"));
    let a0 = cat(&[&h("0a0100"), &tlv(0xA0, &cat(&[&tlv(0x30, &bytes("")), &h("0500")]))]);
    assert_eq!(wrong(&tlv(0x30, &a0)), (24, "left over"));
    let third = cat(&[&h("0a0100"), &tlv(0xA0, &tlv(0x30, &bytes("0500")))]);
    assert_eq!(wrong(&tlv(0x30, &third)), (24, "left over"));
}

/// "Overrunning what holds it counts against the element itself".
#[test]
fn overrunning() {
    assert_eq!(wrong_in("3004 0a0106"), (0, "overrun"));
    assert_eq!(wrong_in("3003 0a0206"), (2, "overrun"));
    // The serial goes one octet past the CertID, though not past the response.
    assert_eq!(wrong_with_entry(|entry| entry.serial = h("020205")), (64, "overrun"));
    // Far past everything.
    let far = |entry: &mut EntryParts| entry.serial = h("0288ffffffffffffffff");
    assert_eq!(wrong_with_entry(far), (64, "overrun"));
    // Each holder with one octet less than it needs: what it holds overruns it.
    let mut response = h(SMALL);
    response[52] = 0x0D;
    assert_eq!(wrong(&response), (64, "overrun"));
    // One octet more: it takes one of its neighbour's, and that does not fit.
    response[52] = 0x0F;
    assert_eq!(wrong(&response), (67, "left over"));
}

/// "a missing element or a cut-off header is placed at the end of what holds it".
#[test]
fn missing_and_cut_off() {
    assert_eq!(wrong_in("3000"), (2, "missing"));
    assert_eq!(wrong_in("3003 0a0100"), (5, "missing"));
    // A CertID without serial ends at 64, whatever follows it.
    assert_eq!(wrong_with_entry(|entry| entry.serial = vec![]), (64, "missing"));
    // One with the serial's tag alone ends at 65, one octet of a length more at 66.
    assert_eq!(wrong_with_entry(|entry| entry.serial = h("02")), (65, "cut off"));
    assert_eq!(wrong_with_entry(|entry| entry.serial = h("0281")), (66, "cut off"));
    assert_eq!(wrong_with_entry(|entry| entry.serial = h("028201")), (67, "cut off"));
    // An entry without thisUpdate ends at 69, a signed part without the list at 47.
    assert_eq!(wrong_with_entry(|entry| entry.this_update = vec![]), (69, "missing"));
    let signed = tlv(0x30, &cat(&[&small().responder, &small().produced_at]));
    let rest = cat(&[&small().signature_algorithm, &small().bits]);
    let response = envelope("2b0601050507300101", &tlv(0x30, &cat(&[&signed, &rest])));
    assert_eq!(wrong(&response), (47, "missing"));
    // The whole response ends within its first header.
    assert_eq!(wrong_in("30"), (1, "cut off"));
    assert_eq!(wrong_in("308201"), (3, "cut off"));
}

/// "left-over octets at the first of them."
#[test]
fn left_over() {
    // In the CertID, behind the serial: an element, half of one, or anything.
    for more in ["0500", "1f", "00", "30", "3080", "ffffff"] {
        let serial = cat(&[&h("020105"), &h(more)]);
        assert_eq!(wrong_with_entry(|entry| entry.serial = serial), (67, "left over"), "{more}");
    }
    // In the signed part, in the basic response, in the string, in the envelope.
    assert_eq!(wrong_with(|parts| parts.extensions = h("0500")), (86, "left over"));
    assert_eq!(wrong_with(|parts| parts.certificates = h("0500")), (95, "left over"));
    let string = cat(&[&small().basic(), &h("0500")]);
    assert_eq!(wrong(&envelope("2b0601050507300101", &string)), (95, "left over"));
    assert_eq!(wrong_in("3005 0a0106 0500"), (5, "left over"));
    assert_eq!(wrong_in("3003 0a0106 0500"), (5, "left over"));
}

/// "A repeated OID is placed at its second occurrence".
#[test]
fn a_repeated_oid() {
    // A1 at 86, the list at 88, extensions of seven octets at 90, 97, 104.
    let item = |oid: &str| h(&format!("3005 0601{oid} 0400"));
    let with_list = |items: &[Vec<u8>]| wrong_with(|parts| parts.extensions = extensions(items));
    assert_eq!(with_list(&[item("2a"), item("2a")]), (99, "repeat"));
    assert_eq!(with_list(&[item("2a"), item("2b"), item("2a")]), (106, "repeat"));
    assert_eq!(with_list(&[item("2a"), item("2b"), item("2b"), item("2a")]), (106, "repeat"));
    // In an entry: A1 at 86 too, since the entry ends there.
    let list = extensions(&[item("2a"), item("2a")]);
    assert_eq!(wrong_with_entry(|entry| entry.extensions = list), (99, "repeat"));
}

/// "A slip gives the answer back without its place."
#[test]
fn a_slip_has_no_place() {
    for (octets, place) in [("", 0), ("3000", 2), ("3003 0a0100", 5)] {
        let refusal = judge(&question(), &h(octets)).unwrap_err();
        assert_eq!(refusal.misfit.map(|misfit: Misfit| misfit.place), Some(place));
        let answer = Answer::from(refusal);
        assert_eq!(slip::octets(&answer), Some(h("040300")));
        assert_eq!(slip::read_slip(&h("040300")), Ok(answer));
    }
}
