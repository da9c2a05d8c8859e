//! The settled readings of C-16, one by one, with places told by hand and the
//! kind of each misfit; and the lines that tell of them.

mod common;
use common::small::*;
use common::*;
use second_reader::cases::answers::{kind_line, line, place_line};
use second_reader::cases::counts::Counts;
use second_reader::cases::record::{Record, DESK, PLACE, SIGNED_PART};
use second_reader::check::{judge, Answer};
use second_reader::desk;
use second_reader::layout;
use second_reader::shown::{signed_part, Step, Walk};
use second_reader::slip;

/// A record that asks for the place, under the question of the tests.
fn record(response: &[u8]) -> Record {
    Record::new(PLACE, desk::put_together(&question(), response))
}

fn said(response: &[u8]) -> String {
    line(&record(response)).expect("a line")
}

/// "no place with 4 or 5".
#[test]
fn no_place_with_4_or_5() {
    for status in ["01", "02", "03", "05", "06"] {
        let response = h(&format!("3003 0a01{status}"));
        let refusal = judge(&question(), &response).unwrap_err();
        assert_eq!((refusal.number, refusal.misfit), (4, None));
        assert_eq!(said(&response), "-");
    }
    // Another type: what its string holds is not looked at.
    for inner in ["", "1f", "3080", "3000"] {
        let response = envelope("2a03", &h(inner));
        let refusal = judge(&question(), &response).unwrap_err();
        assert_eq!((refusal.number, refusal.misfit), (5, None));
        assert_eq!(said(&response), "-");
    }
}

/// "an empty response has place 0".
#[test]
fn an_empty_response() {
    assert_eq!(wrong(&[]), (0, "missing"));
    assert_eq!(said(&[]), "0");
}

/// "A0 or A1 with the right inside and more after it is refused at the first octet
/// left over".
#[test]
fn more_inside_an_a0_or_a1() {
    let time = "180f 32303035303530313031303030305a";
    for more in ["0500", "00", "1f", "30", "a000", "180f"] {
        let more = h(more);
        let holding = |tag: u8, inside: &str| tlv(tag, &cat(&[&h(inside), &more]));
        // The envelope's A0 at 5 holds a 30 from 7 to 20, with an empty string.
        let bytes = "300d 0609 2b0601050507300101 0400";
        let response = tlv(0x30, &cat(&[&h("0a0100"), &holding(0xA0, bytes)]));
        assert_eq!(wrong(&response), (22, "left over"));
        // The version's at 26, its INTEGER from 28 to 31.
        let before = holding(0xA0, "020100");
        assert_eq!(wrong_with(|parts| parts.before = before), (31, "left over"));
        // The responder id's A1 at 26, its Name from 28 to 30.
        let responder = holding(0xA1, "3000");
        assert_eq!(wrong_with(|parts| parts.responder = responder), (30, "left over"));
        // The A2 likewise, the key from 28 to 50.
        let responder = holding(0xA2, &format!("0414 {}", "33".repeat(20)));
        assert_eq!(wrong_with(|parts| parts.responder = responder), (50, "left over"));
        // nextUpdate's at 86, its time from 88 to 105.
        let next = holding(0xA0, time);
        assert_eq!(wrong_with_entry(|entry| entry.next_update = next), (105, "left over"));
        // Extensions' A1 at 86, its list from 88 to 97.
        let list = holding(0xA1, "3007 3005 06012a 0400");
        assert_eq!(wrong_with(|parts| parts.extensions = list.clone()), (97, "left over"));
        assert_eq!(wrong_with_entry(|entry| entry.extensions = list), (97, "left over"));
        // The certificates' A0 at 95, its list from 97 to 99.
        let list = holding(0xA0, "3000");
        assert_eq!(wrong_with(|parts| parts.certificates = list), (99, "left over"));
        // The reason's A0 at 86, in an A1 at 67 with its time from 69; the code from
        // 88 to 91.
        let reason = cat(&[&h(time), &holding(0xA0, "0a0101")]);
        let found = wrong_with_entry(|entry| entry.status = tlv(0xA1, &reason));
        assert_eq!(found, (91, "left over"));
    }
    // Revoked's own A1 at 67: its time from 69 to 86, and no A0 follows.
    let status = tlv(0xA1, &cat(&[&h(time), &h("0500")]));
    assert_eq!(wrong_with_entry(|entry| entry.status = status), (86, "left over"));
}

/// "an algorithm identifier with two parameters at the second one's tag".
#[test]
fn two_parameters() {
    // The signature's algorithm at 86: the OID from 88, parameters from 91 to 93.
    for second in ["0500", "3000", "1f", "04", "0482"] {
        let algorithm = tlv(0x30, &cat(&[&h("06012a 0500"), &h(second)]));
        let found = wrong_with(|parts| parts.signature_algorithm = algorithm.clone());
        assert_eq!(found, (93, "left over"), "{second}");
        // A CertID's at 53: parameters from 58 to 60.
        let found = wrong_with_entry(|entry| entry.algorithm = algorithm);
        assert_eq!(found, (60, "left over"), "{second}");
    }
}

/// "a primitive element with wrong content at its own tag."
#[test]
fn wrong_content_at_its_own_tag() {
    let at = |place: usize| (place, "wrong content");
    for status in ["0a00", "0a020006", "0a0104", "0a0107", "0a01ff"] {
        assert_eq!(wrong(&tlv(0x30, &h(status))), at(2), "{status}");
    }
    assert_eq!(wrong(&envelope("2b80", &[])), at(9));
    assert_eq!(wrong_with(|parts| parts.before = h("a003 020101")), at(28));
    assert_eq!(wrong_with(|parts| parts.responder = h("a203 040133")), at(28));
    assert_eq!(wrong_with(|parts| parts.produced_at = h("1800")), at(30));
    assert_eq!(wrong_with_entry(|entry| entry.algorithm = h("3003 060180")), at(55));
    assert_eq!(wrong_with_entry(|entry| entry.name_hash = h("0400")), at(58));
    assert_eq!(wrong_with_entry(|entry| entry.key_hash = h("0400")), at(61));
    assert_eq!(wrong_with_entry(|entry| entry.serial = h("0202007f")), at(64));
    assert_eq!(wrong_with_entry(|entry| entry.status = h("800100")), at(67));
    assert_eq!(wrong_with_entry(|entry| entry.status = h("820100")), at(67));
    assert_eq!(wrong_with_entry(|entry| entry.this_update = h("1801 5a")), at(69));
    assert_eq!(wrong_with_entry(|entry| entry.next_update = h("a002 1800")), at(88));
    let reason = |code: &str| h(&format!("a116 180f 32303035303530313031303030305a a003 {code}"));
    assert_eq!(wrong_with_entry(|entry| entry.status = reason("0a0107")), at(88));
    assert_eq!(wrong_with(|parts| parts.bits = h("0302 01aa")), at(91));
    assert_eq!(wrong_with(|parts| parts.bits = h("0301 00")), at(91));
    // A written FALSE: A1 at 86, extension at 90, its OID at 92, its mark at 95.
    let marked = h("a10c 300a 3008 06012a 010100 0400");
    assert_eq!(wrong_with(|parts| parts.extensions = marked), at(95));
}

/// "showing and the walk too."
#[test]
fn showing_and_the_walk() {
    let mut response = h(SMALL);
    response[93] = 0x01;
    let refusal = layout::read(&response).unwrap_err();
    assert_eq!(refusal.place(), Some(91));
    assert_eq!(signed_part(&response), Err(refusal));
    let mut walk = Walk::new(&response);
    assert_eq!((walk.step(), walk.step()), (Step::Refused(refusal), Step::Refused(refusal)));
}

/// "such an answer can be written, the octets are as before, and reading back gives
/// the answer without a place."
#[test]
fn a_slip_drops_the_place() {
    let refusal = judge(&question(), &h("3000")).unwrap_err();
    assert_eq!(refusal.place(), Some(2));
    let written = slip::octets(&Answer::from(refusal)).expect("it can be written");
    assert_eq!(written, h("040300"));
    assert_eq!(slip::read_slip(&written), Ok(refused(3)));
}

/// Operation 10, and what is counted of it.
#[test]
fn lines_and_counts() {
    let mut response = h(SMALL);
    response[93] = 0x01;
    assert_eq!(said(&response), "91");
    assert_eq!(kind_line(&record(&response)), "wrong content");
    let desk = Record::new(DESK, record(&response).body);
    assert_eq!((place_line(&desk), kind_line(&desk)), ("91".into(), "wrong content".into()));
    let shown = Record::new(SIGNED_PART, response.clone());
    assert_eq!((place_line(&shown), kind_line(&shown)), ("-".into(), "-".into()));
    let mut counts = Counts::default();
    for response in [response, h("3000"), h("3003 0a0106"), h(SMALL)] {
        counts.add(&record(&response));
        counts.add(&Record::new(DESK, record(&response).body));
    }
    let lines = ["10 place: refusal  3", "misfit: wrong content", "misfit: missing"];
    assert_eq!(lines.map(|line| counts.of(line)), [2, 1, 1]);
    let lines = ["misfit in the envelope", "misfit in the basic response"];
    assert_eq!(lines.map(|line| counts.of(line)), [1, 1]);
    assert_eq!(counts.text().matches("misfit").count(), 4);
    // Any octets at all may be asked about; short of a question is refusal 1.
    assert_eq!(line(&Record::new(PLACE, vec![])), Ok("-".into()));
    assert_eq!(line(&Record::new(PLACE, vec![0; 353])), Ok("-".into()));
    assert_eq!(line(&Record::new(PLACE, vec![0x51; 17_000])), Ok("-".into()));
}
