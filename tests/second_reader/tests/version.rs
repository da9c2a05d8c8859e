//! The written version: document 02's C-12 and its settled readings, line by
//! line, with the places.  (What is read, shown and counted: version_read.rs.)

mod common;
use common::*;
use second_reader::check::check;

/// The contents of an element that fills these octets.
fn contents_of(octets: &[u8]) -> Vec<u8> {
    let header = if octets[1] < 0x80 { 2 } else { 2 + usize::from(octets[1] - 0x80) };
    octets[header..].to_vec()
}

/// The place of the misfit in a response of these parts, counted from where the
/// contents of its signed part begin.
fn place_within(parts: &Parts) -> usize {
    let response = parts.octets();
    let signed = parts.signed();
    assert_eq!(check(&question(), &response), refused(3));
    let start = find(&response, &signed) + signed.len() - contents_of(&signed).len();
    place_of(&response).expect("a misfit") - start
}

/// The same, where the signed part begins with these octets.
fn place_with(octets: &str) -> usize {
    let mut changed = parts();
    changed.before = h(octets);
    place_within(&changed)
}

#[test]
fn any_other_version_is_placed_at_its_integer() {
    for number in 1..=255u8 {
        assert_eq!(place_with(&format!("a003 0201{number:02x}")), 2, "{number}");
    }
    // Two octets, of the number 0 too, and none at all.
    for other in ["a004 02020000", "a004 02020080", "a004 02020001", "a004 02020100", "a002 0200"] {
        assert_eq!(place_with(other), 2, "{other}");
    }
    // Also where more is left over behind it.
    assert_eq!(place_with("a005 020101 0500"), 2);
    assert_eq!(place_with("a004 020101 1f"), 2);
}

#[test]
fn another_element_in_the_a0_is_placed_at_its_tag() {
    for other in ["a003 0a0100", "a003 040100", "a003 220100", "a002 0500", "a005 a003020100"] {
        assert_eq!(place_with(other), 2, "{other}");
    }
    // The INTEGER's own header, as it is met.
    assert_eq!(place_with("a001 1f"), 2);
    assert_eq!(place_with("a001 00"), 2);
    assert_eq!(place_with("a001 02"), 3);
    assert_eq!(place_with("a002 0280"), 2);
    assert_eq!(place_with("a002 0281"), 4);
    assert_eq!(place_with("a002 0201"), 2);
    assert_eq!(place_with("a004 02810100"), 2);
}

#[test]
fn what_is_left_over_in_the_a0() {
    for more in ["0500", "00", "1f", "02", "020100", "a003020100"] {
        let contents = cat(&[&h("020100"), &h(more)]);
        let octets = second_reader::hex::write(&tlv(0xA0, &contents));
        assert_eq!(place_with(&octets), 5, "{more}");
    }
}

#[test]
fn an_empty_a0() {
    // A missing element is placed at the end of what holds it.
    assert_eq!(place_with("a000"), 2);
}

#[test]
fn the_a0_is_recognised_by_its_tag_octet_alone() {
    for header in ["a08103 020100", "a0820003 020100", "a080 020100 0000", "a089", "a082ffff"] {
        assert_eq!(place_with(header), 0, "{header}");
    }
    // A signed part that is no more than this, and ends within the header.
    let only = |octets: &str| {
        let signed = tlv(0x30, &h(octets));
        let rest = cat(&[&parts().signature_algorithm, &parts().bits]);
        let basic = tlv(0x30, &cat(&[&signed, &rest]));
        let response = envelope("2b0601050507300101", &basic);
        place_of(&response).expect("a misfit") + rest.len() + h(octets).len() - response.len()
    };
    assert_eq!(only("a0"), 1);
    assert_eq!(only("a081"), 2);
    assert_eq!(only("a001"), 0);
    assert_eq!(only("a08103020100"), 0);
    // The version, and no responder id.
    assert_eq!(only(VERSION), 5);
    assert_eq!(only(""), 0);
}

#[test]
fn a_version_under_another_tag() {
    // A1 and A2 are responder ids, whose Name and key are not an INTEGER.
    assert_eq!(place_with("a103 020100"), 2);
    assert_eq!(place_with("a203 020100"), 2);
    for other in ["a303 020100", "8003 020100", "8001 00", "020100", "3003 020100"] {
        assert_eq!(place_with(other), 0, "{other}");
    }
}

#[test]
fn a_version_twice_or_elsewhere() {
    assert_eq!(place_with("a003020100 a003020100"), 5);
    assert_eq!(place_with("a003020100 a003020101"), 5);
    assert_eq!(place_with("a003020100 a000"), 5);
    let responder = parts().responder.len();
    let produced_at = parts().produced_at.len();
    let list = tlv(0x30, &parts().entries.concat()).len();
    for (before, first) in [("", 0), (VERSION, 5)] {
        let place = |change: &dyn Fn(&mut Parts)| {
            let mut changed = parts();
            changed.before = h(before);
            change(&mut changed);
            place_within(&changed) - first
        };
        let version = h(VERSION);
        assert_eq!(place(&|parts| parts.responder.extend(&version)), responder);
        assert_eq!(place(&|parts| parts.produced_at.extend(&version)), responder + produced_at);
        let at_end = place(&|parts| parts.extensions = version.clone());
        assert_eq!(at_end, responder + produced_at + list);
    }
    // In the responder id's place, what follows the version is no responder id.
    let mut changed = parts();
    changed.responder = h(VERSION);
    assert_eq!(place_within(&changed), 5);
}
