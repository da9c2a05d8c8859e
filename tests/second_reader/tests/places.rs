//! The place of a misfit, line by line of settled.md ("Places").  (The places of
//! a version: version.rs.)

mod common;
use common::*;

/// The place of a misfit in a response of one changed signature algorithm,
/// counted from that algorithm's first octet.  What follows stays whole.
fn in_algorithm(octets: &str) -> usize {
    in_part(&h(octets), |parts, octets| parts.signature_algorithm = octets)
}

/// The place counted from the start of a part, which must stand there once.
fn in_part(octets: &[u8], set: impl FnOnce(&mut Parts, Vec<u8>)) -> usize {
    let response = with(|parts| set(parts, octets.to_vec()));
    place_of(&response).expect("a misfit") - find(&response, octets)
}

#[test]
fn headers_as_they_are_met() {
    assert_eq!(place_of(&[]), Some(0));
    // A tag of number 31 or universal 0, also where nothing follows.
    for first in [0x1F, 0x3F, 0x00, 0x20, 0xFF] {
        assert_eq!(place_of(&[first]), Some(0));
        assert_eq!(place_of(&[first, 0]), Some(0));
    }
    // No length octet: the end, also where the tag is not the one wanted.
    assert_eq!(place_of(&h("30")), Some(1));
    assert_eq!(place_of(&h("04")), Some(1));
    // 80 hex, or more than 8 length octets: the tag's place.
    for octets in ["3080", "3089", "30ff", "0489"] {
        assert_eq!(place_of(&h(octets)), Some(0), "{octets}");
    }
    // Length octets cut off: the end.
    assert_eq!(place_of(&h("3081")), Some(2));
    assert_eq!(place_of(&h("308201")), Some(3));
    assert_eq!(place_of(&h("3088ffffff")), Some(5));
    assert_eq!(place_of(&h("048200")), Some(3));
    // Not the shortest, or past the holder's end: the tag's place.
    assert_eq!(place_of(&h("308103")), Some(0));
    assert_eq!(place_of(&h("30040a0106")), Some(0));
    assert_eq!(place_of(&h("3088ffffffffffffffff")), Some(0));
    // Only then the tag: its place.
    assert_eq!(place_of(&h("04030a0106")), Some(0));
}

#[test]
fn the_envelope() {
    assert_eq!(place_of(&h("3000")), Some(2));
    assert_eq!(place_of(&h("30010a")), Some(3));
    assert_eq!(place_of(&h("30020a00")), Some(2));
    assert_eq!(place_of(&h("3003020106")), Some(2));
    assert_eq!(place_of(&h("30030a0104")), Some(2));
    assert_eq!(place_of(&h("30040a020006")), Some(2));
    // Status 0 and nothing: the end of what should hold A0.
    assert_eq!(place_of(&h("30030a0100")), Some(5));
    assert_eq!(place_of(&h("30050a0100a100")), Some(5));
    assert_eq!(place_of(&h("30050a0100a000")), Some(7));
    // Left over, inside and after.
    assert_eq!(place_of(&h("30050a01060500")), Some(5));
    assert_eq!(place_of(&h("30040a01061f")), Some(5));
    assert_eq!(place_of(&h("30030a0106ff")), Some(5));
    // The inner fault is met before what follows the envelope.
    assert_eq!(place_of(&h("30030a0104ff")), Some(2));
    // A broken type OID: its tag.
    let response = envelope("2b80", &[]);
    assert_eq!(place_of(&response), Some(find(&response, &h("06022b80"))));
    // An empty string: the end of the string.
    let response = envelope("2b0601050507300101", &[]);
    assert_eq!(place_of(&response), Some(response.len()));
}

#[test]
fn the_envelope_is_judged_before_the_basic_response() {
    // The inner octets are broken at a smaller place than what follows.
    let mut response = envelope("2b0601050507300101", &h("ff"));
    let inner = response.len() - 1;
    assert_eq!(place_of(&response), Some(inner));
    response.push(0);
    assert_eq!(place_of(&response), Some(inner + 1));
}

#[test]
fn free_elements_and_left_over() {
    assert_eq!(in_algorithm("3000"), 2);
    assert_eq!(in_algorithm("3002 0600"), 2);
    assert_eq!(in_algorithm("3002 0500"), 2);
    assert_eq!(in_algorithm("3003 060180"), 2);
    // A broken free element: as its header says.
    assert_eq!(in_algorithm("3004 06012a 1f"), 5);
    assert_eq!(in_algorithm("3004 06012a 04"), 6);
    assert_eq!(in_algorithm("3005 06012a 0480"), 5);
    assert_eq!(in_algorithm("3005 06012a 0482"), 7);
    assert_eq!(in_algorithm("3005 06012a 0401"), 5);
    assert_eq!(in_algorithm("3007 06012a 3002 0401"), 7);
    assert_eq!(in_algorithm("3006 06012a 3001 04"), 8);
    // A second free element: its first octet, whatever it is.
    assert_eq!(in_algorithm("3006 06012a 0500 04"), 7);
    assert_eq!(in_algorithm("3006 06012a 0500 1f"), 7);
    assert_eq!(in_algorithm("3007 06012a 0500 0500"), 7);
}

#[test]
fn depth() {
    // The seventeenth is placed at its first octet, whatever that octet is.
    for deepest in [h("3000"), h("0500"), h("1f"), h("00"), h("04"), h("0482")] {
        let name = (0..16).fold(deepest, |inner, _| tlv(0x30, &inner));
        let part = tlv(0xA1, &name);
        assert_eq!(in_part(&part, |parts, octets| parts.responder = octets), 2 + 32);
    }
}

#[test]
fn numbers() {
    // The item beyond the limit: its first octet, whatever that octet is.
    for beyond in [entry().octets(), h("1f"), h("04"), h("30")] {
        let mut entries = vec![entry().octets(); 64];
        entries.push(beyond.clone());
        let response = with(|parts| parts.entries = entries);
        let tail = h("300d06092a864886f70d0101050500");
        assert_eq!(place_of(&response), Some(find(&response, &tail) - beyond.len()));
    }
    for beyond in [h("3000"), h("1f"), h("04")] {
        let list = cat(&[&h("3000").repeat(8), &beyond]);
        let part = tlv(0xA0, &tlv(0x30, &list));
        assert_eq!(in_part(&part, |parts, octets| parts.certificates = octets), 4 + 16);
        let mut items: Vec<Vec<u8>> =
            (0..16).map(|i| extension(&format!("2a{i:02x}"), "", &[])).collect();
        items.push(beyond);
        let part = extensions(&items);
        let header = part.len() - items.concat().len();
        let place = header + 16 * items[0].len();
        assert_eq!(in_part(&part, |parts, octets| parts.extensions = octets), place);
    }
    // Too few items: the end of what holds them.
    assert_eq!(in_part(&h("a1023000"), |parts, octets| parts.extensions = octets), 4);
    assert_eq!(in_part(&h("a104 3000 0500"), |parts, octets| parts.extensions = octets), 4);
    assert_eq!(in_part(&h("a100"), |parts, octets| parts.extensions = octets), 2);
}

#[test]
fn repeated_oids() {
    // At the tag of the second OID, also where something to its right is
    // broken too.
    for right in ["0400", "1f", "010100 0400", "04", ""] {
        let second = tlv(0x30, &cat(&[&h("06022a03"), &h(right)]));
        let items = [extension("2a03", "", &[]), extension("2a04", "", &[]), second];
        let part = extensions(&items);
        let place = part.len() - items[2].len() + 2;
        assert_eq!(in_part(&part, |parts, octets| parts.extensions = octets), place, "{right}");
    }
}

#[test]
fn optional_elements_by_their_tag_octet() {
    // A0 is recognised as nextUpdate, and its header is then judged.
    let end_of = |next: &str| {
        let response = with_entry(|entry| entry.next_update = h(next));
        let octets = entry_with_next(next);
        place_of(&response).unwrap() - find(&response, &octets) - (octets.len() - h(next).len())
    };
    assert_eq!(end_of("a0"), 1);
    assert_eq!(end_of("a080"), 0);
    assert_eq!(end_of("a082"), 2);
    assert_eq!(end_of("a000"), 2);
    assert_eq!(end_of("a0020500"), 2);
    // A1 is recognised as extensions, anything else is left over.
    assert_eq!(end_of("a1"), 1);
    assert_eq!(end_of("a2"), 0);
    assert_eq!(end_of("04"), 0);
    assert_eq!(end_of("1f"), 0);
    assert_eq!(end_of("0482"), 0);
    // The mark of an extension; without it the OCTET STRING is next.
    let mark = |octets: &str| {
        let item = tlv(0x30, &cat(&[&h("06022a03"), &h(octets)]));
        let part = extensions(&[item]);
        in_part(&part, |parts, octets| parts.extensions = octets) - 10
    };
    assert_eq!(mark("01"), 1);
    assert_eq!(mark("0100"), 0);
    assert_eq!(mark("010100"), 0);
    assert_eq!(mark("0101ff"), 3);
    assert_eq!(mark("0101ff 0101ff"), 3);
    assert_eq!(mark("0101ff 0400 00"), 5);
    assert_eq!(mark(""), 0);
    assert_eq!(mark("05"), 1);
    assert_eq!(mark("0500"), 0);
}

fn entry_with_next(next: &str) -> Vec<u8> {
    let mut changed = entry();
    changed.next_update = h(next);
    changed.octets()
}

#[test]
fn contents_are_placed_at_the_tag() {
    // A choice of this reader: contents that break a rule have their own
    // element's tag as the place.
    let entry_place = |change: fn(&mut EntryParts), part: &str| {
        let response = with_entry(change);
        place_of(&response).unwrap() == find(&response, &h(part))
    };
    assert!(entry_place(|e| e.serial = h("0202007f"), "0202007f"));
    assert!(entry_place(|e| e.serial = h("0200"), "0200 8000 180f"));
    assert!(entry_place(|e| e.name_hash = h("0400"), "0400 0414 2222"));
    assert!(entry_place(|e| e.status = h("800100"), "800100"));
    assert!(entry_place(|e| e.status = h("8300"), "8300 180f"));
    assert!(entry_place(|e| e.this_update = h("1800"), "1800 a011"));
    let bits = |octets: &str| in_part(&h(octets), |parts, octets| parts.bits = octets);
    assert_eq!(bits("0302 01aa"), 0);
    assert_eq!(bits("0301 00"), 0);
    let responder = |octets: &str| in_part(&h(octets), |parts, octets| parts.responder = octets);
    assert_eq!(responder("a202 0400"), 2);
    assert_eq!(responder("a303 020100"), 0);
    assert_eq!(responder("a102 3100"), 2);
    assert_eq!(responder("a100"), 2);
}
