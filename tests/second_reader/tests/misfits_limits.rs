//! Items beyond a limit of number or depth, and too few of them: document 02's
//! C-16 and settled.md, with places told by hand and the kind of each misfit.

mod common;
use common::small::*;
use common::*;

/// What an item beyond a limit may be: "whatever that octet is".
const BEYOND: [&str; 10] = ["3000", "0500", "1f", "00", "20", "04", "30", "3080", "3005", "ff0203"];

/// "an item beyond a limit of number ... at the first one beyond."
#[test]
fn the_65th_entry() {
    // Entries of 37 octets.  With more than 255 octets inside, each header around
    // them has four: status at 4, A0 at 7, 30 at 11, type at 15, string at 26,
    // basic response at 30, signed part at 34, responder id at 38, producedAt at
    // 42, list at 59, first entry at 63; so the 65th is at 63 + 64 * 37.
    let entry = small_entry().octets();
    assert_eq!(entry.len(), 37);
    for beyond in BEYOND {
        let mut entries = vec![entry.clone(); 64];
        entries.push(h(beyond));
        assert_eq!(wrong_with(|parts| parts.entries = entries), (2431, "limit"), "{beyond}");
    }
    for count in [65, 66, 100] {
        let entries = vec![entry.clone(); count];
        assert_eq!(wrong_with(|parts| parts.entries = entries), (2431, "limit"), "{count}");
    }
    let mut parts = small();
    parts.entries = vec![entry.clone(); 64];
    assert!(fits(&parts.octets()));
    // The 64th is judged, and what is wrong in it comes first.
    let mut entries = vec![entry; 64];
    entries[63] = h("3000");
    entries.push(h("1f"));
    assert_eq!(wrong_with(|parts| parts.entries = entries), (2396, "missing"));
}

#[test]
fn the_9th_certificate() {
    // A0 at 95, the list at 97, certificates of two octets from 99 on.
    let list = |count: usize, more: &str| {
        let certificates = cat(&[&h("3000").repeat(count), &h(more)]);
        wrong_with(|parts| parts.certificates = tlv(0xA0, &tlv(0x30, &certificates)))
    };
    for beyond in BEYOND {
        assert_eq!(list(8, beyond), (115, "limit"), "{beyond}");
    }
    assert_eq!(list(9, "1f"), (115, "limit"));
    // The 8th is judged.
    assert_eq!(list(7, "1f"), (113, "header form"));
    assert_eq!(list(7, "0500 1f"), (113, "wrong tag"));
}

#[test]
fn the_17th_extension() {
    let item = |number: usize| h(&format!("3005 0601{number:02x} 0400"));
    let sixteen: Vec<Vec<u8>> = (1..=16).map(item).collect();
    // In the response, with 119 octets in the list: each header around the signed
    // part has three octets, so status at 3, A0 at 6, 30 at 9, type at 12, string
    // at 23, basic response at 26, signed part at 29, responder id at 32,
    // producedAt at 36, list of entries at 53, A1 at 92, the list at 94, the first
    // extension at 96 and the 17th at 96 + 16 * 7.
    for seventeenth in [item(17), item(1), h("05050000000000"), h("1f000000000000")] {
        let items = [sixteen.clone(), vec![seventeenth]].concat();
        assert_eq!(wrong_with(|parts| parts.extensions = extensions(&items)), (208, "limit"));
    }
    // In an entry, and in place of the 17th a single octet: 113 in the list.  The
    // entry has 154 octets and its list 157: each header down to the entry's has
    // three, A1 and its list two.  List of entries at 53, entry at 56, CertID at
    // 59, status at 75, thisUpdate at 77, A1 at 94, first extension at 98.
    for octet in ["30", "00", "1f", "04", "ff"] {
        let list = extensions(&[sixteen.concat(), h(octet)]);
        let found = wrong_with_entry(|entry| entry.extensions = list);
        assert_eq!(found, (210, "limit"), "{octet}");
    }
    let mut parts = small();
    parts.extensions = extensions(&sixteen);
    assert!(fits(&parts.octets()));
}

/// "or depth at the first one beyond."
#[test]
fn the_17th_one_inside_the_other() {
    // The Name begins at 28; fifteen more inside it, so the 17th is at 28 + 32.
    for beyond in BEYOND {
        let name = (0..16).fold(h(beyond), |inner, _| tlv(0x30, &inner));
        assert_eq!(wrong_with(|parts| parts.responder = tlv(0xA1, &name)), (60, "limit"));
    }
    // Parameters of the signature's algorithm begin at 91.
    let deep = (0..16).fold(h("0500"), |inner, _| tlv(0x30, &inner));
    let parameters = tlv(0x30, &cat(&[&h("06012a"), &deep]));
    let found = wrong_with(|parts| parts.signature_algorithm = parameters);
    assert_eq!(found, (123, "limit"));
    // Sixteen fit, where the innermost holds nothing; and a header at depth 16 is
    // judged as any other.
    let mut parts = small();
    parts.responder = tlv(0xA1, &nest(16));
    assert!(fits(&parts.octets()));
    for (octets, place, kind) in [("1f", 58, "header form"), ("04", 59, "cut off")] {
        let name = (0..15).fold(h(octets), |inner, _| tlv(0x30, &inner));
        let found = wrong_with(|parts| parts.responder = tlv(0xA1, &name));
        assert_eq!(found, (place, kind), "{octets}");
    }
}

/// "Too few items: the end of what holds them."
#[test]
fn too_few_items() {
    // A1 at 86, its list at 88 and empty, so that it ends at 90.
    assert_eq!(wrong_with(|parts| parts.extensions = h("a102 3000")), (90, "missing"));
    assert_eq!(wrong_with(|parts| parts.extensions = h("a104 3000 0500")), (90, "missing"));
    assert_eq!(wrong_with_entry(|entry| entry.extensions = h("a102 3000")), (90, "missing"));
    // An A1 without its list ends at 88.
    assert_eq!(wrong_with(|parts| parts.extensions = h("a100")), (88, "missing"));
    // No entry and no certificate are not too few.
    let mut parts = small();
    (parts.entries, parts.certificates) = (vec![], h("a002 3000"));
    assert!(fits(&parts.octets()));
}
