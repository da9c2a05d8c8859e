//! The lines of settled.md about places, one by one, with places told by hand and
//! the kind of each misfit.  (Limits: misfits_limits.rs.)

mod common;
use common::small::*;
use common::*;

/// The kind and the place where the parameters of a CertID's algorithm, from 58
/// on, are these octets; nothing follows them in it.
fn in_parameters(octets: &str) -> (usize, &'static str) {
    let algorithm = tlv(0x30, &cat(&[&h("06012a"), &h(octets)]));
    wrong_with_entry(|entry| entry.algorithm = algorithm)
}

/// "no octet at all, the end of what holds it".
#[test]
fn no_octet_at_all() {
    assert_eq!(wrong_in(""), (0, "missing"));
    assert_eq!(wrong_in("3000"), (2, "missing"));
    assert_eq!(wrong_in("3005 0a0100 a000"), (7, "missing"));
    // An algorithm identifier without its OID ends at 55.
    assert_eq!(wrong_with_entry(|entry| entry.algorithm = h("3000")), (55, "missing"));
    // An empty string ends with the response.
    assert_eq!(wrong(&envelope("2b0601050507300101", &[])), (22, "missing"));
}

/// "a tag number 31 or universal 0, the tag's place, also where nothing follows
/// it".
#[test]
fn a_tag_that_is_refused() {
    for tag in ["1f", "3f", "5f", "7f", "9f", "bf", "df", "ff", "00", "20"] {
        for after in ["", "00", "80", "81", "05"] {
            assert_eq!(wrong_in(&format!("{tag}{after}")), (0, "header form"), "{tag} {after}");
            let inside = format!("{tag}{after}");
            assert_eq!(in_parameters(&inside), (58, "header form"), "{tag} {after}");
        }
    }
}

/// "no length octet, the end".
#[test]
fn no_length_octet() {
    assert_eq!(wrong_in("30"), (1, "cut off"));
    assert_eq!(wrong_in("3001 0a"), (3, "cut off"));
    assert_eq!(in_parameters("04"), (59, "cut off"));
    assert_eq!(in_parameters("3001 04"), (61, "cut off"));
}

/// "80 hex or more than 8 length octets, the tag's place".
#[test]
fn no_such_length() {
    for first in ["80", "89", "8a", "c0", "ff"] {
        assert_eq!(wrong_in(&format!("30{first}")), (0, "header form"), "{first}");
        assert_eq!(in_parameters(&format!("04{first}")), (58, "header form"), "{first}");
        assert_eq!(in_parameters(&format!("3002 04{first}")), (60, "header form"), "{first}");
    }
    assert_eq!(in_parameters("0489 000000000000000000"), (58, "header form"));
}

/// "length octets cut off, the end".
#[test]
fn length_octets_cut_off() {
    assert_eq!(wrong_in("3081"), (2, "cut off"));
    assert_eq!(wrong_in("308200"), (3, "cut off"));
    assert_eq!(in_parameters("0481"), (60, "cut off"));
    assert_eq!(in_parameters("0488 00000000000000"), (67, "cut off"));
    assert_eq!(in_parameters("3003 048201"), (63, "cut off"));
}

/// "another form than the shortest, or overrunning the holder, the tag's place."
#[test]
fn not_the_shortest_or_overrunning() {
    assert_eq!(wrong_in("308103 0a0106"), (0, "header form"));
    assert_eq!(wrong_in("30820003 0a0106"), (0, "header form"));
    assert_eq!(in_parameters("0481 00"), (58, "header form"));
    assert_eq!(in_parameters("0481 7f"), (58, "header form"));
    assert_eq!(in_parameters("0482 00ff"), (58, "header form"));
    assert_eq!(in_parameters("0488 0000000000000000"), (58, "header form"));
    assert_eq!(in_parameters("0401"), (58, "overrun"));
    assert_eq!(in_parameters("0481 80"), (58, "overrun"));
    assert_eq!(in_parameters("0488 ffffffffffffffff"), (58, "overrun"));
    assert_eq!(in_parameters("3002 0401"), (60, "overrun"));
    // One that both is not the shortest and overruns is of another form.
    assert_eq!(in_parameters("0482 0080"), (58, "header form"));
}

/// "Only then is the tag compared with the one that the layout wants (the tag's
/// place)."
#[test]
fn only_then_the_tag() {
    assert_eq!(wrong_in("0403 0a0106"), (0, "wrong tag"));
    assert_eq!(wrong_in("04"), (1, "cut off"));
    assert_eq!(wrong_in("0481"), (2, "cut off"));
    assert_eq!(wrong_in("0480"), (0, "header form"));
    assert_eq!(wrong_in("0404 0a0106"), (0, "overrun"));
    // The serial under another tag, whole and not.
    assert_eq!(wrong_with_entry(|entry| entry.serial = h("030105")), (64, "wrong tag"));
    assert_eq!(wrong_with_entry(|entry| entry.serial = h("220105")), (64, "wrong tag"));
    assert_eq!(wrong_with_entry(|entry| entry.serial = h("03")), (65, "cut off"));
    assert_eq!(wrong_with_entry(|entry| entry.serial = h("030205")), (64, "overrun"));
    // Responder id and status may have one of a few tags.
    assert_eq!(wrong_with(|parts| parts.responder = h("a302 3000")), (26, "wrong tag"));
    assert_eq!(wrong_with_entry(|entry| entry.status = h("8100")), (67, "wrong tag"));
    assert_eq!(wrong_with_entry(|entry| entry.status = h("81")), (67, "overrun"));
}

/// "An optional element is recognised by its tag octet alone; whatever else stands
/// there is the next element, or left over."
#[test]
fn optional_elements() {
    // nextUpdate and extensions of an entry stand at 86, at its end.
    let behind = |octets: &str| wrong_with_entry(|entry| entry.next_update = h(octets));
    assert_eq!(behind("a0"), (87, "cut off"));
    assert_eq!(behind("a1"), (87, "cut off"));
    assert_eq!(behind("a080"), (86, "header form"));
    assert_eq!(behind("a182"), (88, "cut off"));
    assert_eq!(behind("a001"), (86, "overrun"));
    assert_eq!(behind("a000"), (88, "missing"));
    assert_eq!(behind("a002 0500"), (88, "wrong tag"));
    for other in ["a2", "a200", "80", "8000", "30", "04", "1f", "00", "0482"] {
        assert_eq!(behind(other), (86, "left over"), "{other}");
    }
    // Extensions before nextUpdate: the A0 is left over.  (A1 of 11 octets.)
    let other_way = "a109 3007 3005 06012a 0400 a000";
    assert_eq!(behind(other_way), (97, "left over"));
    // The version stands at 26; whatever else is there is the responder id.
    let first = |octets: &str| wrong_with(|parts| parts.before = h(octets));
    assert_eq!(first("a080"), (26, "header form"));
    assert_eq!(first("a000"), (28, "missing"));
    assert_eq!(first("8000"), (26, "wrong tag"));
    assert_eq!(first("0a0100"), (26, "wrong tag"));
    assert_eq!(first("a203 020100"), (28, "wrong tag"));
    // The certificates at 95, an extension's mark at 95 too.
    assert_eq!(wrong_with(|parts| parts.certificates = h("a0")), (96, "cut off"));
    assert_eq!(wrong_with(|parts| parts.certificates = h("a1")), (95, "left over"));
    let marked = |octets: &str| {
        let item = tlv(0x30, &cat(&[&h("06012a"), &h(octets)]));
        wrong_with(|parts| parts.extensions = extensions(&[item]))
    };
    assert_eq!(marked("01"), (96, "cut off"));
    assert_eq!(marked("0101ff"), (98, "missing"));
    assert_eq!(marked("0200 0400"), (95, "wrong tag"));
    assert_eq!(marked("0400 0101ff"), (97, "left over"));
    assert_eq!(marked("0101ff 0101ff 0400"), (98, "wrong tag"));
}

/// "A repeated OID is placed at the tag of the second OID, also where something to
/// its right is broken too."
#[test]
fn a_repeated_oid() {
    // A1 at 86, the list at 88, an extension from 90 to 97, the second OID at 99.
    for right in ["0400", "", "1f", "04", "0480", "0405", "010100 0400", "0500", "0400 ff"] {
        let second = tlv(0x30, &cat(&[&h("06012a"), &h(right)]));
        for behind in ["", "3005 06012a 0400", "1f", "30"] {
            let items = [h("3005 06012a 0400"), second.clone(), h(behind)];
            let found = wrong_with(|parts| parts.extensions = extensions(&items));
            assert_eq!(found, (99, "repeat"), "{right}, {behind}");
        }
    }
    // What is wrong to the left of it comes first: the first value, the second 30.
    let list = |items: &str| wrong_with(|parts| parts.extensions = extensions(&[h(items)]));
    assert_eq!(list("3005 06012a 0500 3005 06012a 0400"), (95, "wrong tag"));
    assert_eq!(list("3005 06012a 0400 3105 06012a 0400"), (97, "wrong tag"));
    // A second OID that is none is not a second one.
    assert_eq!(list("3005 06012a 0400 3004 0600 0400"), (99, "wrong content"));
}
