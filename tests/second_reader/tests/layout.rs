//! The layout, its limits, and what settled.md says of octets and elements.

mod common;
use common::*;
use second_reader::element::{read_length, write_length};
use second_reader::layout;
use second_reader::oid;
use second_reader::reading::Responder;

#[test]
fn lengths() {
    for length in [0, 1, 127, 128, 255, 256, 65_535, 65_536, 1 << 24, 1 << 56, u64::MAX] {
        let written = write_length(length);
        assert_eq!(read_length(&written), Some(length));
        // 01's own way of counting the octets.
        let bits = 64 - length.leading_zeros() as usize;
        let n = if length < 128 { 0 } else { bits.div_ceil(8) };
        assert_eq!(written.len(), 1 + n);
    }
    for no_length in [
        "",
        "80",
        "8100",
        "817f",
        "820080",
        "8200ff",
        "83000100",
        "81",
        "8201",
        "ff",
        "89000000000000000080",
        "89010000000000000000",
        "88000000000000ffff",
    ] {
        assert_eq!(read_length(&h(no_length)), None, "{no_length}");
    }
}

/// A response whose signature algorithm has these parameters: a free element.
fn with_free(element: &str) -> Vec<u8> {
    with_free_octets(&h(element))
}

fn with_free_octets(element: &[u8]) -> Vec<u8> {
    let algorithm = tlv(0x30, &cat(&[&h("06 01 2a"), element]));
    with(|parts| parts.signature_algorithm = algorithm)
}

#[test]
fn tags_in_free_elements() {
    // "Universal number 0 is refused in both forms, 00 and 20, also inside
    // free elements."
    for bad in [
        "0000", "2000", "1f00", "3f00", "5f00", "df2000", "ff0100", "30020000", "30022000",
        "30021f00",
    ] {
        assert!(!fits(&with_free(bad)), "{bad}");
    }
    for fine in [
        "4000", "6000", "8000", "a000", "c000", "e000", "1e00", "3e00", "de00", "fe00", "1001ff",
        "2400", "0101 01", "0600", "0601 80",
    ] {
        assert!(fits(&with_free(fine)), "{fine}");
    }
}

#[test]
fn lengths_in_free_elements() {
    for bad in [
        "0480",
        "30800000",
        "048100",
        "04810100",
        "0482008000",
        "0489000000000000000000",
        "04ff",
        "0402 00",
        "0488ffffffffffffffff",
        "04840000000100",
    ] {
        assert!(!fits(&with_free(bad)), "{bad}");
    }
    assert!(fits(&with_free_octets(&tlv(0x04, &[0; 127]))));
    assert!(fits(&with_free_octets(&tlv(0x04, &[0; 128]))));
    assert!(fits(&with_free_octets(&tlv(0x04, &[0; 256]))));
}

#[test]
fn depth() {
    // "15 constructed around 1 primitive fits; 16 constructed fit only if the
    // innermost holds nothing."
    for (octets, fine) in [
        (nest_around_primitive(16), true),
        (nest(16), true),
        (nest_around_primitive(17), false),
        (nest(17), false),
        (nest(60), false),
        (nest(2_000), false),
    ] {
        assert_eq!(fits(&with_free_octets(&octets)), fine);
        assert_eq!(fits(&with(|parts| parts.responder = tlv(0xA1, &octets))), fine);
        let certificates = tlv(0xA0, &tlv(0x30, &octets));
        assert_eq!(fits(&with(|parts| parts.certificates = certificates.clone())), fine);
    }
}

#[test]
fn oids() {
    for fine in ["00", "7f", "2a03", "8101", "ff7f", "818000", &"01".repeat(300)] {
        assert!(oid::keeps_rule(&h(fine)), "{fine}");
        let algorithm = tlv(0x30, &tlv(0x06, &h(fine)));
        assert!(fits(&with(|parts| parts.signature_algorithm = algorithm)));
    }
    for bad in ["", "80", "8001", "81", "2a80", "2a8001", "0181"] {
        assert!(!oid::keeps_rule(&h(bad)), "{bad}");
        // "The OID rule covers the response type, so a broken type OID is 3
        // before 5."
        assert_eq!(layout_number(&envelope(bad, &[])), 3);
        assert!(!fits(&with(|parts| parts.extensions = extensions(&[extension(bad, "", &[])]))));
    }
    assert_eq!(oid::from_numbers(&[1, 3, 6, 1, 5, 5, 7, 48, 1, 1]), oid::BASIC);
    assert_eq!(oid::from_numbers(&[1, 3, 6, 1, 5, 5, 7, 48, 1, 2]), oid::NONCE);
    assert_eq!(oid::from_numbers(&[1, 3, 6, 1, 5, 5, 7, 48, 1, 6]), oid::ARCHIVE_CUTOFF);
    assert_eq!(oid::from_numbers(&[1, 3, 6, 1, 5, 5, 7, 48, 1, 9]), oid::EXTENDED_REVOKE);
    assert_eq!(oid::from_numbers(&[1, 3, 14, 3, 2, 26]), oid::SHA_1);
}

#[test]
fn filled_exactly() {
    // Two octets more in every holder there is.
    let junk = h("05 00");
    let more = |octets: &[u8]| {
        let mut contents = octets.to_vec();
        contents.extend(&junk);
        contents
    };
    let whole = parts().octets();
    assert!(!fits(&more(&whole)));
    assert!(fits(&tlv(0x30, &whole[3..])));
    assert!(!fits(&tlv(0x30, &more(&whole[3..]))));
    let kind = tlv(0x06, &oid::BASIC);
    let string = tlv(0x04, &parts().basic());
    let bytes = tlv(0x30, &cat(&[&kind, &string]));
    let status = h("0a 01 00");
    assert!(fits(&tlv(0x30, &cat(&[&status, &tlv(0xA0, &bytes)]))));
    assert!(!fits(&tlv(0x30, &cat(&[&status, &tlv(0xA0, &more(&bytes))]))));
    let bytes = tlv(0x30, &more(&cat(&[&kind, &string])));
    assert!(!fits(&tlv(0x30, &cat(&[&status, &tlv(0xA0, &bytes)]))));
    assert!(!fits(&envelope("2b0601050507300101", &more(&parts().basic()))));
    assert!(!fits(&with(|p| p.certificates = junk.clone())));
    assert!(!fits(&with(|p| p.extensions = junk.clone())));
    assert!(fits(&with(|p| p.before = tlv(0xA0, &h("02 01 00")))));
    assert!(!fits(&with(|p| p.before = tlv(0xA0, &more(&h("02 01 00"))))));
    assert!(!fits(&with(|p| p.responder = tlv(0xA2, &more(&tlv(0x04, &[0x33; 20]))))));
    assert!(!fits(&with(|p| p.responder = tlv(0xA1, &more(&h("30 00"))))));
    let item = extension("2a03", "", &[]);
    assert!(!fits(&with(|p| p.extensions = tlv(0xA1, &more(&tlv(0x30, &item))))));
    assert!(!fits(&with(|p| p.extensions = tlv(0xA1, &tlv(0x30, &more(&item))))));
    assert!(!fits(&with(|p| p.extensions = extensions(&[tlv(0x30, &more(&item[2..]))]))));
    assert!(!fits(&with(|p| p.certificates = tlv(0xA0, &more(&h("30 00"))))));
    assert!(!fits(&with(|p| p.certificates = tlv(0xA0, &tlv(0x30, &junk)))));
    assert!(!fits(&with(|p| p.signature_algorithm = h("30 07 06 01 2a 05 00 05 00"))));
    assert!(!fits(&with_entry(|entry| entry.extensions = junk.clone())));
    assert!(!fits(&with_entry(|entry| entry.serial = more(&entry.serial))));
    let next = tlv(0xA0, &more(&time("20050503010000Z")));
    assert!(!fits(&with_entry(|entry| entry.next_update = next)));
    let revoked = tlv(0xA1, &more(&time("20050503010000Z")));
    assert!(!fits(&with_entry(|entry| entry.status = revoked)));
    let reason = cat(&[&time("20050503010000Z"), &tlv(0xA0, &more(&h("0a 01 01")))]);
    assert!(!fits(&with_entry(|entry| entry.status = tlv(0xA1, &reason))));
}

#[test]
fn counts() {
    let entries = |n: usize| fits(&with(|parts| parts.entries = vec![entry().octets(); n]));
    assert!(entries(0) && entries(1) && entries(64) && !entries(65));
    let certificates =
        |n: usize| fits(&with(|p| p.certificates = tlv(0xA0, &tlv(0x30, &h("30 00").repeat(n)))));
    assert!(certificates(0) && certificates(8) && !certificates(9));
    let list = |n: usize| -> Vec<u8> {
        let items = (0..n).map(|i| extension(&format!("2a{i:02x}"), "", &[]));
        extensions(&items.collect::<Vec<_>>())
    };
    for (n, fine) in [(0, false), (1, true), (16, true), (17, false)] {
        assert_eq!(fits(&with(|parts| parts.extensions = list(n))), fine);
        assert_eq!(fits(&with_entry(|entry| entry.extensions = list(n))), fine);
    }
}

#[test]
fn ranges() {
    for (n, fine) in [(0, false), (1, true), (20, true), (64, true), (65, false)] {
        assert_eq!(fits(&with_entry(|e| e.name_hash = tlv(0x04, &vec![1; n]))), fine);
        assert_eq!(fits(&with_entry(|e| e.key_hash = tlv(0x04, &vec![1; n]))), fine);
    }
    for (n, fine) in [(0, false), (19, false), (20, true), (21, false)] {
        assert_eq!(fits(&with(|p| p.responder = tlv(0xA2, &tlv(0x04, &vec![1; n])))), fine);
    }
    for (bits, fine) in [("", false), ("00", false), ("0000", true), ("0101", false), ("80", false)]
    {
        assert_eq!(fits(&with(|parts| parts.bits = tlv(0x03, &h(bits)))), fine);
    }
    let serial = |content: &str| fits(&with_entry(|entry| entry.serial = tlv(0x02, &h(content))));
    for fine in ["00", "05", "7f", "0080", "00ff", "7fff", &"7f".repeat(20)] {
        assert!(serial(fine), "{fine}");
    }
    let long = "00ff".to_string() + &"00".repeat(19);
    for bad in ["", "80", "ff", "0000", "007f", "ff80", &"7f".repeat(21), &long] {
        assert!(!serial(bad), "{bad}");
    }
    for reason in 0..=255u8 {
        let code = tlv(0xA0, &[0x0A, 1, reason]);
        let status = tlv(0xA1, &cat(&[&time("20050501010000Z"), &code]));
        let fine = reason <= 10 && reason != 7;
        assert_eq!(fits(&with_entry(|entry| entry.status = status)), fine);
    }
}

#[test]
fn statuses_and_marks() {
    for bad in ["80 01 00", "82 01 00", "81 00", "a0 00", "a2 00", "a1 00", "05 00", "83 00"] {
        assert!(!fits(&with_entry(|entry| entry.status = h(bad))), "{bad}");
    }
    let mark = |octets: &str| {
        fits(&with(|parts| parts.extensions = extensions(&[extension("2a03", octets, &[])])))
    };
    assert!(mark("") && mark("01 01 ff"));
    for bad in
        ["01 01 00", "01 01 01", "01 01 fe", "01 00", "01 02 ff ff", "05 00", "01 01 ff 01 01 ff"]
    {
        assert!(!mark(bad), "{bad}");
    }
}

#[test]
fn layout_lines_of_settled() {
    // "The layout has no limit of size: 2 belongs to functions over octets."
    let long = with(|parts| parts.bits = tlv(0x03, &vec![0; 20_000]));
    assert!(layout::read_any_size(&long).is_ok());
    assert_eq!(layout_number(&long), 2);
    // "Octets after an error envelope give 3, not 4."
    assert_eq!(layout_number(&h("30 03 0a 01 06 00")), 3);
    assert_eq!(layout_number(&h("30 05 0a 01 06 05 00")), 3);
    assert_eq!(layout_number(&h("30 03 0a 01 06")), 4);
    // "No OID twice" is per list of extensions.
    let item = extension("2a03", "", &[]);
    let twice = extensions(&[item.clone(), extension("2a03", "01 01 ff", &[1])]);
    assert!(!fits(&with(|parts| parts.extensions = twice.clone())));
    assert!(!fits(&with_entry(|entry| entry.extensions = twice)));
    let mut one = entry();
    one.extensions = extensions(std::slice::from_ref(&item));
    assert!(fits(&with(|parts| {
        parts.entries = vec![one.octets(), one.octets()];
        parts.extensions = extensions(&[item]);
    })));
    // "A responder Name `30 00` fits."
    let empty_name = with(|parts| parts.responder = h("a1 02 30 00"));
    let responder = layout::read(&empty_name).unwrap().reading.responder;
    assert!(matches!(responder, Responder::ByName(_)));
    assert!(!fits(&with(|parts| parts.responder = h("a1 02 31 00"))));
    // "CertID parameters other than absent or 05 00 fit".
    for parameters in ["", "05 00", "05 01 00", "25 00", "30 00", "04 00"] {
        let algorithm = tlv(0x30, &cat(&[&h("06 05 2b 0e 03 02 1a"), &h(parameters)]));
        assert!(fits(&with_entry(|entry| entry.algorithm = algorithm)));
    }
    // "The reading keeps the signature's octets without the 00."
    let basic = layout::read(&parts().octets()).unwrap();
    assert_eq!(basic.reading.signature, h("aa bb"));
    // "A1 absent and a list present are different readings; so are certificates
    // absent and present with none."
    let with_list = with(|p| p.extensions = extensions(&[extension("2a03", "", &[])]));
    assert!(layout::read(&with_list).unwrap().reading != basic.reading);
    let none = with(|parts| parts.certificates = h("a0 02 30 00"));
    assert_eq!(layout::read(&none).unwrap().reading.certificates, Some(vec![]));
    assert_eq!(basic.reading.certificates, None);
}
