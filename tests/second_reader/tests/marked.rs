//! M1 to M12 of document 01, A.1 and A.2 of source document 000, and the desk's
//! case.

mod common;
use common::*;
use second_reader::check::{check, Answer};
use second_reader::desk;
use second_reader::element::{read_length, write_length};
use second_reader::layout;
use second_reader::question::Card;
use second_reader::reading::Reading;
use second_reader::request;
use second_reader::serial::Serial;
use second_reader::time;

#[test]
fn m1_to_m6_times() {
    assert_eq!(time::read(b"20050501010000Z"), Some(1_114_909_200)); // M1
    assert_eq!(time::read(b"20051107235244Z"), Some(1_131_407_564)); // M2
    assert_eq!(time::read(b"20000229000000Z"), Some(951_782_400)); // M3
    assert_eq!(time::read(b"21000229000000Z"), None); // M4
    assert_eq!(time::read(b"99991231235959Z"), Some(253_402_300_799)); // M5
    assert_eq!(time::read(b"20050501010060Z"), None); // M6
}

#[test]
fn m7_and_m8_lengths() {
    for (length, octets) in [(127, "7f"), (128, "8180"), (256, "820100")] {
        assert_eq!(write_length(length), h(octets));
        assert_eq!(read_length(&h(octets)), Some(length));
    }
    assert_eq!(read_length(&h("8105")), None);
}

#[test]
fn m9_serials() {
    assert_eq!(Serial::from_content(&h("0080")).unwrap().small(), Some(128));
    assert_eq!(Serial::from_content(&h("007f")), None);
}

#[test]
fn m10_status_4() {
    assert_eq!(check(&question(), &h("30 03 0a 01 04")), refused(3));
}

#[test]
fn m11_freshness() {
    let response = parts().octets();
    let answer = |now, tolerance| {
        check(
            &ask(|question| {
                question.now = now;
                question.tolerance = tolerance;
            }),
            &response,
        )
    };
    assert_eq!(answer(1_115_082_000, 0), good());
    assert_eq!(answer(1_115_082_001, 0), refused(16));
    assert_eq!(answer(1_115_082_001, 1), good());
}

/// Source document 000, A.1, octet by octet.
const A_1: &str = "
    30 51
      30 4f
        30 4d
          30 4b
            30 49
              30 09
                06 05 2b 0e 03 02 1a
                05 00
              04 14 c0 fe 02 78 fc 99 18 88 91 b3 f2 12 e9 c7 e1 b2 1a b7 bf c0
              04 14 0d fc 1d f0 a9 e0 f0 1c e7 f2 b2 13 17 7e 6f 8d 15 7c d4 f6
              02 10 09 34 23 72 e2 3a ef 46 7c 83 2d 07 f8 dc 22 ba";

fn a_1_card() -> Card {
    Card::new(
        h("c0fe0278fc99188891b3f212e9c7e1b21ab7bfc0").try_into().unwrap(),
        h("0dfc1df0a9e0f01ce7f2b213177e6f8d157cd4f6").try_into().unwrap(),
        &h("09342372e23aef467c832d07f8dc22ba"),
    )
}

#[test]
fn m12_request() {
    let mut buffer = [0xEE; 100];
    let written = request::write_request(&a_1_card(), &mut buffer);
    assert_eq!(written, Ok(83));
    assert_eq!(buffer[..10], h("30 51 30 4f 30 4d 30 4b 30 49"));
    assert_eq!(buffer[..83], h(A_1));
    assert_eq!(buffer[83..], [0xEE; 17]);
}

/// The responder's Name in A.2.
fn a_2_name() -> Vec<u8> {
    let name = |oid: &str, text: &str| {
        let pair = cat(&[&tlv(0x06, &h(oid)), &tlv(0x13, text.as_bytes())]);
        tlv(0x31, &tlv(0x30, &pair))
    };
    tlv(0x30, &cat(&[&name("55040a", "Example Trust Network"), &name("55040b", "Example, Inc.")]))
}

/// A.2's signed part and signature, without the certificate that the source
/// does not print whole; `version` is what A.2 writes before the responder.
fn a_2(version: &str) -> Vec<u8> {
    with(|parts| {
        let mut entry = entry();
        entry.name_hash = tlv(0x04, &a_1_card().name_hash);
        entry.key_hash = tlv(0x04, &a_1_card().key_hash);
        entry.serial = tlv(0x02, &h("09342372e23aef467c832d07f8dc22ba"));
        entry.this_update = time("20051107235244Z");
        entry.next_update = tlv(0xA0, &time("20051114235244Z"));
        parts.before = h(version);
        parts.responder = tlv(0xA1, &a_2_name());
        parts.produced_at = time("20051107235244Z");
        parts.entries = vec![entry.octets()];
        parts.bits = tlv(0x03, &cat(&[&[0], &h(A_2_SIGNATURE)]));
    })
}

const A_2_SIGNATURE: &str = "
    0e 9f f0 52 b1 a7 42 b8 6e c1 35 e1 0e d5 a9 e2 f5 c5 3c 16 b1 a3 a7 a2 03 8a 2b 4d 2c f1 b4 98
    8e 19 db ba 1e 1e 72 ff 32 f4 44 e0 b2 77 1c d7 3c 9e 78 f3 d1 82 68 86 63 12 7f a4 6f f0 4d 84
    ea f8 e2 f7 5d e3 48 44 57 28 80 c7 57 3c fe e1 42 0e 5e 17 fc 60 d8 05 d9 ef e2 53 e7 ab 7f 3a
    a8 84 aa 5e 46 5b e7 b8 1f c6 b1 35 ad ff d1 cc ba 58 7d e8 29 60 79 f7 41 02 ea e0 82 0e a6 30";

#[test]
fn a_2_is_read_with_its_version_and_without() {
    let question = ask(|question| {
        question.card = a_1_card();
        question.now = 1_131_407_564;
        question.signer_name = a_2_name();
    });
    let answer = Answer::Good {
        card: a_1_card(),
        this_update: 1_131_407_564,
        next_update: 1_131_407_564 + 7 * 86_400,
    };
    // 02, C-12: "Their responder writes A0 03 02 01 00, as source document 000's
    // own sample does", and "01's line on sample A.2 is amended."
    let (written, plain) = (a_2("a0 03 02 01 00"), a_2(""));
    assert_eq!(check(&question, &written), answer);
    assert_eq!(check(&question, &plain), answer);
    let reading = |response: &[u8]| layout::read(response).expect("it fits").reading;
    assert!(reading(&written).version_written);
    assert_ne!(reading(&written), reading(&plain));
    assert_eq!(Reading { version_written: false, ..reading(&written) }, reading(&plain));
    // Version 1 is refused at its INTEGER.
    let other = a_2("a0 03 02 01 01");
    assert_eq!(check(&question, &other), refused(3));
    assert_eq!(place_of(&other), Some(find(&other, &h("a0 03 02 01 01")) + 2));
}

#[test]
fn the_desks_case() {
    let input = desk::put_together(&question(), &h("30 03 0a 01 06"));
    assert_eq!(input.len(), 358);
    assert_eq!(desk::line(&input), "040406\n");
}

#[test]
fn the_desks_case_octet_by_octet() {
    let mut input = vec![0x51];
    input.extend([0x11; 20]);
    input.extend([0x22; 20]);
    input.extend([1, 5]);
    input.extend([0; 19]);
    input.extend(1_114_909_200u64.to_be_bytes());
    input.extend([0, 0]); // tolerance
    input.extend([1, 1, 0]); // verdict, role, marks
    input.extend([0x33; 20]);
    input.extend([0, 0]); // Name length
    input.extend([0; 256]);
    assert_eq!(input.len(), 353);
    input.extend([0x30, 0x03, 0x0A, 0x01, 0x06]);
    assert_eq!(desk::line(&input), "040406\n");
}
