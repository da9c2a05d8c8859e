//! Every refusal number, 1 to 18, and the order in which they are given.

mod common;
use common::*;
use second_reader::check::{check, Answer};
use second_reader::question::{Card, Question};
use second_reader::request::write_request;
use second_reader::slip::{read_slip, write_slip};

fn number(question: &Question, response: &[u8]) -> u8 {
    match check(question, response) {
        Answer::Refused { number, .. } => number,
        _ => 0,
    }
}

/// The number for the plain question about a response.
fn of(response: &[u8]) -> u8 {
    number(&question(), response)
}

/// The number for a changed question about the plain response.
fn asked(change: impl FnOnce(&mut Question)) -> u8 {
    number(&ask(change), &parts().octets())
}

#[test]
fn accepted_answers_say_all() {
    assert_eq!(check(&question(), &parts().octets()), good());
    let unknown = with_entry(|entry| entry.status = h("82 00"));
    let answer = Answer::Unknown { card: card(), this_update: M1, next_update: NEXT };
    assert_eq!(check(&question(), &unknown), answer);
    let reasons = [("", None), ("a0 03 0a 01 00", Some(0)), ("a0 03 0a 01 0a", Some(10))];
    for (octets, reason) in reasons {
        let status = tlv(0xA1, &cat(&[&time("20051107235244Z"), &h(octets)]));
        let response = with_entry(|entry| entry.status = status.clone());
        let answer = Answer::Revoked {
            card: card(),
            this_update: M1,
            next_update: NEXT,
            time: 1_131_407_564,
            reason,
        };
        assert_eq!(check(&question(), &response), answer);
    }
}

#[test]
fn refusal_1() {
    assert_eq!(asked(|q| q.now = 253_402_300_799), 16);
    assert_eq!(asked(|q| q.now = 253_402_300_800), 1);
    assert_eq!(asked(|q| q.now = u64::MAX), 1);
    assert_eq!(asked(|q| q.tolerance = 3_600), 0);
    assert_eq!(asked(|q| q.tolerance = 3_601), 1);
    assert_eq!(asked(|q| q.verdict = 2), 6);
    assert_eq!(asked(|q| q.verdict = 3), 1);
    assert_eq!(asked(|q| q.role = 0), 1);
    assert_eq!(asked(|q| q.role = 3), 0);
    assert_eq!(asked(|q| q.role = 4), 1);
    assert_eq!(asked(|q| q.marks = 7), 0);
    assert_eq!(asked(|q| q.marks = 8), 1);
    assert_eq!(asked(|q| q.signer_name = vec![1; 256]), 0);
    assert_eq!(asked(|q| q.signer_name = vec![1; 257]), 1);
    let serial = |content: &str| asked(|q| q.card = Card::new([0x11; 20], [0x22; 20], &h(content)));
    for bad in ["", "80", "ff", "0000", "007f", "8001", "0005", &"01".repeat(21)] {
        assert_eq!(serial(bad), 1, "{bad}");
    }
    for fits in ["00", "7f", "0080", "00ff", "0100", &"01".repeat(20), &"7f".repeat(20)] {
        assert_eq!(serial(fits), 10, "{fits}");
    }
}

#[test]
fn refusal_2() {
    let sized = |octets: usize| {
        let bare = with(|parts| parts.bits = tlv(0x03, &vec![0; 15_000])).len();
        let response = with(|parts| parts.bits = tlv(0x03, &vec![0; 15_000 + octets - bare]));
        assert_eq!(response.len(), octets);
        response
    };
    assert_eq!(of(&sized(16_384)), 0);
    assert_eq!(of(&sized(16_385)), 2);
    assert_eq!(of(&[0x30; 16_384]), 3);
    assert_eq!(of(&[0x30; 16_385]), 2);
}

#[test]
fn refusals_3_4_5() {
    assert_eq!(of(&[]), 3);
    for status in [1, 2, 3, 5, 6] {
        let answer = check(&question(), &[0x30, 3, 0x0A, 1, status]);
        assert_eq!(answer, Answer::Refused { number: 4, status });
    }
    for status in (0..=255u8).filter(|status| ![1, 2, 3, 5, 6].contains(status)) {
        assert_eq!(of(&[0x30, 3, 0x0A, 1, status]), 3);
    }
    assert_eq!(of(&envelope("2b0601050507300102", &parts().basic())), 5);
    // "With 5 the inner octets are not looked at."
    assert_eq!(of(&envelope("2b0601050507300102", &h("ff ff"))), 5);
    assert_eq!(of(&envelope("2b06010505073001", &[])), 5);
    assert_eq!(of(&envelope("2b060105050730010101", &[])), 5);
    assert_eq!(of(&envelope("2b0601050507300101", &[])), 3);
}

#[test]
fn refusals_6_7_8() {
    assert_eq!(asked(|q| q.verdict = 0), 6);
    assert_eq!(asked(|q| q.verdict = 2), 6);
    assert_eq!(asked(|q| q.signer_key_hash[19] ^= 1), 7);
    for marks in 0..7 {
        assert_eq!(asked(|q| (q.role, q.marks) = (2, marks)), 8);
        assert_eq!(asked(|q| (q.role, q.marks) = (1, marks)), 0);
        assert_eq!(asked(|q| (q.role, q.marks) = (3, marks)), 0);
    }
    assert_eq!(asked(|q| (q.role, q.marks) = (2, 7)), 0);
}

#[test]
fn refusal_7_by_name() {
    let name = tlv(0x30, &tlv(0x31, &tlv(0x30, &h("06 03 55 04 0a 13 01 41"))));
    let response = with(|parts| parts.responder = tlv(0xA1, &name));
    let signer = |octets: &[u8]| number(&ask(|q| q.signer_name = octets.to_vec()), &response);
    assert_eq!(signer(&name), 0);
    assert_eq!(signer(&name[..name.len() - 1]), 7);
    assert_eq!(signer(&cat(&[&name, &[0]])), 7);
    let mut other = name.clone();
    *other.last_mut().unwrap() = 0x42;
    assert_eq!(signer(&other), 7);
    assert_eq!(signer(&[]), 7);
}

#[test]
fn refusals_9_and_12() {
    let response = |item: Vec<u8>| of(&with(|parts| parts.extensions = extensions(&[item])));
    let entry = |item: Vec<u8>| of(&with_entry(|entry| entry.extensions = extensions(&[item])));
    assert_eq!(response(extension("2a03", "01 01 ff", &[])), 9);
    assert_eq!(response(extension("2a03", "", &[])), 0);
    assert_eq!(response(extension(NONCE, "01 01 ff", &[1])), 0);
    assert_eq!(response(extension(EXTENDED_REVOKE, "01 01 ff", &[5, 0])), 0);
    assert_eq!(entry(extension("2a03", "01 01 ff", &[])), 12);
    assert_eq!(entry(extension("2a03", "", &[])), 0);
    assert_eq!(entry(extension(ARCHIVE_CUTOFF, "01 01 ff", &[])), 0);
}

#[test]
fn refusals_10_and_11() {
    assert_eq!(of(&with(|parts| parts.entries = vec![])), 10);
    let changes: [fn(&mut EntryParts); 6] = [
        |entry| entry.name_hash = tlv(0x04, &[0x12; 20]),
        |entry| entry.key_hash = tlv(0x04, &[0x23; 20]),
        |entry| entry.serial = h("02 01 06"),
        |entry| entry.serial = h("02 02 05 00"),
        |entry| entry.name_hash = tlv(0x04, &[0x11; 21]),
        |entry| entry.algorithm = h("30 09 06 05 2b 0e 03 02 1b 05 00"),
    ];
    for change in changes {
        assert_eq!(of(&with_entry(change)), 10);
    }
    let twice = |second: EntryParts| {
        of(&with(|parts| parts.entries = vec![entry().octets(), second.octets()]))
    };
    assert_eq!(twice(entry()), 11);
    // SHA-1 with 05 00 and SHA-1 without are the same algorithm.
    let mut plain = entry();
    plain.algorithm = h("30 07 06 05 2b 0e 03 02 1a");
    assert_eq!(twice(plain.clone()), 11);
    assert_eq!(of(&with(|parts| parts.entries = vec![plain.octets()])), 0);
    // A second entry that is broken in another way is still a second entry.
    let mut stale = entry();
    stale.status = h("82 00");
    stale.next_update = vec![];
    assert_eq!(twice(stale), 11);
}

#[test]
fn refusals_13_to_16() {
    assert_eq!(of(&with_entry(|entry| entry.next_update = vec![])), 13);
    let window = |this: &str, next: &str, now: u64, tolerance: u64| {
        let response = with_entry(|entry| {
            entry.this_update = time(this);
            entry.next_update = tlv(0xA0, &time(next));
        });
        number(&ask(|q| (q.now, q.tolerance) = (now, tolerance)), &response)
    };
    assert_eq!(window("20050501010001Z", "20050501010000Z", M1, 3_600), 14);
    assert_eq!(window("20050501010000Z", "20050501010000Z", M1, 0), 0);
    assert_eq!(window("20050501010001Z", "20050501010001Z", M1, 3_600), 15);
    assert_eq!(window("20050501010000Z", "20050501010000Z", M1 + 1, 0), 16);
    assert_eq!(window("20050501010000Z", "20050501010000Z", M1 + 3_600, 3_600), 0);
    assert_eq!(window("20050501010000Z", "20050501010000Z", M1 + 3_601, 3_600), 16);
    let last = "99991231235959Z";
    assert_eq!(window(last, last, 253_402_300_799, 3_600), 0);
}

#[test]
fn the_first_that_applies() {
    // Everything wrong at once; then one fault after the other is taken away.
    let mut q = ask(|q| {
        q.now = u64::MAX;
        q.verdict = 2;
        (q.role, q.marks) = (2, 3);
        q.signer_key_hash = [0; 20];
    });
    let mut bad_entry = entry();
    bad_entry.extensions = extensions(&[extension("2a03", "01 01 ff", &[])]);
    bad_entry.next_update = vec![];
    let mut p = parts();
    p.extensions = extensions(&[extension("2a04", "01 01 ff", &[])]);
    p.entries = vec![bad_entry.octets(), bad_entry.octets()];
    let big = vec![0; 20_000];
    assert_eq!(number(&q, &big), 1);
    q.now = M1;
    assert_eq!(number(&q, &big), 2);
    // The envelope's 3, then 4 and 5, then the inner 3, then 6.
    assert_eq!(number(&q, &h("30 05 0a 01 06 05 00")), 3);
    assert_eq!(number(&q, &h("30 03 0a 01 06")), 4);
    assert_eq!(number(&q, &envelope("2a03", &[])), 5);
    assert_eq!(number(&q, &envelope("2b0601050507300101", &[])), 3);
    assert_eq!(number(&q, &p.octets()), 6);
    q.verdict = 1;
    assert_eq!(number(&q, &p.octets()), 7);
    q.signer_key_hash = [0x33; 20];
    assert_eq!(number(&q, &p.octets()), 8);
    q.marks = 7;
    assert_eq!(number(&q, &p.octets()), 9);
    p.extensions = vec![];
    assert_eq!(number(&q, &p.octets()), 11);
    p.entries.pop();
    assert_eq!(number(&q, &p.octets()), 12);
    bad_entry.extensions = vec![];
    p.entries = vec![bad_entry.octets()];
    assert_eq!(number(&q, &p.octets()), 13);
    bad_entry.next_update = tlv(0xA0, &time("20050501005900Z"));
    p.entries = vec![bad_entry.octets()];
    q.now = M1 - 3_600;
    assert_eq!(number(&q, &p.octets()), 14);
    bad_entry.next_update = tlv(0xA0, &time("20050501010000Z"));
    p.entries = vec![bad_entry.octets()];
    assert_eq!(number(&q, &p.octets()), 15);
    q.now = M1 + 1;
    assert_eq!(number(&q, &p.octets()), 16);
    q.now = M1;
    assert_eq!(number(&q, &p.octets()), 0);
}

#[test]
fn refusals_17_and_18() {
    assert_eq!(read_slip(&[4, 17, 0]), Err(17));
    let mut buffer = [0xEE; 87];
    assert_eq!(write_slip(&good(), &mut buffer[..77]), Err(18));
    assert_eq!(write_slip(&refused(18), &mut buffer[..0]), Err(17));
    assert_eq!(write_request(&card(), &mut buffer[..67]), Err(18));
    let no_card = Card::new([0; 20], [0; 20], &[0x80]);
    assert_eq!(write_request(&no_card, &mut buffer[..0]), Err(1));
    assert_eq!(buffer, [0xEE; 87]);
}
