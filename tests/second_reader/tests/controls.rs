//! Controls made by hand: each breaks C-23's premise in one way, gives another
//! answer, and is counted as what it is.

mod common;
use common::pairs::*;
use common::*;
use second_reader::cases::record::{half, Record};
use second_reader::check::{check, Answer};
use second_reader::question::Question;

/// Two questions about two responses, and their answers: how they are counted.
fn counted(halves: [(&Question, &[u8], Answer); 2], as_what: &[&str]) {
    let records: Vec<Record> = halves
        .iter()
        .flat_map(|(question, response, answer)| {
            assert_eq!(check(question, response), *answer);
            half(question, response.to_vec())
        })
        .collect();
    let judgement = judged(&records, own);
    assert_eq!(judgement.verdict(), Ok(()));
    assert_eq!(counted_once(&judgement), as_what);
}

/// Another response under the same question, which alone gives good.
fn beside_good(response: &[u8], answer: Answer, as_what: &[&str]) {
    let asked = question();
    counted([(&asked, &parts().octets(), good()), (&asked, response, answer)], as_what);
}

fn unknown() -> Answer {
    Answer::Unknown { card: card(), this_update: M1, next_update: NEXT }
}

#[test]
fn the_signature_is_the_same_and_not_the_signed_part() {
    let same_signature = "control, another signed part, all else the same: answers differ";
    beside_good(&with_entry(|entry| entry.status = h("82 00")), unknown(), &[same_signature]);
    let without_next = with_entry(|entry| entry.next_update = vec![]);
    beside_good(&without_next, refused(13), &[same_signature]);
}

#[test]
fn the_entries_alone_are_the_same() {
    let same_entries = "control, another signed part, the same entries: answers differ";
    let other_signer = |parts: &mut Parts| parts.responder = tlv(0xA2, &tlv(0x04, &[0x34; 20]));
    let response = with(|parts| {
        other_signer(parts);
        parts.bits = h("03 02 00 01");
    });
    beside_good(&response, refused(7), &[same_entries]);
    // With the same signature it is a control of both kinds.
    let same_signature = "control, another signed part, all else the same: answers differ";
    beside_good(&with(other_signer), refused(7), &[same_signature, same_entries]);
    let critical = extension(ARCHIVE_CUTOFF, "01 01 ff", &[]);
    let response = with(|parts| parts.extensions = extensions(&[critical]));
    beside_good(&response, refused(9), &[same_signature, same_entries]);
    // producedAt and the version change no verdict.
    let both = [
        "control, another signed part, all else the same: answers the same",
        "control, another signed part, the same entries: answers the same",
    ];
    beside_good(&beginning(VERSION), good(), &both);
    beside_good(&with(|parts| parts.produced_at = time("20050501010001Z")), good(), &both);
}

#[test]
fn nothing_of_the_signed_part_is_the_same() {
    let mut entry = entry();
    entry.status = h("82 00");
    let response = with(|parts| {
        parts.entries = vec![entry.octets()];
        parts.bits = h("03 02 00 01");
    });
    beside_good(&response, unknown(), &["control, another signed part, and more: answers differ"]);
}

#[test]
fn the_marks_differ() {
    let (all, some) = (ask(|q| (q.role, q.marks) = (2, 7)), ask(|q| (q.role, q.marks) = (2, 5)));
    let response = parts().octets();
    counted(
        [(&all, &response, good()), (&some, &response, refused(8))],
        &["control, other marks: answers differ"],
    );
    let (all, some) = (ask(|q| (q.role, q.marks) = (3, 7)), ask(|q| (q.role, q.marks) = (3, 5)));
    counted(
        [(&all, &response, good()), (&some, &response, good())],
        &["control, other marks: answers the same"],
    );
    let another = ask(|q| (q.role, q.marks) = (2, 5));
    counted(
        [(&question(), &response, good()), (&another, &response, refused(8))],
        &["control, another question: answers differ"],
    );
}

/// A response of this many octets, by its certificate.
fn long(octets: usize) -> Vec<u8> {
    let with_string = |n: usize| {
        with(|parts| {
            parts.certificates = tlv(0xA0, &tlv(0x30, &tlv(0x30, &tlv(0x04, &vec![0; n]))))
        })
    };
    let headers = with_string(16_000).len() - 16_000;
    with_string(octets - headers)
}

#[test]
fn the_response_is_too_long() {
    assert_eq!(long(16_384).len(), 16_384);
    let too_long = "control, too long, the same signed part: answers differ";
    beside_good(&long(16_385), refused(2), &[too_long]);
    let same = [
        "same signed part, answer: good",
        "same signed part, at another place",
        "same signed part, changed: certificates added",
        "same signed part, in a response of another length",
    ];
    beside_good(&long(16_384), good(), &same);
}

#[test]
fn it_is_not_read_as_basic() {
    let one = "control, one not read as basic: answers differ";
    let broken = [
        with(|parts| parts.bits = h("03 01 00")),
        with(|parts| parts.signature_algorithm = h("30 02 06 00")),
        with(|parts| parts.certificates = h("a0 04 30 02 04 00")),
    ];
    for response in &broken {
        beside_good(response, refused(3), &[one]);
    }
    let other_type = envelope("2b0601050507300102", &parts().basic());
    beside_good(&other_type, refused(5), &[one]);
    let failed = Answer::Refused { number: 4, status: 6 };
    beside_good(&h("30 03 0a 01 06"), failed, &[one]);
    // Both show nothing, and for another reason.
    let asked = question();
    counted(
        [(&asked, &broken[0], refused(3)), (&asked, &other_type, refused(5))],
        &["control, both not read as basic: answers differ"],
    );
}

#[test]
fn the_question_is_out_of_range() {
    let asked = ask(|question| question.role = 0);
    let (one, other) = (parts().octets(), beginning(VERSION));
    counted(
        [(&asked, &one, refused(1)), (&asked, &other, refused(1))],
        &["control, question out of range: answers the same"],
    );
}
