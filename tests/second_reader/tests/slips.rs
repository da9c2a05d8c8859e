//! Every kind of slip, its rules, and the buffers that are lent.

mod common;
use common::*;
use second_reader::check::Answer;
use second_reader::question::Card;
use second_reader::request::write_request;
use second_reader::slip::{read_slip, write_slip};

/// Card, thisUpdate, nextUpdate of `good()`.
fn body() -> Vec<u8> {
    let card = cat(&[&[0x11; 20], &[0x22; 20], &[1, 5], &[0; 19]]);
    cat(&[&card, &M1.to_be_bytes(), &NEXT.to_be_bytes()])
}

fn revoked(time: u64, reason: Option<u8>) -> Answer {
    Answer::Revoked { card: card(), this_update: M1, next_update: NEXT, time, reason }
}

/// Writes into a buffer with room to spare and reads back.
fn both_ways(answer: &Answer, slip: &[u8]) {
    let mut buffer = [0xEE; 100];
    assert_eq!(write_slip(answer, &mut buffer), Ok(slip.len()));
    assert_eq!(&buffer[..slip.len()], slip);
    assert!(buffer[slip.len()..].iter().all(|octet| *octet == 0xEE));
    assert_eq!(read_slip(slip).as_ref(), Ok(answer));
    // The exact size will do, one octet less will not, and nothing is changed.
    let mut exact = vec![0xEE; slip.len()];
    assert_eq!(write_slip(answer, &mut exact), Ok(slip.len()));
    let mut short = vec![0xEE; slip.len() - 1];
    assert_eq!(write_slip(answer, &mut short), Err(18));
    assert!(short.iter().all(|octet| *octet == 0xEE));
    // "A slip has its exact length."
    assert_eq!(read_slip(&slip[..slip.len() - 1]), Err(17));
    assert_eq!(read_slip(&cat(&[slip, &[0]])), Err(17));
}

#[test]
fn every_kind() {
    both_ways(&good(), &cat(&[&[1], &body()]));
    let unknown = Answer::Unknown { card: card(), this_update: M1, next_update: NEXT };
    both_ways(&unknown, &cat(&[&[3], &body()]));
    let time = 1_131_407_564u64;
    both_ways(&revoked(time, None), &cat(&[&[2], &body(), &time.to_be_bytes(), &[0xFF]]));
    for reason in (0..=10).filter(|reason| *reason != 7) {
        let slip = cat(&[&[2], &body(), &time.to_be_bytes(), &[reason]]);
        both_ways(&revoked(time, Some(reason)), &slip);
    }
    for number in (1..=16).filter(|number| *number != 4) {
        both_ways(&refused(number), &[4, number, 0]);
    }
    for status in [1, 2, 3, 5, 6] {
        both_ways(&Answer::Refused { number: 4, status }, &[4, 4, status]);
    }
}

#[test]
fn lengths_and_kinds() {
    assert_eq!(cat(&[&[1], &body()]).len(), 78);
    assert_eq!(read_slip(&[]), Err(17));
    for kind in [0, 4, 5, 0x51, 0xFF] {
        assert_eq!(read_slip(&cat(&[&[kind], &body()])), Err(17));
    }
    assert_eq!(read_slip(&cat(&[&[2], &body()])), Err(17));
    assert_eq!(read_slip(&cat(&[&[1], &body(), &[0; 9]])), Err(17));
}

/// A slip with one octet or number changed.
fn changed(kind: u8, at: usize, octets: &[u8]) -> Result<Answer, u8> {
    let mut slip = cat(&[&[kind], &body()]);
    if kind == 2 {
        slip.extend(M1.to_be_bytes());
        slip.push(0);
    }
    slip[at..at + octets.len()].copy_from_slice(octets);
    read_slip(&slip)
}

#[test]
fn rules_of_the_card_and_the_times() {
    for kind in [1, 2, 3] {
        assert!(changed(kind, 41, &[1]).is_ok());
        for length in [0, 21, 255] {
            assert_eq!(changed(kind, 41, &[length]), Err(17));
        }
        assert_eq!(changed(kind, 42, &[0x80]), Err(17));
        assert_eq!(changed(kind, 41, &[2, 0x00, 0x7F]), Err(17));
        assert!(changed(kind, 41, &[2, 0x00, 0x80]).is_ok());
        // "its fill is zeros"
        assert_eq!(changed(kind, 43, &[1]), Err(17));
        assert_eq!(changed(kind, 61, &[1]), Err(17));
        // "thisUpdate not after nextUpdate"
        assert!(changed(kind, 62, &NEXT.to_be_bytes()).is_ok());
        assert_eq!(changed(kind, 62, &(NEXT + 1).to_be_bytes()), Err(17));
        assert!(changed(kind, 70, &253_402_300_799u64.to_be_bytes()).is_ok());
        assert_eq!(changed(kind, 70, &253_402_300_800u64.to_be_bytes()), Err(17));
        assert_eq!(changed(kind, 70, &[0xFF; 8]), Err(17));
    }
}

#[test]
fn rules_of_revoked() {
    // "A revocationTime in a slip has the range of times and no order."
    for time in [0, NEXT + 1, 253_402_300_799] {
        assert!(changed(2, 78, &time.to_be_bytes()).is_ok());
        assert!(write_slip(&revoked(time, None), &mut [0; 87]).is_ok());
    }
    assert_eq!(changed(2, 78, &253_402_300_800u64.to_be_bytes()), Err(17));
    assert_eq!(write_slip(&revoked(253_402_300_800, None), &mut [0; 87]), Err(17));
    for reason in 0..=255u8 {
        let fits = reason <= 10 && reason != 7 || reason == 0xFF;
        assert_eq!(changed(2, 86, &[reason]).is_ok(), fits);
    }
    for reason in [7, 11, 0xFE] {
        assert_eq!(write_slip(&revoked(M1, Some(reason)), &mut [0; 87]), Err(17));
    }
}

#[test]
fn rules_of_refusals() {
    for number in 0..=255u8 {
        for status in 0..=255u8 {
            let fits = if number == 4 {
                [1, 2, 3, 5, 6].contains(&status)
            } else {
                (1..=16).contains(&number) && status == 0
            };
            assert_eq!(read_slip(&[4, number, status]).is_ok(), fits);
            let answer = Answer::Refused { number, status };
            assert_eq!(write_slip(&answer, &mut [0; 3]).is_ok(), fits);
        }
    }
}

#[test]
fn seventeen_before_eighteen() {
    let mut answer = good();
    if let Answer::Good { card, .. } = &mut answer {
        card.serial_length = 0;
    }
    assert_eq!(write_slip(&answer, &mut []), Err(17));
    assert_eq!(write_slip(&good(), &mut []), Err(18));
}

#[test]
fn request_lengths() {
    for length in 1..=20usize {
        let card = Card::new([1; 20], [2; 20], &vec![0x7F; length]);
        let mut buffer = [0xEE; 90];
        assert_eq!(write_request(&card, &mut buffer), Ok(67 + length));
        assert_eq!(buffer[..2], [0x30, (65 + length) as u8]);
        assert_eq!(buffer[66 + length], 0x7F);
        assert!(buffer[67 + length..].iter().all(|octet| *octet == 0xEE));
        let mut exact = vec![0xEE; 67 + length];
        assert_eq!(write_request(&card, &mut exact), Ok(67 + length));
        assert_eq!(exact, buffer[..67 + length]);
        let mut short = vec![0xEE; 66 + length];
        assert_eq!(write_request(&card, &mut short), Err(18));
        assert!(short.iter().all(|octet| *octet == 0xEE));
    }
}
