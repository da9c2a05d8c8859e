//! The other lines of settled.md: the question, the check, slips, the walk
//! and the program.  (Octets and layout: layout.rs.  Places: places.rs.)

mod common;
use common::*;
use second_reader::check::{check, Answer};
use second_reader::desk;
use second_reader::layout;
use second_reader::question::Card;
use second_reader::reading::Span;
use second_reader::shown::{
    algorithm, certificates, responder_id, signature, signed_part, Step, Walk,
};
use second_reader::slip::write_slip;

#[test]
fn marks_above_7_whatever_the_role() {
    let response = parts().octets();
    for role in [1, 2, 3] {
        assert_eq!(check(&ask(|q| (q.role, q.marks) = (role, 8)), &response), refused(1));
        let answer = check(&ask(|q| (q.role, q.marks) = (role, 3)), &response);
        assert_eq!(answer, if role == 2 { refused(8) } else { good() });
    }
}

#[test]
fn the_questions_name() {
    // "The question's Name need not be DER."
    let odd = ask(|question| question.signer_name = h("ff 80 1f"));
    assert_eq!(check(&odd, &parts().octets()), good());
    // "An empty Name equals no responder's Name."
    let by_empty_name = with(|parts| parts.responder = h("a1 02 30 00"));
    assert_eq!(check(&question(), &by_empty_name), refused(7));
    let named = ask(|question| question.signer_name = h("30 00"));
    assert_eq!(check(&named, &by_empty_name), good());
    // The longest Name that a question can carry, and one that none can.
    let long = |n: usize| tlv(0x30, &tlv(0x04, &vec![7; n]));
    assert_eq!(long(249).len(), 255);
    assert_eq!(long(250).len(), 256);
    let response = with(|parts| parts.responder = tlv(0xA1, &long(250)));
    assert_eq!(check(&ask(|q| q.signer_name = long(250)), &response), good());
    let response = with(|parts| parts.responder = tlv(0xA1, &long(251)));
    assert_eq!(check(&ask(|q| q.signer_name = long(250)), &response), refused(7));
}

#[test]
fn serials_in_a_fixed_field() {
    let response = parts().octets();
    let asked = |length: u8, field: [u8; 20]| {
        let card = Card { serial_length: length, serial_field: field, ..card() };
        check(&ask(|question| question.card = card), &response)
    };
    let mut field = [0; 20];
    field[0] = 5;
    assert_eq!(asked(1, field), good());
    for length in [0, 21, 22, 128, 255] {
        assert_eq!(asked(length, field), refused(1));
        assert_eq!(asked(length, [0; 20]), refused(1));
    }
    for at in 1..20 {
        let mut filled = field;
        filled[at] = 1;
        assert_eq!(asked(1, filled), refused(1));
    }
}

#[test]
fn what_is_understood_where() {
    let critical = |oid| extensions(&[extension(oid, "01 01 ff", &[])]);
    for (oid, in_response, in_entry) in [
        (NONCE, good(), refused(12)),
        (EXTENDED_REVOKE, good(), refused(12)),
        (ARCHIVE_CUTOFF, refused(9), good()),
    ] {
        let response = with(|parts| parts.extensions = critical(oid));
        assert_eq!(check(&question(), &response), in_response);
        let response = with_entry(|entry| entry.extensions = critical(oid));
        assert_eq!(check(&question(), &response), in_entry);
    }
    // "Extensions of other entries matter to no answer."
    let mut other = entry();
    other.serial = h("02 01 06");
    other.extensions = critical("2a03");
    let response = with(|parts| parts.entries = vec![other.octets(), entry().octets()]);
    assert_eq!(check(&question(), &response), good());
}

#[test]
fn other_parameters_match_no_card() {
    for (parameters, answer) in [
        ("", good()),
        ("05 00", good()),
        ("05 01 00", refused(10)),
        ("25 00", refused(10)),
        ("45 00", refused(10)),
        ("30 00", refused(10)),
    ] {
        let algorithm = tlv(0x30, &cat(&[&h("06 05 2b 0e 03 02 1a"), &h(parameters)]));
        let response = with_entry(|entry| entry.algorithm = algorithm);
        assert_eq!(check(&question(), &response), answer, "{parameters}");
    }
}

#[test]
fn envelopes_3_before_4_and_4_before_6() {
    let unsigned = ask(|question| question.verdict = 0);
    assert_eq!(check(&unsigned, &h("30 03 0a 01 06 00")), refused(3));
    let answer = Answer::Refused { number: 4, status: 6 };
    assert_eq!(check(&unsigned, &h("30 03 0a 01 06")), answer);
}

#[test]
fn seventeen_and_eighteen_are_no_slips() {
    for number in [17, 18] {
        assert_eq!(write_slip(&refused(number), &mut [0; 3]), Err(17));
    }
}

#[test]
fn parts_shown() {
    let response = parts().octets();
    let signed = parts().signed();
    let at = find(&response, &signed);
    assert_eq!(signed_part(&response), Ok(Span { from: at, len: signed.len() }));
    let responder = find(&response, &parts().responder);
    assert_eq!(responder_id(&response), Ok(Span { from: responder, len: 24 }));
    let bits = find(&response, &h("03 03 00 aa bb"));
    assert_eq!(signature(&response), Ok(Span { from: bits + 3, len: 2 }));
    assert_eq!(algorithm(&response), Ok(Span { from: bits - 15, len: 15 }));
    // No certificates: absent, and a list of none. Two of them, without what holds them.
    assert_eq!(certificates(&response), Ok(Span { from: 0, len: 0 }));
    let none = with(|parts| parts.certificates = h("a0 02 30 00"));
    assert_eq!(certificates(&none), Ok(Span { from: 0, len: 0 }));
    let two = with(|parts| parts.certificates = h("a0 08 30 06 30 02 05 00 30 00"));
    assert_eq!(certificates(&two), Ok(Span { from: two.len() - 6, len: 6 }));
    for (octets, number, status) in [
        (vec![0; 16_385], 2, 0),
        (vec![], 3, 0),
        (h("30 03 0a 01 05"), 4, 5),
        (envelope("2a03", &[]), 5, 0),
        (envelope("2b0601050507300101", &[]), 3, 0),
    ] {
        for show in [signed_part, responder_id, algorithm, signature, certificates] {
            let refusal = show(&octets).unwrap_err();
            assert_eq!((refusal.number, refusal.status), (number, status));
        }
    }
}

#[test]
fn the_walk() {
    let mut second = entry();
    second.serial = h("02 02 00 80");
    let entries = [entry().octets(), second.octets(), entry().octets()];
    let response = with(|parts| parts.entries = entries.to_vec());
    let mut walk = Walk::new(&response);
    for (index, octets) in entries.iter().enumerate() {
        assert_eq!(walk.place, index as u64);
        let Step::Entry(Span { from, len }) = walk.step() else {
            panic!("an entry was to come");
        };
        assert_eq!(&response[from..from + len], &octets[..]);
    }
    for _ in 0..3 {
        assert_eq!(walk.step(), Step::End);
        assert_eq!(walk.place, 3);
    }
    // "A walk's place may be any number."
    for place in [4, 65, 1 << 32, u64::MAX] {
        walk.place = place;
        assert_eq!(walk.step(), Step::End);
        assert_eq!(walk.place, place);
    }
    // Refusals come at every step and leave the place.
    for place in [0, 1, u64::MAX] {
        let mut walk = Walk { response: h("30 03 0a 01 02"), place };
        for _ in 0..2 {
            let Step::Refused(refusal) = walk.step() else {
                panic!("a refusal was to come");
            };
            assert_eq!((refusal.number, refusal.status), (4, 2));
            assert_eq!(walk.place, place);
        }
    }
    assert_eq!(Walk::new(&with(|parts| parts.entries = vec![])).step(), Step::End);
}

#[test]
fn the_program_on_short_and_long_input() {
    assert_eq!(desk::line(&[]), "040100\n");
    let input = desk::put_together(&question(), &parts().octets());
    for length in [1, 61, 352] {
        assert_eq!(desk::line(&input[..length]), "040100\n");
    }
    // "Input of exactly 353 octets is an empty response, which does not fit."
    assert_eq!(desk::line(&input[..353]), "040300\n");
    assert_eq!(desk::place(&input[..353]), Some(0));
    // "Input longer than any response gives what 1 or 2 says".
    let mut long = input.clone();
    long.resize(353 + 16_385, 0);
    assert_eq!(desk::line(&long), "040200\n");
    long.resize(200_000, 0);
    assert_eq!(desk::line(&long), "040200\n");
    long[41] = 0;
    assert_eq!(desk::line(&long), "040100\n");
    // A whole response and more after it is not answered from a part.
    let mut more = input.clone();
    more.push(0);
    assert_eq!(desk::line(&more), "040300\n");
}

#[test]
fn the_program_on_kinds_and_fill() {
    let input = desk::put_together(&question(), &parts().octets());
    let card = "11".repeat(20) + &"22".repeat(20) + "0105" + &"00".repeat(19);
    let line = format!("01{card}{M1:016x}{NEXT:016x}\n");
    assert_eq!(desk::line(&input), line);
    for kind in [0, 1, 0x50, 0x52, 0xFF] {
        let mut other = input.clone();
        other[0] = kind;
        assert_eq!(desk::line(&other), "040100\n");
    }
    // The serial's fill and the Name's fill.
    for at in [43, 61, 97, 98, 352] {
        let mut filled = input.clone();
        filled[at] = 1;
        assert_eq!(desk::line(&filled), "040100\n", "{at}");
    }
    let named = ask(|question| question.signer_name = vec![9; 256]);
    let mut input = desk::put_together(&named, &parts().octets());
    assert_eq!(desk::line(&input), line);
    assert_eq!(input[95..97], [1, 0]);
    input[96] = 1; // a Name of 257 octets
    assert_eq!(desk::line(&input), "040100\n");
}

#[test]
fn taking_apart_is_the_inverse_of_putting_together() {
    let asked = ask(|question| {
        question.tolerance = 3_600;
        (question.verdict, question.role, question.marks) = (2, 3, 5);
        question.signer_name = h("30 02 05 00");
    });
    let input = desk::put_together(&asked, &[1, 2, 3]);
    assert_eq!(desk::take_apart(&input), Some((asked, &[1, 2, 3][..])));
    assert!(layout::read(&[1, 2, 3]).is_err());
}
