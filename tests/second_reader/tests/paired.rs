//! The judge of pairs, on pairs and lines made by hand: C-23's sentence, what is
//! counted, what is told, and what is no pair.

mod common;
use common::pairs::*;
use common::*;
use second_reader::cases::paired::{judge, Judgement};
use second_reader::cases::record::{Record, DESK, SIGNED_PART};
use second_reader::check::check;
use second_reader::question::Question;

/// The response of the tests with another signature, another algorithm, and a
/// certificate that makes five headers around the signed part one octet longer.
fn other() -> Vec<u8> {
    with(|parts| {
        parts.signature_algorithm = h("30 03 06 01 2a");
        parts.bits = h("03 05 00 01 02 03 04");
        let certificate = tlv(0x30, &tlv(0x04, &[7; 200]));
        parts.certificates = tlv(0xA0, &tlv(0x30, &certificate));
    })
}

fn first() -> Vec<u8> {
    parts().octets()
}

/// Good from M1 to `NEXT`, as the desk writes it.
fn good_line() -> String {
    let card = "11".repeat(20) + &"22".repeat(20) + "01" + "05" + &"00".repeat(19);
    format!("01{card}{M1:016x}{NEXT:016x}")
}

fn by_hand(records: &[Record], lines: [&str; 4]) -> Judgement {
    judge(records, &lines).expect("a whole pair")
}

/// The lines for the pair of `first()` and `other()`, with this desk.
fn lines<'l>(one: &'l str, another: &'l str) -> [&'l str; 4] {
    [one, "0 29 146", another, "0 34 146"]
}

/// 02: "The check's answers are the same, the refusal number included."
#[test]
fn the_sentence_on_one_pair() {
    let (one, another) = (first(), other());
    assert_eq!(one[29..29 + 146], parts().signed());
    assert_eq!(another[34..34 + 146], parts().signed());
    let questions = [
        (question(), good()),
        (ask(|q| q.verdict = 2), refused(6)),
        (ask(|q| q.signer_key_hash = [0; 20]), refused(7)),
        (ask(|q| (q.role, q.marks) = (2, 3)), refused(8)),
        (ask(|q| q.card.serial_field[0] = 6), refused(10)),
        (ask(|q| q.now = M1 - 1), refused(15)),
        (ask(|q| q.now = NEXT + 1), refused(16)),
    ];
    for (question, answer) in questions {
        assert_eq!(check(&question, &one), answer);
        assert_eq!(check(&question, &another), answer);
        assert_eq!(judged(&pair(&question, &one, &another), own).verdict(), Ok(()));
    }
}

#[test]
fn a_pair_is_counted() {
    let good = good_line();
    let judgement = by_hand(&pair(&question(), &first(), &other()), lines(&good, &good));
    assert_eq!(judgement.verdict(), Ok(()));
    assert_eq!(
        counted_once(&judgement),
        [
            "same signed part, answer: good",
            "same signed part, at another place",
            "same signed part, changed: several at once",
            "same signed part, in a response of another length",
        ]
    );
}

/// The pair's number, what was changed, and both lines.
#[test]
fn what_differs_is_told() {
    let right = pair(&question(), &first(), &first());
    let records = [right, pair(&question(), &first(), &other())].concat();
    let good = good_line();
    let all = [[good.as_str(), "0 29 146", &good, "0 29 146"], lines(&good, "040700")].concat();
    let told = judge(&records, &all).unwrap().verdict().unwrap_err();
    let wanted = [
        "pair 1: the answers differ, changed: signature, algorithm, certificates added",
        &good,
        "040700",
        "pairs that are wrong: 1",
    ];
    assert_eq!(told, wanted.join("\n"));
    // Two refusals, or two slips, that differ in one octet.
    let refusals = lines("041000", "040f00");
    assert_eq!(by_hand(&records[4..], refusals).wrong.len(), 1);
    let later = good.replace(&format!("{NEXT:016x}"), &format!("{:016x}", NEXT + 1));
    assert_eq!(by_hand(&records[4..], lines(&good, &later)).wrong.len(), 1);
    // The same wrong answer to both is no matter of C-23.
    assert!(by_hand(&records[4..], lines("041000", "041000")).wrong.is_empty());
}

/// Lines that cannot both be right, or that are no lines.
#[test]
fn lines_that_are_wrong() {
    let records = pair(&question(), &first(), &other());
    let good = good_line();
    let told = |lines: [&str; 4], what: &str| {
        let wrong = by_hand(&records, lines).wrong;
        assert!(wrong.len() == 1 && wrong[0].contains(what), "{lines:?}: {wrong:?}");
    };
    told([&good, "0 29 146", &good, "3 0"], "contradict each other");
    told([&good, "3 0", &good, "0 34 146"], "contradict each other");
    told(["040300", "0 29 146", &good, "0 34 146"], "contradict each other");
    told(["040406", "4 5", &good, "0 34 146"], "contradict each other");
    told(["040300", "3 0", "040300", "3 0"], "02 says 3 0, and by the octets it is 0 29 146");
    told([&good, "0 32 143", &good, "0 37 143"], "02 says 0 32 143");
    told([&good, "0 29 146", &good, "0 34 147"], "02 says 0 34 147");
    told(lines(&good, "040100"), "the premise holds by the octets and not by the lines");
    for line in
        ["", "0407", "041100", "040701", "04070", "04 07 00", "04070G", &good.to_uppercase()]
    {
        told(lines(&good, line), "no slip");
    }
    for part in [
        "",
        "-",
        "0 34",
        "0 34 100000",
        "1 0",
        "6 0",
        "0 34 146 0",
        "0 -1 4",
        "0 18446744073709551615 1",
    ] {
        told([&good, "0 29 146", &good, part], "no part, no refusal");
    }
    let out_of_range: Question = ask(|question| question.verdict = 3);
    let records = pair(&out_of_range, &first(), &other());
    let wrong = by_hand(&records, lines(&good, &good)).wrong;
    assert!(wrong[0].contains("the premise holds by the lines and not by the octets"));
    assert!(by_hand(&records, lines("040100", "040100")).wrong.is_empty());
}

#[test]
fn what_is_no_pair() {
    let whole = pair(&question(), &first(), &other());
    let good = good_line();
    let all = lines(&good, &good);
    assert!(judge(&whole, &all).is_ok());
    assert!(judge(&[], &[]).is_err());
    assert!(judge(&whole, &all[..3]).is_err());
    assert!(judge(&whole[..3], &all[..3]).is_err());
    assert!(judge(&whole[..2], &all[..2]).is_err());
    let twice = [whole.clone(), whole.clone()].concat();
    assert!(judge(&twice[2..], &[all, all].concat()[2..]).is_err());
    let changes: [fn(&mut Vec<Record>); 6] = [
        |records| records.swap(0, 1),
        |records| records.swap(1, 3),
        |records| records[2].operation = SIGNED_PART,
        |records| records[3].operation = DESK,
        |records| records[3].body.push(0),
        |records| records[0].body.truncate(352),
    ];
    for (index, change) in changes.iter().enumerate() {
        let mut records = whole.clone();
        change(&mut records);
        assert!(judge(&records, &all).is_err(), "change {index}");
    }
}
