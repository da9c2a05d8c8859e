//! Wrong readers over the stream of pairs.  Each is right but for one thing that
//! C-23 forbids, and each is told.

mod common;
use common::pairs::*;
use second_reader::cases::paired::{expected, Judgement};
use second_reader::cases::record::{DESK, SIGNED_PART};
use second_reader::desk::response_in;
use second_reader::layout::read;
use second_reader::reading::{Basic, Span};

/// Whether a line is none of the refusals 1 to 5.
fn passes(line: &str) -> bool {
    !["0401", "0402", "0403", "0404", "0405"].iter().any(|refusal| line.starts_with(refusal))
}

/// A desk that writes another line for some of what passes.
fn desk(other: impl Fn(&Basic, &str) -> Option<&'static str>) -> Judgement {
    judged(short_stream(), |record| {
        let right = own(record);
        match read(response_in(&record.body)) {
            Ok(basic) if record.operation == DESK && passes(&right) => {
                other(&basic, &right).map_or(right, str::to_string)
            }
            _ => right,
        }
    })
}

/// A reader that shows another part.
fn shows(other: impl Fn(&Basic) -> Span) -> Judgement {
    judged(short_stream(), |record| match read(&record.body) {
        Ok(basic) if record.operation == SIGNED_PART => {
            let Span { from, len } = other(&basic);
            format!("0 {from} {len}")
        }
        _ => own(record),
    })
}

/// That many pairs differ, and that each of them has this changed.
fn differ(judgement: Judgement, changed: &str) {
    assert!(judgement.wrong.len() >= 20, "{} for {changed}", judgement.wrong.len());
    for told in &judgement.wrong {
        let (what, lines) = told.split_once('\n').expect("both lines");
        assert!(what.contains(": the answers differ, changed: "), "{told}");
        assert!(what.contains(changed), "{told}");
        let (first, second) = lines.split_once('\n').expect("both lines");
        assert_ne!(first, second);
    }
    assert!(judgement.verdict().is_err());
}

fn is_accepted(line: &str) -> bool {
    !line.starts_with("04")
}

#[test]
fn answers_by_the_certificates() {
    // A delegate's marks are looked for in the certificates.
    let count = |basic: &Basic| basic.reading.certificates.as_ref().map_or(0, Vec::len);
    differ(
        desk(|basic, line| (count(basic) == 0 && is_accepted(line)).then_some("040800")),
        "certificates",
    );
    // A list without a certificate is no list.
    let is_empty = |basic: &Basic| basic.reading.certificates == Some(vec![]);
    differ(desk(|basic, _| is_empty(basic).then_some("040700")), "certificates");
    differ(desk(|basic, _| (basic.certificates.len > 2_000).then_some("040900")), "certificates");
}

#[test]
fn answers_by_the_signature() {
    let last = |basic: &Basic| basic.reading.signature.last().copied().unwrap_or(0);
    differ(desk(|basic, _| (last(basic) % 2 == 1).then_some("040600")), "signature");
    let is_long = |basic: &Basic| basic.signature.len > 256;
    differ(desk(|basic, _| is_long(basic).then_some("040600")), "signature");
}

#[test]
fn answers_by_the_algorithm() {
    let bare = |basic: &Basic| basic.reading.signature_algorithm.parameters.is_none();
    differ(desk(|basic, _| bare(basic).then_some("040600")), "algorithm");
    let unknown = |basic: &Basic| !basic.reading.signature_algorithm.oid.starts_with(&[0x2A]);
    differ(
        desk(|basic, line| (unknown(basic) && is_accepted(line)).then_some("040600")),
        "algorithm",
    );
}

/// One refusal in place of another, where there are certificates.
#[test]
fn another_refusal_number() {
    let has_some = |basic: &Basic| basic.certificates.len > 0;
    let numbers = [("041000", "040f00"), ("040600", "040700"), ("040a00", "040b00")];
    for (right, wrong) in numbers {
        let reader =
            |basic: &Basic, line: &str| (has_some(basic) && line == right).then_some(wrong);
        differ(desk(reader), "certificates");
    }
    // With 1 to 5 the premise would not hold: that is told too.
    for number in ["040100", "040200", "040300", "040406", "040500"] {
        let wrong = desk(|basic, _| has_some(basic).then_some(number)).wrong;
        assert!(wrong.len() >= 200, "{number}");
        let what = match number {
            "040100" => "the premise holds by the octets and not by the lines",
            _ => "contradict each other",
        };
        assert!(wrong.iter().all(|told| told.contains(what)), "{number}");
    }
}

/// Answers by the lengths around the signed part.
#[test]
fn answers_by_place_or_length() {
    let far = |basic: &Basic| basic.signed_part.from > 29;
    differ(desk(|basic, _| far(basic).then_some("040a00")), "");
    let end = |basic: &Basic| basic.signature.from + basic.signature.len;
    differ(desk(|basic, _| (end(basic) > 600).then_some("040a00")), "");
}

fn all_entries(basic: &Basic) -> Span {
    let from = basic.entries.first().map_or(0, |first| first.from);
    let end = basic.entries.last().map_or(from, |last| last.from + last.len);
    Span { from, len: end - from }
}

/// What is not the signed part may be the same where answers differ.
#[test]
fn another_part_is_shown() {
    let parts: [fn(&Basic) -> Span; 5] = [
        |basic| basic.signature,
        |basic| basic.algorithm,
        |basic| basic.certificates,
        |basic| basic.responder,
        all_entries,
    ];
    for part in parts {
        let wrong = shows(part).wrong;
        let differ = wrong.iter().filter(|told| told.contains("the answers differ")).count();
        let other = wrong.iter().filter(|told| told.contains("02 says")).count();
        assert!(differ >= 20 && other >= 200, "{differ} and {other}");
        assert_eq!(differ + other, wrong.len());
    }
}

/// A part too long or too short is told as well.
#[test]
fn a_part_of_another_length_is_shown() {
    let parts: [fn(Span) -> Span; 3] = [
        |Span { from, len }| Span { from, len: len + 1 },
        |Span { from, len }| Span { from, len: len - 1 },
        // Without its header, or a part of that.
        |Span { from, len }| Span { from: from + 2, len: len - 2 },
    ];
    for part in parts {
        let wrong = shows(|basic| part(basic.signed_part)).wrong;
        assert!(wrong.len() >= 1_800, "{}", wrong.len());
        assert!(wrong.iter().all(|told| told.contains("02 says")));
    }
}

/// A desk that refuses everything does what C-23 says.  What has to come in a trial
/// does not come then, and so stands in the counts with 0.
#[test]
fn one_answer_to_everything() {
    let judgement = desk(|_, _| Some("040600"));
    assert_eq!(judgement.verdict(), Ok(()));
    let never: Vec<String> =
        expected().into_iter().filter(|outcome| judgement.counts.of(outcome) == 0).collect();
    assert_eq!(never.len(), 13 + 3, "{never:?}");
    for outcome in never {
        assert!(judgement.counts.text().contains(&format!("       0  {outcome}\n")));
    }
}
