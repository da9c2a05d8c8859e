//! The stream of pairs: every way to change what is not signed, lengths at which
//! headers grow, the limit of size, and what the controls show.

mod common;
use std::collections::{BTreeMap, BTreeSet};

use common::pairs::*;
use second_reader::cases::compared::*;
use second_reader::cases::counts;
use second_reader::desk::{answer, response_in, take_apart};
use second_reader::layout::read;
use second_reader::reading::{Reading, Tree};

type Way = (&'static str, fn(&Reading, &Reading) -> bool);

const WAYS: [Way; 14] = [
    ("one bit of the signature", |one, other| bits(one, other) == Some(1)),
    ("a signature as long", |one, other| bits(one, other).is_some_and(|bits| bits > 1)),
    ("a shorter signature", |one, other| one.signature.len() > other.signature.len()),
    ("a longer signature", |one, other| one.signature.len() < other.signature.len()),
    ("another OID", |one, other| one.signature_algorithm.oid != other.signature_algorithm.oid),
    ("no parameters", |one, other| has_new_parameters(one, other, |new| new.is_none())),
    ("NULL", |one, other| has_new_parameters(one, other, |new| new == Some(&null()))),
    ("a free element", |one, other| {
        has_new_parameters(one, other, |new| new.is_some_and(|new| *new != null()))
    }),
    ("a list where there was none", |one, other| count(one).is_none() && count(other).is_some()),
    ("the list gone", |one, other| count(one).is_some() && count(other).is_none()),
    ("the list emptied", |one, other| count(one) > Some(0) && count(other) == Some(0)),
    ("an empty list", |one, other| count(one).is_none() && count(other) == Some(0)),
    ("eight certificates", |one, other| count(one) < Some(8) && count(other) == Some(8)),
    ("another order", |one, other| {
        one.certificates != other.certificates && sorted(one) == sorted(other)
    }),
];

fn null() -> Tree {
    Tree::Primitive { tag: 0x05, contents: vec![] }
}

/// In how many bits two signatures of one length differ.
fn bits(one: &Reading, other: &Reading) -> Option<u32> {
    let both = one.signature.iter().zip(&other.signature);
    let different = both.map(|(one, other)| (one ^ other).count_ones()).sum();
    (one.signature.len() == other.signature.len()).then_some(different)
}

fn has_new_parameters(
    one: &Reading,
    other: &Reading,
    wanted: impl Fn(Option<&Tree>) -> bool,
) -> bool {
    let (old, new) = (&one.signature_algorithm.parameters, &other.signature_algorithm.parameters);
    old != new && wanted(new.as_ref())
}

fn count(reading: &Reading) -> Option<usize> {
    reading.certificates.as_ref().map(Vec::len)
}

/// The certificates, if there are any, in an order of their own.
fn sorted(reading: &Reading) -> Option<Vec<String>> {
    let list = reading.certificates.as_ref()?;
    let mut words: Vec<String> = list.iter().map(|one| format!("{one:?}")).collect();
    words.sort();
    Some(words)
}

#[test]
fn every_way_to_change_what_is_not_signed() {
    let mut found: BTreeMap<&str, usize> = BTreeMap::new();
    for pair in kept() {
        let [one, other] = pair.map(|input| read(response_in(input)).unwrap().reading);
        for (way, is_so) in WAYS {
            *found.entry(way).or_default() += usize::from(is_so(&one, &other));
        }
    }
    assert!(found.values().all(|count| *count >= 20), "{found:?}");
}

/// Octets of the envelope's header.
fn header(response: &[u8]) -> usize {
    if response[1] < 0x80 {
        2
    } else {
        2 + usize::from(response[1] - 0x80)
    }
}

#[test]
fn headers_grow_and_shrink() {
    let mut found: BTreeMap<[usize; 2], usize> = BTreeMap::new();
    for pair in kept() {
        let mut sizes = pair.map(|input| header(response_in(input)));
        sizes.sort();
        *found.entry(sizes).or_default() += 1;
    }
    for sizes in [[2, 3], [2, 4], [3, 4]] {
        assert!(found[&sizes] >= 20, "{found:?}");
    }
}

#[test]
fn sizes_around_the_limit() {
    let with = |inputs: &[&[u8]; 2], size: usize| {
        inputs.iter().any(|input| response_in(input).len() == size)
    };
    assert!(kept().filter(|pair| with(pair, 16_384)).count() >= 50);
    assert!(of_kind(TOO_LONG).filter(|pair| with(pair, 16_385)).count() >= 50);
    for [first, second] in of_kind(TOO_LONG) {
        let refused = [first, second].map(|input| counts::in_words(&answer(input)));
        assert!(refused.contains(&"refusal  2".to_string()), "{refused:?}");
    }
}

/// The answers of the controls of one kind, where they differ, each two in order.
fn different_answers(kind: &'static str) -> BTreeSet<[String; 2]> {
    let answers = of_kind(kind).map(|pair| pair.map(answer));
    let different = answers.filter(|[first, second]| first != second);
    let in_words = different.map(|pair| {
        let mut words = pair.map(|answer| counts::in_words(&answer));
        words.sort();
        words
    });
    in_words.collect()
}

fn shows(kind: &'static str, wanted: &[[&str; 2]]) {
    let found = different_answers(kind);
    for two in wanted {
        assert!(found.contains(&two.map(str::to_string)), "{kind}: {two:?} not in {found:?}");
    }
}

/// What each wrong statement would let pass is there to be seen.
#[test]
fn controls_show_other_answers() {
    let statuses = [["good", "revoked"], ["good", "unknown"], ["revoked", "unknown"]];
    shows(SAME_SIGNATURE, &statuses);
    for number in 9..=16 {
        shows(SAME_SIGNATURE, &[["good", &format!("refusal {number:2}")]]);
    }
    shows(SAME_ENTRIES, &[["good", "refusal  7"], ["good", "refusal  9"]]);
    shows(OTHER_MARKS, &[["good", "refusal  8"], ["refusal  8", "refusal 10"]]);
    shows(TOO_LONG, &[["good", "refusal  2"], ["refusal  2", "refusal 16"]]);
    for number in 3..=5 {
        shows(ONE_UNREAD, &[["good", &format!("refusal {number:2}")]]);
    }
    let numbers = [["refusal  3", "refusal  4"], ["refusal  3", "refusal  5"]];
    shows(BOTH_UNREAD, &numbers);
    shows(BOTH_UNREAD, &[["refusal  4", "refusal  5"]]);
}

/// With the marks made equal nothing is left that differs but what is not signed.
#[test]
fn marks_are_all_that_differs() {
    for [first, second] in of_kind(OTHER_MARKS) {
        let (question, _) = take_apart(first).unwrap();
        let same = [&first[..74], &[second[74]], &first[75..]].concat();
        let kinds = Compared::new([&same, second]).controls();
        let in_range = if question.in_range() { vec![] } else { vec![OUT_OF_RANGE] };
        assert_eq!(kinds, in_range);
    }
}
