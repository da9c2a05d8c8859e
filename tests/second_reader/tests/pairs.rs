//! The stream of pairs: that every outcome comes often, and that every change is
//! tried under every answer.

mod common;
use std::collections::{BTreeMap, BTreeSet};

use common::pairs::*;
use second_reader::cases::compared::*;
use second_reader::cases::counts;
use second_reader::cases::paired::expected;
use second_reader::cases::pairs::case;
use second_reader::cases::record::{DESK, SIGNED_PART};
use second_reader::desk::{answer, response_in};

#[test]
fn each_pair_stands_alone() {
    let from = published();
    for (number, records) in stream().chunks(4).enumerate() {
        let operations: Vec<u8> = records.iter().map(|record| record.operation).collect();
        assert_eq!(operations, [DESK, SIGNED_PART, DESK, SIGNED_PART]);
        assert_eq!(response_in(&records[0].body), records[1].body, "pair {number}");
        assert_eq!(response_in(&records[2].body), records[3].body, "pair {number}");
    }
    for number in [0, 1, 9_998, 9_999] {
        let records = &stream()[4 * number..4 * number + 4];
        assert_eq!(case(&from, 1, number as u64), records);
        assert_ne!(case(&from, 2, number as u64), records);
    }
}

/// This reader does what C-23 says, and everything that has to come comes often.
#[test]
fn every_outcome_comes_often() {
    let judgement = judged(stream(), own);
    assert_eq!(judgement.verdict(), Ok(()));
    for outcome in expected() {
        let count = judgement.counts.of(&outcome);
        assert!(count >= 100, "{outcome}: {count}");
    }
    assert!(kept().count() >= 6_000);
}

/// A trial of a thousand pairs shows everything too, from any seed.
#[test]
fn every_outcome_comes_in_a_short_stream() {
    let from = published();
    for seed in 2..6 {
        let records: Vec<_> = (0..1_000).flat_map(|number| case(&from, seed, number)).collect();
        let judgement = judged(&records, own);
        for outcome in expected() {
            assert!(judgement.counts.of(&outcome) >= 1, "seed {seed}: {outcome}");
        }
    }
}

/// Fourteen answers, each under a change of the signature alone, of the algorithm
/// alone, of the certificates alone, and of several at once.
#[test]
fn every_change_under_every_answer() {
    let mut found: BTreeMap<(String, String), usize> = BTreeMap::new();
    for inputs in kept() {
        let change = match Compared::new(inputs).changes()[..] {
            [] => NOTHING,
            [ADDED | TAKEN_OUT | CHANGED] => "certificates",
            [one] => one,
            _ => SEVERAL,
        };
        let key = (change.to_string(), counts::in_words(&answer(inputs[0])));
        *found.entry(key).or_default() += 1;
    }
    assert_eq!(found.len(), 4 * 14, "{found:?}");
    assert!(found.values().all(|count| *count >= 10), "{found:?}");
}

/// Where the premise is kept, one of the two is a published response as it is; and
/// every published one comes.
#[test]
fn even_numbers_are_about_published_responses() {
    let octets: BTreeSet<Vec<u8>> = published().into_iter().map(|one| one.octets).collect();
    let mut seen = BTreeSet::new();
    for inputs in inputs().step_by(2) {
        let there = inputs.map(response_in);
        let found: Vec<_> = there.iter().filter(|one| octets.contains(**one)).collect();
        assert!(!found.is_empty() || !Compared::new(inputs).controls().is_empty());
        seen.extend(found.into_iter().copied());
    }
    assert_eq!(seen.len(), octets.len());
}
