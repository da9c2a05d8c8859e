//! The stream of cases for places: that every kind of misfit comes often, at the
//! places that are easily got wrong, and that what is said of a place is true of
//! the octets there.

mod common;
use std::collections::{BTreeMap, BTreeSet};
use std::sync::OnceLock;

use common::pairs::published;
use second_reader::cases::answers::misfit;
use second_reader::cases::apart;
use second_reader::cases::counts::Counts;
use second_reader::cases::misfits::case;
use second_reader::cases::record::{Record, PLACE};
use second_reader::desk;
use second_reader::element::{read_run, Body, Item};
use second_reader::layout::{self, Envelope};
use second_reader::misfit::{Kind, Misfit};
use second_reader::words::{ALGORITHM, BASIC, DEPTH, EXTENSIONS, SIGNED};

/// `cases misfits ../published 1 20000`.
fn stream() -> &'static [Record] {
    static STREAM: OnceLock<Vec<Record>> = OnceLock::new();
    STREAM.get_or_init(|| {
        let from = published();
        (0..20_000).map(|index| case(&from, 1, index)).collect()
    })
}

/// The responses that do not fit, each with its misfit.
fn misfits() -> impl Iterator<Item = (&'static [u8], Misfit)> {
    stream().iter().filter_map(|one| Some((desk::response_in(&one.body), misfit(one)?)))
}

#[test]
fn every_kind_comes_often() {
    let mut counts = Counts::default();
    stream().iter().for_each(|record| counts.add(record));
    for kind in Kind::ALL {
        let line = format!("misfit: {}", kind.words());
        assert!(counts.of(&line) >= 400, "{line}: {}", counts.of(&line));
    }
    assert!(counts.of("misfit in the envelope") >= 4_000);
    assert!(counts.of("misfit in the basic response") >= 8_000);
    assert!(counts.of("version: another, refusal 3 at its INTEGER") >= 100);
    assert!(counts.of("10 place: refusal  3") >= 16_000);
    // Those whose line has no place.
    for (what, least) in [("good", 300), ("revoked", 100), ("unknown", 100)] {
        assert!(counts.of(&format!("10 place: {what}")) >= least, "{what}");
    }
    for (number, least) in [(1, 300), (2, 50), (4, 20), (5, 100), (7, 50), (10, 100), (13, 20)] {
        assert!(counts.of(&format!("10 place: refusal {number:2}")) >= least, "{number}");
    }
}

#[test]
fn each_case_stands_alone() {
    let from = published();
    assert!(stream().iter().all(|record| record.operation == PLACE));
    for index in [0, 1, 19_998, 19_999] {
        assert_eq!(case(&from, 1, index), stream()[index as usize]);
        assert_ne!(case(&from, 2, index), stream()[index as usize]);
    }
}

#[test]
fn what_is_taken_apart_is_the_same_octets() {
    for one in published() {
        assert_eq!(apart::response(&one.octets).octets(), one.octets, "{}", one.name);
    }
}

/// The 65th entry, the 9th certificate, the 17th extension, depth 17: each often,
/// and with many first octets.
#[test]
fn items_beyond_a_limit() {
    let mut found: BTreeMap<&str, Vec<u8>> = BTreeMap::new();
    for (response, misfit) in misfits().filter(|(_, misfit)| misfit.kind == Kind::Limit) {
        found.entry(misfit.why).or_default().push(response[misfit.place]);
    }
    assert_eq!(found.len(), 4);
    for why in [SIGNED, BASIC, EXTENSIONS, DEPTH] {
        assert!(found[why].len() >= 200, "{}: {why}", found[why].len());
        let different: BTreeSet<&u8> = found[why].iter().collect();
        assert!(different.len() >= 60, "{}: {why}", different.len());
    }
}

/// With the second OID made another, something to its right is still broken.
#[test]
fn repeated_oids_with_more_broken_to_the_right() {
    let mut broken = 0;
    for (response, misfit) in misfits().filter(|(_, misfit)| misfit.kind == Kind::Repeat) {
        let mut other = response.to_vec();
        let last = misfit.place + 1 + usize::from(response[misfit.place + 1]);
        other[last] ^= 0x55;
        let next = layout::read(&other).err().and_then(|refusal| refusal.misfit);
        broken += usize::from(next.is_some_and(|next| next.place > misfit.place));
    }
    assert!(broken >= 200, "{broken}");
}

/// What follows an envelope is the place, and the basic response is broken too.
#[test]
fn faults_in_the_envelope_and_inside() {
    let both = misfits().filter(|(response, misfit)| {
        misfit.kind == Kind::LeftOver
            && layout::read(&response[..misfit.place]).is_err_and(|inner| {
                inner.place().is_some_and(|place| place < misfit.place && place > 22)
            })
    });
    let count = both.count();
    assert!(count >= 200, "{count}");
}

/// How many holders are around the item at a place.
fn depth(items: &[Item], place: usize) -> Option<usize> {
    let item = items.iter().rev().find(|item| item.place() <= place)?;
    match item {
        item if item.place() == place => Some(0),
        Item::Whole(element) => match &element.body {
            Body::Run(inner) => depth(inner, place).map(|depth| depth + 1),
            Body::Primitive(_) => None,
        },
        Item::Broken(_) => None,
    }
}

#[test]
fn overruns_at_every_depth() {
    let mut counts = [0; 4 + 8];
    for (response, misfit) in misfits().filter(|(_, misfit)| misfit.kind == Kind::Overrun) {
        let found = match layout::envelope(response) {
            Err(_) => depth(&read_run(response, 0), misfit.place),
            Ok(Envelope::Response { inner, inner_place, .. }) => {
                depth(&read_run(&inner, inner_place), misfit.place).map(|depth| depth + 4)
            }
            Ok(Envelope::Failed { .. }) => None,
        };
        counts[found.expect("an item stands there").min(11)] += 1;
    }
    assert!(counts.iter().all(|count| *count >= 20), "{counts:?}");
}

#[test]
fn other_places_that_are_easily_got_wrong() {
    let count = |wanted: &dyn Fn(&[u8], Misfit) -> bool| {
        misfits().filter(|(response, misfit)| wanted(response, *misfit)).count()
    };
    assert!(count(&|response, _| response.is_empty()) >= 50);
    let two_parameters = |misfit: Misfit| misfit.kind == Kind::LeftOver && misfit.why == ALGORITHM;
    assert!(count(&|_, misfit| two_parameters(misfit)) >= 100);
    // A list of extensions without an item.
    let none = |misfit: Misfit| misfit.kind == Kind::Missing && misfit.why == EXTENSIONS;
    assert!(count(&|_, misfit| none(misfit)) >= 100);
    // At the very end, and at the very start.
    assert!(count(&|response, misfit| misfit.place == response.len()) >= 300);
    assert!(count(&|_, misfit| misfit.place == 0) >= 300);
}

/// What is said of a place is true of the octets there.
#[test]
fn a_place_shows_what_is_wrong() {
    for (response, misfit) in misfits() {
        let octets = &response[misfit.place..];
        let refused_tag = |tag: u8| tag % 32 == 31 || tag == 0x00 || tag == 0x20;
        let length = octets.get(1).copied().unwrap_or(0);
        // A length that no element can have: 80 hex, too many octets, needless ones.
        let needless = match octets.get(2) {
            Some(0) => length > 0x80,
            Some(1..=0x7F) => length == 0x81,
            _ => false,
        };
        let refused_form = length == 0x80 || length > 0x88 || needless;
        let fine = match misfit.kind {
            Kind::HeaderForm => refused_tag(octets[0]) || refused_form,
            Kind::Overrun | Kind::WrongTag | Kind::WrongContent => {
                !refused_tag(octets[0]) && !refused_form
            }
            Kind::Repeat => octets[0] == 0x06,
            Kind::LeftOver | Kind::Limit => !octets.is_empty(),
            // At an end: behind some octet, or at the start of none.
            Kind::CutOff | Kind::Missing => misfit.place > 0 || response.is_empty(),
        };
        assert!(fine, "{:?} in {}", misfit, second_reader::hex::write(response));
    }
}
