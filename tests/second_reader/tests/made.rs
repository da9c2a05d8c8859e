//! Readings and cases that are made: the writer against the reader, the limits
//! against the layout, and the stream of cases.

use std::path::Path;

use second_reader::cases::answers::line;
use second_reader::cases::counts::Counts;
use second_reader::cases::edges;
use second_reader::cases::generate;
use second_reader::cases::prng::Rng;
use second_reader::cases::published::{mutated, read_folder, records};
use second_reader::cases::record::{
    decode_answer, encode_answer, read_stream, Record, RESPONDER_ID, SIGNATURE, SIGNED_PART,
};
use second_reader::cases::scene;
use second_reader::check::{check, Answer};
use second_reader::layout;
use second_reader::limits;
use second_reader::reading::Span;
use second_reader::slip;
use second_reader::write;

#[test]
fn a_scene_is_accepted_and_reads_back() {
    let mut written_versions = 0;
    for index in 0..3_000 {
        let scene = scene::accepted(&mut Rng::for_case(7, index));
        let response = write::response(&scene.reading).octets();
        assert!(limits::within(&scene.reading));
        let basic = layout::read(&response).expect("it fits");
        assert_eq!(basic.reading, scene.reading);
        let refused = matches!(check(&scene.question, &response), Answer::Refused { .. });
        assert!(!refused, "case {index}");
        // The parts shown are the parts written.
        let octets = |span: &Span| response[span.from..span.from + span.len].to_vec();
        assert_eq!(octets(&basic.signed_part), write::signed_part(&scene.reading).octets());
        let responder = write::responder(&scene.reading.responder).octets();
        assert_eq!(octets(&basic.responder), responder);
        assert_eq!(octets(&basic.signature), scene.reading.signature);
        let written: Vec<Vec<u8>> =
            scene.reading.entries.iter().map(|entry| write::entry(entry).octets()).collect();
        assert_eq!(basic.entries.iter().map(octets).collect::<Vec<_>>(), written);
        written_versions += usize::from(basic.reading.version_written);
    }
    assert!((600..900).contains(&written_versions), "{written_versions} of 3000");
}

/// A reading is within the limits exactly when its DER form reads as it.
#[test]
fn limits_and_layout_agree() {
    let mut within = 0;
    for index in 0..6_000 {
        let rng = &mut Rng::for_case(8, index);
        let mut scene = scene::accepted(rng);
        edges::put(rng, &mut scene);
        let response = write::response(&scene.reading).octets();
        let read = layout::read_any_size(&response);
        let same = read.as_ref().is_ok_and(|basic| basic.reading == scene.reading);
        assert_eq!(limits::within(&scene.reading), same, "case {index}");
        within += usize::from(same);
    }
    assert!((2_000..5_500).contains(&within), "{within} within the limits");
}

/// What is read is written back octet for octet: the DER form is one.
#[test]
fn what_reads_is_written_back() {
    let mut responses: Vec<Vec<u8>> =
        read_folder(&folder()).unwrap().into_iter().map(|published| published.octets).collect();
    for index in 0..6_000 {
        let record = generate::case(9, index);
        if [SIGNED_PART, SIGNATURE, RESPONDER_ID].contains(&record.operation) {
            responses.push(record.body);
        }
    }
    let (mut read, mut with_version) = (0, 0);
    for response in responses {
        if let Ok(basic) = layout::read_any_size(&response) {
            assert_eq!(write::response(&basic.reading).octets(), response);
            assert!(limits::within(&basic.reading));
            read += 1;
            with_version += usize::from(basic.reading.version_written);
        }
    }
    assert!(read > 200);
    assert!(with_version > 50);
}

fn folder() -> std::path::PathBuf {
    Path::new(env!("CARGO_MANIFEST_DIR")).join("../published")
}

#[test]
fn the_same_seed_makes_the_same_cases() {
    let stream = |seed| -> Vec<Record> { (0..200).map(|i| generate::case(seed, i)).collect() };
    assert_eq!(stream(1), stream(1));
    assert_ne!(stream(1), stream(2));
    let octets: Vec<u8> = stream(1).iter().flat_map(Record::octets).collect();
    assert_eq!(read_stream(&octets), Ok(stream(1)));
    assert!(read_stream(&octets[..octets.len() - 1]).is_err());
}

#[test]
fn every_outcome_comes_often() {
    let mut counts = Counts::default();
    for index in 0..6_000 {
        counts.add(&generate::case(1, index));
    }
    for kind in ["good", "revoked", "unknown"] {
        assert!(counts.of(&format!("01 desk: {kind}")) >= 100, "{kind}");
    }
    for number in 1..=16 {
        assert!(counts.of(&format!("01 desk: refusal {number:2}")) >= 40, "{number}");
    }
    for outcome in [
        "05 request: refusal 1",
        "05 request: refusal 18",
        "07 slip writer: refusal 17",
        "07 slip writer: refusal 18",
        "06 slip reader: refusal 17",
        "04 walk: end",
        "04 walk: entry",
        "09 responder id: shown",
        "09 responder id: refusal 3",
    ] {
        assert!(counts.of(outcome) >= 20, "{outcome}");
    }
    for number in [2, 4, 5] {
        assert!(counts.of(&format!("09 responder id: refusal {number}")) >= 2, "{number}");
    }
}

/// What comes of a written version comes often, and under its right name: no
/// other line of the version is there.
#[test]
fn every_outcome_of_a_version_comes_often() {
    let mut counts = Counts::default();
    for index in 0..3_000 {
        counts.add(&generate::case(1, index));
    }
    let mut lines = vec![
        ("version: written, accepted".to_string(), 100),
        ("version: written, refusal 3 elsewhere".to_string(), 20),
        ("version: another, refusal 3 at its INTEGER".to_string(), 10),
        ("version: misformed, refusal 3".to_string(), 10),
    ];
    for number in [1, 2].into_iter().chain(6..=16) {
        lines.push((format!("version: written, refusal {number:2}"), 5));
    }
    for (line, least) in &lines {
        assert!(counts.of(line) >= *least, "{line}: {}", counts.of(line));
    }
    assert_eq!(counts.text().matches("version:").count(), lines.len());
}

#[test]
fn answers_in_records() {
    let mut revoked = 0;
    for index in 0..2_000 {
        let scene = scene::accepted(&mut Rng::for_case(10, index));
        let answer = check(&scene.question, &write::response(&scene.reading).octets());
        assert_eq!(decode_answer(&encode_answer(&answer)), Some(answer.clone()));
        let slip = slip::octets(&answer).expect("every answer of the check is a slip");
        assert_eq!(slip::read_slip(&slip), Ok(answer.clone()));
        revoked += usize::from(matches!(answer, Answer::Revoked { .. }));
    }
    assert!(revoked > 300);
}

#[test]
fn published_and_mutated_records_have_answers() {
    let all = read_folder(&folder()).unwrap();
    assert_eq!(all.len(), 63);
    for published in &all {
        for record in records(&published.octets) {
            line(&record).expect("an answer");
        }
    }
    for index in 0..2_000 {
        line(&mutated(&all, 1, index)).expect("an answer");
    }
}

/// The table in tests/README.md is the one that `cases table` writes.
#[test]
fn the_readme_has_the_table() {
    let readme = std::fs::read_to_string(folder().join("../README.md")).unwrap();
    let table = second_reader::cases::table::text(&folder()).unwrap();
    assert!(readme.contains(table.trim_end()));
}
