//! The stream of pairs for the tests, and what a reader writes for it.

use std::path::Path;
use std::sync::OnceLock;

use second_reader::cases::answers::line;
use second_reader::cases::compared::Compared;
use second_reader::cases::paired::{judge, Judgement};
use second_reader::cases::pairs::case;
use second_reader::cases::published::{read_folder, Published};
use second_reader::cases::record::{half, Record};
use second_reader::question::Question;

pub fn published() -> Vec<Published> {
    read_folder(&Path::new(env!("CARGO_MANIFEST_DIR")).join("../published")).unwrap()
}

/// `cases pairs ../published 1 10000`.
pub fn stream() -> &'static [Record] {
    static STREAM: OnceLock<Vec<Record>> = OnceLock::new();
    STREAM.get_or_init(|| made(10_000))
}

/// `cases pairs ../published 1 2000`, for tests with many readers.
pub fn short_stream() -> &'static [Record] {
    static STREAM: OnceLock<Vec<Record>> = OnceLock::new();
    STREAM.get_or_init(|| made(2_000))
}

fn made(count: u64) -> Vec<Record> {
    let from = published();
    (0..count).flat_map(|number| case(&from, 1, number)).collect()
}

/// The desk's two inputs of each pair.
pub fn inputs() -> impl Iterator<Item = [&'static [u8]; 2]> {
    stream().chunks(4).map(|pair| [pair[0].body.as_slice(), pair[2].body.as_slice()])
}

/// The same of the pairs whose kinds of control are as wanted.
fn with_kinds(
    wanted: impl Fn(&[&'static str]) -> bool,
) -> impl Iterator<Item = [&'static [u8]; 2]> {
    static KINDS: OnceLock<Vec<Vec<&'static str>>> = OnceLock::new();
    let kinds =
        KINDS.get_or_init(|| inputs().map(|inputs| Compared::new(inputs).controls()).collect());
    inputs().zip(kinds).filter(move |(_, kinds)| wanted(kinds)).map(|(inputs, _)| inputs)
}

/// The same of the pairs that keep C-23's premise.
pub fn kept() -> impl Iterator<Item = [&'static [u8]; 2]> {
    with_kinds(|kinds| kinds.is_empty())
}

/// The same of the controls of one kind.
pub fn of_kind(kind: &'static str) -> impl Iterator<Item = [&'static [u8]; 2]> {
    with_kinds(move |kinds| kinds.contains(&kind))
}

/// The records of one pair.
pub fn pair(question: &Question, first: &[u8], second: &[u8]) -> Vec<Record> {
    [first, second].map(|response| half(question, response.to_vec())).concat()
}

/// What is said of these records where a reader writes these lines.
pub fn judged(records: &[Record], reader: impl Fn(&Record) -> String) -> Judgement {
    let lines: Vec<String> = records.iter().map(reader).collect();
    let lines: Vec<&str> = lines.iter().map(String::as_str).collect();
    judge(records, &lines).expect("whole pairs")
}

/// This reader's own line.
pub fn own(record: &Record) -> String {
    line(record).expect("an answer")
}

/// The outcomes that came just once.
pub fn counted_once(judgement: &Judgement) -> Vec<String> {
    let text = judgement.counts.text();
    text.lines().filter_map(|line| Some(line.strip_prefix("       1  ")?.to_string())).collect()
}
