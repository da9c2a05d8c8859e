//! Runs over one cache: their records octet by octet, what ends one, and the
//! runs that are made from a seed.

mod common;
use common::room::*;
use common::*;
use second_reader::cache::Cache;
use second_reader::cases::answers::line;
use second_reader::cases::counts::Counts;
use second_reader::cases::record::{Record, RUN};
use second_reader::cases::run::{Run, Step};
use second_reader::cases::runs;
use second_reader::filing::Way;
use second_reader::hex;

fn step(kind: u8, now: u64, tolerance: u64, paper: &[u8]) -> Vec<u8> {
    let n = [paper.len() as u8];
    cat(&[&[kind], &now.to_be_bytes(), &tolerance.to_be_bytes(), &n, paper])
}

fn body(cache: &[u8], steps: &[Vec<u8>]) -> Vec<u8> {
    cat(&[&(cache.len() as u32).to_be_bytes(), cache, &steps.concat()])
}

fn line_of(body: &[u8]) -> String {
    line(&Record::new(RUN, body.to_vec())).unwrap()
}

/// Every result that there is, and the cache after it, worked out by hand.
#[test]
fn a_run() {
    let held = card_of(&[5]);
    let revoked = slip(2, &held, M1 + 1, NEXT);
    let steps = [
        step(2, M1, 0, &held),
        step(1, M1, 0, &slip(1, &held, M1, NEXT)),
        step(2, M1, 0, &held),
        step(1, M1, 0, &revoked),
        step(2, M1, 0, &held),
        step(2, NEXT + 1, 0, &held),
        step(2, NEXT + 1, 1, &held),
        step(1, M1, 0, &slip(3, &held, M1, NEXT)),
        step(1, M1, 0, &slip(3, &card_of(&[6]), M1, NEXT)),
        step(1, M1, 3_601, &[]),
        step(1, M1, 0, &[]),
        step(2, M1, 3_601, &held),
        step(2, M1, 0, &card_of(&[6])),
    ];
    let card = "11".repeat(20) + &"22".repeat(20) + "01";
    let (five, six) = (card.clone() + "05" + &"00".repeat(19), card + "06" + &"00".repeat(19));
    let times = format!("{M1:016x}{NEXT:016x}");
    let zeros = "00".repeat(8);
    let good = format!("s01{five}{times}{zeros}000000");
    let later = format!("{:016x}{NEXT:016x}{M1:016x}01", M1 + 1);
    let unknown = format!("s03{six}{times}{zeros}000000");
    let places = format!("02{five}{later}03{six}{times}{}", "00".repeat(5_568 - 87 - 78));
    assert_eq!(
        line_of(&body(&[0; 5_568], &steps)),
        format!(
            "n c01 {good} c01 r15 r16 s02{five}{later}0000 c01 c02 r1 r17 r1 {unknown} {places}"
        )
    );
    // A new card where all is taken, and all is stale a second later.
    let nine = slip(1, &card_of(&[9]), M1, NEXT);
    let steps = [step(1, NEXT, 0, &nine), step(1, NEXT + 1, 0, &nine)];
    let after = hex::write(&cat(&[&nine, &[0; 9], &full()[87..]]));
    assert_eq!(line_of(&body(&full(), &steps)), format!("r20 c40 {after}"));
}

#[test]
fn a_cache_of_another_length() {
    let steps = [step(2, M1, 0, &card_of(&[5])), step(1, M1, 3_601, &[])];
    assert_eq!(line_of(&body(&[], &steps)), "r19 r19 ");
    assert_eq!(line_of(&body(&[0xAB], &steps)), "r19 r19 ab");
    assert_eq!(line_of(&body(&[], &[])), "");
    assert_eq!(line_of(&body(&[0; 5_568], &[])), "00".repeat(5_568));
}

#[test]
fn a_body_without_its_cache() {
    assert_eq!(line_of(&[]), "-");
    assert_eq!(line_of(&[0, 0, 0]), "-");
    assert_eq!(line_of(&[0, 0, 0, 0]), "");
    assert_eq!(line_of(&body(&[0; 5_568], &[])[..4 + 5_567]), "-");
    assert_eq!(line_of(&[0xFF; 300]), "-");
}

#[test]
fn what_ends_a_run() {
    let asked = step(2, M1, 0, &card_of(&[5]));
    let zeros = "00".repeat(5_568);
    let ended = |middle: &[u8]| {
        let steps = [asked.clone(), middle.to_vec(), asked.clone()];
        line_of(&body(&[0; 5_568], &steps)) == format!("n {zeros}")
    };
    // Another kind, and an ask whose card has not 61 octets.
    for kind in [0, 3, 4, 0x81, 0xFF] {
        assert!(ended(&step(kind, M1, 0, &card_of(&[5]))));
    }
    for n in [0, 1, 60, 62, 78, 255] {
        assert!(ended(&step(2, M1, 0, &vec![0; n])));
    }
    assert!(!ended(&asked) && !ended(&[]) && !ended(&step(1, M1, 0, &[])));
    // A step that is not whole.
    let all = body(&[0; 5_568], &[asked.clone(), asked.clone()]);
    for length in 4 + 5_568 + asked.len()..all.len() {
        assert_eq!(line_of(&all[..length]), format!("n {zeros}"));
    }
    assert_eq!(line_of(&all), format!("n n {zeros}"));
    // A slip may be of any length that one octet can say.
    let long = step(1, M1, 0, &[1; 255]);
    assert_eq!(line_of(&body(&[0; 5_568], &[long, asked])), format!("r17 n {zeros}"));
}

#[test]
fn the_same_seed_makes_the_same_runs() {
    let stream = |seed| -> Vec<Record> { (0..40).map(|i| runs::case(seed, i)).collect() };
    assert_eq!(stream(1), stream(1));
    assert_ne!(stream(1), stream(2));
    for record in stream(1) {
        assert!(record.operation == RUN && record.body.len() <= 131_072);
        // What is read is written again; a run may end before its record does.
        if let Some(run) = Run::read(&record.body) {
            assert!(record.body.starts_with(&run.record().body));
        }
    }
}

#[test]
fn every_outcome_of_a_run_comes_often() {
    let mut counts = Counts::default();
    for index in 0..200 {
        counts.add(&runs::case(1, index));
    }
    for outcome in [
        "file: new card into an empty place",
        "file: new card into a stale place",
        "file: later slip put",
        "file: tie, new slip put",
        "file: older slip, nothing written",
        "file: refusal  1",
        "file: refusal 17",
        "file: refusal 19",
        "file: refusal 20",
        "ask: not held",
        "ask: refusal  1",
        "ask: refusal 15",
        "ask: refusal 16",
        "ask: refusal 19",
        "ask: good",
        "ask: revoked",
        "ask: unknown",
    ] {
        let count = counts.of(&format!("08 {outcome}"));
        assert!(count >= 50, "{outcome}: {count}");
    }
    assert!(counts.of("08 run: no whole cache") >= 1);
}

/// 02: "Every accepted filing returns the number of places then not empty, and
/// writes no other place. Filing for one card changes no other card's answers,
/// except that a stale slip's place may be taken."
#[test]
fn a_filing_changes_one_place_at_most() {
    use second_reader::filing::file;
    for index in 0..150 {
        let Some(run) = Run::read(&runs::case(3, index).body) else {
            continue;
        };
        let mut cache = run.cache;
        for step in &run.steps {
            let Step::File { clock, slip } = step else {
                continue;
            };
            let before = cache.clone();
            let filed = file(&mut cache, slip, *clock);
            let changed: Vec<usize> =
                (0..before.len()).filter(|at| before[*at] != cache[*at]).collect();
            let Ok(filed) = filed else {
                assert!(changed.is_empty(), "a refusal, run {index}");
                continue;
            };
            let taken = cache.chunks(87).filter(|place| place.iter().any(|octet| *octet != 0));
            assert_eq!(filed.count, taken.count());
            let (Ok(old), Ok(new)) = (Cache::read(&before), Cache::read(&cache)) else {
                panic!("a cache before and after, run {index}");
            };
            let Some(place) = changed.first().map(|at| at / 87) else {
                continue;
            };
            assert!(filed.way != Way::OlderKept && changed.iter().all(|at| at / 87 == place));
            let put = new.places[place].as_ref().expect("the slip that was put");
            assert_eq!(put.octets(), *slip);
            // What stood there was empty, or the card's own, or stale.
            if let Some(gone) = &old.places[place] {
                assert!(gone.card == put.card || gone.next_update + clock.tolerance < clock.now);
            }
        }
    }
}
