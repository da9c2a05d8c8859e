//! A run over one cache: as a record has it, and what comes of it.
//!
//! The body: the cache's length, 4 octets high first; the cache; then steps, each
//! of kind 1 (1 files, 2 asks), now 8, tolerance 8, n 1, and n octets: the slip,
//! or the card's 61.  What is no such step ends the run.

use crate::check::Answer;
use crate::filing::{ask, file, Filed, Way};
use crate::hex;
use crate::question::{Card, Clock, CARD};

use super::record::{encode_answer, Record, RUN};

#[derive(Debug, Clone, PartialEq, Eq)]
pub enum Step {
    File { clock: Clock, slip: Vec<u8> },
    Ask { clock: Clock, card: Card },
}

/// What a step gave.
#[derive(Debug, Clone, PartialEq, Eq)]
pub enum Gave {
    Filed(Result<Filed, u8>),
    Asked(Result<Option<Answer>, u8>),
}

#[derive(Debug, Clone, PartialEq, Eq)]
pub struct Run {
    pub cache: Vec<u8>,
    pub steps: Vec<Step>,
}

impl Run {
    /// Nothing where the body ends before the cache does.
    pub fn read(body: &[u8]) -> Option<Run> {
        let length = u32::from_be_bytes(body.get(..4)?.try_into().unwrap()) as usize;
        let cache = body.get(4..4 + length)?.to_vec();
        let mut rest = &body[4 + length..];
        let mut steps = Vec::new();
        while let Some((step, behind)) = Step::read(rest) {
            steps.push(step);
            rest = behind;
        }
        Some(Run { cache, steps })
    }

    pub fn record(&self) -> Record {
        let mut body = (self.cache.len() as u32).to_be_bytes().to_vec();
        body.extend(&self.cache);
        self.steps.iter().for_each(|step| body.extend(step.octets()));
        Record::new(RUN, body)
    }

    /// What each step gives, and the cache afterwards.
    pub fn play(&self) -> (Vec<Gave>, Vec<u8>) {
        let mut cache = self.cache.clone();
        let gave = self.steps.iter().map(|step| step.play(&mut cache)).collect();
        (gave, cache)
    }
}

impl Step {
    /// The step at the start of these octets, and what is behind it.
    fn read(octets: &[u8]) -> Option<(Step, &[u8])> {
        let head = octets.get(..18)?;
        let number_at = |from: usize| u64::from_be_bytes(head[from..from + 8].try_into().unwrap());
        let clock = Clock { now: number_at(1), tolerance: number_at(9) };
        let end = 18 + usize::from(head[17]);
        let paper = octets.get(18..end)?;
        let step = match (head[0], paper.len()) {
            (1, _) => Step::File { clock, slip: paper.to_vec() },
            (2, CARD) => Step::Ask { clock, card: Card::from_octets(paper) },
            _ => return None,
        };
        Some((step, &octets[end..]))
    }

    /// Its kind, clock and paper.
    fn parts(&self) -> (u8, Clock, Vec<u8>) {
        match self {
            Step::File { clock, slip } => (1, *clock, slip.clone()),
            Step::Ask { clock, card } => (2, *clock, card.to_octets()),
        }
    }

    fn octets(&self) -> Vec<u8> {
        let (kind, clock, paper) = self.parts();
        let mut octets = vec![kind];
        octets.extend(clock.now.to_be_bytes());
        octets.extend(clock.tolerance.to_be_bytes());
        octets.push(u8::try_from(paper.len()).expect("a paper has at most 255 octets"));
        octets.extend(paper);
        octets
    }

    pub fn play(&self, cache: &mut [u8]) -> Gave {
        match self {
            Step::File { clock, slip } => Gave::Filed(file(cache, slip, *clock)),
            Step::Ask { clock, card } => Gave::Asked(ask(cache, card, *clock)),
        }
    }
}

impl Gave {
    /// The result as the line of answer has it.
    fn word(&self) -> String {
        match self {
            Gave::Filed(Ok(filed)) => format!("c{:02x}", filed.count),
            Gave::Asked(Ok(None)) => "n".to_string(),
            Gave::Asked(Ok(Some(answer))) => format!("s{}", hex::write(&encode_answer(answer))),
            Gave::Filed(Err(number)) | Gave::Asked(Err(number)) => format!("r{number}"),
        }
    }

    /// The result in words.
    fn outcome(&self) -> String {
        let (what, how) = match self {
            Gave::Filed(Ok(filed)) => ("file", filed.way.words().to_string()),
            Gave::Filed(Err(number)) => ("file", format!("refusal {number:2}")),
            Gave::Asked(Ok(None)) => ("ask", "not held".to_string()),
            Gave::Asked(Ok(Some(Answer::Good { .. }))) => ("ask", "good".to_string()),
            Gave::Asked(Ok(Some(Answer::Revoked { .. }))) => ("ask", "revoked".to_string()),
            Gave::Asked(Ok(Some(_))) => ("ask", "unknown".to_string()),
            Gave::Asked(Err(number)) => ("ask", format!("refusal {number:2}")),
        };
        format!("{what}: {how}")
    }
}

impl Way {
    fn words(self) -> &'static str {
        match self {
            Way::EmptyTaken => "new card into an empty place",
            Way::StaleTaken => "new card into a stale place",
            Way::LaterPut => "later slip put",
            Way::TiePut => "tie, new slip put",
            Way::OlderKept => "older slip, nothing written",
        }
    }
}

/// The line of answer: each step's result and a space, then the cache.
pub fn line(body: &[u8]) -> String {
    let Some(run) = Run::read(body) else {
        return "-".to_string();
    };
    let (gave, cache) = run.play();
    let results: String = gave.iter().map(|gave| gave.word() + " ").collect();
    results + &hex::write(&cache)
}

/// What each step gave, for counting.
pub fn outcomes(body: &[u8]) -> Vec<String> {
    match Run::read(body) {
        None => vec!["08 run: no whole cache".to_string()],
        Some(run) => run.play().0.iter().map(|gave| format!("08 {}", gave.outcome())).collect(),
    }
}

/// Each step and what it gave, for people.
pub fn text(body: &[u8]) -> String {
    let Some(run) = Run::read(body) else {
        return String::new();
    };
    let (gave, _) = run.play();
    let lines = run.steps.iter().zip(gave).enumerate().map(|(index, (step, gave))| {
        let (_, Clock { now, tolerance }, paper) = step.parts();
        let (outcome, paper) = (gave.outcome(), hex::write(&paper));
        format!("step {index}: {outcome}; now {now}, tolerance {tolerance}, {paper}\n")
    });
    lines.collect()
}
