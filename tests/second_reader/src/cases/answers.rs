//! What this reader answers to a record: one line of text for each.

use super::record::*;
use super::run;
use crate::desk;
use crate::hex;
use crate::misfit::{Misfit, Refusal};
use crate::question::{Card, CARD};
use crate::reading::Span;
use crate::request::write_request;
use crate::shown::{algorithm, certificates, responder_id, signature, signed_part, Step, Walk};
use crate::slip::{read_slip, write_slip};

/// The answer's line, without its line feed.
pub fn line(record: &Record) -> Result<String, String> {
    let body = record.body.as_slice();
    let text = match (record.operation, body.len()) {
        (DESK, _) => desk::line(body).trim_end().to_string(),
        (SIGNED_PART, _) => span_line(signed_part(body)),
        (SIGNATURE, _) => span_line(signature(body)),
        (WALK, 8..) => {
            let place = u64::from_be_bytes(body[..8].try_into().unwrap());
            let mut walk = Walk { response: body[8..].to_vec(), place };
            match walk.step() {
                Step::Entry(span) => span_line(Ok(span)),
                Step::End => "end".to_string(),
                Step::Refused(refusal) => span_line(Err(refusal)),
            }
        }
        (REQUEST, 62) => {
            let card = Card::from_octets(&body[..CARD]);
            written(body[CARD], |buffer| write_request(&card, buffer))
        }
        (SLIP_READER, _) => match read_slip(body) {
            Ok(answer) => hex::write(&encode_answer(&answer)),
            Err(number) => format!("r{number}"),
        },
        (SLIP_WRITER, 90) => match decode_answer(&body[..ANSWER]) {
            Some(answer) => written(body[ANSWER], |buffer| write_slip(&answer, buffer)),
            // No answer at all cannot be written as a slip.
            None => "r17".to_string(),
        },
        (RUN, _) => run::line(body),
        (RESPONDER_ID, _) => placed_line(responder_id(body)),
        (PLACE, _) => place_line(record),
        (operation, length) => {
            return Err(format!("no record has operation {operation} and {length} octets"));
        }
    };
    Ok(text)
}

fn span_line(shown: Result<Span, Refusal>) -> String {
    match shown {
        Ok(Span { from, len }) => format!("0 {from} {len}"),
        Err(refusal) => format!("{} {}", refusal.number, refusal.status),
    }
}

/// The same, but that refusal 3 goes with the place of the misfit.
fn placed_line(shown: Result<Span, Refusal>) -> String {
    match shown {
        Err(Refusal { misfit: Some(misfit), .. }) => format!("3 {}", misfit.place),
        _ => span_line(shown),
    }
}

/// Lends a buffer of this size; also looks that only what was written changed.
fn written(size: u8, write: impl FnOnce(&mut [u8]) -> Result<usize, u8>) -> String {
    let mut buffer = vec![0xA5; usize::from(size)];
    match write(&mut buffer) {
        Ok(n) => {
            assert!(buffer[n..].iter().all(|octet| *octet == 0xA5));
            hex::write(&buffer[..n])
        }
        Err(number) => {
            assert!(buffer.iter().all(|octet| *octet == 0xA5));
            format!("r{number}")
        }
    }
}

/// What does not fit, for a record with a desk's input whose answer is refusal
/// 3.
pub fn misfit(record: &Record) -> Option<Misfit> {
    match record.operation {
        DESK | PLACE => desk::misfit(&record.body),
        _ => None,
    }
}

/// The place of what does not fit.
pub fn place_line(record: &Record) -> String {
    misfit(record).map_or("-".to_string(), |misfit| misfit.place.to_string())
}

/// What is wrong at that place.
pub fn kind_line(record: &Record) -> String {
    misfit(record).map_or("-".to_string(), |misfit| misfit.kind.words().to_string())
}

/// What is shown of a desk record's response, each as its own operation says
/// it: the signed part, the algorithm, the signature, the certificates.
pub fn parts_line(record: &Record) -> String {
    if record.operation != DESK {
        return "-".to_string();
    }
    let response = desk::response_in(&record.body);
    [signed_part, algorithm, signature, certificates]
        .map(|show| span_line(show(response)))
        .join(", ")
}
