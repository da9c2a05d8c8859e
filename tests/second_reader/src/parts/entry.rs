//! An entry: CertID, status, times and extensions.

use super::extension::maybe_extensions;
use super::free::algorithm;
use super::time_of;
use crate::element::Element;
use crate::layout::{contents, rule, wrong_content, Holder};
use crate::misfit::{Kind, Misfit};
use crate::reading::{CertId, Entry, Status};
use crate::serial::Serial;
use crate::words::*;

pub fn entry(element: &Element) -> Result<Entry, Misfit> {
    let mut holder = Holder::of(element);
    let id = cert_id(holder.need(0x30, ENTRY)?)?;
    let status = status(holder.any(ENTRY)?)?;
    let this_update = time_of(holder.need(0x18, ENTRY)?)?;
    let next_update = match holder.maybe(0xA0, ENTRY)? {
        Some(outer) => {
            let mut inner = Holder::of(outer);
            let seconds = time_of(inner.need(0x18, ENTRY)?)?;
            inner.filled(FILLED)?;
            Some(seconds)
        }
        None => None,
    };
    let extensions = maybe_extensions(&mut holder)?;
    holder.filled(FILLED)?;
    Ok(Entry { id, status, this_update, next_update, extensions })
}

fn cert_id(element: &Element) -> Result<CertId, Misfit> {
    let mut holder = Holder::of(element);
    let algorithm = algorithm(holder.need(0x30, CERT_ID)?)?;
    let mut hash = || {
        let string = holder.need(0x04, CERT_ID)?;
        rule((1..=64).contains(&contents(string).len()), string, CERT_ID)?;
        Ok(contents(string).to_vec())
    };
    let name_hash = hash()?;
    let key_hash = hash()?;
    let integer = holder.need(0x02, CERT_ID)?;
    let Some(serial) = Serial::from_content(contents(integer)) else {
        return Err(wrong_content(integer, CERT_ID));
    };
    holder.filled(FILLED)?;
    Ok(CertId { algorithm, name_hash, key_hash, serial })
}

fn status(element: &Element) -> Result<Status, Misfit> {
    match element.tag {
        0x80 | 0x82 => {
            rule(contents(element).is_empty(), element, STATUS)?;
            Ok(if element.tag == 0x80 { Status::Good } else { Status::Unknown })
        }
        0xA1 => {
            let mut holder = Holder::of(element);
            let time = time_of(holder.need(0x18, STATUS)?)?;
            let reason = match holder.maybe(0xA0, STATUS)? {
                Some(outer) => Some(reason(outer)?),
                None => None,
            };
            holder.filled(FILLED)?;
            Ok(Status::Revoked { time, reason })
        }
        _ => Err(Misfit::new(Kind::WrongTag, element.place, STATUS)),
    }
}

fn reason(outer: &Element) -> Result<u8, Misfit> {
    let mut holder = Holder::of(outer);
    let code = holder.need(0x0A, STATUS)?;
    let fits = matches!(contents(code), [value] if *value <= 10 && *value != 7);
    rule(fits, code, STATUS)?;
    holder.filled(FILLED)?;
    Ok(contents(code)[0])
}
