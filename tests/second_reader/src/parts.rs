//! The judge of the basic response, part by part, from left to right.

mod entry;
mod extension;
mod free;

use self::entry::entry;
use self::extension::maybe_extensions;
use self::free::{algorithm, free};
use crate::element::{read_run, Element};
use crate::layout::{contents, rule, wrong_content, Holder};
use crate::misfit::{Kind, Misfit};
use crate::reading::{Basic, Entry, Extension, Reading, Responder, Span, Tree};
use crate::time;
use crate::words::*;

/// The basic response in the octets of its string, which begin at `base`.
pub fn basic(octets: &[u8], base: usize) -> Result<Basic, Misfit> {
    let tree = read_run(octets, base);
    let mut string = Holder::new(&tree, base + octets.len());
    let mut holder = Holder::of(string.need(0x30, BASIC)?);

    let signed_element = holder.need(0x30, BASIC)?;
    let signed = signed_part(signed_element)?;
    let algorithm_element = holder.need(0x30, BASIC)?;
    let signature_algorithm = algorithm(algorithm_element)?;
    let bits = holder.need(0x03, BASIC)?;
    rule(contents(bits).len() >= 2 && contents(bits)[0] == 0, bits, BASIC)?;
    let (certificates, place) = match holder.maybe(0xA0, BASIC)? {
        Some(outer) => certificates(outer).map(|(trees, place)| (Some(trees), place))?,
        None => (None, Span { from: 0, len: 0 }),
    };
    holder.filled(FILLED)?;
    string.filled(FILLED)?;

    Ok(Basic {
        reading: Reading {
            version_written: signed.version_written,
            responder: signed.responder,
            produced_at: signed.produced_at,
            entries: signed.entries,
            extensions: signed.extensions,
            signature_algorithm,
            signature: contents(bits)[1..].to_vec(),
            certificates,
        },
        signed_part: span(signed_element),
        responder: signed.responder_span,
        algorithm: span(algorithm_element),
        signature: Span { from: bits.start + 1, len: bits.end - bits.start - 1 },
        certificates: place,
        entries: signed.spans,
    })
}

/// An element's octets, header included.
fn span(element: &Element) -> Span {
    Span { from: element.place, len: element.end - element.place }
}

struct SignedPart {
    version_written: bool,
    responder: Responder,
    responder_span: Span,
    produced_at: u64,
    entries: Vec<Entry>,
    spans: Vec<Span>,
    extensions: Option<Vec<Extension>>,
}

fn signed_part(element: &Element) -> Result<SignedPart, Misfit> {
    let mut holder = Holder::of(element);
    let version_written = match holder.maybe(0xA0, VERSION)? {
        Some(outer) => version(outer).map(|()| true)?,
        None => false,
    };
    let responder_element = holder.any(RESPONDER)?;
    let responder = responder(responder_element)?;
    let responder_span = span(responder_element);
    let produced_at = time_of(holder.need(0x18, SIGNED)?)?;
    let list = holder.need(0x30, SIGNED)?;
    let mut entries = Vec::new();
    let mut spans = Vec::new();
    for_each(list, 64, SIGNED, |holder| {
        let element = holder.need(0x30, ENTRY)?;
        entries.push(entry(element)?);
        spans.push(span(element));
        Ok(())
    })?;
    let extensions = maybe_extensions(&mut holder)?;
    holder.filled(FILLED)?;
    Ok(SignedPart {
        version_written,
        responder,
        responder_span,
        produced_at,
        entries,
        spans,
        extensions,
    })
}

/// A written version.  "A written version is exactly A0 03 02 01 00, before the
/// responder id."  "Any other version gives 3, placed at the INTEGER's tag."
fn version(outer: &Element) -> Result<(), Misfit> {
    let mut holder = Holder::of(outer);
    let number = holder.need(0x02, VERSION)?;
    rule(contents(number) == [0], number, VERSION)?;
    holder.filled(FILLED)
}

/// Goes through a list.  "An item beyond a limit of number ... is placed at
/// its first octet, whatever that octet is."
fn for_each<'t>(
    list: &'t Element,
    most: usize,
    why: &'static str,
    mut judge: impl FnMut(&mut Holder<'t>) -> Result<(), Misfit>,
) -> Result<(), Misfit> {
    let mut holder = Holder::of(list);
    let mut count = 0;
    while !holder.is_empty() {
        if count == most {
            return Err(Misfit::new(Kind::Limit, holder.place(), why));
        }
        judge(&mut holder)?;
        count += 1;
    }
    Ok(())
}

fn responder(element: &Element) -> Result<Responder, Misfit> {
    match element.tag {
        0xA1 => {
            let mut holder = Holder::of(element);
            let name = free(holder.need(0x30, RESPONDER)?)?;
            holder.filled(FILLED)?;
            Ok(Responder::ByName(name))
        }
        0xA2 => {
            let mut holder = Holder::of(element);
            let key = holder.need(0x04, RESPONDER)?;
            rule(contents(key).len() == 20, key, RESPONDER)?;
            holder.filled(FILLED)?;
            Ok(Responder::ByKey(contents(key).to_vec()))
        }
        _ => Err(Misfit::new(Kind::WrongTag, element.place, RESPONDER)),
    }
}

fn time_of(element: &Element) -> Result<u64, Misfit> {
    time::read(contents(element)).ok_or(wrong_content(element, TIME))
}

/// The certificates, and the place of all of them together.
fn certificates(outer: &Element) -> Result<(Vec<Tree>, Span), Misfit> {
    let mut holder = Holder::of(outer);
    let list = holder.need(0x30, BASIC)?;
    let mut trees = Vec::new();
    let mut places = Vec::new();
    for_each(list, 8, BASIC, |items| {
        let certificate = items.need(0x30, BASIC)?;
        trees.push(free(certificate)?);
        places.push(span(certificate));
        Ok(())
    })?;
    holder.filled(FILLED)?;
    let place = Span {
        from: places.first().map_or(0, |first| first.from),
        len: places.iter().map(|place| place.len).sum(),
    };
    Ok((trees, place))
}
