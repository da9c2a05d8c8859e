//! The limits of a reading.  01: "A reading is within the limits by its own
//! fields alone (tags, ranges, counts, depth, the OID rule, no OID twice),
//! never because some octets read as it."

use crate::element::{is_constructed, tag_is_allowed};
use crate::oid;
use crate::reading::{Algorithm, Entry, Extension, Reading, Responder, Status, Tree};
use crate::serial;
use crate::time;

pub fn within(reading: &Reading) -> bool {
    let responder = match &reading.responder {
        Responder::ByName(name) => sequence(name),
        Responder::ByKey(key) => key.len() == 20,
    };
    let certificates = match &reading.certificates {
        Some(trees) => trees.len() <= 8 && trees.iter().all(sequence),
        None => true,
    };
    responder
        && reading.produced_at <= time::LAST
        && reading.entries.len() <= 64
        && reading.entries.iter().all(entry)
        && extensions(&reading.extensions)
        && algorithm(&reading.signature_algorithm)
        && !reading.signature.is_empty()
        && certificates
}

fn entry(entry: &Entry) -> bool {
    let status = match &entry.status {
        Status::Good | Status::Unknown => true,
        Status::Revoked { time, reason } => {
            *time <= time::LAST && reason.is_none_or(|code| code <= 10 && code != 7)
        }
    };
    status
        && algorithm(&entry.id.algorithm)
        && (1..=64).contains(&entry.id.name_hash.len())
        && (1..=64).contains(&entry.id.key_hash.len())
        && serial::keeps_rule(&entry.id.serial.content())
        && entry.this_update <= time::LAST
        && entry.next_update.is_none_or(|next| next <= time::LAST)
        && extensions(&entry.extensions)
}

fn extensions(list: &Option<Vec<Extension>>) -> bool {
    let Some(list) = list else {
        return true;
    };
    let mut oids: Vec<&[u8]> = list.iter().map(|item| item.oid.as_slice()).collect();
    oids.sort();
    oids.dedup();
    (1..=16).contains(&list.len())
        && oids.len() == list.len()
        && oids.iter().all(|content| oid::keeps_rule(content))
}

fn algorithm(algorithm: &Algorithm) -> bool {
    oid::keeps_rule(&algorithm.oid) && algorithm.parameters.as_ref().is_none_or(free)
}

/// A Name or a certificate: a free element with tag 30.
fn sequence(tree: &Tree) -> bool {
    tree.tag() == 0x30 && free(tree)
}

fn free(tree: &Tree) -> bool {
    tree.depth() <= 16 && tags(tree)
}

/// 01: "a tag's constructed bit is set exactly where the element holds a run".
fn tags(tree: &Tree) -> bool {
    match tree {
        Tree::Primitive { tag, .. } => tag_is_allowed(*tag) && !is_constructed(*tag),
        Tree::Run { tag, items } => {
            tag_is_allowed(*tag) && is_constructed(*tag) && items.iter().all(tags)
        }
    }
}
