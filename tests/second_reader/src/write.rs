//! The DER form of a reading.  01: "Its DER form is its fields in the layout's
//! order under the tags and lengths above; inside a tree nothing is sorted or
//! examined."  A version that is written is written here too.  02, C-12: "its
//! DER form now being DER but for this one field".

use crate::oid;
use crate::piece::Piece;
use crate::reading::{Algorithm, CertId, Entry, Extension, Reading, Responder, Status, Tree};
use crate::time;

/// A whole response of the basic type.
pub fn response(reading: &Reading) -> Piece {
    envelope(&oid::BASIC, vec![basic(reading)])
}

/// A response of any type with the given pieces in its string.
pub fn envelope(kind: &[u8], inner: Vec<Piece>) -> Piece {
    let bytes = Piece::holds(0x30, vec![Piece::plain(0x06, kind), Piece::holds(0x04, inner)]);
    Piece::holds(0x30, vec![Piece::plain(0x0A, &[0]), Piece::holds(0xA0, vec![bytes])])
}

/// A response that is only a status.
pub fn error_response(status: u8) -> Piece {
    Piece::holds(0x30, vec![Piece::plain(0x0A, &[status])])
}

pub fn basic(reading: &Reading) -> Piece {
    let mut bits = vec![0];
    bits.extend(&reading.signature);
    let mut pieces = vec![
        signed_part(reading),
        algorithm(&reading.signature_algorithm),
        Piece::plain(0x03, &bits),
    ];
    if let Some(trees) = &reading.certificates {
        let list = Piece::holds(0x30, trees.iter().map(tree).collect());
        pieces.push(Piece::holds(0xA0, vec![list]));
    }
    Piece::holds(0x30, pieces)
}

pub fn signed_part(reading: &Reading) -> Piece {
    let mut pieces = Vec::new();
    pieces.extend(reading.version_written.then(version));
    pieces.extend([
        responder(&reading.responder),
        time_piece(reading.produced_at),
        Piece::holds(0x30, reading.entries.iter().map(entry).collect()),
    ]);
    pieces.extend(reading.extensions.as_deref().map(extensions));
    Piece::holds(0x30, pieces)
}

/// A0 03 02 01 00.
pub fn version() -> Piece {
    Piece::holds(0xA0, vec![Piece::plain(0x02, &[0])])
}

pub fn responder(responder: &Responder) -> Piece {
    match responder {
        Responder::ByName(name) => Piece::holds(0xA1, vec![tree(name)]),
        Responder::ByKey(key) => Piece::holds(0xA2, vec![Piece::plain(0x04, key)]),
    }
}

pub fn entry(entry: &Entry) -> Piece {
    let mut pieces = vec![cert_id(&entry.id), status(&entry.status), time_piece(entry.this_update)];
    pieces.extend(entry.next_update.map(|next| Piece::holds(0xA0, vec![time_piece(next)])));
    pieces.extend(entry.extensions.as_deref().map(extensions));
    Piece::holds(0x30, pieces)
}

pub fn cert_id(id: &CertId) -> Piece {
    Piece::holds(
        0x30,
        vec![
            algorithm(&id.algorithm),
            Piece::plain(0x04, &id.name_hash),
            Piece::plain(0x04, &id.key_hash),
            Piece::plain(0x02, &id.serial.content()),
        ],
    )
}

fn status(status: &Status) -> Piece {
    match status {
        Status::Good => Piece::plain(0x80, &[]),
        Status::Unknown => Piece::plain(0x82, &[]),
        Status::Revoked { time, reason } => {
            let mut pieces = vec![time_piece(*time)];
            pieces.extend(reason.map(|code| Piece::holds(0xA0, vec![Piece::plain(0x0A, &[code])])));
            Piece::holds(0xA1, pieces)
        }
    }
}

fn extensions(list: &[Extension]) -> Piece {
    let items = list.iter().map(|item| {
        let mut pieces = vec![Piece::plain(0x06, &item.oid)];
        // 01: "A written FALSE doesn't fit."
        if item.critical {
            pieces.push(Piece::plain(0x01, &[0xFF]));
        }
        pieces.push(Piece::plain(0x04, &item.value));
        Piece::holds(0x30, pieces)
    });
    Piece::holds(0xA1, vec![Piece::holds(0x30, items.collect())])
}

fn algorithm(algorithm: &Algorithm) -> Piece {
    let mut pieces = vec![Piece::plain(0x06, &algorithm.oid)];
    pieces.extend(algorithm.parameters.as_ref().map(tree));
    Piece::holds(0x30, pieces)
}

fn time_piece(seconds: u64) -> Piece {
    Piece::plain(0x18, &time::write(seconds))
}

pub fn tree(free: &Tree) -> Piece {
    match free {
        Tree::Primitive { tag, contents } => Piece::plain(*tag, contents),
        Tree::Run { tag, items } => Piece::holds(*tag, items.iter().map(tree).collect()),
    }
}
