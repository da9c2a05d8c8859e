//! The request writer.  01, "Request and slip".

use crate::oid;
use crate::piece::Piece;
use crate::question::Card;
use crate::reading::{Algorithm, CertId, Tree};
use crate::write;

/// 01: "four sequences, each holding only the next, the fourth holding one
/// CertID, SHA-1 with 05 00, no extensions".
pub fn octets(card: &Card) -> Option<Vec<u8>> {
    let null = Tree::Primitive { tag: 0x05, contents: Vec::new() };
    let id = CertId {
        algorithm: Algorithm { oid: oid::SHA_1.to_vec(), parameters: Some(null) },
        name_hash: card.name_hash.to_vec(),
        key_hash: card.key_hash.to_vec(),
        serial: card.serial()?,
    };
    let mut piece = write::cert_id(&id);
    for _ in 0..4 {
        piece = Piece::holds(0x30, vec![piece]);
    }
    Some(piece.octets())
}

/// 01: "The request writer, given a card, gives 1 for its serial, then 18."
pub fn write_request(card: &Card, buffer: &mut [u8]) -> Result<usize, u8> {
    put(&octets(card).ok_or(1)?, buffer)
}

/// 01: "Otherwise the octets written are the first n, n is returned, and the
/// rest is unchanged."
pub fn put(octets: &[u8], buffer: &mut [u8]) -> Result<usize, u8> {
    let place = buffer.get_mut(..octets.len()).ok_or(18)?;
    place.copy_from_slice(octets);
    Ok(octets.len())
}
