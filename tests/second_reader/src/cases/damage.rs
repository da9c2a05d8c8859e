//! Damage to a response: in its pieces, where the rest still fits around it,
//! and in its octets.

use super::odd;
use super::paths;
use super::prng::Rng;
use crate::piece::{Length, Piece};
use crate::write;

/// Damages one piece.
pub fn pieces(rng: &mut Rng, root: &mut Piece) {
    match rng.below(22) {
        0 | 1 => length(rng, root),
        2 | 3 => tag(rng, root),
        4 | 5 => left_over(rng, root),
        6 => remove_or_repeat(rng, root),
        7 => swap(rng, root),
        8 => wrap(rng, root),
        9..=11 => version(rng, root),
        12 => mark(rng, root),
        13 => repeated_oid(rng, root),
        14 => cut_off(rng, root),
        15..=17 => time(rng, root),
        18 => broken_optional(rng, root),
        _ => contents(rng, root),
    }
}

/// A length in another form than the shortest, or a wrong one.
fn length(rng: &mut Rng, root: &mut Piece) {
    let path = paths::any(rng, root);
    let form = match rng.below(7) {
        0 => Length::InOctets(rng.between(1, 8)),
        1 => Length::InOctets(rng.between(3, 9)),
        2 => Length::Indefinite,
        3 => Length::OffBy(*rng.pick(&[1, -1])),
        4 => Length::OffBy(*rng.pick(&[2, -2, 3, 5, 127, 128, 256, 65_536, i64::MAX])),
        5 => {
            let first = *rng.pick(&[0x80, 0x81, 0x82, 0x84, 0x88, 0x89, 0x8A, 0xFF]);
            let count = rng.below(10);
            Length::Octets([vec![first], rng.octets(count)].concat())
        }
        _ => Length::Octets(vec![]),
    };
    match paths::at_mut(root, &path) {
        Piece::Plain { length, .. } | Piece::Holds { length, .. } => *length = form,
        Piece::Raw(_) => {}
    }
}

fn tag(rng: &mut Rng, root: &mut Piece) {
    let path = paths::any(rng, root);
    let usual = [
        0x30, 0x31, 0x04, 0x24, 0x02, 0x03, 0x06, 0x18, 0x17, 0xA0, 0xA1, 0xA2, 0xA3, 0x80, 0x81,
        0x82, 0x0A, 0x01, 0x05, 0x10,
    ];
    let (way, bit, random, picked) =
        (rng.below(5), 1 << rng.below(8), rng.octet(), *rng.pick(&usual));
    let refused = *rng.pick(&[0x00, 0x20, 0x1F, 0x3F, 0x5F, 0x7F, 0x9F, 0xBF, 0xDF, 0xFF]);
    match paths::at_mut(root, &path) {
        Piece::Plain { tag, .. } | Piece::Holds { tag, .. } => match way {
            0 => *tag ^= 0x20,
            1 => *tag ^= bit,
            2 => *tag = refused,
            3 => *tag = random,
            _ => *tag = picked,
        },
        Piece::Raw(_) => {}
    }
}

/// Octets left over in a holder, after or before what belongs there.
fn left_over(rng: &mut Rng, root: &mut Piece) {
    let count = rng.between(1, 5);
    let octets = match rng.below(7) {
        0 => vec![0x05, 0x00],
        1 => vec![0x00],
        2 => vec![0x00, 0x00],
        3 => vec![*rng.pick(&[0xA0, 0xA1, 0xA2, 0x30, 0x04, 0x1F])],
        4 => vec![*rng.pick(&[0xA0, 0xA1]), 0x00],
        5 => vec![*rng.pick(&[0x30, 0xA0, 0x04]), *rng.pick(&[0x80, 0x82, 0x89])],
        _ => rng.octets(count),
    };
    let mut holders = paths::matching(root, |piece| matches!(piece, Piece::Holds { .. }));
    let context =
        paths::matching(root, |piece| matches!(piece, Piece::Holds { tag: 0xA0..=0xA2, .. }));
    // The layout's own A0, A1 and A2 are few beside the sequences.
    if rng.once_in(3) && !context.is_empty() {
        holders = context;
    }
    if holders.is_empty() {
        return;
    }
    let path = rng.pick(&holders);
    let at_end = !rng.once_in(5);
    if let Piece::Holds { pieces, .. } = paths::at_mut(root, path) {
        let at = if at_end { pieces.len() } else { rng.below(pieces.len() + 1) };
        pieces.insert(at, Piece::Raw(octets));
    }
}

fn remove_or_repeat(rng: &mut Rng, root: &mut Piece) {
    let path = paths::any(rng, root);
    let repeat = rng.once_in(3);
    if let Some((pieces, index)) = paths::brothers(root, &path) {
        if repeat {
            let copy = pieces[index].clone();
            pieces.insert(index, copy);
        } else {
            pieces.remove(index);
        }
    }
}

fn swap(rng: &mut Rng, root: &mut Piece) {
    let path = paths::any(rng, root);
    if let Some((pieces, index)) = paths::brothers(root, &path) {
        let other = rng.below(pieces.len());
        pieces.swap(index, other);
    }
}

/// One holder more, or one less.
fn wrap(rng: &mut Rng, root: &mut Piece) {
    let path = paths::any(rng, root);
    let tag = *rng.pick(&[0x30, 0x31, 0xA0, 0xA1, 0xA2, 0x04]);
    let unwrap = rng.once_in(2);
    let piece = paths::at_mut(root, &path);
    let inner = piece.clone();
    *piece = match &inner {
        Piece::Holds { pieces, .. } if unwrap => Piece::Raw(crate::piece::joined(pieces)),
        _ => Piece::holds(tag, vec![inner]),
    };
}

/// The way to the signed part.
const SIGNED: [usize; 5] = [1, 0, 1, 0, 0];

/// Another version, one in another form, twice the right one, or the right one
/// in another place.
pub fn version(rng: &mut Rng, root: &mut Piece) {
    if !paths::all(root).contains(&SIGNED.to_vec()) {
        return;
    }
    let Piece::Holds { pieces, .. } = paths::at_mut(root, &SIGNED) else {
        return;
    };
    let right = write::version();
    pieces.retain(|piece| *piece != right);
    match rng.below(12) {
        0..=3 => pieces.insert(0, odd::version(rng)),
        4..=8 => pieces.insert(0, odd::version_form(rng)),
        9 => {
            pieces.splice(0..0, [right.clone(), right]);
        }
        // After the responder id, producedAt or the entries.
        _ => {
            let at = rng.between(1, 3).min(pieces.len());
            pieces.insert(at, right);
        }
    }
}

/// Whether a piece looks like an extension.
fn is_extension(piece: &Piece) -> bool {
    matches!(
        paths::children(piece),
        [Piece::Plain { tag: 0x06, .. }, .., Piece::Plain { tag: 0x04, .. }]
    )
}

/// A written FALSE, or a TRUE in another form.
fn mark(rng: &mut Rng, root: &mut Piece) {
    let found = paths::matching(root, is_extension);
    if found.is_empty() {
        return contents(rng, root);
    }
    let path = rng.pick(&found).clone();
    let values: [&[u8]; 7] = [&[0], &[0], &[1], &[0xFE], &[], &[0xFF, 0xFF], &[0, 0]];
    let value = *rng.pick(&values);
    let mark = Piece::plain(0x01, value);
    if let Piece::Holds { pieces, .. } = paths::at_mut(root, &path) {
        if pieces.len() == 3 {
            pieces.remove(1);
        }
        pieces.insert(1, mark);
    }
}

/// An extension once more, sometimes with something broken to the right of
/// its OID.
fn repeated_oid(rng: &mut Rng, root: &mut Piece) {
    let found = paths::matching(root, is_extension);
    if found.is_empty() {
        return contents(rng, root);
    }
    let path = rng.pick(&found).clone();
    let way = rng.below(4);
    let junk = rng.octets(3);
    let (pieces, index) = paths::brothers(root, &path).expect("an extension is held");
    let mut copy = pieces[index].clone();
    if let Piece::Holds { pieces, .. } = &mut copy {
        match way {
            0 => {}
            1 => *pieces.last_mut().unwrap() = Piece::plain(0x04, &junk),
            2 => *pieces.last_mut().unwrap() = Piece::Raw(junk),
            _ => pieces.push(Piece::Raw(junk)),
        }
    }
    let at = rng.between(index + 1, pieces.len());
    pieces.insert(at, copy);
}

/// An optional element of which only the tag octet is as it should be, in
/// place of the one that is there and all that follows it.
fn broken_optional(rng: &mut Rng, root: &mut Piece) {
    let known = paths::all(root);
    let signed = SIGNED.to_vec();
    if !known.contains(&signed) {
        return;
    }
    // One piece more where the version is written.
    let first = paths::children(paths::at(root, &signed)).first();
    let version = usize::from(first == Some(&write::version()));
    let list = [&signed[..], &[2 + version]].concat();
    if !known.contains(&list) {
        return;
    }
    let basic = SIGNED[..4].to_vec();
    let mut places = vec![(basic, 3, 0xA0), (signed.clone(), 0, 0xA0), (signed, 3 + version, 0xA1)];
    for index in 0..paths::children(paths::at(root, &list)).len() {
        let entry = [&list[..], &[index]].concat();
        places.push((entry.clone(), 3, 0xA0));
        places.push((entry.clone(), 3, 0xA1));
        places.push((entry.clone(), 4, 0xA1));
        // The reason, where the entry is revoked.
        places.push(([&entry[..], &[1]].concat(), 1, 0xA0));
    }
    let marks = paths::matching(root, is_extension).into_iter().map(|path| (path, 1, 0x01));
    places.extend(marks);
    let (path, keep, tag) = rng.pick(&places).clone();
    let rest = rng.pick(&odd::AFTER_A_TAG).to_vec();
    if !known.contains(&path) {
        return;
    }
    if let Piece::Holds { pieces, .. } = paths::at_mut(root, &path) {
        pieces.truncate(keep);
        pieces.push(Piece::Raw([vec![tag], rest].concat()));
    }
}

/// Only the first octets of a piece are left; its holders shrink with it.
fn cut_off(rng: &mut Rng, root: &mut Piece) {
    let path = paths::any(rng, root);
    let keep = rng.below(6);
    let piece = paths::at_mut(root, &path);
    let mut octets = piece.octets();
    octets.truncate(keep);
    *piece = Piece::Raw(octets);
}

/// A time of any kind, real or not.
fn time(rng: &mut Rng, root: &mut Piece) {
    let times = paths::matching(root, |piece| matches!(piece, Piece::Plain { tag: 0x18, .. }));
    if times.is_empty() {
        return;
    }
    let path = rng.pick(&times).clone();
    let text = odd::time_text(rng);
    if let Piece::Plain { contents, .. } = paths::at_mut(root, &path) {
        *contents = text;
    }
}

/// Contents that break a rule, or other contents of any kind.
fn contents(rng: &mut Rng, root: &mut Piece) {
    let plain = paths::matching(root, |piece| matches!(piece, Piece::Plain { .. }));
    if plain.is_empty() {
        return;
    }
    // Strings are many; the others are looked for by their tags.
    let tag = *rng.pick(&[0x18, 0x18, 0x18, 0x02, 0x06, 0x0A, 0x03, 0x04, 0x80, 0x82, 0x01, 0x05]);
    let with_tag: Vec<_> = plain
        .iter()
        .filter(|path| matches!(paths::at(root, path), Piece::Plain { tag: t, .. } if *t == tag))
        .collect();
    let path = if with_tag.is_empty() { rng.pick(&plain) } else { *rng.pick(&with_tag) };
    if let Piece::Plain { tag, contents, .. } = paths::at_mut(root, path) {
        if rng.once_in(3) {
            octets(rng, contents);
        } else {
            *contents = odd::contents(rng, *tag);
        }
    }
}

/// Damages octets where they stand.
pub fn octets(rng: &mut Rng, octets: &mut Vec<u8>) {
    let count = rng.between(1, 3);
    for _ in 0..count {
        let at = rng.below(octets.len() + 1);
        let whole = at == octets.len();
        match rng.below(8) {
            0..=2 if !whole => octets[at] ^= 1 << rng.below(8),
            3 if !whole => octets[at] = rng.octet(),
            4 if !whole => octets[at] = *rng.pick(&[0x00, 0xFF, 0x80, 0x81, 0x30, 0x1F, 0x7F]),
            5 if !whole => {
                octets.remove(at);
            }
            6 => octets.insert(at, rng.octet()),
            _ if rng.once_in(8) => octets.truncate(at),
            _ => octets.insert(at, *rng.pick(&[0x00, 0x05, 0x30, 0xFF])),
        }
    }
}
