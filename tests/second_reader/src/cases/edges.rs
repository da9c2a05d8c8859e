//! Readings at and one past every limit of 01.

use super::faults::stretch;
use super::prng::Rng;
use super::random;
use super::scene::{self, near_miss, Scene};
use crate::reading::{Responder, Status, Tree};
use crate::serial::Serial;
use crate::write;

/// Sizes around which the form of a length changes, and the size limit.
const SIZES: [usize; 30] = [
    126, 127, 128, 129, 130, 131, 132, 133, 134, 253, 254, 255, 256, 257, 258, 259, 260, 261, 262,
    263, 16_382, 16_383, 16_384, 16_384, 16_384, 16_385, 16_385, 16_386, 16_387, 16_400,
];

/// Puts a scene at a limit, or just past it.
pub fn put(rng: &mut Rng, scene: &mut Scene) {
    match rng.below(13) {
        0 => entries(rng, scene),
        1 => certificates(rng, scene),
        2 => {
            let count = *rng.pick(&[0, 1, 15, 16, 16, 17, 18]);
            let list = random::extensions(rng, count, &scene::KNOWN_IN_RESPONSE);
            scene.reading.extensions = Some(list);
        }
        3 => {
            let count = *rng.pick(&[0, 1, 15, 16, 16, 17, 18]);
            scene.entry().extensions = Some(random::extensions(rng, count, &scene::KNOWN_IN_ENTRY));
        }
        4 => depth(rng, scene),
        5 => {
            let length = *rng.pick(&[0, 1, 19, 20, 21, 63, 64, 65, 66]);
            let mut other = near_miss(rng, &scene.entry().clone());
            if rng.once_in(2) {
                other.id.name_hash = rng.octets(length);
            } else {
                other.id.key_hash = rng.octets(length);
            }
            add(rng, scene, other);
        }
        6 => serial(rng, scene),
        7 => {
            let length = *rng.pick(&[0, 1, 19, 20, 20, 21, 32]);
            scene.reading.responder = Responder::ByKey(rng.octets(length));
        }
        8 => {
            let length = *rng.pick(&[0, 1, 2]);
            scene.reading.signature = rng.octets(length);
        }
        9 => {
            let reason = Some(*rng.pick(&[0, 6, 7, 7, 8, 10, 11, 127, 255]));
            scene.entry().status = Status::Revoked { time: random::moment(rng), reason };
        }
        10 => tags(rng, scene),
        _ => size(rng, scene),
    }
}

fn add(rng: &mut Rng, scene: &mut Scene, other: crate::reading::Entry) {
    let at = rng.below(scene.reading.entries.len() + 1);
    scene.reading.entries.insert(at, other);
    if at <= scene.target {
        scene.target += 1;
    }
}

/// 0, 1, 64 and 65 entries, the one for the card anywhere among them.
fn entries(rng: &mut Rng, scene: &mut Scene) {
    let entry = scene.entry().clone();
    let count = *rng.pick(&[0, 0, 1, 63, 64, 64, 64, 65, 65, 66]);
    scene.reading.entries = (0..count).map(|_| near_miss(rng, &entry)).collect();
    if count > 0 {
        scene.target = *rng.pick(&[0, count - 1, count / 2]);
        *scene.entry() = entry;
    }
}

fn certificates(rng: &mut Rng, scene: &mut Scene) {
    let count = *rng.pick(&[0, 1, 7, 8, 8, 9, 9, 10]);
    let mut list: Vec<Tree> = (0..count).map(|_| random::sequence(rng, 5, 60)).collect();
    if rng.once_in(6) && count > 0 {
        // A certificate whose tag is not 30.
        let at = rng.below(count);
        list[at] = random::tree(rng, 4, 30);
    }
    scene.reading.certificates = Some(list);
}

/// Elements one inside the other: `depth` of them, the innermost primitive, or
/// an empty run, or a sequence of octets that may be no element; with brothers
/// here and there.
pub fn nested(rng: &mut Rng, depth: usize) -> Tree {
    let inside: [&[u8]; 7] = [
        &[0x1F],
        &[0x00],
        &[0x04],
        &[0x04, 0x82],
        &[0x04, 0x80],
        &[0x05, 0x00, 0x30],
        &[0x05, 0x00],
    ];
    let mut tree = match rng.below(5) {
        0 | 1 => Tree::Primitive { tag: 0x04, contents: rng.octets(2) },
        2 | 3 => Tree::Run { tag: 0x30, items: vec![] },
        _ => Tree::Primitive { tag: 0x30, contents: rng.pick(&inside).to_vec() },
    };
    for _ in 1..depth {
        let mut items = vec![tree];
        if rng.once_in(8) {
            let at = rng.below(2);
            items.insert(at, random::null());
        }
        tree = Tree::Run { tag: 0x30, items };
    }
    tree
}

fn depth(rng: &mut Rng, scene: &mut Scene) {
    let depth = *rng.pick(&[15, 16, 16, 16, 17, 17, 17, 18, 40, 90]);
    let tree = nested(rng, depth);
    match rng.below(4) {
        0 => {
            let name = write::tree(&tree).octets();
            if name.len() <= 256 {
                scene.question.signer_name = name;
            }
            scene.reading.responder = Responder::ByName(tree);
        }
        1 => scene.reading.certificates = Some(vec![random::sequence(rng, 3, 20), tree]),
        2 => scene.reading.signature_algorithm.parameters = Some(tree),
        _ => scene.entry().id.algorithm.parameters = Some(tree),
    }
}

/// Serials of the longest kinds, in the entry and where it can be in the card.
fn serial(rng: &mut Rng, scene: &mut Scene) {
    let magnitude = match rng.below(6) {
        0 => vec![0x7F; 20],
        1 => vec![0x80; 19],
        2 => vec![0x80; 20],
        3 => vec![0x01; 21],
        4 => vec![0xFF; 19],
        _ => vec![0x01; 20],
    };
    let serial = Serial::from_magnitude(&magnitude);
    let content = serial.content();
    let card = &mut scene.question.card;
    if content.len() <= 20 {
        *card = crate::question::Card::new(card.name_hash, card.key_hash, &content);
    }
    scene.entry().id.serial = serial;
}

/// Tags that may not stand in a tree, or that say what is not so.
fn tags(rng: &mut Rng, scene: &mut Scene) {
    let odd = match rng.below(6) {
        0 => Tree::Primitive { tag: *rng.pick(&[0x00, 0x1F, 0x5F, 0x9F, 0xDF]), contents: vec![] },
        1 => Tree::Run { tag: *rng.pick(&[0x20, 0x3F, 0x7F, 0xBF, 0xFF]), items: vec![] },
        // A run under a primitive tag reads as contents, a primitive under a
        // constructed tag as a run, if it can.
        2 => Tree::Run { tag: 0x04, items: vec![random::null()] },
        3 => Tree::Primitive { tag: 0x24, contents: rng.octets(2) },
        4 => Tree::Primitive { tag: 0x1E, contents: vec![] },
        _ => Tree::Run { tag: 0x3E, items: vec![] },
    };
    let tree = Tree::Run { tag: 0x30, items: vec![random::null(), odd] };
    if rng.once_in(2) {
        scene.reading.certificates = Some(vec![tree]);
    } else {
        scene.reading.signature_algorithm.parameters = Some(tree);
    }
}

/// Whole responses of a size where a length changes its form.
pub fn size(rng: &mut Rng, scene: &mut Scene) {
    let octets = *rng.pick(&SIZES);
    if octets < 300 {
        // Small enough only without the rest.
        scene.reading.extensions = None;
        scene.reading.certificates = None;
        scene.reading.signature.truncate(1);
        scene.reading.signature_algorithm.parameters = None;
        scene.reading.signature_algorithm.oid.truncate(1);
        if octets < 200 {
            scene.reading.entries.clear();
        } else {
            let entry = scene.entry().clone();
            scene.reading.entries = vec![entry];
        }
        scene.target = 0;
    }
    stretch(scene, octets);
}
