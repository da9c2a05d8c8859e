//! Pairs for C-23: two responses under one question, of which the second is the
//! first with what is not signed changed; and controls, which are not so in one
//! way.

use super::aim::at_each;
use super::controls;
use super::edges;
use super::faults;
use super::generate::more_faults;
use super::prng::Rng;
use super::published::{near_misses, Published};
use super::record::{half, Record};
use super::scene::{self, Scene};
use super::unsigned;
use crate::layout;
use crate::write;

type Pair = [[Record; 2]; 2];

/// The four records of the pair of this number; those of even numbers are about
/// published responses.  It depends on the responses, the seed and the number
/// alone.
pub fn case(from: &[Published], seed: u64, index: u64) -> Vec<Record> {
    let rng = &mut Rng::for_case(seed, index);
    let mut pair = match index % 2 {
        0 => published(rng, from),
        _ => {
            let scene = made(rng, from);
            pair(rng, from, scene)
        }
    };
    if rng.once_in(4) {
        pair.reverse();
    }
    pair.concat()
}

/// A published response, and beside it the same one changed.  One that is not read
/// as basic is a control: another published response stands beside it.
fn published(rng: &mut Rng, from: &[Published]) -> Pair {
    let octets = &rng.pick(from).octets;
    let aims = at_each(octets);
    let target = if rng.once_in(2) { 0 } else { rng.below(aims.len()) };
    let mut questions = near_misses(&aims[target]);
    // The question itself comes more often than each of those near it.
    questions.extend(vec![aims[target].question.clone(); 6]);
    let question = rng.pick(&questions).clone();
    match layout::read(octets) {
        Ok(basic) => pair(rng, from, Scene { reading: basic.reading, question, target }),
        Err(_) => {
            let other = rng.pick(from).octets.clone();
            [half(&question, octets.clone()), half(&question, other)]
        }
    }
}

/// A made response that is read as basic, some of them at a limit, some with other
/// certificates; three in four are made for a refusal.
fn made(rng: &mut Rng, from: &[Published]) -> Scene {
    let accepted = scene::accepted(rng);
    let scene = read_with(&accepted, |scene| match rng.below(12) {
        0 | 1 => edges::size(rng, scene),
        2 => edges::put(rng, scene),
        3..=5 => unsigned::change(rng, from, &mut scene.reading),
        _ => {}
    });
    if rng.once_in(4) {
        return scene;
    }
    read_with(&scene, |scene| {
        let number = rng.between(6, 16) as u8;
        faults::put(rng, scene, number);
        more_faults(rng, scene, 8);
    })
}

/// The scene with a change after which it is still read as basic.
fn read_with(scene: &Scene, mut change: impl FnMut(&mut Scene)) -> Scene {
    loop {
        let mut changed = scene.clone();
        change(&mut changed);
        if layout::read(&response(&changed)).is_ok() {
            return changed;
        }
    }
}

/// Seven in ten keep C-23's premise.
fn pair(rng: &mut Rng, from: &[Published], mut first: Scene) -> Pair {
    let mut second = first.clone();
    match rng.below(100) {
        0..=69 => second = changed(rng, from, &first),
        70..=76 => second = read_with(&first, |scene| controls::signed_part(rng, scene)),
        77..=82 => {
            second = read_with(&first, |scene| controls::around_the_entries(rng, scene));
            second = maybe_changed(rng, from, second);
        }
        83..=88 => {
            second = maybe_changed(rng, from, second);
            controls::marks(rng, &mut first.question, &mut second.question);
        }
        89..=92 => controls::size(rng, &mut second.reading),
        _ => return unread(rng, &first),
    }
    [&first, &second].map(|scene| half(&scene.question, response(scene)))
}

/// What is not signed changed.
fn changed(rng: &mut Rng, from: &[Published], scene: &Scene) -> Scene {
    read_with(scene, |scene| unsigned::change(rng, from, &mut scene.reading))
}

/// The same, half of the time.
fn maybe_changed(rng: &mut Rng, from: &[Published], scene: Scene) -> Scene {
    if rng.once_in(2) {
        scene
    } else {
        changed(rng, from, &scene)
    }
}

/// One of them not read as basic; one time in three both.
fn unread(rng: &mut Rng, scene: &Scene) -> Pair {
    let first = if rng.once_in(3) { controls::unread(rng, scene) } else { response(scene) };
    let second = controls::unread(rng, scene);
    [first, second].map(|response| half(&scene.question, response))
}

fn response(scene: &Scene) -> Vec<u8> {
    write::response(&scene.reading).octets()
}
