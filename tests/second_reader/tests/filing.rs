//! Filing and asking: the settled readings 5 to 8 of C-11, cards that are alike,
//! and the cache beside the check.  (1 to 4: cache.rs.)

mod common;
use common::room::*;
use common::*;
use second_reader::cache::Slip;
use second_reader::cases::prng::Rng;
use second_reader::cases::scene;
use second_reader::check::{check, Answer};
use second_reader::filing::{ask, file, Filed, Way};
use second_reader::write;

#[test]
fn reading_5_an_older_slip_is_accepted_and_not_written() {
    let kept = Ok(Filed { count: 64, way: Way::OlderKept });
    for now in [0, M1, NEXT, NEXT + 1, LAST] {
        for kind in [1, 2, 3] {
            let older = slip(kind, &numbered(5), M1 - 1, LAST);
            leaves(&mut full(), &older, at(now, 0), kept);
        }
    }
}

#[test]
fn reading_5_stale_and_future_slips_are_filed() {
    let clock = at(NEXT, 0);
    let mut room = vec![0; 5_568];
    let stale = slip(1, &numbered(1), M1, NEXT - 1);
    puts(&mut room, &stale, clock, 0, 1, Way::EmptyTaken);
    assert_eq!(asked(&room, &numbered(1), clock), Err(16));
    // Its place is the first one for a new card at that same time.
    let future = slip(2, &numbered(2), NEXT + 1, NEXT + 2);
    puts(&mut room, &future, clock, 0, 1, Way::StaleTaken);
    assert_eq!(asked(&room, &numbered(1), clock), Ok(None));
    assert_eq!(asked(&room, &numbered(2), clock), Err(15));
    // The future one stays before what counts now.
    let now = slip(1, &numbered(2), NEXT, NEXT + 9);
    leaves(&mut room, &now, clock, Ok(Filed { count: 1, way: Way::OlderKept }));
    let later = slip(3, &numbered(2), NEXT + 5, NEXT + 5);
    puts(&mut room, &later, clock, 0, 1, Way::LaterPut);
}

#[test]
fn reading_6_the_lowest_place_that_is_empty_or_stale() {
    let new = slip(3, &card_of(&[9]), M1, NEXT);
    let short = |place: usize| (place, slip(1, &numbered(place), M1, M1 + 10));
    let long = |place: usize| (place, slip(1, &numbered(place), M1, NEXT));
    let late = at(M1 + 11, 0);
    // A stale one before a later empty one, and the other way round.
    let mut room = cache(&[long(0), short(1), long(3)]);
    puts(&mut room, &new, late, 1, 3, Way::StaleTaken);
    let mut room = cache(&[long(0), short(2), long(3)]);
    puts(&mut room, &new, late, 1, 4, Way::EmptyTaken);
    // At the very second of nextUpdate plus tolerance it is not stale.
    let mut room = cache(&[long(0), short(1), long(3)]);
    puts(&mut room, &new, at(M1 + 10, 0), 2, 4, Way::EmptyTaken);
    for tolerance in [0, 1, 3_600] {
        let mut room = full();
        leaves(&mut room, &new, at(NEXT + tolerance, tolerance), Err(20));
        puts(&mut room, &new, at(NEXT + tolerance + 1, tolerance), 0, 64, Way::StaleTaken);
    }
    // The last place of all, stale or empty.
    let all_but =
        |last: Vec<(usize, Vec<u8>)>| cache(&(0..63).map(long).chain(last).collect::<Vec<_>>());
    puts(&mut all_but(vec![short(63)]), &new, late, 63, 64, Way::StaleTaken);
    puts(&mut all_but(vec![]), &new, late, 63, 64, Way::EmptyTaken);
    // What begins in the future is not stale, however short it is.
    let future = (63, slip(1, &numbered(63), NEXT, NEXT));
    leaves(&mut all_but(vec![future]), &new, late, Err(20));
}

#[test]
fn reading_6_the_cards_own_place_comes_first() {
    // Its card stands behind an empty place, a stale one, and is stale itself.
    let own = slip(1, &numbered(1), M1, NEXT);
    let mut room = cache(&[(1, slip(1, &numbered(2), 0, 1)), (40, own)]);
    let newer = slip(1, &numbered(1), NEXT, LAST);
    puts(&mut room, &newer, at(LAST, 0), 40, 2, Way::LaterPut);
}

#[test]
fn reading_6_asking_frees_nothing() {
    let room = full();
    assert_eq!(asked(&room, &numbered(5), at(LAST, 0)), Err(16));
    assert_eq!(asked(&room, &numbered(5), at(M1, 0)), good_for(&numbered(5)));
}

#[test]
fn reading_7_a_tie_puts_the_new_slip() {
    // The tail of a revoked slip goes, and comes; nextUpdate may be earlier.
    let mut room =
        cache(&[(62, slip(2, &numbered(62), M1, NEXT)), (63, slip(1, &numbered(63), M1, NEXT))]);
    puts(&mut room, &slip(1, &numbered(62), M1, M1), at(M1, 0), 62, 2, Way::TiePut);
    puts(&mut room, &slip(2, &numbered(63), M1, LAST), at(M1, 0), 63, 2, Way::TiePut);
    puts(&mut room, &slip(3, &numbered(63), M1, NEXT), at(LAST, 0), 63, 2, Way::TiePut);
    // A second later, and a second earlier.
    puts(&mut room, &slip(2, &numbered(63), M1 + 1, NEXT), at(M1, 0), 63, 2, Way::LaterPut);
    let kept = Ok(Filed { count: 2, way: Way::OlderKept });
    leaves(&mut room, &slip(1, &numbered(63), M1, LAST), at(M1, 0), kept);
}

#[test]
fn reading_8_the_count() {
    let mut room = vec![0; 5_568];
    for place in 0..64 {
        let new = slip(1, &numbered(place), M1, NEXT);
        puts(&mut room, &new, at(M1, 0), place, place + 1, Way::EmptyTaken);
    }
    assert_eq!(room, full());
    leaves(&mut room, &slip(1, &card_of(&[9]), M1, NEXT), at(NEXT, 0), Err(20));
    // Stale slips count as well; a gap in the middle does not.
    let mut gaps = cache(&[(3, slip(1, &numbered(3), 0, 0)), (63, slip(1, &numbered(9), 0, 0))]);
    let older = Ok(Filed { count: 2, way: Way::TiePut });
    leaves(&mut gaps, &slip(1, &numbered(3), 0, 0), at(LAST, 0), older);
    puts(&mut gaps, &slip(1, &numbered(4), M1, NEXT), at(LAST, 0), 0, 3, Way::EmptyTaken);
}

#[test]
fn one_serial_under_two_issuers() {
    let (mut name, mut key) = (numbered(1), numbered(1));
    name[19] ^= 1;
    key[39] ^= 1;
    let mut room = cache(&[(0, slip(1, &numbered(1), M1, NEXT))]);
    for (place, other) in [(1, &name), (2, &key)] {
        assert_eq!(asked(&room, other, at(M1, 0)), Ok(None));
        puts(&mut room, &slip(2, other, M1, NEXT), at(M1, 0), place, place + 1, Way::EmptyTaken);
        let revoked = asked(&room, other, at(M1, 0));
        assert!(matches!(revoked, Ok(Some(Answer::Revoked { .. }))));
    }
    assert_eq!(asked(&room, &numbered(1), at(M1, 0)), good_for(&numbered(1)));
}

/// 02: "where a check's answer was filed, what the check would give on that
/// response with the same facts at that time and tolerance".
#[test]
fn asking_gives_what_the_check_would_give() {
    let mut room = vec![0; 5_568];
    let mut refusals = [0; 17];
    for index in 0..600 {
        let mut scene = scene::accepted(&mut Rng::for_case(11, index));
        let response = write::response(&scene.reading).octets();
        let slip = second_reader::slip::octets(&check(&scene.question, &response)).unwrap();
        let Slip { this_update, next_update, .. } = Slip::read(&slip).expect("it is accepted");
        let filed = file(&mut room, &slip, scene.question.clock());
        if filed == Err(20) {
            room = vec![0; 5_568];
        }
        // The same response may come twice, and another for the same card.
        if !filed.is_ok_and(|filed| filed.way != Way::OlderKept) {
            continue;
        }
        for tolerance in [0, 1, 3_600, 3_601] {
            let end = next_update + tolerance;
            for now in [0, this_update.saturating_sub(1), this_update, end, end + 1, LAST, LAST + 1]
            {
                (scene.question.now, scene.question.tolerance) = (now, tolerance);
                let asked = ask(&room, &scene.question.card, at(now, tolerance));
                let wanted = match check(&scene.question, &response) {
                    Answer::Refused { number, .. } => {
                        refusals[usize::from(number)] += 1;
                        Err(number)
                    }
                    answer => Ok(Some(answer)),
                };
                assert_eq!(asked, wanted, "case {index}");
            }
        }
    }
    assert!([1, 15, 16].iter().all(|number| refusals[*number] > 100), "{refusals:?}");
}
