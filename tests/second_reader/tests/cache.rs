//! The room's cache: the settled readings 1 to 4 of C-11 (what a cache is, what
//! is out of range, and each refusal in its order).  (5 to 8: filing.rs.)

mod common;
use common::room::*;
use common::*;
use second_reader::filing::{Filed, Way};

#[test]
fn reading_1_the_length() {
    assert!(is_cache(&[0; 5_568]));
    for length in [0, 1, 86, 87, 88, 5_481, 5_567, 5_569, 5_655, 7_104, 11_136] {
        assert!(!is_cache(&vec![0; length]), "{length}");
    }
    let mut longer = full();
    longer.push(0);
    assert!(is_cache(&full()) && !is_cache(&longer) && !is_cache(&longer[..5_567]));
}

#[test]
fn reading_2_what_a_place_is() {
    for place in [0, 1, 31, 62, 63] {
        let with = |slip: &[u8]| is_cache(&cache(&[(place, slip.to_vec())]));
        for kind in [1, 2, 3] {
            let slip = slip(kind, &numbered(7), M1, NEXT);
            assert!(with(&slip));
            // Zeros after it, and nothing else.
            for behind in slip.len()..87 {
                let mut more = slip.clone();
                more.resize(behind, 0);
                more.push(1);
                assert!(!with(&more), "kind {kind}, octet {behind}");
            }
            // Other kinds, and a slip that is cut off before nextUpdate.
            for other in [0, 4, 5, 6, 7, 0x51, 0x81, 0xFF] {
                assert!(!with(&cat(&[&[other], &slip[1..]])));
            }
            assert!(!with(&slip[..70]));
            assert!(!with(&cat(&[&[0], &slip[..slip.len() - 1]])), "one octet later");
        }
        assert!(!with(&[4, 3, 0]), "a refusal");
        assert!(!with(&[4, 4, 6]));
        // A place with a single octet that is not zero.
        for octet in 0..87 {
            let mut place = [0; 87];
            place[octet] = 1;
            assert!(!with(&place), "octet {octet}");
        }
    }
}

#[test]
fn reading_2_the_slip_rules_hold_in_a_place() {
    let with = |slip: Vec<u8>| is_cache(&cache(&[(5, slip)]));
    assert!(with(slip(1, &card_of(&[0x00, 0x80]), 0, 0)));
    assert!(!with(slip(1, &card_of(&[0x00, 0x7F]), M1, NEXT)));
    assert!(!with(slip(1, &card_of(&[0x80]), M1, NEXT)));
    assert!(!with(slip(1, &card_of(&[]), M1, NEXT)));
    let mut filled = numbered(1);
    filled[60] = 1;
    assert!(!with(slip(1, &filled, M1, NEXT)));
    // Refusals 13 and 14 cannot come from a place: its slip keeps these rules.
    assert!(with(slip(3, &numbered(1), LAST, LAST)));
    assert!(!with(slip(3, &numbered(1), NEXT + 1, NEXT)));
    assert!(!with(slip(3, &numbered(1), M1, LAST + 1)));
    let mut revoked = slip(2, &numbered(1), M1, NEXT);
    revoked[86] = 7;
    assert!(!with(revoked));
}

#[test]
fn reading_2_no_card_twice() {
    let one = slip(1, &numbered(1), M1, NEXT);
    for (first, second) in [(0, 1), (0, 63), (62, 63), (31, 32), (7, 40)] {
        // The same slip, and another one for the same card.
        for kind in [1, 2, 3] {
            for this_update in [M1 - 1, M1] {
                let again = slip(kind, &numbered(1), this_update, NEXT);
                assert!(!is_cache(&cache(&[(first, one.clone()), (second, again)])));
            }
        }
        assert!(is_cache(&cache(&[
            (first, one.clone()),
            (second, slip(1, &numbered(2), M1, NEXT))
        ])));
    }
    // One octet is enough to be another card, whichever it is: of the name
    // hash, of the key hash, of the serial, and the serial's length.
    let card = card_of(&[1; 20]);
    for octet in (0..40).chain(41..61) {
        let mut other = card.clone();
        other[octet] ^= 2;
        let slips = [(3, slip(1, &card, M1, NEXT)), (60, slip(2, &other, M1, NEXT))];
        assert!(is_cache(&cache(&slips)), "octet {octet}");
    }
    let (short, long) = (card_of(&[5]), card_of(&[5, 0]));
    assert_eq!((0..61).filter(|octet| short[*octet] != long[*octet]).collect::<Vec<_>>(), [40]);
    assert!(is_cache(&cache(&[(0, slip(1, &short, M1, NEXT)), (1, slip(1, &long, M1, NEXT))])));
}

#[test]
fn reading_3_time_and_tolerance() {
    let mut cache = cache(&[(0, slip(1, &numbered(1), 0, LAST))]);
    for (clock, fits) in [
        (at(0, 0), true),
        (at(LAST, 3_600), true),
        (at(LAST + 1, 0), false),
        (at(u64::MAX, 0), false),
        (at(M1, 3_601), false),
        (at(M1, 65_536), false),
        (at(M1, 1 << 32), false),
        (at(M1, u64::MAX), false),
        (at(u64::MAX, u64::MAX), false),
    ] {
        let asked = asked(&cache, &numbered(1), clock);
        assert_eq!(asked.is_ok(), fits);
        assert_eq!(asked == Err(1), !fits);
        // An older slip is no older than 0: this one is a tie, and the same.
        let tie = Ok(Filed { count: 1, way: Way::TiePut });
        let result = if fits { tie } else { Err(1) };
        leaves(&mut cache, &slip(1, &numbered(1), 0, LAST), clock, result);
    }
}

#[test]
fn reading_3_serials() {
    let mut filled = numbered(1);
    filled[60] = 1;
    let mut long = numbered(1);
    long[40] = 21;
    for broken in [card_of(&[]), card_of(&[0x80]), card_of(&[0x00, 0x7F]), filled, long] {
        // In a slip it is 17, in a card that is asked for it is 1.
        leaves(&mut full(), &slip(1, &broken, M1, NEXT), at(M1, 0), Err(17));
        assert_eq!(asked(&full(), &broken, at(M1, 0)), Err(1));
        assert_eq!(asked(&[0; 5_568], &broken, at(M1, 0)), Err(1));
    }
    assert_eq!(asked(&full(), &card_of(&[0x00, 0x80]), at(M1, 0)), Ok(None));
}

/// Each of the four faults, alone and with all that come after it.
#[test]
fn reading_4_the_order_in_filing() {
    let mut no_cache = full();
    no_cache[5_567] = 1;
    let (clock, late) = (at(M1, 0), at(M1, 3_601));
    let (known, new) = (slip(1, &numbered(5), M1, NEXT), slip(1, &card_of(&[9]), M1, NEXT));
    let longer = cat(&[&new, &[0; 9]]);
    for (clock, paper) in [(clock, &known), (late, &known), (clock, &longer), (late, &longer)] {
        leaves(&mut no_cache, paper, clock, Err(19));
    }
    for paper in [&known, &new, &longer] {
        leaves(&mut full(), paper, late, Err(1));
        leaves(&mut full(), paper, at(LAST + 1, 0), Err(1));
    }
    // 17 comes before 20, and also where there is room.
    for paper in [longer.clone(), vec![], vec![4, 3, 0], vec![4, 4, 6], vec![4, 17, 0], vec![0; 87]]
    {
        leaves(&mut full(), &paper, clock, Err(17));
        leaves(&mut [0; 5_568], &paper, clock, Err(17));
    }
    leaves(&mut full(), &new, clock, Err(20));
    leaves(&mut full(), &known, clock, Ok(Filed { count: 64, way: Way::TiePut }));
}

#[test]
fn reading_4_the_order_in_asking() {
    let mut no_cache = full();
    no_cache[5_567] = 1;
    let broken = card_of(&[0x80]);
    for card in [&numbered(5), &card_of(&[9]), &broken] {
        assert_eq!(asked(&no_cache, card, at(M1, 0)), Err(19));
        assert_eq!(asked(&no_cache, card, at(M1, 3_601)), Err(19));
        assert_eq!(asked(&full(), card, at(M1, 3_601)), Err(1));
    }
    assert_eq!(asked(&full(), &broken, at(M1, 0)), Err(1));
    // A card that is not held has no times.
    for now in [0, M1 - 1, M1, NEXT, NEXT + 1, LAST] {
        assert_eq!(asked(&full(), &card_of(&[9]), at(now, 0)), Ok(None));
    }
    let card = numbered(5);
    assert_eq!(asked(&full(), &card, at(0, 3_600)), Err(15));
    assert_eq!(asked(&full(), &card, at(M1 - 1, 3_600)), Err(15));
    assert_eq!(asked(&full(), &card, at(M1, 0)), good_for(&card));
    assert_eq!(asked(&full(), &card, at(NEXT, 0)), good_for(&card));
    assert_eq!(asked(&full(), &card, at(NEXT + 1, 0)), Err(16));
    assert_eq!(asked(&full(), &card, at(NEXT + 1, 1)), good_for(&card));
    assert_eq!(asked(&full(), &card, at(NEXT + 3_600, 3_600)), good_for(&card));
    assert_eq!(asked(&full(), &card, at(NEXT + 3_601, 3_600)), Err(16));
}
