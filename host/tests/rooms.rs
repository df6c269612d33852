//! Room by the model: the proved library asks for 8 × T numbers of work area, after every other row, and leaves just these zero.

use twolsken::{numerator, verdict, Fraction, Refusal, Verdict, WORK_AREA};
use twolsken_host::compare::{compare_every_room, compare_just_room, compare_room_last, compare_rooms};
use twolsken_host::inputs::model::{file_of, model_with};
use twolsken_host::inputs::Rng;
use twolsken_host::proved::Proved;
use twolsken_host::second::meaning::ENOUGH;

#[test]
fn work_areas_of_every_length() {
    let tally = compare_rooms(&Proved, 6_000, 161);
    println!("{tally}");
    tally.require_each(1_000, &[1, 2, 3, 4, 5, 6, 7, 8, 9, 10, 11, 15]);
    assert!(tally.answered >= 30_000 && tally.refused[1] >= 20_000, "{tally}");
}

#[test]
fn every_number_of_states_and_letters() {
    let tally = compare_every_room(&Proved, 162);
    println!("{tally}\n  {:?}", tally.reach);
    // Of three lengths one is refused.
    assert_eq!(tally.answered, 2 * tally.refused[1], "{tally}");
    assert!(tally.refused[1] >= 4_000 && tally.reach.between >= 1_000, "{tally}: {:?}", tally.reach);
    assert!(tally.reach.states.iter().all(|&count| count >= 50), "{:?}", tally.reach);
    assert!(tally.reach.letters[1..].iter().all(|&count| count >= 100), "{:?}", tally.reach);
}

#[test]
fn sentences_of_64_nodes_in_just_the_room() {
    let tally = compare_just_room(&Proved, 12, 163);
    println!("{tally}\n  {:?}", tally.reach);
    // Of two lengths one is refused.
    assert_eq!(tally.answered, tally.refused[1], "{tally}");
    assert_eq!(tally.reach.nodes_60, tally.holds + tally.fails, "{:?}", tally.reach);
    assert!(tally.holds >= 200 && tally.fails >= 200, "{tally}");
    assert!(tally.reach.tuples_1024 >= 60 && tally.reach.between >= 1_500, "{:?}", tally.reach);
}

#[test]
fn row_1_comes_after_every_other() {
    let tally = compare_room_last(&Proved, 164);
    println!("{tally}");
    assert!(tally.answered == 0 && tally.refused[1] == 0, "{tally}");
    assert!([2, 3, 4, 5, 6, 7, 8, 9, 10, 11, 15].iter().all(|&row| tally.refused[row] >= 100), "{tally}");
}

/// The request's five states need 40 numbers, and one state needs 8; the package's constant is enough for all.
#[test]
fn eight_numbers_for_each_tuple() {
    assert_eq!(WORK_AREA, ENOUGH);
    for (n, text, needs) in [
        (1, "A.GPXa1#1/2;", 8),
        (1, "EAEA.GPXa4#1/2;", 8),
        (5, "A.GPXa1#1/2;", 40),
        (5, "AE.GPXa2PXa1", 200),
        (32, "AE.GPXa2PXa1", WORK_AREA),
    ] {
        let mut model = model_with(&mut Rng::new(1), n, 1, 3);
        model.masks[..n as usize].fill(1);
        let (file, tuple) = (file_of(&model), vec![0; text.find('.').expect("a dot")]);
        let mut work = vec![9; needs];
        let refused = verdict(&file, text.as_bytes(), &mut work[..needs - 1]);
        assert_eq!(refused, Err(Refusal::WorkArea), "{text}");
        assert_eq!(work, vec![9; needs], "{text}");
        assert_eq!(verdict(&file, text.as_bytes(), &mut work), Ok(Verdict::Holds), "{text}");
        assert_eq!(work, vec![0; needs], "{text}");
        let given = numerator(&file, text.as_bytes(), &tuple, 0, &mut work);
        assert_eq!(given, Ok(Fraction { numerator: 3, denominator: 3 }), "{text}");
    }
}
