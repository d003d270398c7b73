//! A smaller run, for every check.
use isis_gr_differential::{
    compare,
    coverage::Coverage,
    isolation::{self, Ran},
    proved::Proved,
    reference::Reference,
    side::Side,
    words,
};

#[test]
fn the_archive_answers_as_the_reference_and_every_branch_is_reached() {
    let mut all = Coverage::default();
    for seed in 1..=1_500 {
        all.add(&compare::run(seed, 400));
    }
    assert!(all.missing().is_empty(), "never reached: {:?}", all.missing());
}

fn bad_neighbour_harms_itself_on<S: Side + Clone>() {
    let (mut all, mut stood) = (Ran::default(), 0);
    for seed in 1..=500 {
        let ran = isolation::run::<S>(seed, 200);
        all = Ran { frames: all.frames + ran.frames, pieces: all.pieces + ran.pieces, shared: all.shared + ran.shared, ..all };
        stood += u64::from(ran.stands);
    }
    assert!(
        all.frames > 10_000 && all.pieces > 5_000 && all.shared > 5_000 && stood > 20,
        "{all:?}, {stood} runs whose LAN's promise stood"
    );
}

#[test]
fn a_bad_neighbour_harms_itself() {
    bad_neighbour_harms_itself_on::<Proved>();
}

#[test]
fn a_bad_neighbour_of_the_reference_harms_itself() {
    bad_neighbour_harms_itself_on::<Reference>();
}

#[test]
fn every_word_holds_what_the_header_says_of_it() {
    for seed in 1..=500 {
        words::run(seed, 400);
    }
}
